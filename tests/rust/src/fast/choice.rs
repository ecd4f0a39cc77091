//! The choice of one route for a route-server client, and the comparison of two candidates.
use super::block::{Block, Segments};
use super::{drops_invalid, number, Answer};
use super::{BAD_CANDIDATE, BAD_SETTING, DONE, NO_ROUTE, TOO_LONG};
use super::{INVALID, PRIORITISE, UNAVAILABLE, VALID};
use super::{MAX_BLOCK, MAX_CANDIDATES};
use bgp_policy::Candidate;

/// The size of a candidate's record: start 4, length 4, state, identifier 4, address 4.
const RECORD: usize = 17;

/// What routes are compared by, the first field first; the lesser is the better.
#[derive(Clone, Copy, PartialEq, Eq, PartialOrd, Ord)]
struct Rank {
    path_length: usize,
    origin: u8,
    identifier: u32,
    address: u32,
}

/// A candidate that was read.
#[derive(Clone, Copy)]
struct Route {
    rank: Rank,
    state: u8,
    has_otc: bool,
}

impl Route {
    fn read(candidate: Candidate) -> Option<Self> {
        if candidate.block.len() > MAX_BLOCK || candidate.state > UNAVAILABLE {
            return None;
        }
        let block = Block::read(candidate.block).ok()?;
        let rank = Rank {
            path_length: path_length(block.as_path),
            origin: block.origin,
            identifier: candidate.identifier,
            address: candidate.address,
        };
        Some(Route {
            rank,
            state: candidate.state,
            has_otc: block.otc.is_some(),
        })
    }

    /// The class of a state in mode 3, the lesser the better.
    fn class(&self) -> u8 {
        match self.state {
            VALID => 0,
            INVALID => 2,
            _ => 1,
        }
    }
}

fn path_length(as_path: &[u8]) -> usize {
    Segments(as_path)
        .map(|segment| match segment.is_set {
            true => 1,
            false => segment.asns.len() / 4,
        })
        .sum()
}

/// The best route for a client: its index, and how many were left after removal.
pub fn choose(mode: u8, client: u32, buffer: &[u8], candidates: &[u8]) -> (u8, usize, usize) {
    if mode > PRIORITISE {
        return (BAD_SETTING, 0, 0);
    }
    if candidates.len() % RECORD != 0 || candidates.len() / RECORD > MAX_CANDIDATES {
        return (TOO_LONG, 0, 0);
    }
    let mut routes = [None; MAX_CANDIDATES];
    let records = candidates.chunks_exact(RECORD);
    for (index, (record, route)) in records.zip(&mut routes).enumerate() {
        let Some(read) = candidate(buffer, record).and_then(Route::read) else {
            return (BAD_CANDIDATE, index, 0);
        };
        let own = read.rank.address == client;
        let dropped = drops_invalid(mode) && read.state == INVALID;
        *route = (!read.has_otc && !own && !dropped).then_some(read);
    }
    if mode == PRIORITISE {
        keep_best_class(&mut routes);
    }
    let left = routes.iter().flatten().count();
    // The first of equal ranks is the least, so the lowest index wins a tie.
    let ranked = (0..)
        .zip(&routes)
        .filter_map(|(i, r)| Some((r.as_ref()?.rank, i)));
    match ranked.min() {
        Some((_, index)) => (DONE, index, left),
        None => (NO_ROUTE, 0, 0),
    }
}

fn keep_best_class(routes: &mut [Option<Route>]) {
    let best = routes.iter().flatten().map(Route::class).min();
    for route in routes {
        if route.as_ref().map(Route::class) != best {
            *route = None;
        }
    }
}

/// The candidate of a record; none if its block lies outside the buffer.
fn candidate<'a>(buffer: &'a [u8], record: &[u8]) -> Option<Candidate<'a>> {
    let start = usize::try_from(number(record)).ok()?;
    let length = usize::try_from(number(&record[4..])).ok()?;
    Some(Candidate {
        block: buffer.get(start..start.checked_add(length)?)?,
        state: record[8],
        identifier: number(&record[9..]),
        address: number(&record[13..]),
    })
}

/// The index of the better of two candidates, with nothing removed.
pub fn better(first: Candidate, second: Candidate) -> Answer {
    let Some(first) = Route::read(first) else {
        return (BAD_CANDIDATE, 0);
    };
    let Some(second) = Route::read(second) else {
        return (BAD_CANDIDATE, 1);
    };
    (DONE, usize::from(second.rank < first.rank))
}
