//! "Choosing a route".
use super::block::{otc_of, path_of, read, value_of, ORIGIN};
use super::input::Input;
use super::{demand, mode_meant, Refusal};
use super::{BAD_CANDIDATE, BLOCK_MAX, CANDIDATES_MAX, DONE, NO_ROUTE, OUT_OF_RANGE, TOO_LONG};
use super::{DROP_INVALID, INVALID, NOT_FOUND, PRIORITISE, UNAVAILABLE, VALID};
use bgp_policy::Candidate;

/// A candidate's record: where its block starts and its length, four bytes each, state, identifier 4, address 4.
const RECORD_SIZE: usize = 17;

/// What choosing looks at in a candidate.
struct Route {
    index: usize,
    state: u8,
    has_otc: bool,
    path_length: usize,
    origin: u8,
    identifier: u32,
    address: u32,
}

/// What choosing answers: on answer 0 the index beside it, and how many were left.
pub fn choose(mode: u8, client: u32, buffer: &[u8], candidates: &[u8]) -> (u8, usize, usize) {
    match chosen(mode, client, buffer, candidates) {
        Ok((index, left)) => (DONE, index, left),
        Err((answer, beside)) => (answer, beside, 0),
    }
}

fn chosen(
    mode: u8,
    client: u32,
    buffer: &[u8],
    candidates: &[u8],
) -> Result<(usize, usize), Refusal> {
    demand(mode <= 3, OUT_OF_RANGE)?;
    demand(candidates.len() % RECORD_SIZE == 0, TOO_LONG)?;
    demand(candidates.len() / RECORD_SIZE <= CANDIDATES_MAX, TOO_LONG)?;
    let mut routes = Vec::new();
    for (index, record) in candidates.chunks(RECORD_SIZE).enumerate() {
        let candidate = candidate(record, buffer).ok_or((BAD_CANDIDATE, index))?;
        routes.push(route(index, candidate)?);
    }
    remove(mode_meant(mode), client, &mut routes);
    let left = routes.len();
    put_in_order(&mut routes);
    let best = routes.first().ok_or(NO_ROUTE)?;
    Ok((best.index, left))
}

/// The candidate of a record; none if its block is "outside the buffer".
fn candidate<'a>(record: &[u8], buffer: &'a [u8]) -> Option<Candidate<'a>> {
    let mut input = Input(record);
    let (start, length) = (input.number(4)?, input.number(4)?);
    let mut bytes = Input(buffer);
    bytes.bytes(start as usize)?;
    Some(Candidate {
        block: bytes.bytes(length as usize)?,
        state: input.byte()?,
        identifier: input.number(4)?,
        address: input.number(4)?,
    })
}

/// "Bad: [..] over 4,073 (10 here, not 6), state above 3 (10 here, not 5), or unreadable."
fn route(index: usize, candidate: Candidate) -> Result<Route, Refusal> {
    let bad = (BAD_CANDIDATE, index);
    demand(candidate.block.len() <= BLOCK_MAX, bad)?;
    demand(candidate.state <= 3, bad)?;
    let attributes = read(candidate.block).map_err(|_| bad)?;
    let path = path_of(&attributes);
    // "a set counts 1"
    let counts = path.iter().map(|s| if s.set { 1 } else { s.asns.len() });
    Ok(Route {
        index,
        state: candidate.state,
        has_otc: otc_of(&attributes).is_some(),
        path_length: counts.sum(),
        origin: value_of(&attributes, ORIGIN).expect("a readable block has an ORIGIN")[0],
        identifier: candidate.identifier,
        address: candidate.address,
    })
}

/// "Remove, in order: blocks with an OTC; routes from the client's own address; in mode 2, state 2; in mode 3, all but the best
/// class left (0; then 1 and 3; then 2)."
fn remove(mode: u8, client: u32, routes: &mut Vec<Route>) {
    routes.retain(|route| !route.has_otc);
    routes.retain(|route| route.address != client);
    if mode == DROP_INVALID {
        routes.retain(|route| route.state != INVALID);
    }
    if mode == PRIORITISE {
        let classes = [vec![VALID], vec![NOT_FOUND, UNAVAILABLE], vec![INVALID]];
        let mut left = classes.iter().filter(|class| {
            let mut states = routes.iter().map(|route| route.state);
            states.any(|state| class.contains(&state))
        });
        if let Some(best) = left.next() {
            routes.retain(|route| best.contains(&route.state));
        }
    }
}

/// "shortest path (a set counts 1), lowest ORIGIN, lowest identifier, lowest address, lowest index": the sort leaves equal routes
/// in the order of their indexes.
fn put_in_order(routes: &mut [Route]) {
    routes.sort_by_key(|r| (r.path_length, r.origin, r.identifier, r.address));
}

/// What comparing two answers: on answer 0 the winner's index is beside it. It "uses the order alone".
pub fn better(first: Candidate, second: Candidate) -> (u8, usize) {
    match winner(first, second) {
        Ok(index) => (DONE, index),
        Err(refusal) => refusal,
    }
}

fn winner(first: Candidate, second: Candidate) -> Result<usize, Refusal> {
    let mut routes = vec![route(0, first)?, route(1, second)?];
    put_in_order(&mut routes);
    Ok(routes[0].index)
}
