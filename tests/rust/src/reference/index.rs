//! "An index over the VRPs", without a tree: its nodes are a set of leading parts, its state is the plain scan's. The memory counts
//! by its length alone.
use super::origin::{state, vrp, vrp_size, Route, Vrp};
use super::{demand, Refusal, BAD_VRP, DONE, NO_ROOM, OUT_OF_RANGE, TOO_LONG, VRPS_MAX};
use std::collections::BTreeSet;

/// A leading part of a prefix: how many bits, and the number that they make.
type Part = (u8, u128);

/// What there is to know of an index; `width` is its family's.
pub struct Index {
    width: u8,
    vrps: Vec<Vrp>,
    nodes: BTreeSet<Part>,
}

/// What a build or an insertion answers: on answer 0 the nodes are beside it.
pub fn told(index: &Result<Index, Refusal>) -> (u8, usize) {
    match index {
        Ok(index) => (DONE, index.nodes.len()),
        Err(refusal) => *refusal,
    }
}

impl Index {
    /// The index of a table in a memory of so many numbers, three to a node and three to a record: "build 6, 9, then 7 exactly when
    /// the distinct leading parts [..] exceed the nodes lent".
    pub fn build(width: u8, table: &[u8], numbers: usize) -> Result<Index, Refusal> {
        let size = vrp_size(width);
        demand(table.len() % size == 0, TOO_LONG)?;
        demand(table.len() / size <= VRPS_MAX, TOO_LONG)?;
        let mut vrps = Vec::new();
        for (index, record) in table.chunks(size).enumerate() {
            vrps.push(vrp(width, record).ok_or((BAD_VRP, index))?);
        }
        let nodes = nodes(&vrps);
        demand(vrps.len() + nodes.len() <= numbers / 3, NO_ROOM)?;
        Ok(Index { width, vrps, nodes })
    }

    /// The index with one record more at the table's end.
    pub fn insert(
        width: u8,
        table: &[u8],
        record: &[u8],
        numbers: usize,
    ) -> Result<Index, Refusal> {
        demand(record.len() == vrp_size(width), TOO_LONG)?;
        Self::build(width, &[table, record].concat(), numbers)
    }

    /// "Its state equals the plain scan's", and "how many nodes it visited"; an origin of 0 is none.
    pub fn look_up(&self, length: u8, prefix: u128, origin: u32) -> (u8, usize, usize) {
        if length > self.width {
            let (answer, beside) = OUT_OF_RANGE;
            return (answer, beside, 0);
        }
        let route = Route {
            width: self.width,
            length,
            prefix,
        };
        let origin = (origin != 0).then_some(origin);
        let state = state(route, origin, &self.vrps);
        (DONE, state.into(), self.visited(route))
    }

    /// "those in the tree that lie on the route's prefix, the root counted".
    fn visited(&self, route: Route) -> usize {
        let on_prefix = (0..=route.length).map(|length| part(route.width, route.prefix, length));
        on_prefix.filter(|part| self.nodes.contains(part)).count()
    }
}

/// "the distinct leading parts of the table's prefixes, each up to its own length and the empty one counted even for an empty table".
fn nodes(vrps: &[Vrp]) -> BTreeSet<Part> {
    let mut nodes = BTreeSet::from([(0, 0)]);
    for vrp in vrps {
        nodes.extend((0..=vrp.length).map(|length| part(vrp.width, vrp.prefix, length)));
    }
    nodes
}

/// The first `length` bits of a prefix.
fn part(width: u8, prefix: u128, length: u8) -> Part {
    match length {
        0 => (0, 0),
        _ => (length, prefix / 2u128.pow(u32::from(width - length))),
    }
}
