//! An index over a table of VRPs in lent memory: a tree of their prefixes, one bit to a level. Nodes are triples from the front (the
//! children for bits 0 and 1, the last record at the node), records triples from the back (the record before at the same node, maximum
//! length, ASN); a link to the k-th node or record is k, to none 0.
use super::origin::{is_vrp, Bits, Prefix};
use super::{number, Answer};
use super::{BAD_SETTING, BAD_VRP, DONE, MAX_VRPS, NO_ROOM, TOO_LONG};
use super::{INVALID, NOT_FOUND, VALID};

type Triple = [u32; 3];

// The parts of a node after the two children, and of a record.
const LAST: usize = 2;
const BEFORE: usize = 0;
const MAXIMUM: usize = 1;
const ASN: usize = 2;

/// The index of a table of IPv4 VRPs: beside answer 0 the nodes made.
pub fn index_build(table: &[u8], memory: &mut [u32]) -> Answer {
    build::<u32>(table, memory)
}

/// The index of a table of IPv6 VRPs.
pub fn index_build6(table: &[u8], memory: &mut [u32]) -> Answer {
    build::<u128>(table, memory)
}

/// One IPv4 VRP more: beside answer 0 the nodes that there are now.
pub fn index_insert(record: &[u8], memory: &mut [u32], records: usize, nodes: usize) -> Answer {
    insert::<u32>(record, memory, records, nodes)
}

/// One IPv6 VRP more.
pub fn index_insert6(record: &[u8], memory: &mut [u32], records: usize, nodes: usize) -> Answer {
    insert::<u128>(record, memory, records, nodes)
}

/// The state of an IPv4 route, and the nodes visited.
pub fn index_look_up(
    memory: &[u32],
    prefix_length: u8,
    prefix: u32,
    origin: u32,
) -> (u8, usize, usize) {
    let route = Prefix {
        length: prefix_length,
        bits: prefix,
    };
    look_up(memory, route, origin)
}

/// The state of an IPv6 route, and the nodes visited.
pub fn index_look_up6(
    memory: &[u32],
    prefix_length: u8,
    prefix: u128,
    origin: u32,
) -> (u8, usize, usize) {
    let route = Prefix {
        length: prefix_length,
        bits: prefix,
    };
    look_up(memory, route, origin)
}

fn build<B: Bits>(table: &[u8], memory: &mut [u32]) -> Answer {
    let count = table.len() / B::VRP;
    if table.len() % B::VRP != 0 || count > MAX_VRPS {
        return (TOO_LONG, 0);
    }
    let mut vrps = table.chunks_exact(B::VRP);
    if let Some(index) = vrps.position(|vrp| !is_vrp::<B>(vrp)) {
        return (BAD_VRP, index);
    }
    match fill::<B>(table, memory.as_chunks_mut().0, count) {
        Some(nodes) => (DONE, nodes),
        None => {
            memory.fill(0);
            (NO_ROOM, 0)
        }
    }
}

// The records added to a tree of the root alone; none where there is no room.
fn fill<B: Bits>(table: &[u8], triples: &mut [Triple], count: usize) -> Option<usize> {
    let lent = triples.len().checked_sub(count)?;
    *triples[..lent].first_mut()? = [0; 3];
    let mut nodes = 1;
    for (index, vrp) in table.chunks_exact(B::VRP).enumerate() {
        nodes = add::<B>(vrp, triples, index, nodes, lent)?;
    }
    Some(nodes)
}

fn insert<B: Bits>(record: &[u8], memory: &mut [u32], records: usize, nodes: usize) -> Answer {
    if record.len() != B::VRP || records >= MAX_VRPS {
        return (TOO_LONG, 0);
    }
    if !is_vrp::<B>(record) {
        return (BAD_VRP, records);
    }
    let triples = memory.as_chunks_mut().0;
    let lent = triples.len().saturating_sub(records + 1);
    match add::<B>(record, triples, records, nodes, lent) {
        Some(nodes) => (DONE, nodes),
        None => (NO_ROOM, 0),
    }
}

// A good record added as the one of this index: the nodes that there are now; none, and nothing done, where they exceed those lent.
fn add<B: Bits>(
    vrp: &[u8],
    triples: &mut [Triple],
    index: usize,
    mut nodes: usize,
    lent: usize,
) -> Option<usize> {
    let place = triples.len().checked_sub(index + 1)?;
    let tree = triples.get_mut(..lent)?;
    let (mut bits, length) = (B::read(vrp), usize::from(vrp[B::SIZE]));
    let (mut at, mut depth) = (0, 0);
    while depth < length {
        let child = tree.get(at)?[bits.first()] as usize;
        if child == 0 {
            break;
        }
        (at, bits, depth) = (child - 1, bits.rest(), depth + 1);
    }
    if at >= lent || nodes.checked_add(length - depth)? > lent {
        return None;
    }
    for _ in depth..length {
        tree[nodes] = [0; 3];
        nodes += 1;
        tree[at][bits.first()] = nodes as u32;
        (at, bits) = (nodes - 1, bits.rest());
    }
    let before = std::mem::replace(&mut tree[at][LAST], index as u32 + 1);
    let asn = number(&vrp[B::SIZE + 2..]);
    triples[place] = [before, vrp[B::SIZE + 1].into(), asn];
    Some(nodes)
}

fn look_up<B: Bits>(memory: &[u32], route: Prefix<B>, origin: u32) -> (u8, usize, usize) {
    if route.length > B::WIDTH {
        return (BAD_SETTING, 0, 0);
    }
    let triples = memory.as_chunks().0;
    let (mut bits, mut state, mut visited) = (route.bits, NOT_FOUND, 0);
    let mut next = triples.first();
    while let Some(node) = next {
        visited += 1;
        if node[LAST] != 0 && state != VALID {
            state = at_node(triples, node[LAST], route.length, origin, state);
        }
        if visited > usize::from(route.length) {
            break;
        }
        next = triples.get((node[bits.first()] as usize).wrapping_sub(1));
        bits = bits.rest();
    }
    (DONE, state.into(), visited)
}

// The state with the records at one node, from the last on; `state` is what it was without them. In a memory of other contents a link
// may lead anywhere: one that does not lead to an earlier record is the end.
fn at_node(triples: &[Triple], last: u32, length: u8, origin: u32, mut state: u8) -> u8 {
    let (mut link, mut bound) = (last as usize, usize::MAX);
    while link != 0 && link < bound {
        let Some(record) = triples.len().checked_sub(link).map(|i| &triples[i]) else {
            break;
        };
        if record[ASN] == origin && origin != 0 && u32::from(length) <= record[MAXIMUM] {
            return VALID;
        }
        state = INVALID;
        (bound, link) = (link, record[BEFORE] as usize);
    }
    state
}
