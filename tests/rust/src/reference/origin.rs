//! "Origin state", of both families by one code, and "Reading a received tag from a block".
use super::block::{communities_of, is_tag, path_of, read, Attribute};
use super::input::Input;
use super::passing::handed_on;
use super::{demand, Refusal, BAD_VRP, BLOCK_MAX, DONE, OUT_OF_RANGE, TOO_LONG, VRPS_MAX};
use super::{INVALID, NOT_FOUND, UNAVAILABLE, VALID};

/// The bits of a prefix, by which a family is told here.
pub const IPV4: u8 = 32;
pub const IPV6: u8 = 128;

/// A route's prefix; `width` is its family's.
#[derive(Clone, Copy)]
pub struct Route {
    pub width: u8,
    pub length: u8,
    pub prefix: u128,
}

/// A VRP; `width` is its family's.
pub struct Vrp {
    pub width: u8,
    pub prefix: u128,
    pub length: u8,
    maximum: u8,
    asn: u32,
}

/// "A VRP is 10 bytes: prefix 4, length, maximum length, ASN 4"; Q-1: "VRPs with a 16-byte prefix".
pub fn vrp_size(width: u8) -> usize {
    usize::from(width) / 8 + 1 + 1 + 4
}

/// What the origin state answers for IPv4: on answer 0 the state is beside it.
pub fn origin_state(
    prefix_length: u8,
    prefix: u32,
    own_as: u32,
    table: &[u8],
    block: &[u8],
) -> (u8, usize) {
    let route = Route {
        width: IPV4,
        length: prefix_length,
        prefix: prefix.into(),
    };
    told_state(route, own_as, table, block)
}

/// What the origin state answers for IPv6.
pub fn origin_state6(
    prefix_length: u8,
    prefix: u128,
    own_as: u32,
    table: &[u8],
    block: &[u8],
) -> (u8, usize) {
    let route = Route {
        width: IPV6,
        length: prefix_length,
        prefix,
    };
    told_state(route, own_as, table, block)
}

fn told_state(route: Route, own_as: u32, table: &[u8], block: &[u8]) -> (u8, usize) {
    match stated(route, own_as, table, block) {
        Ok(state) => (DONE, state.into()),
        Err(refusal) => refusal,
    }
}

fn stated(route: Route, own_as: u32, table: &[u8], block: &[u8]) -> Result<u8, Refusal> {
    let size = vrp_size(route.width);
    demand(route.length <= route.width, OUT_OF_RANGE)?;
    demand(own_as >= 1, OUT_OF_RANGE)?;
    demand(table.len() % size == 0, TOO_LONG)?;
    demand(table.len() / size <= VRPS_MAX, TOO_LONG)?;
    demand(block.len() <= BLOCK_MAX, TOO_LONG)?;
    let mut vrps = Vec::new();
    for (index, record) in table.chunks(size).enumerate() {
        vrps.push(vrp(route.width, record).ok_or((BAD_VRP, index))?);
    }
    let attributes = read(block)?;
    let origin = origin(&attributes, own_as);
    Ok(state(route, origin, &vrps))
}

/// The VRP of a record; none if it is bad: "bad unless length ≤ maximum ≤ 32", Q-1: "maximum up to 128".
pub fn vrp(width: u8, record: &[u8]) -> Option<Vrp> {
    let mut input = Input(record);
    let vrp = Vrp {
        width,
        prefix: input.prefix(width)?,
        length: input.byte()?,
        maximum: input.byte()?,
        asn: input.number(4)?,
    };
    (vrp.length <= vrp.maximum && vrp.maximum <= width).then_some(vrp)
}

/// "The route's origin is the last ASN of a final sequence; none if the final segment is a set; the caller's own AS if the path is
/// empty."
pub fn origin(attributes: &[Attribute], own_as: u32) -> Option<u32> {
    match path_of(attributes).last() {
        None => Some(own_as),
        Some(segment) if segment.set => None,
        Some(segment) => segment.asns.last().copied(),
    }
}

/// "Valid: some match. Invalid: some cover, none match. Not found: none cover."
pub fn state(route: Route, origin: Option<u32>, vrps: &[Vrp]) -> u8 {
    let mut left: Vec<&Vrp> = vrps.iter().collect();
    left.retain(|vrp| covers(vrp, route));
    if left.is_empty() {
        return NOT_FOUND;
    }
    // "the route's length is at most the maximum, and ASNs are equal and not 0"
    left.retain(|vrp| route.length <= vrp.maximum && origin == Some(vrp.asn) && vrp.asn != 0);
    if left.is_empty() {
        INVALID
    } else {
        VALID
    }
}

/// "A VRP covers a route if its length is not greater and that many leading bits agree"; Q-1: "never [..] a route of the other
/// family".
fn covers(vrp: &Vrp, route: Route) -> bool {
    let agree = |i| bit(vrp.width, vrp.prefix, i) == bit(route.width, route.prefix, i);
    vrp.width == route.width && vrp.length <= route.length && (0..vrp.length).all(agree)
}

/// Bit `i` of a prefix, counted from 0, the first bit.
fn bit(width: u8, prefix: u128, i: u8) -> u128 {
    prefix / 2u128.pow(u32::from(width - 1 - i)) % 2
}

/// What the received tag answers: on answer 0 the state is beside it; and Q-8's number, or 0.
pub fn received_tag(block: &[u8]) -> (u8, usize, usize) {
    let (answer, beside) = match told(block) {
        Ok(state) => (DONE, state.into()),
        Err(refusal) => refusal,
    };
    (answer, beside, handed_on(answer, block).unwrap_or(0))
}

/// "values above 2 are thrown out first, then the greatest counts; with none left the state is 3".
fn told(block: &[u8]) -> Result<u8, Refusal> {
    demand(block.len() <= BLOCK_MAX, TOO_LONG)?;
    let mut tags = communities_of(&read(block)?);
    tags.retain(|community| is_tag(community));
    let mut values: Vec<u8> = tags.iter().map(|tag| tag[7]).collect();
    values.retain(|value| *value <= 2);
    Ok(values.into_iter().max().unwrap_or(UNAVAILABLE))
}
