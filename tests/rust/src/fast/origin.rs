//! Origin validation against a table of VRPs, and the state that received tags tell.
use super::block::{told_by_tags, Block, Segments};
use super::{number, Answer, Numbered};
use super::{BAD_SETTING, BAD_VRP, DONE, MALFORMED, MAX_BLOCK, MAX_VRPS, TOO_LONG};
use super::{INVALID, NOT_FOUND, VALID};

/// The prefixes of a family: IPv4's are a `u32`, IPv6's a `u128`.
pub trait Bits: Copy {
    const WIDTH: u8;
    /// The bytes of a prefix.
    const SIZE: usize = Self::WIDTH as usize / 8;
    /// The size of a VRP: prefix, length, maximum length, ASN 4.
    const VRP: usize = Self::SIZE + 6;

    /// The prefix that starts a slice.
    fn read(bytes: &[u8]) -> Self;

    /// Whether the prefix agrees with the one that starts a slice in so many leading bits, at most `WIDTH`.
    fn agrees(self, bytes: &[u8], length: u8) -> bool;

    /// The first bit, 0 or 1.
    fn first(self) -> usize;

    /// The bits after the first.
    fn rest(self) -> Self;
}

impl Bits for u32 {
    const WIDTH: u8 = 32;

    fn read(bytes: &[u8]) -> Self {
        number(bytes)
    }

    fn agrees(self, bytes: &[u8], length: u8) -> bool {
        // In 64 bits, where a shift by 32 is one too, and leaves none to differ.
        u64::from(number(bytes) ^ self) >> (32 - length) == 0
    }

    fn first(self) -> usize {
        (self >> 31) as usize
    }

    fn rest(self) -> Self {
        self << 1
    }
}

impl Bits for u128 {
    const WIDTH: u8 = 128;

    fn read(bytes: &[u8]) -> Self {
        u128::from(half(bytes)) << 64 | u128::from(half(&bytes[8..]))
    }

    fn agrees(self, bytes: &[u8], length: u8) -> bool {
        let high = half(bytes) ^ (self >> 64) as u64;
        if high != 0 {
            // Two shifts, so that none is by 64.
            return length < 64 && high >> (63 - length) >> 1 == 0;
        }
        length <= 64 || (half(&bytes[8..]) ^ self as u64) >> (128 - length) == 0
    }

    fn first(self) -> usize {
        (self >> 127) as usize
    }

    fn rest(self) -> Self {
        self << 1
    }
}

/// The number that starts a slice of at least eight bytes, high byte first.
fn half(bytes: &[u8]) -> u64 {
    u64::from(number(bytes)) << 32 | u64::from(number(&bytes[4..]))
}

/// A route's prefix.
#[derive(Clone, Copy)]
pub struct Prefix<B> {
    pub length: u8,
    pub bits: B,
}

/// The state of an IPv4 route by the origin of its block.
pub fn origin_state(
    prefix_length: u8,
    prefix: u32,
    own_as: u32,
    table: &[u8],
    block: &[u8],
) -> Answer {
    let route = Prefix {
        length: prefix_length,
        bits: prefix,
    };
    state(route, own_as, table, block)
}

/// The state of an IPv6 route by the origin of its block.
pub fn origin_state6(
    prefix_length: u8,
    prefix: u128,
    own_as: u32,
    table: &[u8],
    block: &[u8],
) -> Answer {
    let route = Prefix {
        length: prefix_length,
        bits: prefix,
    };
    state(route, own_as, table, block)
}

fn state<B: Bits>(route: Prefix<B>, own_as: u32, table: &[u8], block: &[u8]) -> Answer {
    if route.length > B::WIDTH || own_as == 0 {
        return (BAD_SETTING, 0);
    }
    if block.len() > MAX_BLOCK || table.len() % B::VRP != 0 || table.len() / B::VRP > MAX_VRPS {
        return (TOO_LONG, 0);
    }
    let mut vrps = table.chunks_exact(B::VRP);
    if let Some(index) = vrps.position(|vrp| !is_vrp::<B>(vrp)) {
        return (BAD_VRP, index);
    }
    match Block::read(block) {
        Ok(block) => (DONE, validate(route, own_as, table, &block).into()),
        Err(fault) => (MALFORMED, fault),
    }
}

/// Whether a record's lengths are in range.
pub fn is_vrp<B: Bits>(vrp: &[u8]) -> bool {
    vrp[B::SIZE] <= vrp[B::SIZE + 1] && vrp[B::SIZE + 1] <= B::WIDTH
}

/// The state of a readable block's route by a table without bad records.
pub fn validate<B: Bits>(route: Prefix<B>, own_as: u32, table: &[u8], block: &Block) -> u8 {
    let origin = origin(block, own_as);
    let mut state = NOT_FOUND;
    for vrp in table.chunks_exact(B::VRP) {
        let (length, maximum) = (vrp[B::SIZE], vrp[B::SIZE + 1]);
        if length > route.length || !route.bits.agrees(vrp, length) {
            continue;
        }
        let asn = number(&vrp[B::SIZE + 2..]);
        if route.length <= maximum && asn != 0 && Some(asn) == origin {
            return VALID;
        }
        state = INVALID;
    }
    state
}

/// The AS that a path ends in; none if its final segment is a set.
fn origin(block: &Block, own_as: u32) -> Option<u32> {
    match Segments(block.as_path).last() {
        None => Some(own_as),
        Some(segment) if segment.is_set => None,
        Some(segment) => segment.asns.chunks_exact(4).last().map(number),
    }
}

/// The greatest state up to 2 that a tag of a block tells, else unavailable; and how many tags are thrown out.
pub fn received_tag(block: &[u8]) -> Numbered {
    if block.len() > MAX_BLOCK {
        return (TOO_LONG, 0, 0);
    }
    let block = match Block::read(block) {
        Ok(block) => block,
        Err(fault) => return (MALFORMED, fault, 0),
    };
    let communities = block.communities.map_or(&[][..], |c| c.value);
    let (state, thrown_out) = told_by_tags(communities);
    (DONE, state.into(), thrown_out)
}
