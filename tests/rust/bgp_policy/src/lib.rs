//! The proved library as safe Rust: a crate to copy. `include/bgp_policy.h` says what the arguments and answers mean.
mod index;
mod passing;
mod raw;

pub use index::{index_build, index_build6, index_insert, index_insert6};
pub use index::{index_look_up, index_look_up6};
pub use passing::{check_sent, receive, send_size, send_write};
pub use passing::{Receipt, Session, OWN_ROUTE};

/// Document 01's size of an attribute block: an output buffer of this length is always enough.
pub const BLOCK_MAX: usize = 4073;

/// A candidate as it is offered to choosing: its block is `size` bytes of one buffer, from `start` on.
#[derive(Clone, Copy, Debug)]
pub struct Offer {
    pub start: u32,
    pub size: u32,
    pub state: u8,
    pub identifier: u32,
    pub address: u32,
}

/// A candidate of a comparison, with a block of its own.
#[derive(Clone, Copy, Debug)]
pub struct Candidate<'a> {
    pub block: &'a [u8],
    pub state: u8,
    pub identifier: u32,
    pub address: u32,
}

/// The table of candidates that choosing takes: 17 bytes to each, numbers high byte first.
pub fn table(offers: &[Offer]) -> Vec<u8> {
    let mut bytes = Vec::new();
    for offer in offers {
        bytes.extend(offer.start.to_be_bytes());
        bytes.extend(offer.size.to_be_bytes());
        bytes.push(offer.state);
        bytes.extend(offer.identifier.to_be_bytes());
        bytes.extend(offer.address.to_be_bytes());
    }
    bytes
}

// What `beside` holds before a call, so that a call that leaves it alone is seen.
const UNSET: usize = usize::MAX;

/// Opening of a session: the answer number and the number beside it (the remote role on answer 0).
pub fn open(local_role: u8, strict: u8, parameters: &[u8]) -> (u8, usize) {
    let mut beside = UNSET;
    // Safe: the pointer and length are those of a slice, and `beside` lies outside it.
    let answer = unsafe {
        raw::bgp_open(
            local_role,
            strict,
            parameters.as_ptr(),
            parameters.len(),
            &mut beside,
        )
    };
    (answer, beside)
}

/// The origin state of the route `prefix`/`prefix_length`: the answer number and the number beside it (the state on answer 0).
pub fn origin_state(
    prefix_length: u8,
    prefix: u32,
    own_as: u32,
    table: &[u8],
    block: &[u8],
) -> (u8, usize) {
    let mut beside = UNSET;
    // Safe: as in `open`.
    let answer = unsafe {
        raw::bgp_origin_state(
            prefix_length,
            prefix,
            own_as,
            table.as_ptr(),
            table.len(),
            block.as_ptr(),
            block.len(),
            &mut beside,
        )
    };
    (answer, beside)
}

/// The origin state of the IPv6 route `prefix`/`prefix_length`, the prefix's first byte the highest of its number: as
/// `origin_state`, by VRPs of 22 bytes.
pub fn origin_state6(
    prefix_length: u8,
    prefix: u128,
    own_as: u32,
    table: &[u8],
    block: &[u8],
) -> (u8, usize) {
    let mut beside = UNSET;
    // Safe: as in `open`.
    let answer = unsafe {
        raw::bgp_origin_state6(
            prefix_length,
            (prefix >> 64) as u64,
            prefix as u64,
            own_as,
            table.as_ptr(),
            table.len(),
            block.as_ptr(),
            block.len(),
            &mut beside,
        )
    };
    (answer, beside)
}

/// The state that the tags received in a block tell: the answer number, the number beside it (the state on answer 0), and how many of
/// the tags have a value above 2 (0 on a refusal).
pub fn received_tag(block: &[u8]) -> (u8, usize, usize) {
    let (mut beside, mut thrown_out) = (UNSET, UNSET);
    // Safe: as in `open`; `thrown_out` lies outside the slice too.
    let answer = unsafe {
        raw::bgp_received_tag(
            block.as_ptr(),
            block.len(),
            &mut beside,
            &mut thrown_out,
        )
    };
    (answer, beside, thrown_out)
}

/// The route for a client: the answer number, the number beside it (the index on answer 0), and how many were left.
pub fn choose(mode: u8, client: u32, buffer: &[u8], candidates: &[u8]) -> (u8, usize, usize) {
    let (mut beside, mut left) = (UNSET, UNSET);
    // Safe: as in `open`; `left` lies outside the slices too.
    let answer = unsafe {
        raw::bgp_choose(
            mode,
            client,
            buffer.as_ptr(),
            buffer.len(),
            candidates.as_ptr(),
            candidates.len(),
            &mut beside,
            &mut left,
        )
    };
    (answer, beside, left)
}

/// The better of two candidates: the answer number and the number beside it (the winner's index on answer 0).
pub fn better(first: Candidate, second: Candidate) -> (u8, usize) {
    let mut beside = UNSET;
    // Safe: as in `open`.
    let answer = unsafe {
        raw::bgp_better(
            first.block.as_ptr(),
            first.block.len(),
            first.state,
            first.identifier,
            first.address,
            second.block.as_ptr(),
            second.block.len(),
            second.state,
            second.identifier,
            second.address,
            &mut beside,
        )
    };
    (answer, beside)
}
