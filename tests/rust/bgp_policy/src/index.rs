//! The index over a table of VRPs, in memory that the caller lends: built, grown by a record, and looked up in.
use crate::raw;
use crate::UNSET;

/// Builds the index of a table of IPv4 VRPs: the answer number and the number beside it (the nodes made on answer 0, the bad
/// record's index on answer 9). On answer 7 the memory is all zeros, on 6 and 9 it is as it was.
pub fn index_build(table: &[u8], memory: &mut [u32]) -> (u8, usize) {
    let mut beside = UNSET;
    // Safe: the pointers and lengths are those of slices, and `memory`, being `&mut`, overlaps nothing.
    let answer = unsafe {
        raw::bgp_index_build(
            table.as_ptr(),
            table.len(),
            memory.as_mut_ptr(),
            memory.len(),
            &mut beside,
        )
    };
    (answer, beside)
}

/// Builds the index of a table of IPv6 VRPs: as `index_build`, of 22 bytes each.
pub fn index_build6(table: &[u8], memory: &mut [u32]) -> (u8, usize) {
    let mut beside = UNSET;
    // Safe: as in `index_build`.
    let answer = unsafe {
        raw::bgp_index_build6(
            table.as_ptr(),
            table.len(),
            memory.as_mut_ptr(),
            memory.len(),
            &mut beside,
        )
    };
    (answer, beside)
}

/// Adds one IPv4 VRP at the end of a table of so many records, whose index has so many nodes: the answer number and the number
/// beside it (the nodes that there are now on answer 0). On a refusal the memory is as it was.
pub fn index_insert(
    record: &[u8],
    memory: &mut [u32],
    records: usize,
    nodes: usize,
) -> (u8, usize) {
    let mut beside = UNSET;
    // Safe: as in `index_build`.
    let answer = unsafe {
        raw::bgp_index_insert(
            record.as_ptr(),
            record.len(),
            memory.as_mut_ptr(),
            memory.len(),
            records,
            nodes,
            &mut beside,
        )
    };
    (answer, beside)
}

/// Adds one IPv6 VRP: as `index_insert`, of 22 bytes.
pub fn index_insert6(
    record: &[u8],
    memory: &mut [u32],
    records: usize,
    nodes: usize,
) -> (u8, usize) {
    let mut beside = UNSET;
    // Safe: as in `index_build`.
    let answer = unsafe {
        raw::bgp_index_insert6(
            record.as_ptr(),
            record.len(),
            memory.as_mut_ptr(),
            memory.len(),
            records,
            nodes,
            &mut beside,
        )
    };
    (answer, beside)
}

/// The origin state of the IPv4 route `prefix`/`prefix_length` by the index in a memory; the AS `origin` is 0 where there is none.
/// The answer number, the number beside it (the state on answer 0), and how many nodes were visited.
pub fn index_look_up(
    memory: &[u32],
    prefix_length: u8,
    prefix: u32,
    origin: u32,
) -> (u8, usize, usize) {
    let (mut beside, mut visited) = (UNSET, UNSET);
    // Safe: the pointer and length are those of a slice, and `beside` and `visited` lie outside it.
    let answer = unsafe {
        raw::bgp_index_look_up(
            memory.as_ptr(),
            memory.len(),
            prefix_length,
            prefix,
            origin,
            &mut beside,
            &mut visited,
        )
    };
    (answer, beside, visited)
}

/// The origin state of the IPv6 route `prefix`/`prefix_length`, the prefix's first byte the highest of its number: as
/// `index_look_up`, by an index of IPv6 VRPs.
pub fn index_look_up6(
    memory: &[u32],
    prefix_length: u8,
    prefix: u128,
    origin: u32,
) -> (u8, usize, usize) {
    let (mut beside, mut visited) = (UNSET, UNSET);
    // Safe: as in `index_look_up`.
    let answer = unsafe {
        raw::bgp_index_look_up6(
            memory.as_ptr(),
            memory.len(),
            prefix_length,
            (prefix >> 64) as u64,
            prefix as u64,
            origin,
            &mut beside,
            &mut visited,
        )
    };
    (answer, beside, visited)
}
