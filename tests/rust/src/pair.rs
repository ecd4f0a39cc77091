//! The two functions of sending beside each other: `send_size` tells what `send_write` then does.
use crate::patterns;
use crate::reference::read;
use crate::sides::{Sending, Side};
use bgp_policy::BLOCK_MAX;

/// The answer that a buffer too short gives.
pub const NO_ROOM: (u8, usize) = (7, 0);

// What `send_write` must tell with a buffer of `room` bytes. It stores as many bytes as it tells on answer 0, which are a block, and no
// other byte.
fn writes(
    side: &Side,
    sending: Sending,
    block: &[u8],
    room: usize,
    told: (u8, usize),
) -> Result<(), String> {
    let before = patterns(room);
    let mut after = before.clone();
    for out in &mut after {
        let got = sending.write(side, block, out);
        if got != told {
            return Err(format!("{got:?} in {room} bytes, expected {told:?}"));
        }
    }
    let length = if told.0 == 0 { told.1 } else { 0 };
    // the patterns differ in every byte, so that those which are the same were stored
    if after[0][..length] != after[1][..length] {
        return Err(format!("fewer bytes than {length} stored in {room}"));
    }
    if (0..2).any(|i| after[i][length..] != before[i][length..]) {
        return Err(format!("bytes past {length} stored in {room}"));
    }
    if length > 0 && read(&after[0][..length]).is_err() {
        return Err(format!("no block stored in {room}"));
    }
    Ok(())
}

/// What `send_size` tells of an input, where `send_write` agrees with it in buffers of all sizes that matter.
pub fn agreed(side: &Side, sending: Sending, block: &[u8]) -> Result<(u8, usize), String> {
    let told = sending.size(side, block);
    let (fitting, short) = match told {
        (0, length) => (
            vec![length, length + 1, BLOCK_MAX, 5_000],
            vec![0, length.max(1) - 1],
        ),
        _ => (vec![0, 1, BLOCK_MAX, BLOCK_MAX + 1, 5_000], vec![]),
    };
    for room in fitting {
        writes(side, sending, block, room, told)?;
    }
    for room in short {
        writes(side, sending, block, room, NO_ROOM)?;
    }
    Ok(told)
}
