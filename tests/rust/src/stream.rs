//! Seeded line streams for the desk: frames of every kind, refused ones and unreadable lines among them.
use crate::chain::one_administration;
use crate::counterpart;
use crate::generate::{block, block_of_length, damaged, faulty_block, Random, ASNS};
use crate::tables::{length6, parameters, parameters_of_length, prefix, prefix6, vrp, vrp6};

fn session_frame(random: &mut Random) -> Vec<u8> {
    let local_role = random.below(5) as u8;
    let one_administration = one_administration(random, local_role);
    let mut settings = [0; 12];
    settings[..4].copy_from_slice(&ASNS[0].to_be_bytes());
    settings[4..8].copy_from_slice(&ASNS[1].to_be_bytes());
    settings[8..11].copy_from_slice(&[local_role, random.below(2) as u8, random.below(4) as u8]);
    settings[11] = one_administration;
    match random.below(64) {
        0..=3 => settings[random.below(12)] = random.pick(&[0, 5, 255]),
        // also at a route server, which may not have it
        4 => settings[11] = 1,
        5 => settings[11] = 2,
        _ => {}
    }
    if random.one_in(20) {
        settings.copy_within(0..4, 4);
    }
    let role = counterpart(local_role);
    let parameters = match random.below(12) {
        0 => {
            let length = 250 + random.below(10);
            parameters_of_length(random, role, length)
        }
        1..=2 => parameters(random, role),
        3 => Vec::new(),
        _ => vec![2, 3, 9, 1, role],
    };
    [&[1], &settings[..], &parameters].concat()
}

fn some_block(random: &mut Random) -> Vec<u8> {
    match random.below(60) {
        0..=5 => faulty_block(random),
        6..=11 => {
            let sound = block(random);
            damaged(random, sound)
        }
        12 => {
            let length = random.pick(&[4_055, 4_066, 4_067, 4_073, 4_074, 4_090, 4_093]);
            block_of_length(random, length)
        }
        _ => block(random),
    }
}

fn receipt_frame(random: &mut Random) -> Vec<u8> {
    let length = match random.below(30) {
        0 => random.pick(&[33, 255]),
        _ => random.pick(&[0, 16, 20, 20, 21, 24, 32]),
    };
    let prefix = prefix(random).to_be_bytes();
    [&[2, length], &prefix[..], &some_block(random)].concat()
}

fn sending_frame(random: &mut Random) -> Vec<u8> {
    let source = random.pick(&[255, 255, 3, 3, 0, 1, 2, 4, 5]);
    let state = random.pick(&[0, 1, 2, 2, 3, 0, 1, 2, 3, 4]);
    [&[3, source, state], &some_block(random)[..]].concat()
}

fn receipt6_frame(random: &mut Random) -> Vec<u8> {
    let length = match random.below(30) {
        0 => random.pick(&[129, 255]),
        _ => length6(random) as u8,
    };
    let prefix = prefix6(random).to_be_bytes();
    [&[0x12, length], &prefix[..], &some_block(random)].concat()
}

// A VRP of the frame's kind, 04 or 14.
fn vrp_frame(random: &mut Random, kind: u8) -> Vec<u8> {
    let record = match kind {
        0x04 => vrp(random, 10),
        _ => vrp6(random, 10),
    };
    let mut frame = [&[kind], &record[..]].concat();
    match random.below(20) {
        0 => drop(frame.pop()),
        1 => frame.push(0),
        _ => {}
    }
    frame
}

// A frame as digits of either case; a few lines are made unreadable.
fn line(random: &mut Random, frame: &[u8], out: &mut Vec<u8>) {
    let mut digits: Vec<u8> = match random.below(3) {
        0 => frame
            .iter()
            .flat_map(|b| format!("{b:02x}").into_bytes())
            .collect(),
        _ => frame
            .iter()
            .flat_map(|b| format!("{b:02X}").into_bytes())
            .collect(),
    };
    match random.below(60) {
        0 => drop(digits.pop()),
        1 => digits.push(random.pick(b"\r 0AG")),
        2 => {
            let at = random.below(digits.len() + 1);
            digits.insert(at, random.pick(b"gxG/:@` \0\xFF0f"));
        }
        3 => digits.clear(),
        4 => digits.truncate(random.pick(&[1, 2, 4, 6, 10, 22, 24, 26, 34, 36, 44, 46])),
        5 if random.one_in(8) => {
            let length = random.pick(&[8_191, 8_192, 8_193, 8_194, 8_195, 20_000]);
            digits.resize(length, b'0');
        }
        _ => {}
    }
    out.extend(digits);
    out.push(b'\n');
}

/// About `length` bytes of lines; the last one may lack its line feed.
pub fn stream(random: &mut Random, length: usize) -> Vec<u8> {
    let mut out = Vec::new();
    while out.len() < length {
        let frame = match random.below(50) {
            0..=4 => session_frame(random),
            5..=7 => vrp_frame(random, 0x04),
            8..=10 => vrp_frame(random, 0x14),
            11 => vec![random.pick(&[0, 1, 2, 3, 4, 5, 0x10, 0x12, 0x13, 0x14, 255])],
            12 => random.bytes(8),
            13..=24 => receipt_frame(random),
            25..=36 => receipt6_frame(random),
            _ => sending_frame(random),
        };
        line(random, &frame, &mut out);
    }
    // Some streams end without a line feed, some in an empty line.
    match random.below(3) {
        0 => drop(out.pop()),
        1 => out.push(b'\n'),
        _ => {}
    }
    out
}

/// `count` lines of one VRP each, all of one kind, 04 or 14, some of them refused.
pub fn vrps(random: &mut Random, kind: u8, count: usize) -> Vec<u8> {
    let mut out = Vec::new();
    for _ in 0..count {
        let frame = vrp_frame(random, kind);
        line(random, &frame, &mut out);
    }
    out
}
