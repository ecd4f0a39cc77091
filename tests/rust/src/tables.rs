//! Seeded OPEN parameters, blocks of all sorts, prefixes and VRPs, and the tally of what calls answered.
use crate::generate::{block, block_of_length, damaged, faulty_block, Random, ASNS};
use std::collections::BTreeMap;

/// OPEN parameters whose role capabilities, if any, mostly name `role`.
pub fn parameters(random: &mut Random, role: u8) -> Vec<u8> {
    let mut bytes = Vec::new();
    for _ in 0..random.pick(&[0, 1, 1, 2, 3]) {
        let mut capabilities = Vec::new();
        for _ in 0..random.below(4) {
            let named = match random.below(12) {
                0 => random.byte(),
                1 => random.below(6) as u8,
                _ => role,
            };
            let length = random.pick(&[0, 1, 4, 4, 20]);
            match random.below(16) {
                0 => capabilities.extend([9, 0]),
                1 => capabilities.extend([9, 2, role, role]),
                2..=8 => capabilities.extend([9, 1, named]),
                _ => {
                    capabilities.extend([random.pick(&[1, 2, 6, 65, 73]), length]);
                    capabilities.extend(random.bytes(length.into()));
                }
            }
        }
        let kind = if random.one_in(25) { random.byte() } else { 2 };
        bytes.extend([kind, capabilities.len() as u8]);
        bytes.extend(capabilities);
    }
    bytes
}

/// Parameters of `length` bytes, at least 2: those of `parameters`, and a capability that is not looked into fills the rest.
pub fn parameters_of_length(random: &mut Random, role: u8, length: usize) -> Vec<u8> {
    let mut bytes = parameters(random, role);
    while bytes.len() < length {
        let size = (length - bytes.len()).saturating_sub(2).min(255);
        bytes.extend([2, size as u8]);
        if size >= 2 {
            bytes.extend([70, (size - 2) as u8]);
            bytes.extend(vec![9; size - 2]);
        } else {
            bytes.extend(vec![9; size]);
        }
    }
    bytes
}

/// A block: mostly readable, else with a fault, damaged, or of a length about the limit.
pub fn some_block(random: &mut Random) -> Vec<u8> {
    match random.below(12) {
        0 => faulty_block(random),
        1 => {
            let sound = block(random);
            damaged(random, sound)
        }
        2 if random.one_in(4) => {
            let length = random.pick(&[4_072, 4_073, 4_074, 5_000]);
            block_of_length(random, length)
        }
        _ => block(random),
    }
}

/// A prefix near a few others, so that VRPs often cover routes.
pub fn prefix(random: &mut Random) -> u32 {
    let base = random.pick(&[0x0A00_0000, 0x0A00_1000, 0x0A01_0000, 0xC000_0200]);
    match random.below(4) {
        0 => base ^ (1 << random.below(32)),
        _ => base,
    }
}

// Two that agree in 48 bits, one that begins as IPv4 prefixes of `prefix` do, and one that is IPv4-mapped.
const BASES6: [u128; 4] = [
    0x2001_0DB8_0000_0000_0000_0000_0000_0000,
    0x2001_0DB8_0000_8000_0000_0000_8000_0001,
    0x0A00_1000_0000_0000_0000_0000_0000_0000,
    0x0000_0000_0000_0000_0000_FFFF_0A00_1000,
];

/// The last bit of a word, the bits beside it, and the ends.
const EDGES: [usize; 16] = [
    0, 1, 16, 31, 32, 33, 48, 63, 64, 65, 95, 96, 97, 112, 127, 128,
];

/// An IPv6 prefix near a few others; one that differs from them does so in any bit, or in one at the edge of a word.
pub fn prefix6(random: &mut Random) -> u128 {
    let base = random.pick(&BASES6);
    match random.below(8) {
        0 => base ^ (1 << random.below(128)),
        1 => base ^ (1 << (random.pick(&EDGES) % 128)),
        _ => base,
    }
}

/// A length of an IPv6 prefix, mostly at the edge of a word.
pub fn length6(random: &mut Random) -> usize {
    match random.below(4) {
        0 => random.below(129),
        _ => random.pick(&EDGES),
    }
}

/// An IPv4 VRP, bad once in a while.
pub fn vrp(random: &mut Random, bad_in: usize) -> Vec<u8> {
    let length = random.pick(&[0, 8, 15, 16, 16, 19, 20, 20, 21, 24, 31, 32]);
    let rest = rest_of_vrp(random, 32, length, bad_in);
    [&prefix(random).to_be_bytes()[..], &rest].concat()
}

/// An IPv6 VRP, bad once in a while.
pub fn vrp6(random: &mut Random, bad_in: usize) -> Vec<u8> {
    let length = length6(random);
    let rest = rest_of_vrp(random, 128, length, bad_in);
    [&prefix6(random).to_be_bytes()[..], &rest].concat()
}

// What follows the prefix, whose family has prefixes of `width` bits: length, maximum length and ASN.
fn rest_of_vrp(random: &mut Random, width: usize, length: usize, bad_in: usize) -> Vec<u8> {
    let maximum = length + random.below(width + 1 - length);
    let past = width + 1;
    let (length, maximum) = match random.one_in(bad_in) {
        true => random.pick(&[
            (length + 1, length),
            (length, past),
            (past, past),
            (255, 255),
        ]),
        false => (length, maximum),
    };
    let asn = random.pick(&[0, ASNS[0], ASNS[0], ASNS[1], ASNS[2]]);
    let mut bytes = vec![length as u8, maximum as u8];
    bytes.extend(asn.to_be_bytes());
    bytes
}

/// Answer 3 with each fault.
pub const FAULTS: [(u8, usize); 6] = [(3, 1), (3, 2), (3, 3), (3, 4), (3, 5), (3, 6)];

/// How often each answer was given, with the number beside it where that is a rule, a fault or a state.
#[derive(Default)]
pub struct Tally(BTreeMap<(u8, usize), usize>);

impl Tally {
    pub fn add(&mut self, answer: u8, beside: usize) {
        *self.0.entry((answer, beside)).or_default() += 1;
    }

    /// Prints the counts; every pair of `expected` must have occurred, and no other.
    pub fn check(&self, name: &str, expected: &[(u8, usize)]) {
        let counts: Vec<String> = self
            .0
            .iter()
            .map(|((answer, beside), count)| format!("{answer}/{beside}: {count}"))
            .collect();
        println!("{name}: {}", counts.join(", "));
        for pair in expected {
            assert!(self.0.contains_key(pair), "{name}: {pair:?} never occurred");
        }
        for pair in self.0.keys() {
            assert!(expected.contains(pair), "{name}: {pair:?} is no answer");
        }
    }
}
