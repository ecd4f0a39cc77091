//! The benchmark's inputs, the same in every run: blocks, VRPs, candidates, and the desk's lines.
use bgp_policy::{table, Offer, OWN_ROUTE};
use policy_tests::counterpart;
use policy_tests::generate::Random;

/// The address of a route that none of the VRPs covers, which all begin with a 0 bit.
pub const UNCOVERED: u32 = 0xC000_0200;

/// The prefix of an IPv6 route that none of the VRPs covers; those that agree with it in 32 bits differ in the next.
pub const UNCOVERED6: u128 = 0x2001_0DB8_0001 << 80;

/// The parameters of an OPEN, one capability to each: multiprotocol, route refresh, the role, and four-octet AS numbers.
pub fn parameters(role: u8) -> Vec<u8> {
    let mut bytes = vec![2, 6, 1, 4, 0, 1, 0, 1, 2, 2, 2, 0, 2, 3, 9, 1, role];
    bytes.extend([2, 6, 65, 4, 0, 0, 0xFB, 0xFE]);
    bytes
}

/// The same numbers in every run.
pub fn seeded() -> Random {
    Random(1)
}

// One of few, so that some VRPs match.
fn asn(random: &mut Random) -> [u8; 4] {
    (64512 + random.below(16) as u32).to_be_bytes()
}

// ORIGIN, a path of up to 63 ASes, up to 31 communities of which every fourth is a tag, and an attribute of type 32 with a value
// of `large` bytes; for no communities or bytes no attribute.
fn block(random: &mut Random, path: u8, communities: u8, large: u16) -> Vec<u8> {
    let mut block = vec![0x40, 1, 1, random.below(3) as u8];
    match path {
        0 => block.extend([0x40, 2, 0]),
        _ => block.extend([0x40, 2, 2 + 4 * path, 2, path]),
    }
    for _ in 0..path {
        block.extend(asn(random));
    }
    if communities > 0 {
        block.extend([0xC0, 16, 8 * communities]);
    }
    for i in 0..communities {
        let (kind, last) = if i % 4 == 1 { (0x43, i % 3) } else { (0, i) };
        let subtype = if kind == 0 { 2 } else { 0 };
        block.extend([kind, subtype, 0, 0, 0, 0, 0, last]);
    }
    if large > 0 {
        block.extend([0xD0, 32]);
        block.extend(large.to_be_bytes());
        block.extend((0..large).map(|_| random.byte()));
    }
    block
}

/// A block of 13 bytes (a path of one AS), of 256 (a path of five, 28 communities) or of 4,055 (a large attribute too).
pub fn sized(random: &mut Random, size: usize) -> Vec<u8> {
    let made = match size {
        13 => block(random, 1, 0, 0),
        256 => block(random, 5, 28, 0),
        _ => block(random, 5, 28, (size - 260) as u16),
    };
    assert_eq!(made.len(), size);
    made
}

/// VRPs of 10 bytes each.
pub fn vrps(random: &mut Random, count: usize) -> Vec<u8> {
    let mut bytes = Vec::new();
    for _ in 0..count {
        let length = 8 + random.below(17) as u8;
        bytes.extend((random.draw() as u32 >> 1).to_be_bytes());
        bytes.extend([
            length,
            length + random.below(33 - usize::from(length)) as u8,
        ]);
        bytes.extend(asn(random));
    }
    bytes
}

/// IPv6 VRPs of 22 bytes each, with lengths of 32 to 48: half of them in 2a00::/12, the others in 2001::/16, a few of these in
/// 2001:db8:8000::/33.
pub fn vrps6(random: &mut Random, count: usize) -> Vec<u8> {
    let mut bytes = Vec::new();
    for _ in 0..count {
        let drawn = random.draw();
        let (first, least) = match random.below(8) {
            0 => (0x2001_0DB8_8000 | drawn & 0x7FFF, 33),
            1..=3 => (0x2001_0000_0000 | drawn & 0xFFFF_FFFF, 32),
            _ => (0x2A00_0000_0000 | drawn & 0xF_FFFF_FFFF, 32),
        };
        let length = least + random.below(49 - least);
        let maximum = length + random.below(49 - length);
        bytes.extend((u128::from(first) << 80).to_be_bytes());
        bytes.extend([length as u8, maximum as u8]);
        bytes.extend(asn(random));
    }
    bytes
}

/// 64 candidates with blocks of one size: the buffer that holds their blocks, and their table.
pub fn candidates(random: &mut Random, size: usize) -> (Vec<u8>, Vec<u8>) {
    let (mut buffer, mut offers) = (Vec::new(), Vec::new());
    for i in 0..64 {
        offers.push(Offer {
            start: buffer.len() as u32,
            size: size as u32,
            state: (i % 4) as u8,
            identifier: random.below(8) as u32,
            address: 1000 + random.below(64) as u32,
        });
        buffer.extend(sized(random, size));
    }
    (buffer, table(&offers))
}

/// The desk's lines: 100 VRPs to begin with, and lines of one megabyte to follow them as often as wanted.
pub fn lines(random: &mut Random) -> (Vec<u8>, Vec<u8>) {
    let table = vrps(random, 100);
    let mut head = Vec::new();
    for vrp in table.chunks(10) {
        line(&mut head, &[&[4], vrp]);
    }
    let mut rest = Vec::new();
    while rest.len() < 1_000_000 {
        session(&mut rest, random);
        for _ in 0..32 {
            match random.below(32) {
                0 => rest.extend(random.pick(&REFUSED).as_bytes()),
                1..=16 => receipt(&mut rest, random, &table),
                _ => sending(&mut rest, random),
            }
        }
    }
    (head, rest)
}

// Lines that are refused in any session: empty, odd, bad digit, unknown and short frame, no path, bad setting, bad VRP.
const REFUSED: [&str; 8] = [
    "\n",
    "03FF0340010\n",
    "03FF034001010040020G\n",
    "0500\n",
    "0218C0\n",
    "0218C000020040010100\n",
    "03050340010100400200\n",
    "040A000000100F0000FBF4\n",
];

// One line of hex digits.
fn line(lines: &mut Vec<u8>, parts: &[&[u8]]) {
    const DIGITS: &[u8; 16] = b"0123456789ABCDEF";
    for byte in parts.concat() {
        lines.extend([DIGITS[byte as usize / 16], DIGITS[byte as usize % 16]]);
    }
    lines.push(b'\n');
}

// A session of AS 64500 with AS 64510; one in 32 is rejected.
fn session(lines: &mut Vec<u8>, random: &mut Random) {
    let local = random.below(5) as u8;
    let rejected = random.one_in(32);
    let remote = if rejected { 7 } else { counterpart(local) };
    let mode = random.below(4) as u8;
    let settings = [1, 0, 0, 0xFB, 0xF4, 0, 0, 0xFB, 0xFE, local, 1, mode, 0];
    line(lines, &[&settings, &parameters(remote)]);
}

// A block of a usual size, one in 128 a large one; one in 16 with an OTC of the neighbour's.
fn usual(random: &mut Random) -> Vec<u8> {
    let (path, communities) = (random.below(7) as u8, random.below(9) as u8);
    let large = if random.one_in(128) { 3500 } else { 0 };
    let mut made = block(random, path, communities, large);
    if random.one_in(16) {
        made.extend([0xC0, 35, 4, 0, 0, 0xFB, 0xFE]);
    }
    made
}

// A receipt, of a prefix that a VRP covers or of one that none does.
fn receipt(lines: &mut Vec<u8>, random: &mut Random, table: &[u8]) {
    let vrp = &table[10 * random.below(100)..];
    let made = usual(random);
    if random.one_in(2) {
        line(lines, &[&[2, vrp[4]], &vrp[..4], &made]);
    } else {
        line(lines, &[&[2, 24], &UNCOVERED.to_be_bytes(), &made]);
    }
}

// A sending, mostly of an own route or of a customer's, which go to any neighbour.
fn sending(lines: &mut Vec<u8>, random: &mut Random) {
    let source = random.pick(&[OWN_ROUTE, OWN_ROUTE, 3, 3, 3, 0, 1, 4]);
    let state = random.below(4) as u8;
    line(lines, &[&[3, source, state], &usual(random)]);
}
