//! Seeded tables of VRPs in many shapes, routes near them, and what a lent memory may hold.
use crate::generate::{Random, ASNS};

/// What the records of one table have in common.
pub struct Shape {
    width: u8,
    // the prefixes that those of the records are made from
    bases: Vec<u128>,
    // the lengths that the records have
    lengths: Vec<u8>,
    // one prefix in so many differs from its base in a bit
    flipped: usize,
    // whether bits past the length are at random
    host_bits: bool,
}

impl Shape {
    /// Some shape: few or many bases; any lengths, the ends alone, one or two.
    pub fn some(random: &mut Random, width: u8) -> Self {
        let bases = (0..random.pick(&[1, 1, 2, 5, 60])).map(|_| bits(random, width));
        let bases = bases.collect();
        let any = |random: &mut Random| random.below(usize::from(width) + 1) as u8;
        let lengths = match random.below(5) {
            0 => vec![0, width],
            1 => vec![any(random)],
            2 => vec![any(random), any(random)],
            3 => vec![
                width / 4,
                width / 2,
                width / 2 + 1,
                3 * (width / 4),
                width - 1,
            ],
            _ => (0..=width).collect(),
        };
        Shape {
            width,
            bases,
            lengths,
            flipped: random.pick(&[1, 2, 8]),
            host_bits: random.one_in(2),
        }
    }

    /// A record, bad once in a while.
    pub fn record(&self, random: &mut Random, bad_in: usize) -> Vec<u8> {
        let length = random.pick(&self.lengths);
        let mut prefix = self.prefix(random);
        if self.host_bits {
            let kept = u128::MAX.checked_shl(u32::from(self.width - length));
            let kept = kept.unwrap_or(0);
            prefix = prefix & kept | bits(random, self.width) & !kept;
        }
        let above = usize::from(self.width - length) + 1;
        let past = random.below(above);
        let maximum = length + random.pick(&[0, above - 1, past]) as u8;
        let (length, maximum) = match random.one_in(bad_in) {
            true => random.pick(&[(length + 1, length), (length, self.width + 1), (255, 255)]),
            false => (length, maximum),
        };
        let asn = random.pick(&[0, ASNS[0], ASNS[1], ASNS[2], ASNS[3], ASNS[4]]);
        record(self.width, prefix, length, maximum, asn)
    }

    /// The records of a table.
    pub fn table(&self, random: &mut Random, records: usize, bad_in: usize) -> Vec<u8> {
        (0..records)
            .flat_map(|_| self.record(random, bad_in))
            .collect()
    }

    /// A route, by length and prefix, and its origin: the length is at times out of range, and the origin none.
    pub fn route(&self, random: &mut Random) -> ((u8, u128), u32) {
        let length = match random.below(24) {
            0 => random.pick(&[self.width + 1, 255]),
            1..=8 => random.pick(&self.lengths),
            9..=12 => self.width,
            _ => random.below(usize::from(self.width) + 1) as u8,
        };
        let prefix = match random.below(8) {
            0 => bits(random, self.width),
            _ => self.prefix(random),
        };
        let origin = random.pick(&[0, ASNS[0], ASNS[1], ASNS[2], ASNS[3], ASNS[4], 9]);
        ((length, prefix), origin)
    }

    fn prefix(&self, random: &mut Random) -> u128 {
        let base = random.pick(&self.bases);
        match random.one_in(self.flipped) {
            true => base ^ 1 << random.below(self.width.into()),
            false => base,
        }
    }
}

/// The bytes of a record whose prefix has `width` bits.
pub fn record(width: u8, prefix: u128, length: u8, maximum: u8, asn: u32) -> Vec<u8> {
    let mut bytes = prefix.to_be_bytes()[16 - usize::from(width) / 8..].to_vec();
    bytes.extend([length, maximum]);
    bytes.extend(asn.to_be_bytes());
    bytes
}

/// A number of `width` bits.
pub fn bits(random: &mut Random, width: u8) -> u128 {
    (u128::from(random.draw()) << 64 | u128::from(random.draw())) >> (128 - width)
}

/// What a memory of so many numbers may hold before a build: zeros, ones, small numbers or any.
pub fn contents(random: &mut Random, numbers: usize) -> Vec<u32> {
    let kind = random.below(4);
    let word = |random: &mut Random| match kind {
        0 => 0,
        1 => u32::MAX,
        2 => random.below(numbers / 3 + 2) as u32,
        _ => random.draw() as u32,
    };
    (0..numbers).map(|_| word(random)).collect()
}
