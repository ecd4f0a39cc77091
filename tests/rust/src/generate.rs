//! Seeded inputs: readable blocks, blocks with a fault, and damage to any bytes.

/// The splitmix64 generator: equal seeds give equal inputs.
pub struct Random(pub u64);

impl Random {
    pub fn draw(&mut self) -> u64 {
        self.0 = self.0.wrapping_add(0x9E37_79B9_7F4A_7C15);
        let mut z = self.0;
        z = (z ^ (z >> 30)).wrapping_mul(0xBF58_476D_1CE4_E5B9);
        z = (z ^ (z >> 27)).wrapping_mul(0x94D0_49BB_1331_11EB);
        z ^ (z >> 31)
    }

    /// A number below `bound`, which is not 0.
    pub fn below(&mut self, bound: usize) -> usize {
        (self.draw() % bound as u64) as usize
    }

    pub fn byte(&mut self) -> u8 {
        self.draw() as u8
    }

    pub fn one_in(&mut self, times: usize) -> bool {
        self.below(times) == 0
    }

    pub fn pick<T: Copy>(&mut self, from: &[T]) -> T {
        from[self.below(from.len())]
    }

    pub fn bytes(&mut self, count: usize) -> Vec<u8> {
        (0..count).map(|_| self.byte()).collect()
    }

    pub fn shuffle<T>(&mut self, items: &mut [T]) {
        for i in (1..items.len()).rev() {
            items.swap(i, self.below(i + 1));
        }
    }
}

/// Few ASNs, so that paths, OTCs, VRPs and sessions often name the same one.
pub const ASNS: [u32; 5] = [64500, 64510, 1, 4_200_000_000, u32::MAX];

/// An attribute; a value of more than 255 bytes is written in the long form whatever its flags say.
#[derive(Clone)]
pub struct Attribute {
    pub flags: u8,
    pub kind: u8,
    pub value: Vec<u8>,
}

/// The bytes of a block.
pub fn encode(attributes: &[Attribute]) -> Vec<u8> {
    let mut block = Vec::new();
    for attribute in attributes {
        let length = (attribute.value.len() as u16).to_be_bytes();
        if attribute.flags & 0x10 != 0 || attribute.value.len() > 255 {
            block.extend([attribute.flags | 0x10, attribute.kind]);
            block.extend(length);
        } else {
            block.extend([attribute.flags, attribute.kind, length[1]]);
        }
        block.extend(&attribute.value);
    }
    block
}

fn attribute(random: &mut Random, kind: u8, value: Vec<u8>) -> Attribute {
    let flags = match random.below(8) {
        0 => random.byte(),
        1..=2 => 0xD0,
        _ => random.pick(&[0x40, 0x80, 0xC0, 0xE0]),
    };
    Attribute { flags, kind, value }
}

/// An AS_PATH of a few segments, sets among them.
pub fn as_path(random: &mut Random) -> Vec<u8> {
    let mut path = Vec::new();
    for _ in 0..random.pick(&[0, 1, 1, 1, 2, 2, 3, 4]) {
        let count = match random.below(200) {
            0 => random.pick(&[254, 255]),
            _ => 1 + random.below(4),
        };
        path.extend([random.pick(&[1, 2, 2]), count as u8]);
        for _ in 0..count {
            path.extend(random.pick(&ASNS).to_be_bytes());
        }
    }
    path
}

/// Communities, from none to all of them tags.
pub fn communities(random: &mut Random, count: usize) -> Vec<u8> {
    let tags = random.pick(&[0, 0, 1, 2, 8]);
    let mut value = Vec::new();
    for _ in 0..count {
        let mut community = random.bytes(8);
        community[..2].copy_from_slice(&random.pick(&[[0, 2], [3, 0x0C], [0x43, 1], [0, 0x43]]));
        if random.below(8) < tags {
            community[..2].copy_from_slice(&[0x43, 0]);
            community[7] = random.pick(&[0, 0, 1, 1, 2, 3, 7, 255]);
        }
        value.extend(community);
    }
    value
}

/// The attributes of a readable block, sorted or in any order.
pub fn attributes(random: &mut Random) -> Vec<Attribute> {
    let origin = vec![random.below(3) as u8];
    let path = as_path(random);
    let mut list = vec![attribute(random, 1, origin), attribute(random, 2, path)];
    if random.one_in(3) {
        let otc = random.pick(&ASNS).to_be_bytes().to_vec();
        list.push(attribute(random, 35, otc));
    }
    if random.one_in(2) {
        let count = match random.below(12) {
            0..=1 => 29 + random.below(5),
            2 if random.one_in(4) => 1 + random.below(300),
            _ => 1 + random.below(4),
        };
        let value = communities(random, count);
        list.push(attribute(random, 16, value));
    }
    let mut others = [0, 3, 4, 5, 8, 15, 17, 18, 32, 34, 36, 40, 128, 255];
    random.shuffle(&mut others);
    for kind in others.into_iter().take(random.pick(&[0, 0, 1, 2, 3])) {
        let length = random.pick(&[0, 1, 4, 4, 7, 8, 30]);
        let value = random.bytes(length);
        list.push(attribute(random, kind, value));
    }
    if random.one_in(2) {
        random.shuffle(&mut list);
    } else {
        list.sort_by_key(|a| a.kind);
    }
    list
}

/// A readable block.
pub fn block(random: &mut Random) -> Vec<u8> {
    encode(&attributes(random))
}

/// A readable block of exactly `length` bytes, which are enough for it: one more attribute fills it at any place.
pub fn block_of_length(random: &mut Random, length: usize) -> Vec<u8> {
    let list = attributes(random);
    filled(random, list, length)
}

/// The block of these attributes and of one more, which fills it to `length` bytes if these are enough.
pub fn filled(random: &mut Random, mut list: Vec<Attribute>, length: usize) -> Vec<u8> {
    let size = encode(&list).len() + 4;
    let value = vec![0x5A; length.saturating_sub(size)];
    let filler = Attribute {
        flags: 0xD0,
        kind: random.pick(&[7, 33, 200]),
        value,
    };
    let place = random.below(list.len() + 1);
    list.insert(place, filler);
    encode(&list)
}

/// A block with one attribute that has a fault of its own, or too few or too many attributes.
pub fn faulty_block(random: &mut Random) -> Vec<u8> {
    let mut list = attributes(random);
    let chosen = random.below(list.len());
    match random.below(8) {
        0 => drop(list.remove(chosen)),
        1 => {
            let again = list[chosen].clone();
            let place = random.below(list.len() + 1);
            list.insert(place, again);
        }
        2 => set_value(random, &mut list, 1, |r| {
            r.pick(&[&[][..], &[3], &[255], &[0, 0]]).to_vec()
        }),
        3..=4 => set_value(random, &mut list, 2, faulty_path),
        5 => set_value(random, &mut list, 35, |r| vec![1; r.below(9)]),
        6 => set_value(random, &mut list, 16, |r| vec![0x43; r.below(20)]),
        _ => {
            set_value(random, &mut list, 16, |r| vec![0x43; r.below(9)]);
            set_value(random, &mut list, 35, |r| vec![1; r.below(6)]);
        }
    }
    encode(&list)
}

fn set_value(
    random: &mut Random,
    list: &mut Vec<Attribute>,
    kind: u8,
    value: fn(&mut Random) -> Vec<u8>,
) {
    let value = value(random);
    match list.iter_mut().find(|a| a.kind == kind) {
        Some(attribute) => attribute.value = value,
        None => list.push(attribute(random, kind, value)),
    }
}

// A path with one byte that may be wrong (a segment type, a count, a part of an ASN, or the last one missing), or with a segment
// of no AS ahead of the others, among them or last.
fn faulty_path(random: &mut Random) -> Vec<u8> {
    let mut path = [vec![2, 1, 0, 0, 0, 1], as_path(random)].concat();
    match random.below(6) {
        0 => path[0] = random.pick(&[0, 1, 3, 4, 255]),
        1 => path[1] = random.pick(&[0, 2, 3, 255]),
        2 => path[5] = 0,
        3 => drop(path.pop()),
        4 => path.push(2),
        _ => {
            let at = random.pick(&[0, 6, path.len()]);
            drop(path.splice(at..at, [random.pick(&[1, 2]), 0]));
        }
    }
    path
}

/// Bytes with one to three places altered: flipped bits, other bytes, a cut, an insertion, a removal, a repetition.
pub fn damaged(random: &mut Random, mut bytes: Vec<u8>) -> Vec<u8> {
    for _ in 0..1 + random.below(3) {
        let at = random.below(bytes.len() + 1);
        let end = (at + random.below(8)).min(bytes.len());
        match random.below(6) {
            0 if at < bytes.len() => bytes[at] ^= 1 << random.below(8),
            1 if at < bytes.len() => bytes[at] = random.pick(&[0, 1, 2, 4, 16, 35, 0xC0, 255]),
            2 => bytes.truncate(at),
            3 => bytes.insert(at, random.byte()),
            4 => drop(bytes.drain(at..end)),
            _ => bytes.splice(at..at, bytes[at..end].to_vec()).for_each(drop),
        }
    }
    bytes
}
