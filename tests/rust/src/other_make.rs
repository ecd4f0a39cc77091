//! Blocks that another make of router may send in the place of ours: our own, changed in ways that are allowed and in ways that are not.
use crate::generate::{damaged, Random};
use crate::reference::{encode, read, Attribute, LONG};
use crate::shown;
use crate::sides::{Sending, REFERENCE, SIDES};
use bgp_policy::BLOCK_MAX;

/// What is changed of a block.
#[derive(Clone, Copy, Debug, PartialEq)]
pub enum Change {
    Nothing,
    Sequence,
    LengthForms,
    FlagBit,
    ValueByte,
    ValueLength,
    Type,
    LeftOut,
    Added,
    Repeated,
    SequenceOfCommunities,
    ByteLess,
    ByteMore,
    Damaged,
    TooLong,
    AnyBytes,
    Empty,
    HandedIn,
}

impl Change {
    pub const ALL: [Change; 18] = [
        Change::Nothing,
        Change::Sequence,
        Change::LengthForms,
        Change::FlagBit,
        Change::ValueByte,
        Change::ValueLength,
        Change::Type,
        Change::LeftOut,
        Change::Added,
        Change::Repeated,
        Change::SequenceOfCommunities,
        Change::ByteLess,
        Change::ByteMore,
        Change::Damaged,
        Change::TooLong,
        Change::AnyBytes,
        Change::Empty,
        Change::HandedIn,
    ];
}

/// The flag bits that are compared: all but the one of the length's form.
pub const FLAG_BITS: [u8; 7] = [0x80, 0x40, 0x20, 0x08, 0x04, 0x02, 0x01];

/// What is told of a sent block: yes or no, or a refusal.
pub const NO: (u8, usize) = (0, 0);
pub const YES: (u8, usize) = (0, 1);
pub const BAD_SETTING: (u8, usize) = (5, 0);
pub const TOO_LONG: (u8, usize) = (6, 0);
pub const NO_ROOM: (u8, usize) = (7, 0);

/// Every implementation tells this of a sent block.
pub fn everywhere(sending: Sending, block: &[u8], sent: &[u8], told: (u8, usize)) {
    for side in SIDES {
        let got = sending.check(&side, block, sent);
        let inputs = || format!("{sending:?}, block {}, sent {}", shown(block), shown(sent));
        assert_eq!(got, told, "{}: {}", side.name, inputs());
    }
}

/// What our own sending writes; none unless it answers 0.
pub fn own(sending: Sending, block: &[u8]) -> Option<Vec<u8>> {
    let mut out = vec![0; BLOCK_MAX];
    let (answer, length) = sending.write(&REFERENCE, block, &mut out);
    out.truncate(length);
    (answer == 0).then_some(out)
}

/// A block changed, where `ours` is what goes out, or something in its place, and `block` what sending was handed. Whatever else is
/// changed, the attributes stand at times in another sequence and in other length forms.
pub fn changed(random: &mut Random, change: Change, ours: &[u8], block: &[u8]) -> Vec<u8> {
    let mut bytes = allowed(random, ours);
    match change {
        Change::Nothing => return ours.to_vec(),
        Change::ByteLess => drop(bytes.pop()),
        Change::ByteMore => bytes.push(random.byte()),
        Change::Damaged => return damaged(random, bytes),
        Change::TooLong => bytes.resize(BLOCK_MAX + 1 + random.below(100), 0),
        Change::AnyBytes => {
            let count = random.below(60);
            return random.bytes(count);
        }
        Change::Empty => bytes.clear(),
        Change::HandedIn => return block.to_vec(),
        _ => {
            let mut list = read(&bytes).unwrap_or_default();
            if !list.is_empty() {
                alter(random, change, &mut list);
            }
            return encode(&list);
        }
    }
    bytes
}

// The attributes of a block in another sequence or in other forms, or neither; as they stand where they would be too many bytes.
fn allowed(random: &mut Random, block: &[u8]) -> Vec<u8> {
    let mut list = read(block).unwrap_or_default();
    if random.one_in(2) {
        random.shuffle(&mut list);
    }
    if random.one_in(4) {
        other_forms(random, &mut list);
    }
    let other = encode(&list);
    match list.is_empty() || other.len() > BLOCK_MAX {
        true => block.to_vec(),
        false => other,
    }
}

// Changes attributes, of which there is at least one.
fn alter(random: &mut Random, change: Change, list: &mut Vec<Attribute>) {
    let (at, place) = (random.below(list.len()), random.below(list.len() + 1));
    match change {
        Change::Sequence => random.shuffle(list),
        Change::LengthForms => other_forms(random, list),
        // also that of the length's form alone, the length as it stands
        Change::FlagBit => list[at].flags ^= 1 << random.below(8),
        Change::ValueByte => other_byte(random, list),
        Change::ValueLength => other_length(random, &mut list[at]),
        Change::Type => list[at].kind ^= 1 << random.below(8),
        Change::LeftOut => drop(list.remove(at)),
        Change::Added => list.insert(place, another(random, list)),
        Change::Repeated => list.insert(place, list[at].clone()),
        Change::SequenceOfCommunities => shuffle_communities(random, list),
        other => panic!("{other:?} is no change of attributes"),
    }
}

/// Writes an attribute's length in the other form, if it has one.
pub fn other_form(attribute: &mut Attribute) {
    if !attribute.long || attribute.value.len() <= 255 {
        attribute.long = !attribute.long;
        attribute.flags ^= LONG;
    }
}

/// Writes the lengths of some attributes in the other form.
pub fn other_forms(random: &mut Random, list: &mut [Attribute]) {
    for attribute in list {
        if random.one_in(2) {
            other_form(attribute);
        }
    }
}

// Changes a byte of a value; a readable block has an ORIGIN, of one byte.
fn other_byte(random: &mut Random, list: &mut [Attribute]) {
    let mut values: Vec<&mut Vec<u8>> = list.iter_mut().map(|a| &mut a.value).collect();
    values.retain(|value| !value.is_empty());
    let at = random.below(values.len());
    let place = random.below(values[at].len());
    values[at][place] ^= 1 << random.below(8);
}

// A value of some bytes more or fewer at its end, a community or a single byte.
fn other_length(random: &mut Random, attribute: &mut Attribute) {
    let (length, bytes) = (attribute.value.len(), random.pick(&[1, 8]));
    match random.one_in(2) && bytes <= length {
        true => attribute.value.truncate(length - bytes),
        false => attribute.value.extend(random.bytes(bytes)),
    }
    if attribute.value.len() > 255 && !attribute.long {
        other_form(attribute);
    }
}

/// An attribute of a type that no other has.
pub fn another(random: &mut Random, list: &[Attribute]) -> Attribute {
    let mut types: Vec<u8> = (0..=255).collect();
    types.retain(|kind| list.iter().all(|attribute| attribute.kind != *kind));
    let length = random.pick(&[0, 1, 4, 8]);
    Attribute {
        flags: random.pick(&[0x40, 0x80, 0xC0, 0xE0]),
        kind: random.pick(&types),
        long: false,
        value: random.bytes(length),
    }
}

fn shuffle_communities(random: &mut Random, list: &mut [Attribute]) {
    if let Some(attribute) = list.iter_mut().find(|attribute| attribute.kind == 16) {
        let mut communities: Vec<&[u8]> = attribute.value.chunks(8).collect();
        random.shuffle(&mut communities);
        attribute.value = communities.concat();
    }
}
