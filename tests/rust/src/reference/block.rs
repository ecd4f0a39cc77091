//! "Reading an attribute block".
use super::input::Input;
use super::{Refusal, MALFORMED};

pub const ORIGIN: u8 = 1;
pub const AS_PATH: u8 = 2;
pub const COMMUNITIES: u8 = 16;
pub const OTC: u8 = 35;

/// The flag bit of a length of two bytes.
pub const LONG: u8 = 0x10;

/// An attribute; `long` is the form of its length.
#[derive(Clone, Debug, PartialEq)]
pub struct Attribute {
    pub flags: u8,
    pub kind: u8,
    pub long: bool,
    pub value: Vec<u8>,
}

/// A segment of an AS_PATH.
pub struct Segment {
    pub set: bool,
    pub asns: Vec<u32>,
}

/// The attributes of a block, or answer 3 with its leftmost fault.
pub fn read(block: &[u8]) -> Result<Vec<Attribute>, Refusal> {
    let (attributes, overrun) = split(block);
    // All faults, from left to right. "Within one attribute the lower number goes first".
    let mut faults = Vec::new();
    for (index, attribute) in attributes.iter().enumerate() {
        let earlier = &attributes[..index];
        if earlier.iter().any(|other| other.kind == attribute.kind) {
            faults.push(2);
        }
        faults.extend(fault_within(attribute));
    }
    if overrun {
        faults.push(1);
    }
    // "absences come after the walk, 3 before 4"
    for (kind, fault) in [(ORIGIN, 3), (AS_PATH, 4)] {
        if value_of(&attributes, kind).is_none() {
            faults.push(fault);
        }
    }
    match faults.first() {
        Some(fault) => Err((MALFORMED, *fault)),
        None => Ok(attributes),
    }
}

/// The attributes up to one that overruns, "a cut header included", and whether there is one.
fn split(block: &[u8]) -> (Vec<Attribute>, bool) {
    let (mut input, mut attributes) = (Input(block), Vec::new());
    while !input.is_empty() {
        match attribute(&mut input) {
            Some(attribute) => attributes.push(attribute),
            None => return (attributes, true),
        }
    }
    (attributes, false)
}

/// "Flags, type, length (two bytes if flag bit 0x10 is set, else one), value."
fn attribute(input: &mut Input) -> Option<Attribute> {
    let flags = input.byte()?;
    let kind = input.byte()?;
    let long = flags & LONG != 0;
    let length = input.number(if long { 2 } else { 1 })?;
    let value = input.bytes(length as usize)?.to_vec();
    Some(Attribute {
        flags,
        kind,
        long,
        value,
    })
}

/// The fault of an attribute's value.
fn fault_within(attribute: &Attribute) -> Option<usize> {
    let value = &attribute.value;
    match attribute.kind {
        ORIGIN if value.len() != 1 || value[0] > 2 => Some(3),
        AS_PATH if segments(value).is_none() => Some(4),
        OTC if value.len() != 4 => Some(5),
        COMMUNITIES if value.is_empty() || value.len() % 8 != 0 => Some(6),
        _ => None,
    }
}

/// "AS_PATH is segments of type 1 (set) or 2 (sequence), a count from 1 to 255, and four-byte ASNs; a zero ASN is malformed".
pub fn segments(path: &[u8]) -> Option<Vec<Segment>> {
    let (mut input, mut segments) = (Input(path), Vec::new());
    while !input.is_empty() {
        let kind = input.byte()?;
        let count = input.byte()?;
        let mut asns = Vec::new();
        for _ in 0..count {
            asns.push(input.number(4)?);
        }
        if ![1, 2].contains(&kind) || count == 0 || asns.contains(&0) {
            return None;
        }
        let set = kind == 1;
        segments.push(Segment { set, asns });
    }
    Some(segments)
}

/// The value of the attribute of a type; none if the block has no such attribute.
pub fn value_of(attributes: &[Attribute], kind: u8) -> Option<&[u8]> {
    let found = attributes.iter().find(|attribute| attribute.kind == kind)?;
    Some(&found.value)
}

/// The segments of a readable block's path.
pub fn path_of(attributes: &[Attribute]) -> Vec<Segment> {
    let path = value_of(attributes, AS_PATH).expect("a readable block has a path");
    segments(path).expect("a readable block's path is well formed")
}

/// The AS that a readable block's OTC names, "high byte first".
pub fn otc_of(attributes: &[Attribute]) -> Option<u32> {
    Input(value_of(attributes, OTC)?).number(4)
}

/// A readable block's communities, eight bytes each.
pub fn communities_of(attributes: &[Attribute]) -> Vec<Vec<u8>> {
    let value = value_of(attributes, COMMUNITIES).unwrap_or(&[]);
    value
        .chunks(8)
        .map(|community| community.to_vec())
        .collect()
}

/// A community "that begins 43 00".
pub fn is_tag(community: &[u8]) -> bool {
    community[0] == 0x43 && community[1] == 0x00
}

/// A 43 00 community "with a value above 2"; its value is its last byte.
pub fn is_above_2(community: &[u8]) -> bool {
    is_tag(community) && community[7] > 2
}

/// "the number of 43 00 communities with a value above 2".
pub fn thrown_out(attributes: &[Attribute]) -> usize {
    let mut tags = communities_of(attributes);
    tags.retain(|community| is_above_2(community));
    tags.len()
}

/// The bytes of a block.
pub fn encode(attributes: &[Attribute]) -> Vec<u8> {
    let mut block = Vec::new();
    for attribute in attributes {
        let length = attribute.value.len();
        block.extend([attribute.flags, attribute.kind]);
        if attribute.long {
            block.push((length / 256) as u8);
        }
        block.push((length % 256) as u8);
        block.extend(&attribute.value);
    }
    block
}
