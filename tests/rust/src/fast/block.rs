//! Reading of an attribute block: its faults 1 to 6, and the parts that the policy looks at.
use super::{number, INVALID, UNAVAILABLE};

pub const EXTENDED_LENGTH: u8 = 0x10;
const ORIGIN: u8 = 1;
const AS_PATH: u8 = 2;
pub const COMMUNITIES: u8 = 16;
pub const OTC: u8 = 35;

/// A readable block.
pub struct Block<'a> {
    pub bytes: &'a [u8],
    pub origin: u8,
    pub as_path: &'a [u8],
    pub otc: Option<u32>,
    pub communities: Option<Communities<'a>>,
    /// Where the first attribute of type above 16 starts, else the block's end.
    pub above_16: usize,
    /// Where the first attribute of type above 35 starts, else the block's end.
    pub above_35: usize,
}

/// The extended communities attribute: the bytes of the block from `start` to `end`, header included.
pub struct Communities<'a> {
    pub start: usize,
    pub end: usize,
    pub flags: u8,
    pub value: &'a [u8],
}

/// An attribute of any type.
pub struct Attribute<'a> {
    pub flags: u8,
    pub kind: u8,
    pub value: &'a [u8],
}

impl Communities<'_> {
    pub fn is_long(&self) -> bool {
        self.flags & EXTENDED_LENGTH != 0
    }

    /// The header with another length; a length above 255 takes the long form.
    pub fn header(&self, length: usize) -> ([u8; 4], usize) {
        if self.is_long() || length > 255 {
            let [high, low] = (length as u16).to_be_bytes();
            ([self.flags | EXTENDED_LENGTH, COMMUNITIES, high, low], 4)
        } else {
            ([self.flags, COMMUNITIES, length as u8, 0], 3)
        }
    }
}

/// Whether a community is a validation state tag.
pub fn is_tag(community: &[u8]) -> bool {
    community.starts_with(&[0x43, 0x00])
}

/// Whether a tag tells no state and is thrown out.
pub fn is_erroneous(tag: &[u8]) -> bool {
    tag[7] > INVALID
}

/// How many of some communities are tags, and how many of those are thrown out.
#[inline]
pub fn counted(communities: &[u8]) -> (usize, usize) {
    let (mut tags, mut thrown_out) = (0, 0);
    for tag in communities.chunks_exact(8).filter(|c| is_tag(c)) {
        tags += 1;
        thrown_out += usize::from(is_erroneous(tag));
    }
    (tags, thrown_out)
}

/// The greatest state that the tags among communities tell, else unavailable; and how many of them are thrown out.
#[inline]
pub fn told_by_tags(communities: &[u8]) -> (u8, usize) {
    let (mut state, mut thrown_out) = (None, 0);
    for tag in communities.chunks_exact(8).filter(|c| is_tag(c)) {
        if is_erroneous(tag) {
            thrown_out += 1;
        } else {
            state = state.max(Some(tag[7]));
        }
    }
    (state.unwrap_or(UNAVAILABLE), thrown_out)
}

impl<'a> Block<'a> {
    /// The block read, or its leftmost fault.
    pub fn read(bytes: &'a [u8]) -> Result<Self, usize> {
        let mut block = Block {
            bytes,
            origin: 0,
            as_path: &[],
            otc: None,
            communities: None,
            above_16: bytes.len(),
            above_35: bytes.len(),
        };
        let mut seen = Seen([0; 4]);
        let mut start = 0;
        while start < bytes.len() {
            let (attribute, rest) = first_attribute(&bytes[start..]).ok_or(1usize)?;
            if !seen.insert(attribute.kind) {
                return Err(2);
            }
            let end = bytes.len() - rest.len();
            block.note(attribute, start, end)?;
            start = end;
        }
        match (seen.has(ORIGIN), seen.has(AS_PATH)) {
            (false, _) => Err(3),
            (true, false) => Err(4),
            (true, true) => Ok(block),
        }
    }

    fn note(&mut self, attribute: Attribute<'a>, start: usize, end: usize) -> Result<(), usize> {
        let value = attribute.value;
        match attribute.kind {
            ORIGIN => match *value {
                [origin @ 0..=2] => self.origin = origin,
                _ => return Err(3),
            },
            AS_PATH if is_path(value) => self.as_path = value,
            AS_PATH => return Err(4),
            OTC if value.len() == 4 => self.otc = Some(number(value)),
            OTC => return Err(5),
            COMMUNITIES if value.is_empty() || value.len() % 8 != 0 => return Err(6),
            COMMUNITIES => {
                self.communities = Some(Communities {
                    start,
                    end,
                    flags: attribute.flags,
                    value,
                })
            }
            _ => {}
        }
        if attribute.kind > COMMUNITIES {
            self.above_16 = self.above_16.min(start);
        }
        if attribute.kind > OTC {
            self.above_35 = self.above_35.min(start);
        }
        Ok(())
    }
}

/// The first attribute and the bytes after it; none if it overruns.
pub fn first_attribute(bytes: &[u8]) -> Option<(Attribute<'_>, &[u8])> {
    let (flags, kind, length, rest) = match *bytes {
        [flags, kind, high, low, ref rest @ ..] if flags & EXTENDED_LENGTH != 0 => {
            (flags, kind, u16::from_be_bytes([high, low]).into(), rest)
        }
        [flags, kind, length, ref rest @ ..] if flags & EXTENDED_LENGTH == 0 => {
            (flags, kind, usize::from(length), rest)
        }
        _ => return None,
    };
    if length > rest.len() {
        return None;
    }
    let (value, rest) = rest.split_at(length);
    Some((Attribute { flags, kind, value }, rest))
}

/// The attribute types met so far, a bit to each.
struct Seen([u64; 4]);

impl Seen {
    fn has(&self, kind: u8) -> bool {
        self.0[usize::from(kind >> 6)] >> (kind & 63) & 1 != 0
    }

    /// Adds a type; false if it was there.
    fn insert(&mut self, kind: u8) -> bool {
        let new = !self.has(kind);
        self.0[usize::from(kind >> 6)] |= 1 << (kind & 63);
        new
    }
}

/// The segments of an AS_PATH from its start to its end, or to the first that is malformed.
pub struct Segments<'a>(pub &'a [u8]);

/// A segment: a set or a sequence, and its ASNs of four bytes each.
pub struct Segment<'a> {
    pub is_set: bool,
    pub asns: &'a [u8],
}

impl<'a> Iterator for Segments<'a> {
    type Item = Segment<'a>;

    fn next(&mut self) -> Option<Segment<'a>> {
        let [kind @ 1..=2, count @ 1..=255, rest @ ..] = self.0 else {
            return None;
        };
        let size = 4 * usize::from(*count);
        if size > rest.len() {
            return None;
        }
        let (asns, rest) = rest.split_at(size);
        self.0 = rest;
        let is_set = *kind == 1;
        Some(Segment { is_set, asns })
    }
}

fn is_path(value: &[u8]) -> bool {
    let mut segments = Segments(value);
    let has_zero = |segment: Segment| segment.asns.chunks_exact(4).any(|asn| number(asn) == 0);
    !segments.by_ref().any(has_zero) && segments.0.is_empty()
}
