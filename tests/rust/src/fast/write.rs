//! The block that receipt and sending store, planned and then stored: a copy without the tags that go, and with a tag and an OTC where
//! they are due.
use super::block::{is_erroneous, is_tag, Block, Communities};
use super::{Answer, DONE, MAX_BLOCK, NO_ROOM};

/// The flags of new attributes: optional and transitive, and partial on a route that is not the sender's own.
pub const OWN: u8 = 0xC0;
pub const LEARNED: u8 = 0xE0;

/// How many bytes they have.
const TAG_ATTRIBUTE: usize = 11;
const OTC_ATTRIBUTE: usize = 7;

/// What is new: a tag, which goes after the communities left or, where there are none, in an attribute of its own, and an OTC.
pub struct New {
    pub flags: u8,
    pub tag: Option<u8>,
    pub otc: Option<u32>,
}

/// What becomes of a block, and how long it is then.
pub struct Plan<'a> {
    pub block: &'a Block<'a>,
    /// Whether tags that are not thrown out stay.
    stay: bool,
    /// How many bytes of communities are left; their attribute goes away if there are none.
    pub kept: usize,
    pub new: New,
    length: usize,
}

impl<'a> Plan<'a> {
    /// The plan for a block that loses its tags, or where the others `stay` those alone that are thrown out: so many in either case.
    #[inline]
    pub fn of(block: &'a Block<'a>, stay: bool, lost: usize, new: New) -> Self {
        let mut plan = Plan {
            block,
            stay,
            kept: 0,
            new,
            length: block.bytes.len(),
        };
        if let Some(communities) = &block.communities {
            plan.kept = communities.value.len() - 8 * lost;
            plan.length -= communities.end - communities.start;
            if plan.kept != 0 {
                plan.length += communities.header(plan.value()).1 + plan.value();
            }
        }
        if plan.new.tag.is_some() && plan.kept == 0 {
            plan.length += TAG_ATTRIBUTE;
        }
        if plan.new.otc.is_some() {
            plan.length += OTC_ATTRIBUTE;
        }
        plan
    }

    /// The length of the communities' new value, where some are left.
    pub fn value(&self) -> usize {
        self.kept + if self.new.tag.is_some() { 8 } else { 0 }
    }

    fn drops(&self, community: &[u8]) -> bool {
        is_tag(community) && (!self.stay || is_erroneous(community))
    }

    /// How long the block becomes, unless no block may be so long.
    #[inline]
    pub fn size(&self) -> Answer {
        if self.length > MAX_BLOCK {
            return (NO_ROOM, 0);
        }
        (DONE, self.length)
    }

    /// Stores the block, unless it has no room.
    pub fn store(&self, out: &mut [u8]) -> Answer {
        if self.length > out.len().min(MAX_BLOCK) {
            return (NO_ROOM, 0);
        }
        let (block, new) = (self.block, &self.new);
        let mut pen = Pen { out, at: 0 };
        pen.copy(self, 0, block.above_16);
        if let (Some(state), 0) = (new.tag, self.kept) {
            pen.put(&tag_attribute(new.flags, state));
        }
        pen.copy(self, block.above_16, block.above_35);
        if let Some(asn) = new.otc {
            pen.put(&otc_attribute(new.flags, asn));
        }
        pen.copy(self, block.above_35, block.bytes.len());
        (DONE, self.length)
    }
}

pub fn tag(state: u8) -> [u8; 8] {
    [0x43, 0, 0, 0, 0, 0, 0, state]
}

fn tag_attribute(flags: u8, state: u8) -> [u8; TAG_ATTRIBUTE] {
    [flags, 0x10, 0x08, 0x43, 0, 0, 0, 0, 0, 0, state]
}

fn otc_attribute(flags: u8, asn: u32) -> [u8; OTC_ATTRIBUTE] {
    let [a, b, c, d] = asn.to_be_bytes();
    [flags, 0x23, 0x04, a, b, c, d]
}

/// The output buffer and how far it is written.
struct Pen<'a> {
    out: &'a mut [u8],
    at: usize,
}

impl Pen<'_> {
    #[inline]
    fn put(&mut self, bytes: &[u8]) {
        // often there is nothing between two new attributes, and copying that is a call too
        if bytes.is_empty() {
            return;
        }
        self.out[self.at..self.at + bytes.len()].copy_from_slice(bytes);
        self.at += bytes.len();
    }

    /// Copies whole attributes of a block; the communities, if among them, as the plan says.
    fn copy(&mut self, plan: &Plan, from: usize, to: usize) {
        let block = plan.block;
        match &block.communities {
            Some(communities) if from <= communities.start && communities.start < to => {
                self.put(&block.bytes[from..communities.start]);
                self.put_communities(plan, communities);
                self.put(&block.bytes[communities.end..to]);
            }
            _ => self.put(&block.bytes[from..to]),
        }
    }

    fn put_communities(&mut self, plan: &Plan, communities: &Communities) {
        if plan.kept == 0 {
            return;
        }
        // of either size as such, which takes no call
        match communities.header(plan.value()) {
            (header, 3) => self.put(&header[..3]),
            (header, _) => self.put(&header),
        }
        if plan.kept == communities.value.len() {
            self.put(communities.value);
        } else {
            let mut communities = communities.value.chunks_exact(8);
            communities
                .by_ref()
                .filter(|c| !plan.drops(c))
                .for_each(|c| self.put(c));
        }
        if let Some(state) = plan.new.tag {
            self.put(&tag(state));
        }
    }
}
