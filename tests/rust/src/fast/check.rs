//! The check of a block that another make of router sent: whether it has the attributes of the one that goes out, which is planned and
//! not stored.
use super::block::{first_attribute, is_tag, Attribute, Block};
use super::block::{COMMUNITIES, EXTENDED_LENGTH, OTC};
use super::passing::{is_sending, send_read};
use super::write::{tag, Plan};
use super::{Answer, BAD_SETTING, DONE, MALFORMED, MAX_BLOCK, TOO_LONG, WITHHELD};
use bgp_policy::Session;

/// Whether the block that another make sent is allowed.
pub fn check_sent(session: Session, source: u8, state: u8, block: &[u8], sent: &[u8]) -> Answer {
    if !is_sending(&session, source, state) {
        return (BAD_SETTING, 0);
    }
    if block.len() > MAX_BLOCK || sent.len() > MAX_BLOCK {
        return (TOO_LONG, 0);
    }
    let block = match Block::read(block) {
        Ok(block) => block,
        Err(fault) => return (MALFORMED, fault),
    };
    let judged = send_read(&session, source, state, &block, |plan| match plan.size() {
        (DONE, _) => (DONE, allows(&plan, sent).into()),
        refused => refused,
    });
    match judged {
        // nothing may be sent in the place of a route that is withheld
        (WITHHELD, _) => (DONE, 0),
        judged => judged,
    }
}

/// Whether a sent block has the attributes of the one planned and no others. No two of these have one type, so that each is found at a
/// place of its own: where they cover the sent block it holds nothing else, and is readable as the one planned is.
fn allows(plan: &Plan, sent: &[u8]) -> bool {
    let (block, new) = (plan.block, &plan.new);
    let new_tag = if plan.kept == 0 { new.tag } else { None };
    let mut theirs = Sent {
        bytes: sent,
        next: sent,
        covered: 0,
    };
    theirs.has_all(plan, 0, block.above_16)
        && new_tag.is_none_or(|state| theirs.has(new.flags, COMMUNITIES, &tag(state)))
        && theirs.has_all(plan, block.above_16, block.above_35)
        && new
            .otc
            .is_none_or(|asn| theirs.has(new.flags, OTC, &asn.to_be_bytes()))
        && theirs.has_all(plan, block.above_35, block.bytes.len())
        && theirs.covered == sent.len()
}

/// A sent block: what follows the attribute found last, and how many bytes those found have.
struct Sent<'a> {
    bytes: &'a [u8],
    next: &'a [u8],
    covered: usize,
}

impl<'a> Sent<'a> {
    /// The value of the attribute of a type; none if there is no such attribute, or its flags are others, the form of its length apart.
    #[inline(always)]
    fn find(&mut self, flags: u8, kind: u8) -> Option<&'a [u8]> {
        let next = self.next;
        // in a block of our own sequence it follows the one found last
        let (theirs, rest, length) = match first_attribute(next) {
            Some((theirs, rest)) if theirs.kind == kind => (theirs, rest, next.len() - rest.len()),
            _ => self.scan(kind)?,
        };
        self.next = rest;
        self.covered += length;
        ((theirs.flags ^ flags) & !EXTENDED_LENGTH == 0).then_some(theirs.value)
    }

    /// The first attribute of a type from the start on, the bytes after it, and how many bytes it has.
    #[cold]
    fn scan(&self, kind: u8) -> Option<(Attribute<'a>, &'a [u8], usize)> {
        let mut left = self.bytes;
        loop {
            let (theirs, rest) = first_attribute(left)?;
            if theirs.kind == kind {
                return Some((theirs, rest, left.len() - rest.len()));
            }
            left = rest;
        }
    }

    /// Whether an attribute is there.
    #[inline]
    fn has(&mut self, flags: u8, kind: u8, value: &[u8]) -> bool {
        self.find(flags, kind) == Some(value)
    }

    /// Whether whole attributes of the block handed in are there as they go out.
    #[inline]
    fn has_all(&mut self, plan: &Plan, from: usize, to: usize) -> bool {
        // often there are none between two new attributes, and looking for none is a call too
        from == to || self.has_each(plan, &plan.block.bytes[from..to])
    }

    fn has_each(&mut self, plan: &Plan, mut left: &[u8]) -> bool {
        while let Some((ours, rest)) = first_attribute(left) {
            let same = match ours.kind {
                COMMUNITIES => self.has_communities(plan, &ours),
                _ => self.has(ours.flags, ours.kind, ours.value),
            };
            if !same {
                return false;
            }
            left = rest;
        }
        true
    }

    /// Whether the communities left, which lose every tag, are there in their sequence, a new tag last; true if none is left.
    fn has_communities(&mut self, plan: &Plan, ours: &Attribute) -> bool {
        if plan.kept == 0 {
            return true;
        }
        let Some(theirs) = self.find(ours.flags, COMMUNITIES) else {
            return false;
        };
        if theirs.len() != plan.value() {
            return false;
        }
        let (theirs, last) = theirs.split_at(plan.kept);
        if plan.new.tag.is_some_and(|state| last != tag(state)) {
            return false;
        }
        if plan.kept == ours.value.len() {
            return theirs == ours.value;
        }
        let left = ours.value.chunks_exact(8).filter(|c| !is_tag(c));
        left.zip(theirs.chunks_exact(8)).all(|(a, b)| a == b)
    }
}
