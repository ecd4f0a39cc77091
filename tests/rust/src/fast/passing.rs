//! Receipt and sending: the verdict on a block, and the block that is kept or sent.
use super::block::{counted, told_by_tags, Block};
use super::write::{New, Plan, LEARNED, OWN};
use super::{drops_invalid, refused, remote_role, Answer};
use super::{BAD_SETTING, DONE, LEAK, MALFORMED, TOO_LONG, WITHHELD};
use super::{CUSTOMER, PEER, PROVIDER, RS, RS_CLIENT};
use super::{INVALID, MAX_BLOCK, OWN_SOURCE, PRIORITISE, UNAVAILABLE};
use bgp_policy::{Receipt, Session};

/// Whether every setting of a session is in range. A route server is under one administration with no other end: it strips all tags.
pub fn is_session(session: &Session) -> bool {
    session.local_as != 0
        && session.remote_as != 0
        && session.local_as != session.remote_as
        && session.local_role <= PEER
        && session.mode <= PRIORITISE
        && session.one_administration <= u8::from(session.local_role != RS)
}

/// What is kept of a block from the other end.
pub fn receive(session: Session, block: &[u8], out: &mut [u8]) -> Receipt {
    if !is_session(&session) {
        return refused(BAD_SETTING, 0, 0);
    }
    if block.len() > MAX_BLOCK {
        return refused(TOO_LONG, 0, 0);
    }
    match Block::read(block) {
        Ok(block) => receive_read(&session, &block, out),
        Err(fault) => refused(MALFORMED, fault, 0),
    }
}

/// Receipt of a readable block on a session in range.
pub fn receive_read(session: &Session, block: &Block, out: &mut [u8]) -> Receipt {
    let from = remote_role(session.local_role);
    if let Some(otc) = block.otc {
        if matches!(from, CUSTOMER | RS_CLIENT) {
            return refused(LEAK, 1, thrown_out(block));
        }
        if from == PEER && otc != session.remote_as {
            return refused(LEAK, 2, thrown_out(block));
        }
    }
    let marks = matches!(from, PROVIDER | PEER | RS) && block.otc.is_none();
    let new = New {
        flags: LEARNED,
        tag: None,
        otc: marks.then_some(session.remote_as),
    };
    let stay = session.one_administration != 0;
    let (tags, thrown_out) = counted(communities(block));
    let lost = if stay { thrown_out } else { tags };
    let (answer, beside) = Plan::of(block, stay, lost, new).store(out);
    if answer != DONE {
        return refused(answer, beside, 0);
    }
    let state = match stay {
        true => told_by_tags(communities(block)).0,
        false => UNAVAILABLE,
    };
    Receipt {
        answer,
        beside,
        thrown_out,
        state: state.into(),
    }
}

fn communities<'a>(block: &Block<'a>) -> &'a [u8] {
    block.communities.as_ref().map_or(&[], |c| c.value)
}

// How many tags of a block that is not stored are thrown out.
fn thrown_out(block: &Block) -> usize {
    told_by_tags(communities(block)).1
}

/// Whether every setting of a sending is in range.
pub fn is_sending(session: &Session, source: u8, state: u8) -> bool {
    let known_source = source <= PEER || source == OWN_SOURCE;
    is_session(session) && known_source && state <= UNAVAILABLE
}

/// Whether a block goes out to the other end, and how long it is then.
pub fn send_size(session: Session, source: u8, state: u8, block: &[u8]) -> Answer {
    send(&session, source, state, block, |plan| plan.size())
}

/// What goes out of a block to the other end.
pub fn send_write(session: Session, source: u8, state: u8, block: &[u8], out: &mut [u8]) -> Answer {
    send(&session, source, state, block, |plan| plan.store(out))
}

/// A block that is to go out: what `tell` makes of the plan for it, unless it is refused.
fn send(
    session: &Session,
    source: u8,
    state: u8,
    block: &[u8],
    tell: impl FnOnce(Plan) -> Answer,
) -> Answer {
    if !is_sending(session, source, state) {
        return (BAD_SETTING, 0);
    }
    if block.len() > MAX_BLOCK {
        return (TOO_LONG, 0);
    }
    match Block::read(block) {
        Ok(block) => send_read(session, source, state, &block, tell),
        Err(fault) => (MALFORMED, fault),
    }
}

/// The same of a readable block with settings in range.
pub fn send_read(
    session: &Session,
    source: u8,
    state: u8,
    block: &Block,
    tell: impl FnOnce(Plan) -> Answer,
) -> Answer {
    let to = remote_role(session.local_role);
    if matches!(to, PROVIDER | PEER | RS) {
        if block.otc.is_some() {
            return (WITHHELD, 1);
        }
        if !matches!(source, OWN_SOURCE | CUSTOMER) {
            return (WITHHELD, 2);
        }
    }
    if drops_invalid(session.mode) && state == INVALID && to == RS_CLIENT {
        return (WITHHELD, 3);
    }
    let tags = (to == RS_CLIENT || session.one_administration != 0) && state != UNAVAILABLE;
    let marks = matches!(to, CUSTOMER | PEER | RS_CLIENT) && block.otc.is_none();
    let new = New {
        flags: if source == OWN_SOURCE { OWN } else { LEARNED },
        tag: tags.then_some(state),
        otc: marks.then_some(session.local_as),
    };
    let (lost, _) = counted(communities(block));
    tell(Plan::of(block, false, lost, new))
}
