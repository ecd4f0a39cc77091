//! "Receipt" and "Sending".
use super::block::{communities_of, encode, is_above_2, is_tag, otc_of, read, thrown_out};
use super::block::{Attribute, COMMUNITIES, LONG, OTC};
use super::origin::received_tag;
use super::{check_session, counterpart, demand, mode_meant, one_owner, Refusal};
use super::{BLOCK_MAX, DONE, INELIGIBLE, NO_ROOM, OUT_OF_RANGE, TOO_LONG, WITHHELD};
use super::{CUSTOMER, DROP_INVALID, INVALID, PEER, PROVIDER, RS, RS_CLIENT, UNAVAILABLE};
use bgp_policy::{Receipt, Session};

/// The source of an own route.
const OWN_ROUTE: u8 = 255;

/// The Partial bit (02, Q-2): "On receipt, and on sending with a source other than 255, a new OTC and a new communities attribute
/// begin E0; an own route keeps C0."
const PARTIAL: u8 = 0x20;

/// What receipt answers and the number beside it; on answer 0 the block is in `out`, and its length beside. Q-8's number is 0, and
/// Q-11's state 3, where there is none.
pub fn receive(session: Session, block: &[u8], out: &mut [u8]) -> Receipt {
    let (answer, beside) = store(received(session, block), out);
    Receipt {
        answer,
        beside,
        thrown_out: handed_on(answer, block).unwrap_or(0),
        state: match answer {
            DONE => state_handed_on(session, &out[..beside]),
            _ => UNAVAILABLE.into(),
        },
    }
}

/// receipt "on answer 0 hands on the state read from the rest (with byte 0 always 3)"; the rest is in the block stored.
fn state_handed_on(session: Session, stored: &[u8]) -> usize {
    if !one_owner(session) {
        return UNAVAILABLE.into();
    }
    let (_, state, _) = received_tag(stored);
    state
}

/// "Receipt hands the number on", "on answers 0 and 1", and no other.
pub fn handed_on(answer: u8, block: &[u8]) -> Option<usize> {
    match answer {
        DONE | INELIGIBLE => Some(thrown_out(&read(block).ok()?)),
        _ => None,
    }
}

/// of sending "the first gives the verdict and the exact length of the result"; a refusal has no length.
pub fn send_size(session: Session, source: u8, state: u8, block: &[u8]) -> (u8, usize) {
    match sent(session, source, state, block) {
        Ok(result) => (DONE, result.len()),
        Err(refusal) => refusal,
    }
}

/// "the second writes". On answer 0 the block is in `out`, and its length beside.
pub fn send_write(
    session: Session,
    source: u8,
    state: u8,
    block: &[u8],
    out: &mut [u8],
) -> (u8, usize) {
    store(sent(session, source, state, block), out)
}

/// The result of receipt.
pub fn received(session: Session, block: &[u8]) -> Result<Vec<u8>, Refusal> {
    check_session(session)?;
    demand(block.len() <= BLOCK_MAX, TOO_LONG)?;
    let mut attributes = read(block)?;
    let from = counterpart(session.local_role);
    let otc = otc_of(&attributes);
    if otc.is_some() && [CUSTOMER, RS_CLIENT].contains(&from) {
        return Err((INELIGIBLE, 1));
    }
    if otc.is_some() && from == PEER && otc != Some(session.remote_as) {
        return Err((INELIGIBLE, 2));
    }
    // "With 1, receipt drops only those 43 00 communities that have a value above 2".
    let dropped = if one_owner(session) {
        is_above_2
    } else {
        is_tag
    };
    drop_communities(&mut attributes, dropped);
    if otc.is_none() && [PROVIDER, PEER, RS].contains(&from) {
        add_otc(&mut attributes, PARTIAL, session.remote_as);
    }
    within_limit(encode(&attributes))
}

/// "Settings", those of sending: of a session, "state 0 to 3; source 0 to 4 or 255".
pub fn check_sending(session: Session, source: u8, state: u8) -> Result<(), Refusal> {
    check_session(session)?;
    demand(source <= 4 || source == OWN_ROUTE, OUT_OF_RANGE)?;
    demand(state <= 3, OUT_OF_RANGE)
}

/// The result of sending, the same for both of its calls: Q-6: "the second repeats every check".
pub fn sent(session: Session, source: u8, state: u8, block: &[u8]) -> Result<Vec<u8>, Refusal> {
    check_sending(session, source, state)?;
    demand(block.len() <= BLOCK_MAX, TOO_LONG)?;
    let mut attributes = read(block)?;
    let to = counterpart(session.local_role);
    let otc = otc_of(&attributes);
    let upwards = [PROVIDER, PEER, RS].contains(&to);
    if otc.is_some() && upwards {
        return Err((WITHHELD, 1));
    }
    if ![OWN_ROUTE, CUSTOMER].contains(&source) && upwards {
        return Err((WITHHELD, 2));
    }
    if mode_meant(session.mode) == DROP_INVALID && state == INVALID && to == RS_CLIENT {
        return Err((WITHHELD, 3));
    }
    // "sending drops all as before and tags towards any role".
    drop_communities(&mut attributes, is_tag);
    let partial = if source == OWN_ROUTE { 0 } else { PARTIAL };
    if (to == RS_CLIENT || one_owner(session)) && state != UNAVAILABLE {
        add_tag(&mut attributes, partial, state);
    }
    if otc.is_none() && [CUSTOMER, PEER, RS_CLIENT].contains(&to) {
        add_otc(&mut attributes, partial, session.local_as);
    }
    within_limit(encode(&attributes))
}

/// "drop every 43 00 community", or those of them that Q-11 says; "A communities attribute emptied by dropping goes away whole."
fn drop_communities(attributes: &mut Vec<Attribute>, dropped: fn(&[u8]) -> bool) {
    let mut left = communities_of(attributes);
    left.retain(|community| !dropped(community));
    attributes.retain(|attribute| attribute.kind != COMMUNITIES || !left.is_empty());
    for attribute in attributes {
        if attribute.kind == COMMUNITIES {
            attribute.value = left.concat();
        }
    }
}

/// "Tag: 43 00, five zeros, state. It goes last in the communities left; if there are none, as a new C0 10 08 attribute". "Its
/// length form is kept, save that a short one whose new length passes 255 becomes long."
fn add_tag(attributes: &mut Vec<Attribute>, partial: u8, state: u8) {
    let tag = [0x43, 0x00, 0, 0, 0, 0, 0, state];
    let mut all = attributes.iter_mut();
    match all.find(|attribute| attribute.kind == COMMUNITIES) {
        Some(communities) => {
            communities.value.extend(tag);
            if communities.value.len() > 255 {
                communities.flags |= LONG;
                communities.long = true;
            }
        }
        None => add_attribute(attributes, partial, COMMUNITIES, &tag),
    }
}

/// "New OTC: C0 23 04 and four bytes".
fn add_otc(attributes: &mut Vec<Attribute>, partial: u8, asn: u32) {
    add_attribute(attributes, partial, OTC, &asn.to_be_bytes());
}

/// A new attribute, C0 and the Partial bit or not, "before the first attribute of type above" its own, "else last".
fn add_attribute(attributes: &mut Vec<Attribute>, partial: u8, kind: u8, value: &[u8]) {
    let above = attributes.iter().position(|other| other.kind > kind);
    let new = Attribute {
        flags: 0xC0 | partial,
        kind,
        long: false,
        value: value.to_vec(),
    };
    attributes.insert(above.unwrap_or(attributes.len()), new);
}

/// "Answer 7 is given exactly when the result is longer than the output buffer or than 4,073": the latter, whatever the buffer. Q-6:
/// the first call of sending, which has none, "answers 7 only for a result above 4,073".
fn within_limit(result: Vec<u8>) -> Result<Vec<u8>, Refusal> {
    demand(result.len() <= BLOCK_MAX, NO_ROOM)?;
    Ok(result)
}

/// "Only answer 0 stores anything: bytes from the start of the output buffer"; 7 for a result that is longer than it.
fn store(result: Result<Vec<u8>, Refusal>, out: &mut [u8]) -> (u8, usize) {
    match result {
        Ok(block) if block.len() <= out.len() => {
            out[..block.len()].copy_from_slice(&block);
            (DONE, block.len())
        }
        Ok(_) => NO_ROOM,
        Err(refusal) => refusal,
    }
}
