//! Q-12, "Check the other make".
use super::block::{read, Attribute, LONG};
use super::passing::{check_sending, sent};
use super::{demand, Refusal, BLOCK_MAX, DONE, TOO_LONG, WITHHELD};
use bgp_policy::Session;

/// What checking answers: on answer 0 it is beside it whether the block of the other make is allowed, 1 for yes and 0 for no.
pub fn check_sent(
    session: Session,
    source: u8,
    state: u8,
    block: &[u8],
    theirs: &[u8],
) -> (u8, usize) {
    match allowed(session, source, state, block, theirs) {
        Ok(yes) => (DONE, yes.into()),
        Err(refusal) => refusal,
    }
}

/// "our verdict is answer 0, and its block has the same attributes as ours", once nothing is refused: "Refusals, ahead of yes or no: 5,
/// 6 for either block, 3 for the block handed in, and 7 where our own result exceeds 4,073".
fn allowed(
    session: Session,
    source: u8,
    state: u8,
    block: &[u8],
    theirs: &[u8],
) -> Result<bool, Refusal> {
    check_sending(session, source, state)?;
    demand(block.len() <= BLOCK_MAX, TOO_LONG)?;
    demand(theirs.len() <= BLOCK_MAX, TOO_LONG)?;
    let ours = match sent(session, source, state, block) {
        // "a route we would withhold and an unreadable sent block are each a no"
        Err((WITHHELD, _)) => return Ok(false),
        result => read(&result?).expect("what sending writes is readable"),
    };
    Ok(read(theirs).is_ok_and(|theirs| compared(&ours) == compared(&theirs)))
}

/// What is compared of attributes: "types, values and flags (the long-length bit apart), in any order and either length form".
fn compared(attributes: &[Attribute]) -> Vec<(u8, u8, &[u8])> {
    let mut list = Vec::new();
    for attribute in attributes {
        let flags = attribute.flags & !LONG;
        list.push((attribute.kind, flags, &attribute.value[..]));
    }
    list.sort();
    list
}
