//! Receipt and sending of a block on a session, and the check of what another make of router sent there.
use crate::raw;
use crate::UNSET;

/// The source of an own route.
pub const OWN_ROUTE: u8 = 255;

/// A session as one end sees it.
#[derive(Clone, Copy, Debug)]
pub struct Session {
    pub local_as: u32,
    pub remote_as: u32,
    pub local_role: u8,
    pub mode: u8,
    /// 1 where both ends are under one administration, else 0.
    pub one_administration: u8,
}

/// What receipt tells.
#[derive(Clone, Copy, Debug, PartialEq, Eq)]
pub struct Receipt {
    pub answer: u8,
    /// The number beside the answer, on answer 0 the written length.
    pub beside: usize,
    /// How many tags of the block have a value above 2, for the log that RFC 8097 asks for; 0 on answers other than 0 and 1.
    pub thrown_out: usize,
    /// The state that the tags left tell, for a caller with no VRP table of its own; 3, unavailable, where the session is not under
    /// one administration, and on every answer but 0.
    pub state: usize,
}

/// Receipt of a block.
pub fn receive(session: Session, block: &[u8], out: &mut [u8]) -> Receipt {
    let (mut beside, mut thrown_out, mut state) = (UNSET, UNSET, UNSET);
    // Safe: the pointers and lengths are those of slices, and `out`, being `&mut`, overlaps nothing.
    let answer = unsafe {
        raw::bgp_receive(
            session.local_as,
            session.remote_as,
            session.local_role,
            session.mode,
            session.one_administration,
            block.as_ptr(),
            block.len(),
            out.as_mut_ptr(),
            out.len(),
            &mut beside,
            &mut thrown_out,
            &mut state,
        )
    };
    Receipt {
        answer,
        beside,
        thrown_out,
        state,
    }
}

/// Sending of a block, the verdict and the length: the answer number and the number beside it (on answer 0 the exact length of the
/// block that goes out, at most 4,073).
pub fn send_size(session: Session, source: u8, state: u8, block: &[u8]) -> (u8, usize) {
    let mut beside = UNSET;
    // Safe: the pointer and length are those of a slice, and `beside` lies outside it.
    let answer = unsafe {
        raw::bgp_send_size(
            session.local_as,
            session.remote_as,
            session.local_role,
            session.mode,
            session.one_administration,
            source,
            state,
            block.as_ptr(),
            block.len(),
            &mut beside,
        )
    };
    (answer, beside)
}

/// Sending of a block, the writing: the answer number and the number beside it (the written length on answer 0), which are those of
/// `send_size`, but that after a 0 there an `out` shorter than that length gives 7. It makes every check: no earlier call is needed.
pub fn send_write(
    session: Session,
    source: u8,
    state: u8,
    block: &[u8],
    out: &mut [u8],
) -> (u8, usize) {
    let mut beside = UNSET;
    // Safe: as in `receive`.
    let answer = unsafe {
        raw::bgp_send_write(
            session.local_as,
            session.remote_as,
            session.local_role,
            session.mode,
            session.one_administration,
            source,
            state,
            block.as_ptr(),
            block.len(),
            out.as_mut_ptr(),
            out.len(),
            &mut beside,
        )
    };
    (answer, beside)
}

/// The check of `sent`, the block that another make of router sent where `send_size` is handed the rest: the answer number and the
/// number beside it (on answer 0 1 for yes, it has the attributes of the block that goes out, or 0 for no).
pub fn check_sent(
    session: Session,
    source: u8,
    state: u8,
    block: &[u8],
    sent: &[u8],
) -> (u8, usize) {
    let mut beside = UNSET;
    // Safe: the pointers and lengths are those of slices, which are only read, and `beside` lies outside them.
    let answer = unsafe {
        raw::bgp_check_sent(
            session.local_as,
            session.remote_as,
            session.local_role,
            session.mode,
            session.one_administration,
            source,
            state,
            block.as_ptr(),
            block.len(),
            sent.as_ptr(),
            sent.len(),
            &mut beside,
        )
    };
    (answer, beside)
}
