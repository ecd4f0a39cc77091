//! Document 01 in plain Rust, with document 02's, written from their text alone and slow
//! on purpose: whole lists that are read, altered and written anew. The tests compare the proved library with it. A file follows a
//! section of document 01 or a request; sentences in quotes are its, after "Q-1:" or another request's number those of that request.
mod block;
mod check;
mod choice;
mod desk;
mod index;
mod input;
mod opening;
mod origin;
mod passing;

pub use block::{encode, read, Attribute, LONG};
pub use check::check_sent;
pub use choice::{better, choose};
pub use desk::desk;
pub use index::{told, Index};
pub use opening::open;
pub use origin::{origin_state, origin_state6, received_tag};
pub use passing::{receive, send_size, send_write};

use bgp_policy::Session;

/// A call not answered 0: the answer number, and the number beside it, 0 where there is none.
pub type Refusal = (u8, usize);

// "Answer numbers"
const DONE: u8 = 0;
const INELIGIBLE: u8 = 1;
const WITHHELD: u8 = 2;
const MALFORMED: u8 = 3;
const REJECTED: Refusal = (4, 0);
const OUT_OF_RANGE: Refusal = (5, 0);
const TOO_LONG: Refusal = (6, 0);
const NO_ROOM: Refusal = (7, 0);
const BAD_PARAMETERS: Refusal = (8, 0);
const BAD_VRP: u8 = 9;
const BAD_CANDIDATE: u8 = 10;
const NO_ROUTE: Refusal = (11, 0);
const UNREADABLE: Refusal = (12, 0);

// "Role values name the speaker's own role"
const PROVIDER: u8 = 0;
const RS: u8 = 1;
const RS_CLIENT: u8 = 2;
const CUSTOMER: u8 = 3;
const PEER: u8 = 4;

// "States"
const VALID: u8 = 0;
const NOT_FOUND: u8 = 1;
const INVALID: u8 = 2;
const UNAVAILABLE: u8 = 3;

// "Modes"
const DROP_INVALID: u8 = 2;
const PRIORITISE: u8 = 3;

// "Sizes"
const PARAMETERS_MAX: usize = 255;
const BLOCK_MAX: usize = 4_073;
const VRPS_MAX: usize = 4_096;
const CANDIDATES_MAX: usize = 64;

/// Goes on where something holds, else answers a refusal.
fn demand(holds: bool, refusal: Refusal) -> Result<(), Refusal> {
    if holds {
        Ok(())
    } else {
        Err(refusal)
    }
}

/// "Settings": AS numbers from 1, "the two of a session unequal; roles 0 to 4; [..] mode 0 to 3". Q-11: "5 for a byte above 1, or 1
/// with local role RS", since "A route server must still strip".
fn check_session(session: Session) -> Result<(), Refusal> {
    demand(session.local_as >= 1, OUT_OF_RANGE)?;
    demand(session.remote_as >= 1, OUT_OF_RANGE)?;
    demand(session.local_as != session.remote_as, OUT_OF_RANGE)?;
    demand(session.local_role <= 4, OUT_OF_RANGE)?;
    demand(session.mode <= 3, OUT_OF_RANGE)?;
    demand(session.one_administration <= 1, OUT_OF_RANGE)?;
    demand(
        session.local_role != RS || !one_owner(session),
        OUT_OF_RANGE,
    )
}

/// "1 if both ends are under one administration, else 0".
fn one_owner(session: Session) -> bool {
    session.one_administration == 1
}

/// "0 the house default"; Q-9: "mode 0 now means mode 2".
fn mode_meant(mode: u8) -> u8 {
    match mode {
        0 => DROP_INVALID,
        named => named,
    }
}

/// "Pairs: 0 with 3, 1 with 2, 4 with 4."
fn counterpart(role: u8) -> u8 {
    let pairs = [(0, 3), (3, 0), (1, 2), (2, 1), (4, 4)];
    let pair = pairs.into_iter().find(|(one, _)| *one == role);
    pair.expect("a role in range").1
}
