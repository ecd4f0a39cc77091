//! Document 01, with document 02's, in the best plain Rust that we can write: the same
//! functions as the proved library's, over the same types, to measure it against. The tests hold both to `reference`.
mod block;
mod check;
mod choice;
mod desk;
mod hex;
mod index;
mod opening;
mod origin;
mod passing;
mod write;

pub use check::check_sent;
pub use choice::{better, choose};
pub use desk::{desk, Desk};
pub use index::{index_build, index_build6, index_insert, index_insert6};
pub use index::{index_look_up, index_look_up6};
pub use opening::open;
pub use origin::{origin_state, origin_state6, received_tag};
pub use passing::{receive, send_size, send_write};

use bgp_policy::Receipt;

/// What a call tells: the answer, and the number beside it or 0 where there is none.
type Answer = (u8, usize);

/// The same, and how many tags are thrown out, or 0 where no such number is told.
type Numbered = (u8, usize, usize);

/// What a receipt not answered 0 tells: no state is handed on.
fn refused(answer: u8, beside: usize, thrown_out: usize) -> Receipt {
    Receipt {
        answer,
        beside,
        thrown_out,
        state: UNAVAILABLE.into(),
    }
}

const DONE: u8 = 0;
const LEAK: u8 = 1;
const WITHHELD: u8 = 2;
const MALFORMED: u8 = 3;
const REJECTED: u8 = 4;
const BAD_SETTING: u8 = 5;
const TOO_LONG: u8 = 6;
const NO_ROOM: u8 = 7;
const BAD_OPEN: u8 = 8;
const BAD_VRP: u8 = 9;
const BAD_CANDIDATE: u8 = 10;
const NO_ROUTE: u8 = 11;
const UNREADABLE: u8 = 12;

const PROVIDER: u8 = 0;
const RS: u8 = 1;
const RS_CLIENT: u8 = 2;
const CUSTOMER: u8 = 3;
const PEER: u8 = 4;

const VALID: u8 = 0;
const NOT_FOUND: u8 = 1;
const INVALID: u8 = 2;
const UNAVAILABLE: u8 = 3;

const HOUSE_DEFAULT: u8 = 0;
const DROP_INVALID: u8 = 2;
const PRIORITISE: u8 = 3;

const OWN_SOURCE: u8 = 255;
const MAX_BLOCK: usize = 4_073;
const MAX_PARAMETERS: usize = 255;
const MAX_VRPS: usize = 4_096;
const MAX_CANDIDATES: usize = 64;

/// Whether a mode drops invalid routes, on the way to an RS-Client and in choosing.
fn drops_invalid(mode: u8) -> bool {
    matches!(mode, HOUSE_DEFAULT | DROP_INVALID)
}

/// The role that the other end of a session has; `role` is one of the five.
fn remote_role(role: u8) -> u8 {
    match role {
        PROVIDER => CUSTOMER,
        CUSTOMER => PROVIDER,
        RS => RS_CLIENT,
        RS_CLIENT => RS,
        _ => PEER,
    }
}

/// The number that starts a slice of at least four bytes, high byte first.
fn number(bytes: &[u8]) -> u32 {
    u32::from_be_bytes([bytes[0], bytes[1], bytes[2], bytes[3]])
}
