//! The implementations of document 01 that the tests run side by side, under one form.
use crate::{fast, reference, shown};
use bgp_policy::{Candidate, Receipt, Session};
use std::fmt::{Debug, Formatter};

/// The functions of one implementation.
#[derive(Clone, Copy)]
pub struct Side {
    pub name: &'static str,
    pub open: fn(u8, u8, &[u8]) -> (u8, usize),
    pub receive: fn(Session, &[u8], &mut [u8]) -> Receipt,
    pub send_size: fn(Session, u8, u8, &[u8]) -> (u8, usize),
    pub send_write: fn(Session, u8, u8, &[u8], &mut [u8]) -> (u8, usize),
    pub check_sent: fn(Session, u8, u8, &[u8], &[u8]) -> (u8, usize),
    pub origin_state: fn(u8, u32, u32, &[u8], &[u8]) -> (u8, usize),
    pub origin_state6: fn(u8, u128, u32, &[u8], &[u8]) -> (u8, usize),
    pub received_tag: fn(&[u8]) -> (u8, usize, usize),
    pub choose: fn(u8, u32, &[u8], &[u8]) -> (u8, usize, usize),
    pub better: fn(Candidate, Candidate) -> (u8, usize),
}

// The functions of a module.
macro_rules! side {
    ($name:literal, $module:ident) => {
        Side {
            name: $name,
            open: $module::open,
            receive: $module::receive,
            send_size: $module::send_size,
            send_write: $module::send_write,
            check_sent: $module::check_sent,
            origin_state: $module::origin_state,
            origin_state6: $module::origin_state6,
            received_tag: $module::received_tag,
            choose: $module::choose,
            better: $module::better,
        }
    };
}

/// The proved library.
pub const LIBRARY: Side = side!("the library", bgp_policy);
/// The plain implementation, which the others are held to.
pub const REFERENCE: Side = side!("the reference", reference);
/// The fast implementation, which the benchmark measures beside the library.
pub const FAST: Side = side!("fast Rust", fast);

pub const SIDES: [Side; 3] = [LIBRARY, REFERENCE, FAST];

/// The library with a `send_size` that tells something else in the place of what fits a pattern, to see that it is found.
#[macro_export]
macro_rules! wrong_size {
    ($name:literal, $told:pat => $other:expr) => {
        $crate::sides::Side {
            name: $name,
            send_size: |session, source, state, block| match bgp_policy::send_size(
                session, source, state, block,
            ) {
                $told => $other,
                told => told,
            },
            ..$crate::sides::LIBRARY
        }
    };
}

/// What both functions of a sending, and the check of what another make sent, are handed beside the blocks.
#[derive(Clone, Copy, Debug)]
pub struct Sending {
    pub session: Session,
    pub source: u8,
    pub state: u8,
}

impl Sending {
    pub fn size(self, side: &Side, block: &[u8]) -> (u8, usize) {
        (side.send_size)(self.session, self.source, self.state, block)
    }

    pub fn write(self, side: &Side, block: &[u8], out: &mut [u8]) -> (u8, usize) {
        (side.send_write)(self.session, self.source, self.state, block, out)
    }

    pub fn check(self, side: &Side, block: &[u8], sent: &[u8]) -> (u8, usize) {
        (side.check_sent)(self.session, self.source, self.state, block, sent)
    }
}

/// What a call tells, the number of tags thrown out and the state handed on with it, and the whole buffer that it leaves.
#[derive(PartialEq)]
pub struct Stored {
    pub told: (u8, usize),
    pub thrown_out: usize,
    pub state: usize,
    pub buffer: Vec<u8>,
}

/// What sending tells, in the form of receipt: no tags are thrown out, and no state is handed on.
pub fn as_receipt((answer, beside): (u8, usize)) -> Receipt {
    Receipt {
        answer,
        beside,
        thrown_out: 0,
        state: 3,
    }
}

impl Stored {
    /// A call with a buffer that held `before`.
    pub fn by(before: &[u8], call: impl FnOnce(&mut [u8]) -> Receipt) -> Self {
        let mut buffer = before.to_vec();
        let receipt = call(&mut buffer);
        Stored {
            told: (receipt.answer, receipt.beside),
            thrown_out: receipt.thrown_out,
            state: receipt.state,
            buffer,
        }
    }

    /// The block stored; none unless the answer is 0.
    pub fn block(&self) -> Option<&[u8]> {
        let (answer, length) = self.told;
        (answer == 0).then(|| &self.buffer[..length])
    }
}

impl Debug for Stored {
    fn fmt(&self, f: &mut Formatter) -> std::fmt::Result {
        write!(
            f,
            "{:?}, {} thrown out, state {}, with the buffer {}",
            self.told,
            self.thrown_out,
            self.state,
            shown(&self.buffer)
        )
    }
}

/// What a call gives at the reference, and must give at the library and in fast Rust; `inputs` tells what it was handed.
pub fn agree<T: PartialEq + Debug>(call: impl Fn(&Side) -> T, inputs: impl Fn() -> String) -> T {
    let expected = call(&REFERENCE);
    for side in [LIBRARY, FAST] {
        let (got, name) = (call(&side), side.name);
        assert!(
            got == expected,
            "{}: {name} gives {got:?}, the reference {expected:?}",
            inputs()
        );
    }
    expected
}
