//! Settings of receipt and sending, mostly seeded, and the blocks that they are handed.
use crate::chain::one_administration;
use crate::generate::{block, block_of_length, damaged, faulty_block, Random, ASNS};
use crate::sides::Sending;
use bgp_policy::{Session, OWN_ROUTE};

/// One end of a session, at times with a setting out of range.
pub fn session(random: &mut Random) -> Session {
    let local_role = random.below(5) as u8;
    let mut session = Session {
        local_as: ASNS[0],
        remote_as: ASNS[1],
        local_role,
        mode: random.below(4) as u8,
        one_administration: one_administration(random, local_role),
    };
    match random.below(80) {
        0 => session.local_as = 0,
        1 => session.remote_as = 0,
        2 => session.local_as = session.remote_as,
        3 => session.local_role = random.pick(&[5, 6, 255]),
        4 => session.mode = random.pick(&[4, 5, 255]),
        // at a route server, which strips every tag, a byte of 1 is out of range too
        5 => session.one_administration = random.pick(&[1, 1, 2, 255]),
        6..=21 => session.remote_as = random.pick(&ASNS[2..]),
        _ => {}
    }
    session
}

/// A sending, at times with a setting out of range.
pub fn sending(random: &mut Random) -> Sending {
    let source = match random.below(40) {
        0 => random.pick(&[5, 6, 254]),
        1..=16 => OWN_ROUTE,
        _ => random.below(5) as u8,
    };
    let state = match random.below(40) {
        0 => random.pick(&[4, 5, 255]),
        _ => random.below(4) as u8,
    };
    Sending {
        session: session(random),
        source,
        state,
    }
}

/// A sending by AS 64500 to AS 64510, with simple tagging.
pub fn plain(local_role: u8, source: u8, state: u8) -> Sending {
    let session = Session {
        local_as: 64500,
        remote_as: 64510,
        local_role,
        mode: 1,
        one_administration: 0,
    };
    Sending {
        session,
        source,
        state,
    }
}

/// A block: readable, with a fault, damaged, or of a length about the limit.
pub fn some_block(random: &mut Random) -> Vec<u8> {
    match random.below(10) {
        0..=4 => block(random),
        5..=6 => faulty_block(random),
        7..=8 => {
            let sound = block(random);
            damaged(random, sound)
        }
        _ => {
            let length = random.pick(&[4_055, 4_066, 4_067, 4_073, 4_074, 5_000]);
            block_of_length(random, length)
        }
    }
}
