//! Chains of hops, each a sending in its two calls and then a receipt on one session: run through an implementation, and seeded.
use crate::counterpart;
use crate::generate::{attributes, block, encode, filled, Random, ASNS};
use crate::sides::{as_receipt, Sending, Side, Stored};
use bgp_policy::{Session, BLOCK_MAX, OWN_ROUTE};

/// A hop: the session as each of its ends sees it, and the state that the sending is handed.
#[derive(Clone, Copy, Debug)]
pub struct Hop {
    pub sending: Session,
    pub receiving: Session,
    pub state: u8,
}

impl Hop {
    /// A hop between two ASes, the sender's first, in the sender's role, with the mode of each end and each end's byte for one
    /// administration.
    pub fn new(ases: [u32; 2], role: u8, modes: [u8; 2], bytes: [u8; 2], state: u8) -> Self {
        let sending = Session {
            local_as: ases[0],
            remote_as: ases[1],
            local_role: role,
            mode: modes[0],
            one_administration: bytes[0],
        };
        let receiving = Session {
            local_as: ases[1],
            remote_as: ases[0],
            local_role: counterpart(role),
            mode: modes[1],
            one_administration: bytes[1],
        };
        Hop {
            sending,
            receiving,
            state,
        }
    }

    /// The role that the hop goes to.
    pub fn to(&self) -> u8 {
        self.receiving.local_role
    }

    // One of the hop's calls, on a route from this source, with a buffer that held `before`.
    fn make(&self, call: Call, side: &Side, source: u8, block: &[u8], before: &[u8]) -> Stored {
        let sending = Sending {
            session: self.sending,
            source,
            state: self.state,
        };
        Stored::by(before, |out| match call {
            Call::Send => as_receipt(sending.size(side, block)),
            Call::Write => as_receipt(sending.write(side, block, out)),
            Call::Receive => (side.receive)(self.receiving, block, out),
        })
    }
}

/// The calls of a hop, in their order and by the names that the vectors give them: the verdict on what is sent, with its length; the
/// writing of it; the receipt.
#[derive(Clone, Copy, Debug, PartialEq)]
pub enum Call {
    Send,
    Write,
    Receive,
}

impl Call {
    pub const ALL: [Call; 3] = [Call::Send, Call::Write, Call::Receive];
}

/// A call that was made: the index of its hop, counted from 0, which one of the hop's it is, and what it gave.
#[derive(Debug, PartialEq)]
pub struct Made {
    pub hop: usize,
    pub call: Call,
    pub given: Stored,
}

/// The calls of a chain, up to the first not answered 0. Both calls of a sending get the same input, and after that each call exactly the
/// bytes that were stored last. `buffer` gives what an output buffer of at least so many bytes held before.
pub fn run(
    side: &Side,
    originated: &[u8],
    hops: &[Hop],
    mut buffer: impl FnMut(usize) -> Vec<u8>,
) -> Vec<Made> {
    let mut calls = Vec::new();
    let mut block = originated.to_vec();
    let mut source = OWN_ROUTE;
    for (at, hop) in hops.iter().enumerate() {
        let mut length = 0;
        for call in Call::ALL {
            let before = match call {
                Call::Send => Vec::new(),
                // the room that the verdict says is enough
                Call::Write => buffer(length),
                Call::Receive => buffer(BLOCK_MAX),
            };
            let given = hop.make(call, side, source, &block, &before);
            let answer;
            (answer, length) = given.told;
            if answer == 0 && call != Call::Send {
                block = given.buffer[..length].to_vec();
            }
            calls.push(Made {
                hop: at,
                call,
                given,
            });
            if answer != 0 {
                return calls;
            }
        }
        source = hop.sending.local_role;
    }
    calls
}

/// Which calls were made, each by the index of its hop, and what they answered.
pub fn answers(calls: &[Made]) -> Vec<(usize, Call, u8)> {
    let answer = |made: &Made| (made.hop, made.call, made.given.told.0);
    calls.iter().map(answer).collect()
}

/// How a chain ends: with the block on arrival, or at a call of the hop with this index, counted from 0.
#[derive(Debug, PartialEq)]
pub enum End {
    Arrived(Vec<u8>),
    Stopped {
        hop: usize,
        call: Call,
        told: (u8, usize),
    },
}

/// The end of a chain with these calls.
pub fn end(originated: &[u8], calls: &[Made]) -> End {
    let Some(last) = calls.last() else {
        return End::Arrived(originated.to_vec());
    };
    match last.given.block() {
        Some(block) => End::Arrived(block.to_vec()),
        None => End::Stopped {
            hop: last.hop,
            call: last.call,
            told: last.given.told,
        },
    }
}

/// Whether an end in a role takes the session for one under one administration: 0 or 1, free of what the other end takes it for, and 0
/// at a route server.
pub fn one_administration(random: &mut Random, local_role: u8) -> u8 {
    match local_role {
        1 => 0,
        _ => random.below(2) as u8,
    }
}

/// Hops with these sender's roles, each from the AS where the last one ended, in any states, in one of `modes` at each end, and with
/// a byte for one administration at each end.
pub fn hops(random: &mut Random, roles: &[u8], modes: &[u8]) -> Vec<Hop> {
    let mut at = random.pick(&ASNS);
    let mut hops = Vec::new();
    for role in roles {
        let mut next = at;
        while next == at || next == 0 {
            next = match random.one_in(3) {
                true => random.draw() as u32,
                false => random.pick(&ASNS),
            };
        }
        let modes = [random.pick(modes), random.pick(modes)];
        let bytes = [*role, counterpart(*role)].map(|role| one_administration(random, role));
        hops.push(Hop::new(
            [at, next],
            *role,
            modes,
            bytes,
            random.below(4) as u8,
        ));
        at = next;
    }
    hops
}

/// The sender's roles of some hops: any, or such that they climb, go across at most once and then down.
pub fn roles(random: &mut Random, count: usize) -> Vec<u8> {
    let climbs = random.below(count + 1);
    let in_order = random.one_in(2);
    let role = |i: usize| match i {
        _ if !in_order => random.below(5) as u8,
        // a Customer sends up, a Peer or an RS-Client across, a Provider or an RS down
        _ if i < climbs => 3,
        _ if i == climbs => random.pick(&[4, 2, 0, 1]),
        _ => random.pick(&[0, 1]),
    };
    (0..count).map(role).collect()
}

/// A readable block with no OTC, of at most 4,055 bytes: a tag and an OTC find room.
pub fn originated(random: &mut Random) -> Vec<u8> {
    loop {
        let mut list = attributes(random);
        list.retain(|attribute| attribute.kind != 35);
        let block = match random.below(6) {
            0 => {
                let length = 4_040 + random.below(16);
                filled(random, list, length)
            }
            _ => encode(&list),
        };
        if block.len() <= 4_055 {
            return block;
        }
    }
}

/// What an output buffer of just so many bytes or some more may have held: any bytes, or attributes, which a reader that goes too far
/// would take for more.
pub fn garbage(random: &mut Random, room: usize) -> Vec<u8> {
    let more = random.below(200);
    let length = room + random.pick(&[0, 1, more]);
    match random.below(3) {
        0 => random.bytes(length),
        1 => vec![random.byte(); length],
        _ => block(random).into_iter().cycle().take(length).collect(),
    }
}
