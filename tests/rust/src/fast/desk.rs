//! The desk: frames in hex lines in, one answer line for each out.
use super::block::Block;
use super::hex::{decode, encode, MAX_DIGITS};
use super::opening::open;
use super::origin::{is_vrp, validate, Bits, Prefix};
use super::passing::{is_session, receive_read, send_write};
use super::{number, Answer, Numbered, MAX_BLOCK, MAX_VRPS};
use super::{BAD_SETTING, BAD_VRP, DONE, LEAK, MALFORMED, TOO_LONG, UNREADABLE};
use bgp_policy::Session;
use std::io::Write;

/// The desk between two pieces of its input.
pub struct Desk {
    /// The start of a line whose end has not come; one byte over the limit tells that it is too long.
    held: Vec<u8>,
    /// The bytes of the line at hand.
    frame: Vec<u8>,
    lines: u64,
    memory: Memory,
}

/// What one frame leaves for the next.
struct Memory {
    session: Option<Session>,
    /// The IPv4 VRPs, and the IPv6 ones.
    vrps: Vec<u8>,
    vrps6: Vec<u8>,
    /// The result of the last frame: a receipt's state, then its block.
    result: [u8; 1 + MAX_BLOCK],
}

/// The fourth field of a line that goes out.
enum Field {
    Number(usize),
    Dash,
    Absent,
}

/// The whole output for a whole input.
pub fn desk(input: &[u8]) -> Vec<u8> {
    let mut out = Vec::new();
    let mut desk = Desk::new();
    desk.feed(input, &mut out);
    desk.finish(&mut out);
    out
}

impl Default for Desk {
    fn default() -> Self {
        Self::new()
    }
}

impl Desk {
    pub fn new() -> Self {
        Desk {
            held: Vec::with_capacity(MAX_DIGITS + 1),
            frame: Vec::with_capacity(MAX_DIGITS / 2),
            lines: 0,
            memory: Memory {
                session: None,
                vrps: Vec::new(),
                vrps6: Vec::new(),
                result: [0; 1 + MAX_BLOCK],
            },
        }
    }

    /// Takes the next bytes of the input and answers the lines that end in them.
    pub fn feed(&mut self, piece: &[u8], out: &mut Vec<u8>) {
        let mut rest = piece;
        while let Some(end) = rest.iter().position(|&byte| byte == b'\n') {
            if self.held.is_empty() {
                self.answer(&rest[..end], out);
            } else {
                self.hold(&rest[..end]);
                self.answer_held(out);
            }
            rest = &rest[end + 1..];
        }
        self.hold(rest);
    }

    /// Answers a last line without a line feed.
    pub fn finish(&mut self, out: &mut Vec<u8>) {
        if !self.held.is_empty() {
            self.answer_held(out);
        }
    }

    fn hold(&mut self, bytes: &[u8]) {
        let room = MAX_DIGITS + 1 - self.held.len();
        self.held.extend_from_slice(&bytes[..bytes.len().min(room)]);
    }

    fn answer_held(&mut self, out: &mut Vec<u8>) {
        let mut line = std::mem::take(&mut self.held);
        self.answer(&line, out);
        line.clear();
        self.held = line;
    }

    fn answer(&mut self, line: &[u8], out: &mut Vec<u8>) {
        self.lines += 1;
        let ((answer, length), field) = match decode(line, &mut self.frame) {
            true => self.memory.frame(&self.frame),
            false => ((UNREADABLE, 0), Field::Absent),
        };
        write!(out, "{} {answer} ", self.lines).expect("a vector takes every byte");
        if length == 0 {
            out.push(b'-');
        } else {
            encode(&self.memory.result[..length], out);
        }
        match field {
            Field::Number(number) => write!(out, " {number}").expect("a vector takes every byte"),
            Field::Dash => out.extend(b" -"),
            Field::Absent => {}
        }
        out.push(b'\n');
    }
}

impl Memory {
    /// The answer to a frame of at least one byte, the length of its result, and the line's fourth field.
    fn frame(&mut self, frame: &[u8]) -> (Answer, Field) {
        let rest = &frame[1..];
        let plain = |told| (told, Field::Absent);
        let (told, field) = match frame[0] {
            0x01 => plain(self.open(rest)),
            0x02 => numbered(receive::<u32>(
                self.session,
                &self.vrps,
                rest,
                &mut self.result,
            )),
            0x03 => plain(self.send(rest)),
            0x04 => plain(add_vrp::<u32>(&mut self.vrps, rest)),
            0x12 => numbered(receive::<u128>(
                self.session,
                &self.vrps6,
                rest,
                &mut self.result,
            )),
            0x14 => plain(add_vrp::<u128>(&mut self.vrps6, rest)),
            _ => plain((UNREADABLE, 0)),
        };
        match told {
            (DONE, length) => ((DONE, length), field),
            (refusal, _) => ((refusal, 0), field),
        }
    }

    fn open(&mut self, frame: &[u8]) -> Answer {
        self.session = None;
        if frame.len() < 12 {
            return (UNREADABLE, 0);
        }
        let (settings, parameters) = frame.split_at(12);
        let session = Session {
            local_as: number(settings),
            remote_as: number(&settings[4..]),
            local_role: settings[8],
            mode: settings[10],
            one_administration: settings[11],
        };
        if !is_session(&session) {
            return (BAD_SETTING, 0);
        }
        let (answer, role) = open(session.local_role, settings[9], parameters);
        if answer == DONE {
            self.session = Some(session);
            self.result[0] = role as u8;
        }
        (answer, 1)
    }

    /// A sending, written at once: there is room for any block.
    fn send(&mut self, frame: &[u8]) -> Answer {
        match (self.session, frame) {
            (Some(session), &[source, state, ref block @ ..]) => {
                send_write(session, source, state, block, &mut self.result)
            }
            _ => (UNREADABLE, 0),
        }
    }
}

/// What a receipt tells: the number of tags thrown out is shown on answers 0 and 1.
fn numbered((answer, length, thrown_out): Numbered) -> (Answer, Field) {
    let field = match answer {
        DONE | LEAK => Field::Number(thrown_out),
        _ => Field::Dash,
    };
    ((answer, length), field)
}

/// A receipt on a session, if there is one, with the VRPs of the route's family.
fn receive<B: Bits>(
    session: Option<Session>,
    vrps: &[u8],
    frame: &[u8],
    result: &mut [u8],
) -> Numbered {
    let (Some(session), true) = (session, frame.len() > B::SIZE) else {
        return (UNREADABLE, 0, 0);
    };
    let (route, block) = frame.split_at(1 + B::SIZE);
    let prefix = Prefix {
        length: route[0],
        bits: B::read(&route[1..]),
    };
    if prefix.length > B::WIDTH {
        return (BAD_SETTING, 0, 0);
    }
    if block.len() > MAX_BLOCK {
        return (TOO_LONG, 0, 0);
    }
    let block = match Block::read(block) {
        Ok(block) => block,
        Err(fault) => return (MALFORMED, fault, 0),
    };
    // The state is the table's, an empty one's too, and never that of the tags.
    let receipt = receive_read(&session, &block, &mut result[1..]);
    if receipt.answer == DONE {
        result[0] = validate(prefix, session.local_as, vrps, &block);
    }
    (receipt.answer, 1 + receipt.beside, receipt.thrown_out)
}

/// A VRP added to those of its family.
fn add_vrp<B: Bits>(vrps: &mut Vec<u8>, vrp: &[u8]) -> Answer {
    if vrp.len() < B::VRP {
        return (UNREADABLE, 0);
    }
    if vrp.len() > B::VRP || vrps.len() == MAX_VRPS * B::VRP {
        return (TOO_LONG, 0);
    }
    if !is_vrp::<B>(vrp) {
        return (BAD_VRP, 0);
    }
    vrps.extend_from_slice(vrp);
    (DONE, 0)
}
