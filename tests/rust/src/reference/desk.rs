//! "The desk program": its whole output for a whole input.
use super::block::read;
use super::input::Input;
use super::opening::opened;
use super::origin::{origin, state, vrp, vrp_size, Route, Vrp, IPV4, IPV6};
use super::passing::{handed_on, received, send_write};
use super::{check_session, demand, Refusal};
use super::{BAD_VRP, BLOCK_MAX, DONE, OUT_OF_RANGE, TOO_LONG, UNREADABLE, VRPS_MAX};
use bgp_policy::Session;

/// The most digits of a readable line.
const DIGITS_MAX: usize = 8_192;

/// What stays from line to line; the VRPs of both families stand in one list.
struct Desk {
    session: Option<Session>,
    vrps: Vec<Vrp>,
}

/// "Output a line: line number (from 1) and answer number in decimal, then upper-case hex or "-"."
pub fn desk(input: &[u8]) -> Vec<u8> {
    let mut desk = Desk {
        session: None,
        vrps: Vec::new(),
    };
    let mut output = String::new();
    for (index, line) in lines(input).iter().enumerate() {
        let (answer, result) = match desk.line(line) {
            Ok(result) => (DONE, result),
            Err((answer, _)) => (answer, Vec::new()),
        };
        let mut shown: String = result.iter().map(|byte| format!("{byte:02X}")).collect();
        if result.is_empty() {
            shown.push('-');
        }
        let field = fourth_field(line, answer);
        output += &format!("{} {answer} {shown}{field}\n", index + 1);
    }
    output.into_bytes()
}

/// "the desk's receipt line (readable, beginning 02 or 12) has it as a fourth field, decimal, on answers 0 and 1, "-" otherwise."
fn fourth_field(line: &[u8], answer: u8) -> String {
    let frame = decode(line).unwrap_or_default();
    let head = match frame.first() {
        Some(0x02) => 6,
        Some(0x12) => 18,
        _ => return String::new(),
    };
    let block = frame.get(head..).unwrap_or(&[]);
    match handed_on(answer, block) {
        Some(number) => format!(" {number}"),
        None => " -".to_string(),
    }
}

/// "Lines end at a line feed or the end of input; nothing after the last line feed is no line."
fn lines(input: &[u8]) -> Vec<&[u8]> {
    let mut lines: Vec<&[u8]> = input.split(|byte| *byte == b'\n').collect();
    if lines.last().is_some_and(|last| last.is_empty()) {
        lines.pop();
    }
    lines
}

/// The bytes of a line; none if it is "empty or odd", "over 8,192 digits", or has a "bad digit".
fn decode(line: &[u8]) -> Option<Vec<u8>> {
    if line.is_empty() || line.len() % 2 == 1 || line.len() > DIGITS_MAX {
        return None;
    }
    let digits: Option<Vec<u32>> = line.iter().map(|b| char::from(*b).to_digit(16)).collect();
    let pairs = digits?;
    let bytes = pairs.chunks(2).map(|pair| (16 * pair[0] + pair[1]) as u8);
    Some(bytes.collect())
}

impl Desk {
    /// The result of a line.
    fn line(&mut self, line: &[u8]) -> Result<Vec<u8>, Refusal> {
        let frame = decode(line).ok_or(UNREADABLE)?;
        let rest = &frame[1..];
        match frame[0] {
            0x01 => self.open(rest),
            0x02 => self.receive(IPV4, rest),
            0x03 => self.send(rest),
            0x04 => self.add_vrp(IPV4, rest),
            0x12 => self.receive(IPV6, rest),
            0x14 => self.add_vrp(IPV6, rest),
            _ => Err(UNREADABLE),
        }
    }

    /// "01 session (local AS, remote AS, local role, strict, mode, OPEN parameters)", Q-11: with "a byte after mode"; what "is not
    /// answered 0 [..] leaves no session".
    fn open(&mut self, frame: &[u8]) -> Result<Vec<u8>, Refusal> {
        self.session = None;
        let (session, strict, parameters) = session_frame(frame).ok_or(UNREADABLE)?;
        check_session(session)?;
        let remote_role = opened(session.local_role, strict, parameters)?;
        self.session = Some(session);
        Ok(vec![remote_role])
    }

    /// "02 receipt (prefix length, prefix, block)"; Q-1: "Frame 12 is a receipt with a 16-byte prefix". "Validation comes after the
    /// receipt verdict, with the local AS as own." Q-11: the state that receipt hands on is for a caller without a table, "never the
    /// desk, where an empty one counts".
    fn receive(&self, width: u8, frame: &[u8]) -> Result<Vec<u8>, Refusal> {
        let (route, block) = receipt_frame(width, frame).ok_or(UNREADABLE)?;
        let session = self.session.ok_or(UNREADABLE)?;
        demand(route.length <= width, OUT_OF_RANGE)?;
        let stored = received(session, block)?;
        let origin = origin(&read(block)?, session.local_as);
        let state = state(route, origin, &self.vrps);
        Ok([vec![state], stored].concat())
    }

    /// "03 sending (source, state, block)". The call that writes, alone: its buffer holds any result.
    fn send(&self, frame: &[u8]) -> Result<Vec<u8>, Refusal> {
        let (source, state, block) = sending_frame(frame).ok_or(UNREADABLE)?;
        let session = self.session.ok_or(UNREADABLE)?;
        let mut out = vec![0; BLOCK_MAX];
        match send_write(session, source, state, block, &mut out) {
            (DONE, length) => Ok(out[..length].to_vec()),
            refusal => Err(refusal),
        }
    }

    /// "04 one VRP". "A 04 frame of more than 11 bytes is 6"; "VRPs stay; one more than 4,096 is 6." Q-1: "frame 14 an IPv6 VRP,
    /// 23 bytes in all"; "The VRP limit is 4,096 per family".
    fn add_vrp(&mut self, width: u8, record: &[u8]) -> Result<Vec<u8>, Refusal> {
        demand(record.len() >= vrp_size(width), UNREADABLE)?;
        demand(record.len() <= vrp_size(width), TOO_LONG)?;
        let family = self.vrps.iter().filter(|held| held.width == width);
        demand(family.count() < VRPS_MAX, TOO_LONG)?;
        self.vrps.push(vrp(width, record).ok_or((BAD_VRP, 0))?);
        Ok(Vec::new())
    }
}

/// A session, strict, and the parameters; none if the frame is short.
fn session_frame(frame: &[u8]) -> Option<(Session, u8, &[u8])> {
    let mut input = Input(frame);
    let (local_as, remote_as) = (input.number(4)?, input.number(4)?);
    let (local_role, strict, mode) = (input.byte()?, input.byte()?, input.byte()?);
    let session = Session {
        local_as,
        remote_as,
        local_role,
        mode,
        one_administration: input.byte()?,
    };
    Some((session, strict, input.0))
}

/// The route and the block; none if the frame is short.
fn receipt_frame(width: u8, frame: &[u8]) -> Option<(Route, &[u8])> {
    let mut input = Input(frame);
    let route = Route {
        width,
        length: input.byte()?,
        prefix: input.prefix(width)?,
    };
    Some((route, input.0))
}

/// Source, state and block; none if the frame is short.
fn sending_frame(frame: &[u8]) -> Option<(u8, u8, &[u8])> {
    let mut input = Input(frame);
    Some((input.byte()?, input.byte()?, input.0))
}
