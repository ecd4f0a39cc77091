//! Document 02, Q-11: tags on a session whose two ends are under one administration, at all three implementations.
use bgp_policy::{Session, BLOCK_MAX, OWN_ROUTE};
use policy_tests::sides::{Side, SIDES};
use policy_tests::{block_of, hex};
use std::fmt::Debug;

const PROVIDER: u8 = 0;
const RS: u8 = 1;
const RS_CLIENT: u8 = 2;
const CUSTOMER: u8 = 3;
const PEER: u8 = 4;

// ORIGIN and an empty AS_PATH; a community that is no tag; tags.
const OWN: &str = "40010100400200";
const OTHER: &str = "0002000000000001";
const VALID: &str = "4300000000000000";
const NOT_FOUND: &str = "4300000000000001";
const INVALID: &str = "4300000000000002";
const THREE: &str = "4300000000000003";
const RESERVED: &str = "4300FFFFFFFFFF01";
const ABOVE: &str = "4300FFFFFFFFFFFF";

// AS 64500's end of its session with AS 64510.
fn session(local_role: u8, mode: u8, one_administration: u8) -> Session {
    Session {
        local_as: 64500,
        remote_as: 64510,
        local_role,
        mode,
        one_administration,
    }
}

// OWN and these communities, if there are any, in an attribute with these flags.
fn block(flags: &str, communities: &[&str]) -> Vec<u8> {
    let value = communities.concat();
    match value.len() / 2 {
        0 => hex(OWN),
        length => hex(&format!("{OWN}{flags}10{length:02X}{value}")),
    }
}

// What receipt tells with a buffer of `room` bytes: the answer, how many tags are thrown out, the state; and what it stores.
fn received(side: &Side, s: Session, room: usize, block: &[u8]) -> (u8, usize, usize, Vec<u8>) {
    let mut out = vec![0; room];
    let told = (side.receive)(s, block, &mut out);
    out.truncate(if told.answer == 0 { told.beside } else { 0 });
    (told.answer, told.thrown_out, told.state, out)
}

// What sending answers, which is what its size function tells, and what it stores.
fn sent(side: &Side, s: Session, source: u8, state: u8, block: &[u8]) -> (u8, Vec<u8>) {
    let mut out = vec![0; BLOCK_MAX];
    let (answer, beside) = (side.send_write)(s, source, state, block, &mut out);
    let sized = (side.send_size)(s, source, state, block);
    assert_eq!(sized, (answer, beside), "{}", side.name);
    out.truncate(if answer == 0 { beside } else { 0 });
    (answer, out)
}

// A call gives the same at every implementation.
fn everywhere<T: PartialEq + Debug>(call: impl Fn(&Side) -> T, expected: T) {
    for side in SIDES {
        assert_eq!(call(&side), expected, "{}", side.name);
    }
}

// With 1 tags of 0 to 2 stay as they stand, and the greatest is the state; with 0 all go, and it is 3. The number is the same.
#[test]
fn receipt_keeps_the_tags_that_tell_a_state() {
    for (communities, kept, others, thrown_out, state) in [
        (&[VALID][..], &[VALID][..], &[][..], 0, 0),
        (&[NOT_FOUND], &[NOT_FOUND], &[], 0, 1),
        (&[INVALID, VALID], &[INVALID, VALID], &[], 0, 2),
        (&[RESERVED, VALID, ABOVE], &[RESERVED, VALID], &[], 1, 1),
        (&[THREE, ABOVE], &[], &[], 2, 3),
        (&[THREE, OTHER, THREE], &[OTHER], &[OTHER], 2, 3),
        (&[OTHER, THREE, INVALID], &[OTHER, INVALID], &[OTHER], 1, 2),
        (&[], &[], &[], 0, 3),
    ] {
        let before = block("EF", communities);
        let told = |side: &Side, byte| received(side, session(PROVIDER, 0, byte), 99, &before);
        let (kept, others) = (block("EF", kept), block("EF", others));
        everywhere(|side| told(side, 1), (0, thrown_out, state, kept));
        everywhere(|side| told(side, 0), (0, thrown_out, 3, others));
    }
}

// Where no state is handed on, 3 stands, and not 0, which would be valid. With the tag that stays and an OTC there are 25 bytes.
#[test]
fn the_state_is_3_on_every_other_answer() {
    let tagged = block("C0", &[INVALID, THREE]);
    let leak = [tagged.clone(), hex("C023040000FBF5")].concat();
    let long = [tagged.clone(), block_of(BLOCK_MAX)].concat();
    for (session, room, block, answer, thrown_out) in [
        (session(PROVIDER, 0, 1), 99, &leak[..], 1, 1),
        (session(PEER, 0, 1), 99, &leak, 1, 1),
        (session(PEER, 0, 1), 99, &tagged[1..], 3, 0),
        (session(PEER, 0, 2), 99, &tagged, 5, 0),
        (session(RS, 0, 1), 99, &tagged, 5, 0),
        (session(PEER, 0, 1), 99, &long, 6, 0),
        (session(PEER, 0, 1), 24, &tagged, 7, 0),
    ] {
        let expected = (answer, thrown_out, 3, vec![]);
        everywhere(|side| received(side, session, room, block), expected);
    }
}

// A byte above 1, and 1 at a route server, is out of range, ahead of a block that is too long or malformed.
#[test]
fn bytes_out_of_range_are_5() {
    for (block, otherwise) in [(hex(OWN), 0), (block_of(4_074), 6), (hex("40"), 3)] {
        for (role, byte) in (0..=4).flat_map(|role| [0, 1, 2, 3, 255].map(|b| (role, b))) {
            let fine = byte == 0 || byte == 1 && role != RS;
            let (session, answer) = (session(role, 0, byte), if fine { otherwise } else { 5 });
            everywhere(|side| received(side, session, 99, &block).0, answer);
            everywhere(|side| sent(side, session, 255, 3, &block).0, answer);
        }
    }
}

// Old tags go, and one of the state is written, unless that is 3: what is new begins C0 on an own route, E0 on a learned one.
fn tags(session: Session, otc: &str) {
    for (state, tag) in (0..).zip([VALID, NOT_FOUND, INVALID, ""]) {
        for (source, flags) in [(OWN_ROUTE, "C0"), (CUSTOMER, "E0")] {
            let new = block(flags, &[tag]);
            for (before, after) in [
                (hex(OWN), &new),
                (block("EF", &[THREE, INVALID]), &new),
                (block("EF", &[RESERVED, OTHER]), &block("EF", &[OTHER, tag])),
            ] {
                let after = [&after[..], &hex(&otc.replace("??", flags))].concat();
                let told = |side: &Side| sent(side, session, source, state, &before);
                everywhere(told, (0, after));
            }
        }
    }
}

// An invalid route goes out in modes 0 and 2 too, since no other end is an RS-Client.
#[test]
fn sending_tags_towards_every_role_in_every_mode() {
    for mode in 0..=3 {
        for role in [PROVIDER, PEER] {
            tags(session(role, mode, 1), "??23040000FBF4");
        }
        for role in [RS_CLIENT, CUSTOMER] {
            tags(session(role, mode, 1), "");
        }
    }
}
