//! Document 02, Q-8: how many tags are thrown out, as the tag reader and receipt tell it, at the library.
use bgp_policy::{received_tag, Session, BLOCK_MAX};
use policy_tests::chain::one_administration;
use policy_tests::generate::{attributes, communities, encode, Attribute, Random, ASNS};
use policy_tests::sides::{agree, Stored};
use policy_tests::tables::Tally;
use policy_tests::{block_of, hex, patterns, shown};

const PROVIDER: u8 = 0;
const CUSTOMER: u8 = 3;

const ROUNDS: usize = 20_000;

// AS 64500's end of its session with AS 64510.
fn session(local_role: u8) -> Session {
    Session {
        local_as: 64500,
        remote_as: 64510,
        local_role,
        mode: 1,
        one_administration: 0,
    }
}

// ORIGIN, an empty AS_PATH and these communities.
fn block(communities: &[&str]) -> Vec<u8> {
    let value = hex(&communities.concat());
    let header = [0xD0, 16, (value.len() / 256) as u8, value.len() as u8];
    [hex("40010100400200"), header.to_vec(), value].concat()
}

// What receipt tells of a block, in a buffer of `room` bytes: the answer, the number beside it, and how many tags are thrown out.
fn received_in(room: usize, local_role: u8, block: &[u8]) -> (u8, usize, usize) {
    let told = bgp_policy::receive(session(local_role), block, &mut vec![0; room]);
    (told.answer, told.beside, told.thrown_out)
}

// The same in an ample buffer.
fn received(local_role: u8, block: &[u8]) -> (u8, usize, usize) {
    received_in(BLOCK_MAX, local_role, block)
}

const VALID: &str = "4300000000000000";
const INVALID: &str = "4300000000000002";
const THREE: &str = "4300000000000003";
const SEVEN: &str = "4300000000000007";
const RESERVED_BITS_SET: &str = "4300FFFFFFFFFFFF";
const ANOTHER_SUBTYPE: &str = "4301000000000007";
const ANOTHER_TYPE: &str = "0300000000000007";

#[test]
fn every_tag_above_2_counts_and_nothing_else() {
    let none = block(&[VALID, INVALID, ANOTHER_SUBTYPE, ANOTHER_TYPE]);
    let some = block(&[THREE, THREE, VALID, RESERVED_BITS_SET, ANOTHER_SUBTYPE]);
    for (block, state, number) in [
        (none, 2, 0),
        (some, 0, 3),
        (block(&[SEVEN]), 3, 1),
        (block(&[SEVEN; 500]), 3, 500),
        (hex("40010100400200"), 3, 0),
    ] {
        assert_eq!(received_tag(&block), (0, state, number));
        let (answer, _, thrown_out) = received(PROVIDER, &block);
        assert_eq!((answer, thrown_out), (0, number));
    }
}

// On answer 1 the block received decides, though nothing is stored; on every other refusal there is no number.
#[test]
fn answers_0_and_1_have_a_number_and_no_other() {
    let tags = block(&[SEVEN, SEVEN, VALID]);
    let leak = [tags.clone(), hex("C02304000000FF")].concat();
    assert_eq!(received(PROVIDER, &tags), (0, 7, 2));
    assert_eq!(received(PROVIDER, &leak), (1, 1, 2));
    assert_eq!(received(5, &tags), (5, 0, 0));
    assert_eq!(received(PROVIDER, &tags[..tags.len() - 1]), (3, 1, 0));
    let long = [tags.clone(), block_of(BLOCK_MAX)].concat();
    assert_eq!(received(PROVIDER, &long), (6, 0, 0));
    assert_eq!(received_in(13, CUSTOMER, &tags), (7, 0, 0));
    assert_eq!(received_in(14, CUSTOMER, &tags), (0, 14, 2));
}

// Many communities, tags among them, at all implementations: with and without an OTC, in buffers that are ample or too small.
#[test]
fn numbers_of_seeded_blocks_agree() {
    let (mut random, mut tally) = (Random(61), Tally::default());
    for _ in 0..ROUNDS {
        let mut list = attributes(&mut random);
        list.retain(|attribute| attribute.kind != 16);
        let count = 1 + random.below(12);
        let (flags, kind, value) = (0xC0, 16, communities(&mut random, count));
        list.insert(random.below(list.len()), Attribute { flags, kind, value });
        let block = encode(&list);
        let local_role = random.below(5) as u8;
        let session = Session {
            local_as: ASNS[0],
            remote_as: ASNS[1],
            local_role,
            mode: random.below(4) as u8,
            one_administration: one_administration(&mut random, local_role),
        };
        let before = &patterns(random.pick(&[BLOCK_MAX, BLOCK_MAX, 9]))[0];
        let call = agree(
            |side| Stored::by(before, |out| (side.receive)(session, &block, out)),
            || format!("{session:?}, {}", shown(&block)),
        );
        tally.add(call.told.0, call.thrown_out.min(3));
    }
    let stored = [(0, 0), (0, 1), (0, 2), (0, 3)];
    let ineligible = [(1, 0), (1, 1), (1, 2), (1, 3)];
    tally.check("numbers", &[&stored[..], &ineligible, &[(7, 0)]].concat());
}
