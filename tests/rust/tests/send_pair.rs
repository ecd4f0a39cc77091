//! Document 02, Q-6: what `send_size` tells of a sending and what `send_write` does for the same input, at all three implementations.
use bgp_policy::{send_write, OWN_ROUTE};
use policy_tests::generate::Random;
use policy_tests::pair::{agreed, NO_ROOM};
use policy_tests::settings::{plain, sending, some_block};
use policy_tests::sides::{Sending, Side, LIBRARY, SIDES};
use policy_tests::tables::{Tally, FAULTS};
use policy_tests::{block_of, hex, shown, wrong_size};

const PROVIDER: u8 = 0;
const RS: u8 = 1;
const CUSTOMER: u8 = 3;
const PEER: u8 = 4;

// An input gives this at every implementation, by both functions.
fn everywhere(sending: Sending, block: &[u8], told: (u8, usize)) {
    for side in SIDES {
        let got = agreed(&side, sending, block);
        assert_eq!(
            got,
            Ok(told),
            "{}: {sending:?}, {}",
            side.name,
            shown(block)
        );
    }
}

#[test]
fn the_two_agree_for_seeded_inputs() {
    let (mut random, mut tally) = (Random(71), Tally::default());
    for _ in 0..20_000 {
        let (sending, block) = (sending(&mut random), some_block(&mut random));
        for side in SIDES {
            let told = agreed(&side, sending, &block);
            let (answer, beside) = told.unwrap_or_else(|how| {
                panic!("{}: {sending:?}, {}: {how}", side.name, shown(&block))
            });
            tally.add(answer, if answer == 0 { 0 } else { beside });
        }
    }
    let others = [(0, 0), (2, 1), (2, 2), (2, 3), (5, 0), (6, 0), (7, 0)];
    tally.check("send_size and send_write", &[&others[..], &FAULTS].concat());
}

// ORIGIN and an empty AS_PATH, 7 bytes; a community that is no tag, and two that are.
const OWN: &str = "40010100400200";
const OTHER: &str = "0002000000000001";
const VALID: &str = "4300000000000000";
const SEVEN: &str = "4300000000000007";

// OWN, and these communities after the header of their attribute.
fn with(header: &str, communities: &[&str]) -> Vec<u8> {
    hex(&format!("{OWN}{header}{}", communities.concat()))
}

// A new OTC has 7 bytes and a new tag's attribute 11; a tag after other communities has 8.
#[test]
fn lengths_of_results() {
    let up = plain(CUSTOMER, OWN_ROUTE, 1);
    let across = plain(PEER, OWN_ROUTE, 1);
    let to_client = plain(RS, OWN_ROUTE, 1);
    for (sending, block, length) in [
        (up, hex(OWN), 7),
        (across, hex(OWN), 14),
        (to_client, hex(OWN), 25),
        (plain(RS, OWN_ROUTE, 3), hex(OWN), 14),
        // an OTC that is there is enough
        (to_client, hex(&format!("{OWN}C0230400000001")), 25),
        // tags dropped, of 34 bytes
        (up, with("C01018", &[SEVEN, OTHER, VALID]), 18),
        (across, with("C01018", &[SEVEN, OTHER, VALID]), 25),
        (to_client, with("C01018", &[SEVEN, OTHER, VALID]), 33),
        // the attribute emptied, of 26 bytes
        (up, with("C01010", &[SEVEN, VALID]), 7),
        (across, with("C01010", &[SEVEN, VALID]), 14),
        (to_client, with("C01010", &[SEVEN, VALID]), 25),
        // 248 bytes of communities keep a short length, 256 take a long one
        (to_client, with("C010F0", &[OTHER; 30]), 265),
        (to_client, with("C010F8", &[OTHER; 31]), 274),
        (across, with("C010F8", &[OTHER; 31]), 265),
        (
            to_client,
            with("C010F8", &[&[OTHER; 30][..], &[SEVEN]].concat()),
            265,
        ),
        // a long one stays long
        (to_client, with("D0100008", &[OTHER]), 34),
    ] {
        everywhere(sending, &block, (0, length));
    }
}

// A result of 4,073 bytes goes out; one of more has no room in any buffer, and no length.
#[test]
fn results_at_the_limit() {
    let (up, across, to_client) = (
        plain(CUSTOMER, OWN_ROUTE, 3),
        plain(PEER, OWN_ROUTE, 3),
        plain(RS, OWN_ROUTE, 0),
    );
    // with the 11 bytes of a tag's attribute, a block of 11 bytes more
    let tagged = |length| [&with("C01008", &[SEVEN])[..], &block_of(length)[7..]].concat();
    for (sending, block, told) in [
        (up, block_of(4_073), (0, 4_073)),
        (across, block_of(4_066), (0, 4_073)),
        (across, block_of(4_067), NO_ROOM),
        (to_client, block_of(4_055), (0, 4_073)),
        (to_client, block_of(4_056), NO_ROOM),
        (to_client, block_of(4_073), NO_ROOM),
        // a tag dropped makes room, in blocks of 4,073 and 4,066 bytes; one of 4,074 is too long all the same
        (across, tagged(4_062), (0, 4_069)),
        (to_client, tagged(4_055), (0, 4_073)),
        (across, tagged(4_063), (6, 0)),
    ] {
        everywhere(sending, &block, told);
    }
}

// Withheld goes before no room: in no buffer, and where the result would have more than 4,073 bytes, with a tag, an OTC or both.
#[test]
fn a_withheld_route_is_2_in_every_buffer() {
    let (mut tags, mut drops_invalid) = (plain(PEER, OWN_ROUTE, 0), plain(RS, OWN_ROUTE, 2));
    tags.session.one_administration = 1;
    drops_invalid.session.mode = 2;
    let marked = |length: usize| [hex("C0230400000001"), block_of(length - 7)].concat();
    for (sending, block, rule) in [
        (tags, marked(25), 1),
        (tags, marked(4_073), 1),
        (plain(PEER, PROVIDER, 3), hex(OWN), 2),
        (plain(PEER, PROVIDER, 3), block_of(4_073), 2),
        (drops_invalid, hex(OWN), 3),
        (drops_invalid, block_of(4_073), 3),
    ] {
        everywhere(sending, &block, (2, rule));
    }
}

// 5, 6, 3 and 2 in this order, of inputs to which all that come after apply too.
#[test]
fn refusals_in_their_order() {
    let withheld = plain(PEER, PROVIDER, 3);
    // the last attribute of these overruns
    let [malformed, too_long] =
        [4_073, 4_074].map(|length| block_of(length + 1)[..length].to_vec());
    for (sending, block, told) in [
        (plain(PEER, 5, 3), &too_long[..], (5, 0)),
        (plain(PEER, PROVIDER, 4), &too_long, (5, 0)),
        (plain(5, PROVIDER, 3), &too_long, (5, 0)),
        (withheld, &too_long, (6, 0)),
        (withheld, &malformed, (3, 1)),
        (withheld, &block_of(4_073)[4..], (3, 3)),
        (withheld, &block_of(4_073), (2, 2)),
    ] {
        everywhere(sending, block, told);
    }
}

// No call hangs on an earlier one: not the writing on a length that was told before, nor on one that was told of another input.
#[test]
fn the_writing_needs_no_length_before_it() {
    let (goes, stays, block) = (
        plain(PEER, OWN_ROUTE, 3),
        plain(PEER, PROVIDER, 3),
        hex(OWN),
    );
    let marked = hex(&format!("{OWN}C023040000FBF4"));
    for side in SIDES {
        let write = |sending: Sending| {
            let mut out = vec![0; 14];
            (sending.write(&side, &block, &mut out), out)
        };
        assert_eq!(write(goes), ((0, 14), marked.clone()));
        assert_eq!(stays.size(&side, &block), (2, 2));
        assert_eq!(write(goes), ((0, 14), marked.clone()));
        assert_eq!(goes.size(&side, &block), (0, 14));
        assert_eq!(write(stays), ((2, 2), vec![0; 14]));
        assert_eq!(plain(CUSTOMER, OWN_ROUTE, 3).size(&side, &block), (0, 7));
        assert_eq!(write(goes), ((0, 14), marked.clone()));
    }
}

// The library with a `send_write` that does something else after the right one, in the same buffer.
macro_rules! wrong_write {
    ($name:literal, |$out:ident| $told:pat $(if $where:expr)? => $other:expr) => {
        Side {
            name: $name,
            send_write: |session, source, state, block, $out| match send_write(session, source, state, block, $out) {
                $told $(if $where)? => $other,
                told => told,
            },
            ..LIBRARY
        }
    };
}

const WRONG: [Side; 9] = [
    wrong_size!("lets every route go", (2, _) => (0, 14)),
    wrong_size!("knows no limit", (7, _) => (0, 4_074)),
    wrong_size!("tells a length with 7", (7, _) => (7, 4_074)),
    wrong_size!("tells a byte too many", (0, length) => (0, length + 1)),
    wrong_write!("writes what is withheld", |_out| (2, _) => (0, 0)),
    wrong_write!("looks at the buffer first", |out| (2, _) if out.is_empty() => NO_ROOM),
    wrong_write!("tells a length with 7 too", |_out| (7, _) => (7, 14)),
    wrong_write!("stores what has no room", |out| (7, _) => { out.fill(0); NO_ROOM }),
    wrong_write!("clears the rest", |out| (0, length) => { out[length..].fill(0); (0, length) }),
];

// That the two can disagree: wrong functions in the library's place do.
#[test]
fn wrong_functions_are_found() {
    for side in WRONG {
        let found = (0..2_000).any(|seed| {
            let mut random = Random(seed);
            let (sending, block) = (sending(&mut random), some_block(&mut random));
            agreed(&side, sending, &block).is_err()
        });
        assert!(found, "a side that {} is taken for a right one", side.name);
    }
}
