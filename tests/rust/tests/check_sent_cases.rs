//! Document 02, Q-12: cases of a block that another make sent, by hand, at all three implementations.
use bgp_policy::OWN_ROUTE;
use policy_tests::other_make::{everywhere, BAD_SETTING, NO, NO_ROOM, TOO_LONG, YES};
use policy_tests::settings::plain;
use policy_tests::{block_of, hex};

const PROVIDER: u8 = 0;
const RS: u8 = 1;
const CUSTOMER: u8 = 3;
const PEER: u8 = 4;

// ORIGIN and an empty AS_PATH, 7 bytes; two communities that are no tags, and the tag of state 1.
const OWN: &str = "40010100400200";
const ONE: &str = "0002000000000001";
const TWO: &str = "0002000000000002";
const TAG: &str = "4300000000000001";

// A new OTC of a learned route is E0 here and C0 at BIRD, FRR and OpenBGPD; of an own route it is C0 at all of them.
#[test]
fn what_other_makes_write() {
    let (learned, own) = (plain(PEER, CUSTOMER, 3), plain(PEER, OWN_ROUTE, 3));
    for (flags, told) in [
        ("E02304", [YES, NO]),
        ("F0230004", [YES, NO]),
        ("C02304", [NO, YES]),
        ("D0230004", [NO, YES]),
        ("E12304", [NO, NO]),
        ("802304", [NO, NO]),
    ] {
        let otc = format!("{flags}0000FBF4");
        for sent in [format!("{OWN}{otc}"), format!("{otc}{OWN}")] {
            everywhere(learned, &hex(OWN), &hex(&sent), told[0]);
            everywhere(own, &hex(OWN), &hex(&sent), told[1]);
        }
    }
}

// The communities left stand as they were handed in, and the tag after them.
#[test]
fn communities_in_their_sequence() {
    let (sending, otc) = (plain(RS, OWN_ROUTE, 1), "C023040000FBF4");
    let block = hex(&format!("{OWN}C01018{ONE}{TAG}{TWO}"));
    for (communities, told) in [
        (format!("C01018{ONE}{TWO}{TAG}"), YES),
        (format!("D0100018{ONE}{TWO}{TAG}"), YES),
        (format!("C01018{ONE}{TAG}{TWO}"), NO),
        (format!("C01018{TWO}{ONE}{TAG}"), NO),
        (format!("C01010{ONE}{TWO}"), NO),
        (format!("C01020{ONE}{TWO}{TAG}{TAG}"), NO),
        (format!("C01010{ONE}{TWO}C01008{TAG}"), NO),
    ] {
        let sent = hex(&format!("{OWN}{communities}{otc}"));
        everywhere(sending, &block, &sent, told);
    }
}

// 5, 6 of either block, 3, the no of a route withheld, 7, and yes or no, of inputs to which all that come after apply too.
#[test]
fn refusals_in_their_order() {
    let (goes, withheld) = (plain(PEER, OWN_ROUTE, 3), plain(PEER, PROVIDER, 3));
    let long = block_of(4_073);
    // the last attribute of these overruns
    let [malformed, too_long] =
        [4_073, 4_074].map(|length| block_of(length + 1)[..length].to_vec());
    for (sending, block, sent, told) in [
        (plain(PEER, 5, 3), &too_long[..], &too_long[..], BAD_SETTING),
        (plain(PEER, PROVIDER, 4), &too_long, &too_long, BAD_SETTING),
        (withheld, &too_long, &[], TOO_LONG),
        (withheld, &malformed, &too_long, TOO_LONG),
        (withheld, &long, &too_long, TOO_LONG),
        (goes, &long, &too_long, TOO_LONG),
        (withheld, &malformed, &malformed, (3, 1)),
        (goes, &long[4..], &long, (3, 3)),
        (withheld, &long, &malformed, NO),
        (withheld, &long, &long, NO),
        (goes, &long, &malformed, NO_ROOM),
        (goes, &long, &[], NO_ROOM),
        (goes, &long, &long, NO_ROOM),
        // the same attributes in a longer form, which makes 4,074 bytes
        (plain(CUSTOMER, OWN_ROUTE, 3), &long, &long, YES),
        (
            plain(CUSTOMER, OWN_ROUTE, 3),
            &long,
            &[&hex("5001000100")[..], &long[4..]].concat(),
            TOO_LONG,
        ),
    ] {
        everywhere(sending, block, sent, told);
    }
}
