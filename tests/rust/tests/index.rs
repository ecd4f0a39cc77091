//! The index over the VRPs: look-ups at their limits, with the results stored here. The library and fast Rust give them.
use policy_tests::indexing::{Indexing, INDEXINGS};
use policy_tests::shapes::record;

const VALID: usize = 0;
const NOT_FOUND: usize = 1;
const INVALID: usize = 2;

const AS_64500: u32 = 64500;

// The first 32 bits of a prefix.
fn led(by: &Indexing, first: u32) -> u128 {
    u128::from(first) << (by.width - 32)
}

// The VRP 10.0.0.0/16 up to 20 of AS 64500; for IPv6 a00::/16.
#[test]
fn p6_to_p9() {
    for by in INDEXINGS {
        let memory = by.needs(
            &record(by.width, led(&by, 0x0A00_0000), 16, 20, AS_64500),
            17,
        );
        let inside = led(&by, 0x0A00_1000);
        by.tells(&memory, (inside, 20, AS_64500), (VALID, 17));
        by.tells(&memory, (inside, 21, AS_64500), (INVALID, 17));
        // 10.1.0.0 has the first 15 bits
        by.tells(
            &memory,
            (led(&by, 0x0A01_0000), 20, AS_64500),
            (NOT_FOUND, 16),
        );
        by.tells(&memory, (inside, 20, 0), (INVALID, 17));
        by.tells(&memory, (inside, 20, 64510), (INVALID, 17));
        // one bit shorter than the VRP
        by.tells(&memory, (inside, 15, AS_64500), (NOT_FOUND, 16));
    }
}

// A VRP of the whole width has a node for each length; a route visits those up to its own length, and no longer one is visited.
#[test]
fn every_length_of_a_route() {
    for by in INDEXINGS {
        let prefix = led(&by, 0xA5C3_965A) | 1;
        let memory = by.needs(
            &record(by.width, prefix, by.width, by.width, 1),
            usize::from(by.width) + 1,
        );
        for length in 0..=by.width {
            let state = if length < by.width { NOT_FOUND } else { VALID };
            by.tells(
                &memory,
                (prefix, length, 1),
                (state, usize::from(length) + 1),
            );
            if length > 0 {
                // its last bit differs
                let other = prefix ^ 1 << (by.width - length);
                by.tells(&memory, (other, length, 1), (NOT_FOUND, length.into()));
                by.tells(&memory, (other, by.width, 1), (NOT_FOUND, length.into()));
            }
        }
        for length in by.width + 1..=255 {
            let got = (by.look_up)(&memory, length, prefix, 1);
            assert_eq!(got, (5, 0, 0), "{}: length {length}", by.name);
        }
    }
}

// A VRP of each length, which covers the routes from that length on; bits past it make no node.
#[test]
fn every_length_of_a_vrp() {
    for by in INDEXINGS {
        let prefix = led(&by, 0x5A69_3C96) | 1;
        for length in 0..=by.width {
            let nodes = usize::from(length) + 1;
            let memory = by.needs(&record(by.width, prefix, length, by.width, 1), nodes);
            by.tells(&memory, (prefix, by.width, 1), (VALID, nodes));
            let past = if length < by.width {
                1 << (by.width - length - 1)
            } else {
                0
            };
            by.tells(&memory, (prefix ^ past, by.width, 1), (VALID, nodes));
        }
    }
}

// A match nearer to the root does not end the look-up, and one further away or earlier in the table counts.
#[test]
fn nested_and_equal_prefixes() {
    for by in INDEXINGS {
        let prefix = led(&by, 0x0A00_0000);
        let by_asn = |length, asn| record(by.width, prefix, length, by.width, asn);
        let table = [
            by_asn(0, 1),
            by_asn(8, 2),
            by_asn(8, 0),
            by_asn(8, 3),
            by_asn(24, 4),
        ]
        .concat();
        let memory = by.needs(&table, 25);
        for asn in [1, 2, 3] {
            by.tells(&memory, (prefix, 20, asn), (VALID, 21));
            by.tells(&memory, (prefix, 32, asn), (VALID, 25));
        }
        by.tells(&memory, (prefix, 24, 4), (VALID, 25));
        by.tells(&memory, (prefix, 23, 4), (INVALID, 24));
        by.tells(&memory, (prefix, 7, 2), (INVALID, 8));
        by.tells(&memory, (prefix, 24, 0), (INVALID, 25));
        // equal prefixes with other maxima
        let up_to = |maximum, asn| record(by.width, prefix, 8, maximum, asn);
        let memory = by.needs(&[up_to(8, 1), up_to(16, 2), up_to(12, 1)].concat(), 9);
        for (length, asn, state) in [
            (8, 1, VALID),
            (12, 1, VALID),
            (13, 1, INVALID),
            (13, 2, VALID),
            (17, 2, INVALID),
        ] {
            by.tells(&memory, (prefix, length, asn), (state, 9));
        }
    }
}
