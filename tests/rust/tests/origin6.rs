//! Origin state of IPv6 routes at its limits, with the results stored here: the library, the reference and fast Rust give them.
use bgp_policy::BLOCK_MAX;
use policy_tests::sides::SIDES;
use policy_tests::{block_of, hex};

const VALID: usize = 0;
const NOT_FOUND: usize = 1;
const INVALID: usize = 2;

const OWN_AS: u32 = 1;

// 2001:db8::, and ::ffff:10.0.16.0
const DOCUMENTATION: u128 = 0x2001_0DB8 << 96;
const MAPPED: u128 = 0xFFFF_0A00_1000;

// Bits of both kinds on both sides of every edge of a word.
const MIXED: u128 = 0xA5C3_965A_5A69_3C96_C3A5_9669_5A3C_A596;

// ORIGIN, and a path that ends in AS 64500, by a sequence and by a set.
const SEQUENCE: &str = "4001010040020602010000FBF4";
const SET: &str = "4001010040020601010000FBF4";

const AS_64500: u32 = 64500;

fn vrp(prefix: u128, length: u8, maximum: u8, asn: u32) -> Vec<u8> {
    let mut record = prefix.to_be_bytes().to_vec();
    record.extend([length, maximum]);
    record.extend(asn.to_be_bytes());
    record
}

// All sides give this for a route; own AS 1.
fn gives(expected: (u8, usize), prefix: u128, length: u8, table: &[u8], block: &[u8]) {
    for side in SIDES {
        let got = (side.origin_state6)(length, prefix, OWN_AS, table, block);
        let name = side.name;
        assert_eq!(got, expected, "{name}: {prefix:032X}/{length}");
    }
}

// All sides find this state for a route with the origin 64500.
fn states(state: usize, prefix: u128, length: u8, table: &[u8]) {
    gives((0, state), prefix, length, table, &hex(SEQUENCE));
}

#[test]
fn p6_to_p9_one_family_up() {
    let table = vrp(DOCUMENTATION, 32, 48, AS_64500);
    let inside = DOCUMENTATION | 1 << 80;
    states(VALID, inside, 48, &table);
    states(INVALID, inside, 49, &table);
    states(NOT_FOUND, DOCUMENTATION + (1 << 96), 48, &table);
    gives((0, INVALID), inside, 48, &table, &hex(SET));
}

// A VRP of each length: the last bit within it counts, the first one past it does not.
#[test]
fn every_length_of_a_vrp() {
    for length in 0..=128 {
        let table = vrp(MIXED, length, 128, AS_64500);
        states(VALID, MIXED, 128, &table);
        if length > 0 {
            states(NOT_FOUND, MIXED ^ 1 << (128 - length), 128, &table);
        }
        if length < 128 {
            states(VALID, MIXED ^ 1 << (127 - length), 128, &table);
            let past = u128::MAX >> length;
            states(VALID, MIXED ^ past, 128, &table);
        }
    }
}

// A bit that differs anywhere within a length leaves the route uncovered, and anywhere past it does not.
#[test]
fn every_bit_at_the_edges_of_words() {
    for length in [31, 32, 33, 63, 64, 65, 95, 96, 97, 127, 128] {
        let table = vrp(MIXED, length, 128, AS_64500);
        for bit in 0..128 {
            let state = if bit < length { NOT_FOUND } else { VALID };
            states(state, MIXED ^ 1 << (127 - bit), 128, &table);
        }
    }
}

#[test]
fn every_length_of_a_route() {
    let table = vrp(DOCUMENTATION, 32, 48, AS_64500);
    for length in 0..=128 {
        let state = match length {
            0..=31 => NOT_FOUND,
            32..=48 => VALID,
            _ => INVALID,
        };
        states(state, DOCUMENTATION, length, &table);
    }
    for length in 129..=255 {
        gives((5, 0), DOCUMENTATION, length, &table, &hex(SEQUENCE));
    }
}

#[test]
fn lengths_of_records() {
    let record = |length, maximum| vrp(DOCUMENTATION, length, maximum, AS_64500);
    let good = [(0, 0), (0, 128), (32, 32), (127, 128), (128, 128)];
    for (length, maximum) in good {
        let covered = if maximum == 128 { VALID } else { INVALID };
        states(covered, DOCUMENTATION, 128, &record(length, maximum));
    }
    let bad = [(0, 129), (128, 129), (128, 127), (129, 129), (129, 128)];
    for (length, maximum) in [&bad[..], &[(33, 32), (0, 255), (255, 255), (1, 0)]].concat() {
        let table = [record(32, 48), record(length, maximum), record(129, 0)].concat();
        gives((9, 1), DOCUMENTATION, 128, &table, &hex(SEQUENCE));
    }
}

#[test]
fn mapped_prefixes_are_as_any_others() {
    let table = vrp(MAPPED, 112, 116, AS_64500);
    states(VALID, MAPPED, 116, &table);
    states(INVALID, MAPPED, 117, &table);
    // 10.0.16.0 as the first four bytes
    states(NOT_FOUND, 0x0A00_1000 << 96, 116, &table);
    let first = vrp(0x0A00_1000 << 96, 20, 128, AS_64500);
    states(NOT_FOUND, MAPPED, 116, &first);
}

#[test]
fn as_0_covers_and_never_matches() {
    let zero = vrp(DOCUMENTATION, 32, 128, 0);
    states(INVALID, DOCUMENTATION, 48, &zero);
    gives((0, INVALID), DOCUMENTATION, 48, &zero, &hex(SET));
    // a later match counts
    let both = [zero, vrp(DOCUMENTATION, 32, 48, AS_64500)].concat();
    states(VALID, DOCUMENTATION, 48, &both);
}

#[test]
fn an_empty_path_has_the_own_as() {
    let own = hex("40010100400200");
    let by = |asn| vrp(DOCUMENTATION, 32, 48, asn);
    gives((0, VALID), DOCUMENTATION, 48, &by(OWN_AS), &own);
    gives((0, INVALID), DOCUMENTATION, 48, &by(AS_64500), &own);
}

#[test]
fn answers_in_their_order() {
    let long = block_of(BLOCK_MAX + 1);
    let bad = [vrp(0, 0, 0, 1), vrp(0, 1, 0, 1)].concat();
    let torn = &bad[..43];
    // each call has one reason less to be refused than the last
    gives((5, 0), 0, 129, torn, &long);
    for side in SIDES {
        let got = (side.origin_state6)(128, 0, 0, torn, &long);
        assert_eq!(got, (5, 0), "{}: own AS 0", side.name);
    }
    gives((6, 0), 0, 128, &bad, &long);
    gives((6, 0), 0, 128, torn, &[]);
    gives((9, 1), 0, 128, &bad, &[]);
    gives((3, 3), 0, 128, &bad[..22], &[]);
    gives((0, NOT_FOUND), 0, 128, &[], &block_of(BLOCK_MAX));
}

// Tables of no whole record, and of one byte more than whole ones; 110 bytes are IPv4's records too.
#[test]
fn lengths_of_tables() {
    let table = vrp(DOCUMENTATION, 32, 48, AS_64500).repeat(6);
    for length in 0..table.len() {
        let answer = match length {
            0 => (0, NOT_FOUND),
            _ if length % 22 == 0 => (0, VALID),
            _ => (6, 0),
        };
        gives(answer, DOCUMENTATION, 48, &table[..length], &hex(SEQUENCE));
    }
}

#[test]
fn tables_of_4096_and_4097() {
    let mut table = vrp(DOCUMENTATION + (1 << 96), 32, 48, AS_64500).repeat(4096);
    let one_more = vrp(DOCUMENTATION, 32, 48, AS_64500);
    states(NOT_FOUND, DOCUMENTATION, 48, &table);
    // the match in each part of 1,024: first, last, and one between
    for index in [0, 1, 1023, 1024, 2047, 2048, 2500, 3071, 3072, 4095] {
        let place = 22 * index..22 * index + 22;
        let other = table[place.clone()].to_vec();
        table[place.clone()].copy_from_slice(&one_more);
        states(VALID, DOCUMENTATION, 48, &table);
        states(INVALID, DOCUMENTATION, 49, &table);
        // the same record bad
        table[place.start + 17] = 129;
        gives((9, index), DOCUMENTATION, 48, &table, &hex(SEQUENCE));
        table[place].copy_from_slice(&other);
    }
    table.extend(one_more);
    gives((6, 0), DOCUMENTATION, 48, &table, &hex(SEQUENCE));
}
