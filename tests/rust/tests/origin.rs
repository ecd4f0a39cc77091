//! Origin state and received tag: the cases that document 01 names and the limits, with the results stored here.
use bgp_policy::{origin_state, received_tag, BLOCK_MAX};
use policy_tests::{block_of, hex};

const VALID: usize = 0;
const NOT_FOUND: usize = 1;
const INVALID: usize = 2;
const UNAVAILABLE: usize = 3;

const OWN_AS: u32 = 1;

// 10.0.0.0/16, maximum 20, AS 64500.
const VRP: &str = "0A00000010140000FBF4";

// ORIGIN, and a path that ends in AS 64500, by a sequence and by a set.
const SEQUENCE: &str = "4001010040020602010000FBF4";
const SET: &str = "4001010040020601010000FBF4";

fn state(prefix: [u8; 4], length: u8, table: &str, block: &str) -> (u8, usize) {
    let prefix = u32::from_be_bytes(prefix);
    origin_state(length, prefix, OWN_AS, &hex(table), &hex(block))
}

#[test]
fn p6_to_p9() {
    assert_eq!(state([10, 0, 16, 0], 20, VRP, SEQUENCE), (0, VALID));
    assert_eq!(state([10, 0, 16, 0], 21, VRP, SEQUENCE), (0, INVALID));
    assert_eq!(state([10, 1, 0, 0], 20, VRP, SEQUENCE), (0, NOT_FOUND));
    assert_eq!(state([10, 0, 16, 0], 20, VRP, SET), (0, INVALID));
}

#[test]
fn p10() {
    let block = hex("40010100400200C0101043000000000000004300000000000007");
    assert_eq!(received_tag(&block), (0, VALID, 1));
}

#[test]
fn bits_after_a_length_never_count() {
    // 10.0.255.255/16 in the table, 10.0.16.255/20 in the route
    let table = "0A00FFFF10140000FBF4";
    assert_eq!(state([10, 0, 16, 255], 20, table, SEQUENCE), (0, VALID));
    // a length of 0 covers everything
    let table = "FFFFFFFF00200000FBF4";
    assert_eq!(state([10, 0, 16, 0], 20, table, SEQUENCE), (0, VALID));
}

#[test]
fn as_0_covers_and_never_matches() {
    let zero = "0A000000101400000000";
    assert_eq!(state([10, 0, 16, 0], 20, zero, SEQUENCE), (0, INVALID));
    // a later match counts
    let both = [zero, VRP].concat();
    assert_eq!(state([10, 0, 16, 0], 20, &both, SEQUENCE), (0, VALID));
}

#[test]
fn an_empty_path_has_the_own_as() {
    let vrp = "0A000000101400000001";
    let path = "40010100400200";
    assert_eq!(state([10, 0, 16, 0], 20, vrp, path), (0, VALID));
    assert_eq!(state([10, 0, 16, 0], 20, VRP, path), (0, INVALID));
}

#[test]
fn answers_in_their_order() {
    let long = block_of(BLOCK_MAX + 1);
    let bad = hex("0A00000010140000FBF40A000000150F0000FBF4");
    let torn = &bad[..19];
    // each call has one reason less to be refused than the last
    assert_eq!(origin_state(33, 0, OWN_AS, torn, &long), (5, 0));
    assert_eq!(origin_state(32, 0, 0, torn, &long), (5, 0));
    assert_eq!(origin_state(32, 0, OWN_AS, &bad, &long), (6, 0));
    assert_eq!(origin_state(32, 0, OWN_AS, torn, &[]), (6, 0));
    assert_eq!(origin_state(32, 0, OWN_AS, &bad, &[]), (9, 1));
    assert_eq!(origin_state(32, 0, OWN_AS, &bad[..10], &[]), (3, 3));
}

#[test]
fn blocks_of_4073_and_4074() {
    assert_eq!(
        origin_state(32, 0, OWN_AS, &[], &block_of(BLOCK_MAX)),
        (0, NOT_FOUND)
    );
    assert_eq!(
        origin_state(32, 0, OWN_AS, &[], &block_of(BLOCK_MAX + 1)),
        (6, 0)
    );
    assert_eq!(received_tag(&block_of(BLOCK_MAX)), (0, UNAVAILABLE, 0));
    assert_eq!(received_tag(&block_of(BLOCK_MAX + 1)), (6, 0, 0));
}

#[test]
fn tables_of_4096_and_4097() {
    let block = hex(SEQUENCE);
    let prefix = u32::from_be_bytes([10, 0, 16, 0]);
    let mut table = hex("0B00000010140000FBF4").repeat(4095);
    table.extend(hex(VRP));
    assert_eq!(origin_state(20, prefix, OWN_AS, &table, &block), (0, VALID));
    // the last record is bad
    let last = table.len() - 5;
    table[last] = 33;
    assert_eq!(origin_state(20, prefix, OWN_AS, &table, &block), (9, 4095));
    table.extend(hex(VRP));
    assert_eq!(origin_state(20, prefix, OWN_AS, &table, &block), (6, 0));
}

#[test]
fn tags() {
    let tagged = |values: &[u8]| {
        let mut block = hex("40010100400200");
        block.extend([0xC0, 16, 8 * values.len() as u8]);
        for &value in values {
            block.extend([0x43, 0, 0, 0, 0, 0, 0, value]);
        }
        received_tag(&block)
    };
    assert_eq!(tagged(&[1]), (0, NOT_FOUND, 0));
    assert_eq!(tagged(&[0, 2, 1]), (0, INVALID, 0));
    assert_eq!(tagged(&[3, 255]), (0, UNAVAILABLE, 2));
    assert_eq!(tagged(&[7, 1, 7]), (0, NOT_FOUND, 2));
    // no tag: another subtype, another type
    let other = hex("40010100400200C0101043010000000000010300000000000001");
    assert_eq!(received_tag(&other), (0, UNAVAILABLE, 0));
    assert_eq!(received_tag(&hex("40010100")), (3, 4, 0));
}
