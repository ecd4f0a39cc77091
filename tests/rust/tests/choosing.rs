//! Choosing among 64 candidates of each kind, and comparing two, with the results stored here.
use bgp_policy::{better, choose, table, Candidate, Offer, BLOCK_MAX};
use policy_tests::{block_of, hex};

const CLIENT: u32 = 7;

const VALID: u8 = 0;
const NOT_FOUND: u8 = 1;
const INVALID: u8 = 2;
const UNAVAILABLE: u8 = 3;

// The blocks that candidates share, one after another in the buffer.
const BLOCKS: [&str; 6] = [
    // ORIGIN 0, an empty path
    "40010100400200",
    // ORIGIN 2, an empty path
    "40010102400200",
    // ORIGIN 0, a path of one AS
    "40010100400206020100000001",
    // ORIGIN 0, a path of one set of three
    "4001010040020E0103000000010000000200000003",
    // ORIGIN 0, a path of two ASes
    "4001010040020A02020000000100000002",
    // ORIGIN 0, an empty path, an OTC
    "40010100400200C0230400000001",
];

const EMPTY: usize = 0;
const INCOMPLETE: usize = 1;
const ONE: usize = 2;
const SET: usize = 3;
const TWO: usize = 4;
const OTC: usize = 5;

fn buffer() -> Vec<u8> {
    BLOCKS.iter().flat_map(|block| hex(block)).collect()
}

// A candidate with one of the blocks.
fn with(block: usize, state: u8, identifier: u32, address: u32) -> Offer {
    Offer {
        start: BLOCKS[..block].iter().map(|b| b.len() as u32 / 2).sum(),
        size: BLOCKS[block].len() as u32 / 2,
        state,
        identifier,
        address,
    }
}

// 64 candidates, made by their index.
fn all(make: impl Fn(u32) -> Offer) -> Vec<Offer> {
    (0..64).map(make).collect()
}

fn chosen(mode: u8, offers: &[Offer]) -> (u8, usize, usize) {
    choose(mode, CLIENT, &buffer(), &table(offers))
}

#[test]
fn of_equals_the_first() {
    let offers = all(|_| with(EMPTY, VALID, 1, 1));
    for mode in 0..=3 {
        assert_eq!(chosen(mode, &offers), (0, 0, 64));
    }
}

#[test]
fn by_address_then_identifier_then_origin_then_path() {
    let mut offers = all(|i| with(TWO, VALID, 100, 100 - i));
    assert_eq!(chosen(0, &offers), (0, 63, 64));
    offers[40].identifier = 99;
    assert_eq!(chosen(0, &offers), (0, 40, 64));
    offers[30] = with(INCOMPLETE, VALID, 200, 200);
    assert_eq!(chosen(0, &offers), (0, 30, 64));
    offers[20] = with(EMPTY, VALID, 200, 200);
    assert_eq!(chosen(0, &offers), (0, 20, 64));
}

#[test]
fn a_set_counts_one() {
    let mut offers = all(|_| with(TWO, VALID, 1, 1));
    offers[50] = with(SET, VALID, 2, 2);
    assert_eq!(chosen(0, &offers), (0, 50, 64));
    offers[51] = with(ONE, VALID, 1, 1);
    assert_eq!(chosen(0, &offers), (0, 51, 64));
}

#[test]
fn blocks_with_an_otc_and_own_routes_are_removed() {
    let mut offers = all(|i| with(OTC, VALID, i, i));
    assert_eq!(chosen(0, &offers), (11, 0, 0));
    offers[9] = with(TWO, INVALID, 9, 9);
    offers[8] = with(EMPTY, VALID, 0, CLIENT);
    for mode in [1, 3] {
        assert_eq!(chosen(mode, &offers), (0, 9, 1));
    }
    for mode in [0, 2] {
        assert_eq!(chosen(mode, &offers), (11, 0, 0));
    }
}

#[test]
fn modes_2_and_0_drop_invalid_routes() {
    let offers = all(|i| with(EMPTY, (i % 4) as u8, 1, 64 - i + CLIENT));
    // 16 of each state: the highest index that is left has the lowest address
    assert_eq!(chosen(1, &offers), (0, 63, 64));
    let invalid = all(|i| with(EMPTY, INVALID, i, i + 8));
    for mode in [0, 2] {
        assert_eq!(chosen(mode, &offers), (0, 63, 48));
        assert_eq!(chosen(mode, &invalid), (11, 0, 0));
    }
    assert_eq!(chosen(1, &invalid), (0, 0, 64));
}

#[test]
fn mode_3_leaves_the_best_class() {
    let offers = all(|i| with(EMPTY, (i % 4) as u8, 1, 64 - i + CLIENT));
    assert_eq!(chosen(3, &offers), (0, 60, 16));
    // without the valid ones: 1 and 3 are one class
    let worse = all(|i| with(EMPTY, 1 + (i % 3) as u8, 1, 64 - i + CLIENT));
    assert_eq!(chosen(3, &worse), (0, 63, 43));
    let mut invalid = all(|i| with(EMPTY, INVALID, i, i + 8));
    assert_eq!(chosen(3, &invalid), (0, 0, 64));
    // the class that is left once the client's own routes are gone
    invalid[5] = with(EMPTY, VALID, 0, CLIENT);
    assert_eq!(chosen(3, &invalid), (0, 0, 63));
    invalid[6] = with(OTC, NOT_FOUND, 0, 9);
    assert_eq!(chosen(3, &invalid), (0, 0, 62));
    invalid[63] = with(TWO, UNAVAILABLE, 900, 900);
    assert_eq!(chosen(3, &invalid), (0, 63, 1));
}

#[test]
fn answers_in_their_order() {
    let mut offers = all(|i| with(OTC, VALID, i, i));
    offers[62].size = 1;
    offers.push(with(EMPTY, 4, 0, 0));
    let candidates = table(&offers);
    let call = |mode, candidates: &[u8]| choose(mode, CLIENT, &buffer(), candidates);
    // each call has one reason less to be refused than the last
    assert_eq!(call(4, &candidates), (5, 0, 0));
    assert_eq!(call(3, &candidates), (6, 0, 0));
    assert_eq!(call(3, &candidates[..64 * 17 - 1]), (6, 0, 0));
    assert_eq!(call(3, &candidates[..64 * 17]), (10, 62, 0));
    assert_eq!(call(3, &candidates[..62 * 17]), (11, 0, 0));
    assert_eq!(call(3, &[]), (11, 0, 0));
}

#[test]
fn bad_candidates() {
    let whole = buffer().len() as u32;
    let bad = |offer: Offer| {
        let offers = [with(EMPTY, VALID, 0, 0), offer];
        assert_eq!(chosen(0, &offers), (10, 1, 0), "{offer:?}");
    };
    let at = |start, size| Offer {
        start,
        size,
        ..with(EMPTY, VALID, 0, 0)
    };
    bad(with(EMPTY, 4, 0, 0));
    bad(at(0, 0));
    bad(at(0, 6));
    bad(at(whole, 7));
    bad(at(whole - 6, 7));
    bad(at(u32::MAX, u32::MAX));
    bad(at(u32::MAX, 7));
    bad(at(0, u32::MAX));
}

#[test]
fn blocks_of_4073_and_4074() {
    let offer = |size| Offer {
        start: 0,
        size,
        ..with(EMPTY, VALID, 0, 0)
    };
    let run = |length: usize| {
        let candidates = table(&[offer(length as u32)]);
        choose(0, CLIENT, &block_of(length), &candidates)
    };
    assert_eq!(run(BLOCK_MAX), (0, 0, 1));
    assert_eq!(run(BLOCK_MAX + 1), (10, 0, 0));
}

#[test]
fn comparing_two() {
    let blocks: Vec<Vec<u8>> = BLOCKS.iter().map(|block| hex(block)).collect();
    let of = |block: usize, state, identifier, address| Candidate {
        block: &blocks[block],
        state,
        identifier,
        address,
    };
    let base = of(ONE, VALID, 5, 5);
    // a tie goes to the first; nothing is removed, and the state does not count
    assert_eq!(better(base, base), (0, 0));
    assert_eq!(better(base, of(ONE, INVALID, 5, 5)), (0, 0));
    assert_eq!(better(of(ONE, INVALID, 5, 5), base), (0, 0));
    assert_eq!(better(base, of(OTC, INVALID, 9, 9)), (0, 1));
    assert_eq!(better(base, of(EMPTY, VALID, 9, 9)), (0, 1));
    assert_eq!(better(base, of(SET, VALID, 4, 9)), (0, 1));
    assert_eq!(better(base, of(ONE, VALID, 5, 4)), (0, 1));
    assert_eq!(better(base, of(TWO, VALID, 0, 0)), (0, 0));
    // bad ones, the first first
    let bad = Candidate { block: &[], ..base };
    assert_eq!(better(bad, bad), (10, 0));
    assert_eq!(better(base, bad), (10, 1));
    assert_eq!(better(base, of(ONE, 4, 5, 5)), (10, 1));
}
