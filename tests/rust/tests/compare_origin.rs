//! Origin state of both families: the library, the reference and fast Rust agree over seeded tables, routes and blocks.
use policy_tests::generate::{damaged, Random, ASNS};
use policy_tests::shown;
use policy_tests::sides::agree;
use policy_tests::tables::{length6, prefix, prefix6, some_block, vrp, vrp6, Tally, FAULTS};

const ROUNDS: usize = 120_000;

const OWN_ASES: [u32; 10] = [ASNS[0], ASNS[1], ASNS[3], 7, 8, 9, 10, 11, 12, 0];

// A call with a route of one family, some own AS, and this table and block, which all sides answer alike.
type Call = fn(&mut Random, &[u8], &[u8]) -> (u8, usize);

fn state(random: &mut Random, table: &[u8], block: &[u8]) -> (u8, usize) {
    let length = match random.below(40) {
        0 => random.pick(&[33, 34, 255]),
        1..=4 => random.below(33) as u8,
        _ => random.pick(&[16, 19, 20, 20, 21, 24]),
    };
    let (own_as, prefix) = (random.pick(&OWN_ASES), prefix(random));
    agree(
        |side| (side.origin_state)(length, prefix, own_as, table, block),
        || {
            let (table, block) = (shown(table), shown(block));
            format!("{prefix:08X}/{length}, own AS {own_as}, table {table}, block {block}")
        },
    )
}

fn state6(random: &mut Random, table: &[u8], block: &[u8]) -> (u8, usize) {
    let length = match random.below(40) {
        0 => random.pick(&[129, 130, 255]),
        _ => length6(random) as u8,
    };
    let (own_as, prefix) = (random.pick(&OWN_ASES), prefix6(random));
    agree(
        |side| (side.origin_state6)(length, prefix, own_as, table, block),
        || {
            let (table, block) = (shown(table), shown(block));
            format!("{prefix:032X}/{length}, own AS {own_as}, table {table}, block {block}")
        },
    )
}

// Small tables, some of them cut or damaged, and tables about the limit; every answer of the function occurs.
fn tables_agree(name: &str, seed: u64, vrp: fn(&mut Random, usize) -> Vec<u8>, call: Call) {
    let (mut random, mut tally) = (Random(seed), Tally::default());
    // Of a bad record only the answer is counted.
    let mut count = |(answer, beside)| tally.add(answer, if answer == 9 { 0 } else { beside });
    for _ in 0..ROUNDS {
        let records = random.below(9);
        let mut table: Vec<u8> = (0..records).flat_map(|_| vrp(&mut random, 60)).collect();
        match random.below(30) {
            0 => drop(table.pop()),
            1 => table.push(0),
            2 => table = damaged(&mut random, table),
            _ => {}
        }
        let block = some_block(&mut random);
        count(call(&mut random, &table, &block));
    }
    for records in [4_095, 4_096, 4_097].iter().flat_map(|n| [*n; 30]) {
        let bad_in = random.pick(&[10_000, 1_000_000]);
        let table: Vec<u8> = (0..records)
            .flat_map(|_| vrp(&mut random, bad_in))
            .collect();
        let block = some_block(&mut random);
        count(call(&mut random, &table, &block));
    }
    let expected = [(0, 0), (0, 1), (0, 2), (5, 0), (6, 0), (9, 0)];
    tally.check(name, &[&expected[..], &FAULTS].concat());
}

#[test]
fn origin_state_agrees() {
    tables_agree("origin_state", 12, vrp, state);
}

#[test]
fn origin_state6_agrees() {
    tables_agree("origin_state6", 16, vrp6, state6);
}
