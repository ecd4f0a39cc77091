//! The index over the VRPs: the library and fast Rust agree with the reference and with the plain scan, over seeded tables of both
//! families and many shapes.
use policy_tests::generate::Random;
use policy_tests::indexing::{numbers, Indexing, INDEXINGS};
use policy_tests::reference::{told, Index};
use policy_tests::shapes::{contents, Shape};
use policy_tests::tables::Tally;

const TABLES: usize = 6_000;
const ROUTES: usize = 12;

// The answers of a build, which stand alone, and those of a look-up with their states.
const BUILT: [(u8, usize); 4] = [(0, 0), (6, 0), (7, 0), (9, 0)];
const FOUND: [(u8, usize); 4] = [(0, 0), (0, 1), (0, 2), (5, 0)];

// A table of few records, at times cut or a byte too long.
fn small_table(random: &mut Random, shape: &Shape) -> Vec<u8> {
    let records = random.pick(&[0, 1, 2, 3, 5, 9, 20]);
    let mut table = shape.table(random, records, 80);
    match random.below(30) {
        0 => drop(table.pop()),
        1 => table.push(0),
        _ => {}
    }
    table
}

// How many numbers are lent: enough, just enough or a node too few, and numbers that make no triple.
fn lent(random: &mut Random, width: u8, table: &[u8]) -> usize {
    let nodes = match told(&Index::build(width, table, usize::MAX)) {
        (0, nodes) => nodes,
        _ => 1 + random.below(100),
    };
    let records = table.len() / (usize::from(width) / 8 + 6);
    let nodes = match random.below(8) {
        0..=2 => nodes,
        3 => nodes - 1,
        4 => random.below(nodes + 1),
        _ => nodes + random.below(50),
    };
    numbers(nodes, records) + random.below(3)
}

// The index of a table, built in a memory with some contents, and look-ups in it.
fn compared(
    random: &mut Random,
    by: &Indexing,
    shape: &Shape,
    table: &[u8],
    tallies: &mut [Tally; 2],
) {
    let [builds, look_ups] = tallies;
    let lent = lent(random, by.width, table);
    let before = contents(random, lent);
    let (answer, memory) = by.builds(table, &before);
    builds.add(answer, 0);
    let Some(memory) = memory else {
        return;
    };
    let index = Index::build(by.width, table, lent).expect("an index");
    for _ in 0..ROUTES {
        let (route, origin) = shape.route(random);
        let (answer, state) = by.finds(&index, table, &memory, route, origin);
        look_ups.add(answer, state);
    }
}

#[test]
fn small_tables() {
    for by in INDEXINGS {
        let (mut random, mut tallies) = (Random(71), <[Tally; 2]>::default());
        for _ in 0..TABLES {
            let shape = Shape::some(&mut random, by.width);
            let table = small_table(&mut random, &shape);
            compared(&mut random, &by, &shape, &table, &mut tallies);
        }
        tallies[0].check(by.name, &BUILT);
        tallies[1].check(by.name, &FOUND);
    }
}

// About the limit of records; 4,097 of them are refused.
#[test]
fn large_tables() {
    for by in INDEXINGS {
        let (mut random, mut tallies) = (Random(72), <[Tally; 2]>::default());
        for records in [1_000, 4_095, 4_096, 4_097].iter().flat_map(|n| [*n; 6]) {
            let shape = Shape::some(&mut random, by.width);
            let bad_in = random.pick(&[4_000, 1_000_000, 1_000_000]);
            let table = shape.table(&mut random, records, bad_in);
            compared(&mut random, &by, &shape, &table, &mut tallies);
        }
        tallies[0].check(by.name, &BUILT);
        tallies[1].check(by.name, &FOUND);
    }
}

// The nodes needed are the least that are enough.
#[test]
fn just_enough_nodes() {
    for by in INDEXINGS {
        let mut random = Random(73);
        for round in 0..1_000 {
            let shape = Shape::some(&mut random, by.width);
            let records = round % 20;
            let table = shape.table(&mut random, records, usize::MAX);
            let index = Index::build(by.width, &table, usize::MAX);
            let (0, nodes) = told(&index) else {
                panic!("a table that is taken");
            };
            for spare in 0..3 {
                let before = contents(&mut random, numbers(nodes, records) + spare);
                assert_eq!(by.builds(&table, &before).0, 0);
                let before = contents(&mut random, numbers(nodes - 1, records) + spare);
                assert_eq!(by.builds(&table, &before).0, 7);
            }
        }
    }
}

// Look-ups change nothing, so that threads may share one memory.
#[test]
fn threads_share_an_index() {
    for by in INDEXINGS {
        let mut random = Random(74);
        let shape = Shape::some(&mut random, by.width);
        let table = shape.table(&mut random, 200, usize::MAX);
        let index = Index::build(by.width, &table, usize::MAX).expect("an index");
        let before = contents(&mut random, numbers(200 * usize::from(by.width) + 1, 200));
        let memory = by.builds(&table, &before).1.expect("an index");
        let held = memory.clone();
        std::thread::scope(|scope| {
            for seed in 0..4 {
                let (shape, table, index, memory) = (&shape, &table, &index, &memory);
                scope.spawn(move || {
                    let mut random = Random(seed);
                    for _ in 0..500 {
                        let (route, origin) = shape.route(&mut random);
                        by.finds(index, table, memory, route, origin);
                    }
                });
            }
        });
        assert!(memory == held, "{}: a look-up wrote", by.name);
    }
}
