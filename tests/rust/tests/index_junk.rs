//! Memory that holds no index, or another table's or family's: look-ups and insertions end, keep within their bounds, and write nothing
//! that they may not.
use policy_tests::generate::Random;
use policy_tests::indexing::{numbers, within, Indexing, INDEXINGS};
use policy_tests::shapes::{bits, contents, Shape};

// A look-up in any memory: a refusal for a length out of range, else a state up to 3 and a node for each bit and the root at most.
fn bounded(by: &Indexing, memory: &[u32], length: u8, prefix: u128, origin: u32) -> usize {
    let (got, after) = within(memory, |memory| {
        (by.look_up)(memory, length, prefix, origin)
    });
    let (answer, state, visited) = got;
    let name = by.name;
    if length > by.width {
        assert_eq!(got, (5, 0, 0), "{name}: length {length}");
    } else {
        let within = answer == 0 && state <= 3 && visited <= usize::from(length) + 1;
        assert!(
            within,
            "{name}: {prefix:X}/{length}, {origin}: {got:?} in {memory:?}"
        );
    }
    assert!(after == memory, "{name}: a look-up wrote");
    visited
}

// Insertions by a caller that says any numbers of records and nodes: the greatest answer; a refusal changes nothing.
fn inserted(random: &mut Random, by: &Indexing, shape: &Shape, memory: &[u32]) {
    let triples = memory.len() / 3;
    let menu = [
        0,
        1,
        2,
        triples / 2,
        triples,
        triples + 1,
        4_095,
        4_096,
        u32::MAX as usize,
        usize::MAX,
    ];
    let (records, nodes) = (random.pick(&menu), random.pick(&menu));
    let record = shape.record(random, 10);
    let (got, after) = within(memory, |memory| {
        (by.insert)(&record, memory, records, nodes)
    });
    let name = by.name;
    assert!([0, 6, 7, 9].contains(&got.0), "{name}: {got:?}");
    let kept = got.0 == 0 || after == memory;
    assert!(
        kept,
        "{name}: {got:?} for {records} records, {nodes} nodes: a refusal wrote"
    );
}

// Both functions in one memory, with routes near a shape and any others; gives the most nodes visited.
fn tried(random: &mut Random, by: &Indexing, shape: &Shape, memory: &[u32]) -> usize {
    let mut most = 0;
    for _ in 0..6 {
        let ((length, prefix), origin) = shape.route(random);
        most = most.max(bounded(by, memory, length, prefix, origin));
        let prefix = bits(random, by.width);
        most = most.max(bounded(by, memory, by.width, prefix, origin));
        inserted(random, by, shape, memory);
    }
    most
}

// Zeros, ones, small words (which make links within the memory, and circles) and any words.
#[test]
fn any_words() {
    for by in INDEXINGS {
        let (mut random, mut most) = (Random(91), 0);
        for _ in 0..4_000 {
            let shape = Shape::some(&mut random, by.width);
            let size = random.pick(&[0, 1, 2, 3, 4, 5, 6, 7, 8, 9, 30, 31, 32, 400]);
            let memory = contents(&mut random, size);
            most = most.max(tried(&mut random, &by, &shape, &memory));
        }
        println!("{}: at most {most} nodes visited", by.name);
    }
}

// Every link of a node leads to one node, and every link of a record to one record: itself among them.
#[test]
fn circles() {
    for by in INDEXINGS {
        let mut random = Random(92);
        let shape = Shape::some(&mut random, by.width);
        for triples in 1..12 {
            for child in 0..=triples + 1 {
                for record in 0..=triples + 1 {
                    let node = [child, child, record].map(|link| link as u32);
                    let (link, maximum) = (record as u32, u32::from(by.width));
                    let front = node.repeat(triples);
                    tried(&mut random, &by, &shape, &front);
                    let back = [link, maximum, 64500].repeat(triples);
                    let both = [&front[..], &back].concat();
                    tried(&mut random, &by, &shape, &both);
                }
            }
        }
    }
}

// An index of other records, whole, cut at either end, with some words altered, and read as the other family's.
#[test]
fn other_tables() {
    for (place, by) in INDEXINGS.into_iter().enumerate() {
        let other = INDEXINGS[place ^ 1];
        let mut random = Random(93);
        for round in 0..1_500 {
            let from = if round % 3 == 0 { &other } else { &by };
            let (shape, built) = (
                Shape::some(&mut random, by.width),
                Shape::some(&mut random, from.width),
            );
            let table = built.table(&mut random, 9, usize::MAX);
            let before = contents(&mut random, numbers(9 * usize::from(from.width) + 1, 9));
            let mut memory = from.builds(&table, &before).1.expect("an index");
            tried(&mut random, &by, &shape, &memory);
            for _ in 0..1 + random.below(4) {
                let (at, word) = (random.below(memory.len()), random.below(memory.len()));
                memory[at] = random.pick(&[0, 1, 2, u32::MAX, word as u32]);
            }
            tried(&mut random, &by, &shape, &memory);
            let cut = random.below(memory.len());
            tried(&mut random, &by, &shape, &memory[cut..]);
            tried(&mut random, &by, &shape, &memory[..cut]);
        }
    }
}

// A memory that was cleared by a build without room holds no node but a root without records.
#[test]
fn cleared() {
    for by in INDEXINGS {
        let mut random = Random(94);
        let shape = Shape::some(&mut random, by.width);
        let mut memory = contents(&mut random, 30);
        let table = shape.table(&mut random, 10, usize::MAX);
        assert_eq!((by.build)(&table, &mut memory), (7, 0), "{}", by.name);
        assert_eq!(memory, [0; 30], "{}", by.name);
        tried(&mut random, &by, &shape, &memory);
    }
}
