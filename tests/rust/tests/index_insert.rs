//! Insertion into an index: record by record it gives what a build of the longer table gives, and a refusal changes nothing.
use policy_tests::generate::Random;
use policy_tests::indexing::{numbers, within, Indexing, INDEXINGS};
use policy_tests::reference::{told, Index};
use policy_tests::shapes::{contents, record, Shape};
use policy_tests::shown;
use policy_tests::tables::Tally;

// A table and the memory that holds its index, as the caller keeps them.
struct Kept {
    table: Vec<u8>,
    records: usize,
    nodes: usize,
    memory: Vec<u32>,
}

impl Kept {
    // The index of the empty table, in a memory with these contents; one triple or more.
    fn empty(by: &Indexing, before: &[u32]) -> Self {
        let (_, memory) = by.builds(&[], before);
        Kept {
            table: Vec::new(),
            records: 0,
            nodes: 1,
            memory: memory.expect("room for the root"),
        }
    }

    // One record more: what the reference gives; a refusal leaves the memory.
    fn insert(&mut self, by: &Indexing, record: &[u8]) -> u8 {
        let expected = told(&Index::insert(
            by.width,
            &self.table,
            record,
            self.memory.len(),
        ));
        let (got, after) = self.call(by, record);
        let table = shown(&self.table);
        assert_eq!(got, expected, "{}: {} into {table}", by.name, shown(record));
        match got {
            (0, nodes) => {
                self.table.extend(record);
                (self.records, self.nodes, self.memory) = (self.records + 1, nodes, after);
            }
            _ => assert!(after == self.memory, "{}: a refusal wrote", by.name),
        }
        got.0
    }

    fn call(&self, by: &Indexing, record: &[u8]) -> ((u8, usize), Vec<u32>) {
        within(&self.memory, |memory| {
            (by.insert)(record, memory, self.records, self.nodes)
        })
    }

    // A build of the table in a memory with these contents makes the same index.
    fn is_built(&self, by: &Indexing, before: &[u32]) {
        let (got, after) = within(before, |memory| (by.build)(&self.table, memory));
        assert_eq!(got, (0, self.nodes), "{}: {}", by.name, shown(&self.table));
        assert!(after == self.memory, "{}: another memory", by.name);
    }

    // Look-ups are those of the table.
    fn finds(&self, by: &Indexing, random: &mut Random, shape: &Shape, routes: usize) {
        let index = Index::build(by.width, &self.table, usize::MAX).expect("an index");
        for _ in 0..routes {
            let (route, origin) = shape.route(random);
            by.finds(&index, &self.table, &self.memory, route, origin);
        }
    }
}

// The memory is at times too small for all records, some of which are bad, cut or too long.
#[test]
fn record_by_record() {
    for by in INDEXINGS {
        let (mut random, mut tally) = (Random(81), Tally::default());
        for _ in 0..700 {
            let shape = Shape::some(&mut random, by.width);
            let nodes = 1 + random.below(8 * usize::from(by.width));
            let records = random.below(12);
            let lent = numbers(nodes, records) + random.below(3);
            let before = contents(&mut random, lent);
            let mut kept = Kept::empty(&by, &before);
            for _ in 0..random.below(16) {
                let mut record = shape.record(&mut random, 12);
                match random.below(24) {
                    0 => drop(record.pop()),
                    1 => record.push(0),
                    _ => {}
                }
                tally.add(kept.insert(&by, &record), 0);
                kept.finds(&by, &mut random, &shape, 3);
            }
            kept.is_built(&by, &before);
        }
        tally.check(by.name, &[(0, 0), (6, 0), (7, 0), (9, 0)]);
    }
}

// Just enough room for a record, and a node too little for it.
#[test]
fn just_enough_room() {
    for by in INDEXINGS {
        let mut random = Random(82);
        for _ in 0..500 {
            let shape = Shape::some(&mut random, by.width);
            let records = random.below(6);
            let table = shape.table(&mut random, records, usize::MAX);
            let added = shape.record(&mut random, usize::MAX);
            let longer = [&table[..], &added].concat();
            let (_, nodes) = told(&Index::build(by.width, &longer, usize::MAX));
            for (lent, answer) in [(nodes, 0), (nodes - 1, 7)] {
                let before = contents(&mut random, numbers(lent, records + 1));
                let built = within(&before, |memory| (by.build)(&table, memory));
                let ((0, nodes), memory) = built else {
                    panic!("{}: no room for the table itself", by.name);
                };
                let table = table.clone();
                let mut kept = Kept {
                    table,
                    records,
                    nodes,
                    memory,
                };
                assert_eq!(kept.insert(&by, &added), answer, "{}", by.name);
                kept.finds(&by, &mut random, &shape, 8);
            }
        }
    }
}

// 4,096 records, and no more; the next is refused before it is looked at.
#[test]
fn up_to_the_limit() {
    for by in INDEXINGS {
        let mut random = Random(83);
        let shape = Shape::some(&mut random, by.width);
        let before = contents(&mut random, numbers(4_100 * usize::from(by.width), 4_100));
        let mut kept = Kept::empty(&by, &before);
        for _ in 0..4_096 {
            let record = shape.record(&mut random, usize::MAX);
            let (answer, nodes) = (by.insert)(&record, &mut kept.memory, kept.records, kept.nodes);
            assert_eq!(answer, 0, "{}: record {}", by.name, kept.records);
            kept.table.extend(record);
            (kept.records, kept.nodes) = (kept.records + 1, nodes);
        }
        kept.is_built(&by, &before);
        kept.finds(&by, &mut random, &shape, 100);
        for maximum in [by.width, by.width + 1] {
            let record = record(by.width, 0, 0, maximum, 1);
            assert_eq!(kept.insert(&by, &record), 6, "{}", by.name);
        }
    }
}

// Each call has one reason less to be refused than the last; the memory is full.
#[test]
fn answers_in_their_order() {
    for by in INDEXINGS {
        let full = record(by.width, 0, 0, 0, 1);
        let mut memory = vec![0; numbers(1, 2)];
        let table = full.repeat(2);
        assert_eq!((by.build)(&table, &mut memory), (0, 1), "{}", by.name);
        let mut kept = Kept {
            table,
            records: 2,
            nodes: 1,
            memory,
        };
        let bad = record(by.width, 0, 1, 0, 1);
        let refusals = [(&bad[1..], (6, 0)), (&bad, (9, 2)), (&full, (7, 0))];
        for (record, expected) in refusals {
            assert_eq!(kept.call(&by, record).0, expected, "{}", by.name);
            kept.insert(&by, record);
        }
        for length in (0..2 * by.size()).filter(|length| *length != by.size()) {
            assert_eq!(
                kept.call(&by, &full.repeat(2)[..length]).0,
                (6, 0),
                "{}",
                by.name
            );
        }
    }
}
