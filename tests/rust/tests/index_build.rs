//! The index over the VRPs: builds at their limits, with the results stored here. The library and fast Rust give them.
use policy_tests::indexing::{filled, numbers, INDEXINGS};
use policy_tests::shapes::record;

const VALID: usize = 0;
const NOT_FOUND: usize = 1;
const INVALID: usize = 2;

#[test]
fn an_empty_table_has_the_root() {
    for by in INDEXINGS {
        for numbers in 0..3 {
            by.gives(&[], &filled(numbers), (7, 0));
        }
        for numbers in 3..10 {
            let memory = by.gives(&[], &filled(numbers), (0, 1));
            for length in 0..=by.width {
                by.tells(
                    &memory,
                    (u128::MAX >> (128 - by.width), length, 1),
                    (NOT_FOUND, 1),
                );
            }
        }
    }
}

// A node for each bit of each record and the root are surely enough, and needed where two have no bit in common.
#[test]
fn the_most_nodes() {
    for by in INDEXINGS {
        let most = 2 * usize::from(by.width) + 1;
        let all = |prefix| record(by.width, prefix, by.width, by.width, 1);
        by.needs(&[all(0), all(u128::MAX >> (128 - by.width))].concat(), most);
        // all but the last bit in common
        by.needs(&[all(0), all(1)].concat(), usize::from(by.width) + 2);
    }
}

// Tables of no whole record; and one record too many, whatever the memory.
#[test]
fn lengths_of_tables() {
    for by in INDEXINGS {
        let one = record(by.width, 0, 0, 0, 1);
        let four = one.repeat(4);
        for length in (0..four.len()).filter(|length| length % by.size() != 0) {
            by.gives(&four[..length], &filled(99), (6, 0));
            by.gives(&four[..length], &filled(0), (6, 0));
        }
        let memory = by.needs(&one.repeat(4_096), 1);
        by.tells(&memory, (0, by.width, 1), (INVALID, 1));
        by.tells(&memory, (0, 0, 1), (VALID, 1));
        by.gives(&one.repeat(4_097), &filled(numbers(1, 4_097)), (6, 0));
        by.gives(&one.repeat(4_097), &filled(0), (6, 0));
    }
}

#[test]
fn the_first_bad_record() {
    for by in INDEXINGS {
        let (good, width) = (record(by.width, 0, 0, 0, 1), by.width);
        for (length, maximum) in [
            (1, 0),
            (0, width + 1),
            (width + 1, width + 1),
            (width, width - 1),
            (255, 255),
        ] {
            let bad = record(width, 0, length, maximum, 1);
            for index in [0, 1, 5] {
                let table = [&good.repeat(index)[..], &bad, &good, &bad].concat();
                by.gives(&table, &filled(99), (9, index));
                // no room either
                by.gives(&table, &filled(0), (9, index));
                // and a byte too long
                by.gives(&[&table[..], &[0]].concat(), &filled(99), (6, 0));
            }
        }
    }
}

// Numbers that make no triple are no node; on answer 7 they are zeros too.
#[test]
fn lengths_of_memories() {
    for by in INDEXINGS {
        let table = record(by.width, 0, 1, 1, 1);
        for numbers in 0..20 {
            let answer = if numbers < 9 { (7, 0) } else { (0, 2) };
            let memory = by.gives(&table, &filled(numbers), answer);
            if answer.0 == 0 {
                by.tells(&memory, (0, 1, 1), (VALID, 2));
            }
        }
    }
}

// A second build leaves nothing of the first.
#[test]
fn building_again() {
    for by in INDEXINGS {
        let all = record(by.width, 0, by.width, by.width, 1);
        let mut memory = by.needs(&all, usize::from(by.width) + 1);
        let short = record(by.width, 0, 1, by.width, 2);
        assert_eq!((by.build)(&short, &mut memory), (0, 2), "{}", by.name);
        by.tells(&memory, (0, by.width, 1), (INVALID, 2));
        by.tells(&memory, (0, by.width, 2), (VALID, 2));
    }
}
