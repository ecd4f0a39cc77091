//! The index functions that the tests run side by side, under one form for both families, and the memory lent to them.
use crate::reference::{told, Index};
use crate::{fast, shown};
use std::fmt::Debug;

/// The index functions of one implementation for one family, and its plain scan. A prefix is a number of `width` bits.
#[derive(Clone, Copy)]
pub struct Indexing {
    pub name: &'static str,
    pub width: u8,
    pub build: fn(&[u8], &mut [u32]) -> (u8, usize),
    pub insert: fn(&[u8], &mut [u32], usize, usize) -> (u8, usize),
    pub look_up: fn(&[u32], u8, u128, u32) -> (u8, usize, usize),
    pub scan: fn(u8, u128, u32, &[u8], &[u8]) -> (u8, usize),
}

// The functions of a module, for both families.
macro_rules! indexing {
    ($name:literal, $name6:literal, $module:ident) => {
        [
            Indexing {
                name: $name,
                width: 32,
                build: $module::index_build,
                insert: $module::index_insert,
                look_up: |memory, length, prefix, origin| {
                    $module::index_look_up(memory, length, prefix as u32, origin)
                },
                scan: |length, prefix, own_as, table, block| {
                    $module::origin_state(length, prefix as u32, own_as, table, block)
                },
            },
            Indexing {
                name: $name6,
                width: 128,
                build: $module::index_build6,
                insert: $module::index_insert6,
                look_up: $module::index_look_up6,
                scan: $module::origin_state6,
            },
        ]
    };
}

pub const LIBRARY: [Indexing; 2] = indexing!("the library", "the library, IPv6", bgp_policy);
pub const FAST: [Indexing; 2] = indexing!("fast Rust", "fast Rust, IPv6", fast);

/// All of them.
pub const INDEXINGS: [Indexing; 4] = [LIBRARY[0], LIBRARY[1], FAST[0], FAST[1]];

impl Indexing {
    /// The size of a record.
    pub fn size(&self) -> usize {
        usize::from(self.width) / 8 + 6
    }

    /// The plain scan's answer and state, of a block whose path ends in this origin: in a set for 0.
    pub fn scanned(&self, table: &[u8], route: (u8, u128), origin: u32) -> (u8, usize) {
        let kind = if origin == 0 { 1 } else { 2 };
        let mut block = vec![0x40, 1, 1, 0, 0x40, 2, 6, kind, 1];
        block.extend(origin.max(1).to_be_bytes());
        let (length, prefix) = route;
        (self.scan)(length, prefix, 7, table, &block)
    }

    /// A look-up in a memory that holds the index of a table gives what the reference gives, and the plain scan's state.
    pub fn finds(
        &self,
        index: &Index,
        table: &[u8],
        memory: &[u32],
        route: (u8, u128),
        origin: u32,
    ) -> (u8, usize) {
        let (length, prefix) = route;
        let expected = index.look_up(length, prefix, origin);
        let got = (self.look_up)(memory, length, prefix, origin);
        let (answer, state, _) = got;
        let scanned = self.scanned(table, route, origin);
        let name = self.name;
        let inputs = || {
            format!(
                "{prefix:X}/{length}, origin {origin}, table {}",
                shown(table)
            )
        };
        assert_eq!(got, expected, "{name}: {}", inputs());
        assert_eq!((answer, state), scanned, "{name}, scan: {}", inputs());
        scanned
    }

    /// A look-up of a prefix, its length and an origin gives this state, and this number of nodes visited.
    pub fn tells(&self, memory: &[u32], route: (u128, u8, u32), expected: (usize, usize)) {
        let (prefix, length, origin) = route;
        let got = (self.look_up)(memory, length, prefix, origin);
        let (state, visited) = expected;
        let name = self.name;
        assert_eq!(
            got,
            (0, state, visited),
            "{name}: {prefix:X}/{length}, origin {origin}"
        );
    }

    /// A build in a memory that holds `before` gives this, and leaves the memory as that answer says: on 7 all zeros, on another refusal
    /// as it was. Gives the memory after it.
    pub fn gives(&self, table: &[u8], before: &[u32], expected: (u8, usize)) -> Vec<u32> {
        let (got, after) = within(before, |memory| (self.build)(table, memory));
        let (name, numbers) = (self.name, before.len());
        assert_eq!(
            got,
            expected,
            "{name}: {numbers} numbers, table {}",
            shown(table)
        );
        match got.0 {
            0 => {}
            7 => assert!(after.iter().all(|word| *word == 0), "{name}: not all zeros"),
            _ => assert!(after == before, "{name}: a refusal wrote in the memory"),
        }
        after
    }

    /// A build gives what the reference gives: the answer, and the memory that holds the index, if it does.
    pub fn builds(&self, table: &[u8], before: &[u32]) -> (u8, Option<Vec<u32>>) {
        let expected = told(&Index::build(self.width, table, before.len()));
        let after = self.gives(table, before, expected);
        (expected.0, (expected.0 == 0).then_some(after))
    }

    /// The index of a table that needs this many nodes: they are the least that are enough.
    pub fn needs(&self, table: &[u8], nodes: usize) -> Vec<u32> {
        let lent = numbers(nodes, table.len() / self.size());
        self.gives(table, &filled(lent - 1), (7, 0));
        self.gives(table, &filled(lent), (0, nodes))
    }
}

// What stands on both sides of a lent memory.
const GUARD: [u32; 4] = [0xA5A5_A5A5, 1, 0, u32::MAX];

/// A call with a memory that holds `before`: what it gives, and the memory after it. It may write nothing beside the memory.
pub fn within<T: Debug>(before: &[u32], call: impl FnOnce(&mut [u32]) -> T) -> (T, Vec<u32>) {
    let mut words = [&GUARD[..], before, &GUARD].concat();
    let end = GUARD.len() + before.len();
    let got = call(&mut words[GUARD.len()..end]);
    let beside = words[..GUARD.len()] == GUARD && words[end..] == GUARD;
    assert!(beside, "{got:?}: written beside the memory");
    (got, words[GUARD.len()..end].to_vec())
}

/// The length of a memory for so many nodes and records.
pub fn numbers(nodes: usize, records: usize) -> usize {
    3 * (nodes + records)
}

/// The contents of a memory before a build, none of them 0.
pub fn filled(numbers: usize) -> Vec<u32> {
    (1..=numbers as u32).collect()
}
