//! The index over the VRPs: look-ups and builds beside Rust's, and the library's look-ups beside its scan of the same table.
use crate::inputs::{seeded, vrps, vrps6};
use crate::rows::Table;
use policy_tests::generate::Random;
use policy_tests::indexing::{numbers, Indexing, FAST, LIBRARY};
use std::cell::RefCell;
use std::hint::black_box;

// How many routes are looked up in a call, as a feed brings them, and how many where a scan goes beside: half of them from the table's VRPs
// on, the others drawn as those are. A feed has more routes than a processor can learn the branches of.
const FEED: usize = 65536;
const SCANNED: usize = 256;

// A route, and a short block whose path has the origin alone.
struct Route {
    length: u8,
    prefix: u128,
    origin: u32,
    block: Vec<u8>,
}

// Some VRPs of a family, and the longest routes that are made from them.
fn drawn(random: &mut Random, width: u8, count: usize) -> (Vec<u8>, u8) {
    match width {
        32 => (vrps(random, count), 24),
        _ => (vrps6(random, count), 48),
    }
}

// The route of a VRP or one within it, by the VRP's AS or another.
fn route(random: &mut Random, vrp: &[u8], longest: u8) -> Route {
    let (prefix, rest) = vrp.split_at(vrp.len() - 6);
    let width = 8 * prefix.len();
    let prefix = prefix
        .iter()
        .fold(0, |high, low| high << 8 | u128::from(*low));
    let within = u128::MAX >> (128 - width) >> rest[0];
    let drawn = u128::from(random.draw()) << 64 | u128::from(random.draw());
    let origin = 64512 + random.below(16) as u32;
    let mut block = vec![0x40, 1, 1, 0, 0x40, 2, 6, 2, 1];
    block.extend(origin.to_be_bytes());
    Route {
        length: rest[0] + random.below(usize::from(longest - rest[0]) + 1) as u8,
        prefix: prefix & !within | drawn & within,
        origin,
        block,
    }
}

fn routes(random: &mut Random, by: &Indexing, table: &[u8], count: usize) -> Vec<Route> {
    let (others, longest) = drawn(random, by.width, count / 2);
    let own = table.chunks(by.size()).cycle().take(count / 2);
    let mut routes: Vec<Route> = own
        .chain(others.chunks(by.size()))
        .map(|vrp| route(random, vrp, longest))
        .collect();
    random.shuffle(&mut routes);
    routes
}

// The greatest answer of some calls, and one number of all that they tell.
fn folded(calls: impl Iterator<Item = (u8, usize)>) -> (u8, usize) {
    calls.fold((0, 0), |(answers, sum), (answer, told)| {
        (answer.max(answers), sum.wrapping_mul(3) ^ told)
    })
}

// All routes looked up in a memory: the states, and where asked for the nodes visited.
fn looked_up(by: &Indexing, memory: &[u32], routes: &[Route], visits: bool) -> (u8, usize) {
    folded(routes.iter().map(|route| {
        let (answer, state, visited) =
            (by.look_up)(black_box(memory), route.length, route.prefix, route.origin);
        (
            answer,
            if visits {
                1000 * state + visited
            } else {
                state
            },
        )
    }))
}

// All routes' states by a scan of the table.
fn scanned(by: &Indexing, table: &[u8], routes: &[Route]) -> (u8, usize) {
    folded(routes.iter().map(|route| {
        (by.scan)(
            route.length,
            route.prefix,
            64500,
            black_box(table),
            &route.block,
        )
    }))
}

// The memory that a table takes, by the build of one side: no number more.
fn built(by: &Indexing, table: &[u8], width: u8) -> Result<Vec<u32>, String> {
    let count = table.len() / by.size();
    let most = count * usize::from(width) + 1;
    let mut memory = vec![0; numbers(most, count)];
    let (answer, nodes) = (by.build)(table, &mut memory);
    memory = vec![0; numbers(nodes, count)];
    match (answer, (by.build)(table, &mut memory)) {
        (0, (0, again)) if again == nodes => Ok(memory),
        told => Err(format!("index of {count} VRPs: {told:?} for {nodes} nodes")),
    }
}

/// The rows of the index: in `table` the library beside Rust, in `scans` the library's scan beside its look-up.
pub fn rows(table: &mut Table, scans: &mut Table) -> Result<(), String> {
    let names = [
        ["index_look_up", "index_build"],
        ["index_look_up6", "index_build6"],
    ];
    for ((library, rust), [look_up, build]) in LIBRARY.iter().zip(&FAST).zip(names) {
        // from numbers of their own
        let random = &mut seeded();
        for count in [100, 4096] {
            let (vrps, _) = drawn(random, library.width, count);
            let feed = routes(random, library, &vrps, FEED);
            let few = routes(random, library, &vrps, SCANNED);
            let [mine, other] = [library, rust].map(|by| built(by, &vrps, by.width));
            let (mine, other) = (mine?, other?);
            table.measure(
                look_up,
                &format!("{FEED} by {count} VRPs"),
                |_out| looked_up(library, &mine, &feed, true),
                |_out| looked_up(rust, &other, &feed, true),
            )?;
            scans.measure(
                look_up,
                &format!("{SCANNED} by {count} VRPs"),
                |_out| scanned(library, &vrps, &few),
                |_out| looked_up(library, &mine, &few, false),
            )?;
            if count == 4096 {
                let [mine, other] = [mine, other].map(RefCell::new);
                table.measure(
                    build,
                    &format!("{count} VRPs"),
                    |_out| (library.build)(black_box(&vrps), &mut mine.borrow_mut()),
                    |_out| (rust.build)(black_box(&vrps), &mut other.borrow_mut()),
                )?;
            }
        }
    }
    Ok(())
}
