//! Every line of ../vectors/Q-07, through the library, fast Rust and the reference: what the build and the look-up answer, the memory
//! after a refusal, and that the nodes needed are the least that are enough.
use policy_tests::indexing::{filled, numbers, within, Indexing, INDEXINGS};
use policy_tests::lines::{bytes, index_folder, number, optional, text, Compared};
use policy_tests::reference::{told, Index};

// A line: what the functions are handed, and what they answer.
struct Line {
    width: u8,
    table: Vec<u8>,
    records: usize,
    nodes: usize,
    route: (u8, u128),
    origin: u32,
    built: (u8, usize),
    needed: Option<usize>,
    found: Option<(u8, usize, usize)>,
}

// kind, table, nodes lent, prefix length, prefix, origin => build's answer, number beside it, nodes needed, look-up's answer, state,
// nodes visited
fn line(text: &str) -> Line {
    let fields: Vec<&str> = text.split('\t').collect();
    let &[kind, table, nodes, length, prefix, origin, "=>", answer, beside, needed, found, state, visited] =
        &fields[..]
    else {
        panic!("not the fields of a look-up: {text}");
    };
    let width: u8 = match kind {
        "lookup4" => 32,
        "lookup6" => 128,
        _ => panic!("'{kind}' is no kind that is run"),
    };
    let (table, prefix) = (bytes(table), bytes(prefix));
    assert_eq!(prefix.len(), usize::from(width) / 8, "a prefix: {text}");
    let prefix = prefix
        .iter()
        .fold(0, |high, low| high << 8 | u128::from(*low));
    let (answer, needed) = (number(answer), optional(needed));
    let beside = match answer {
        0 => needed.expect("the nodes needed"),
        _ => optional(beside).unwrap_or(0),
    };
    Line {
        width,
        records: table.len() / (usize::from(width) / 8 + 6),
        table,
        nodes: number(nodes),
        route: (number(length), prefix),
        origin: number(origin),
        built: (answer, beside),
        needed,
        found: optional(found).map(|answer| {
            let told = |field| optional(field).unwrap_or(0);
            (answer as u8, told(state), told(visited))
        }),
    }
}

fn differs<T: PartialEq + std::fmt::Debug>(what: &str, got: T, expected: T) -> Compared {
    if got == expected {
        return Ok(());
    }
    Err(format!("{what}: {got:?}, expected {expected:?}"))
}

// A build with so many nodes lent, against an answer; gives the memory after it.
fn built(
    by: &Indexing,
    line: &Line,
    nodes: usize,
    expected: (u8, usize),
) -> Result<Vec<u32>, String> {
    let before = filled(numbers(nodes, line.records));
    let (got, after) = within(&before, |memory| (by.build)(&line.table, memory));
    differs(&format!("build with {nodes} nodes"), got, expected)?;
    match got.0 {
        0 => {}
        7 => differs(
            "a number that is not 0",
            after.iter().find(|n| **n != 0),
            None,
        )?,
        _ => differs("the memory stays", after == before, true)?,
    }
    Ok(after)
}

fn run(by: &Indexing, line: &Line) -> Compared {
    let memory = built(by, line, line.nodes, line.built)?;
    let (length, prefix) = line.route;
    if let Some(expected) = line.found {
        let got = (by.look_up)(&memory, length, prefix, line.origin);
        differs("look-up", got, expected)?;
    }
    if let Some(needed) = line.needed {
        built(by, line, needed, (0, needed))?;
        built(by, line, needed - 1, (7, 0))?;
    }
    Ok(())
}

fn run_reference(line: &Line) -> Compared {
    let lent = numbers(line.nodes, line.records);
    let index = Index::build(line.width, &line.table, lent);
    differs("build", told(&index), line.built)?;
    let (length, prefix) = line.route;
    let found = index
        .ok()
        .map(|index| index.look_up(length, prefix, line.origin));
    differs("look-up", found, line.found)
}

#[test]
fn every_line() {
    let text = text(&index_folder().join("lookups.tsv"));
    let (mut ran, mut differing) = ([0; 2], Vec::new());
    for (place, line) in text.lines().map(line).enumerate() {
        let family = usize::from(line.width == 128);
        ran[family] += 1;
        let mut add = |name: &str, result: Compared| {
            if let Err(how) = result {
                differing.push(format!("line {}: {name}: {how}", place + 1));
            }
        };
        add("the reference", run_reference(&line));
        for by in INDEXINGS.iter().filter(|by| by.width == line.width) {
            add(by.name, run(by, &line));
        }
    }
    println!(
        "lookups.tsv: {ran:?} lines, {} results differ",
        differing.len()
    );
    assert!(ran[0] > 0 && ran[1] > 0, "lines of both families");
    assert!(differing.is_empty(), "{}", differing.join("\n"));
}
