//! The lines of ../vectors; ../vectors/README.md says what they hold.
use crate::sides::{Sending, Side, SIDES};
use crate::{counterpart, expected_buffer, hex, patterns, shown};
use bgp_policy::{Receipt, Session, BLOCK_MAX};
use std::path::{Path, PathBuf};

/// The result of a line: nothing, or how it differs.
pub type Compared = Result<(), String>;

/// The folders of the vectors of all functions but the index.
pub fn folders() -> [PathBuf; 2] {
    ["../vectors/Q-06", "../vectors/Q-12"]
        .map(|name| Path::new(env!("CARGO_MANIFEST_DIR")).join(name))
}

// The folder's name and the file's, for a message.
fn name(folder: &Path, file: &str) -> String {
    let last = folder.file_name().unwrap_or_default();
    format!("{}/{file}", last.to_string_lossy())
}

/// The folder of the vectors of the index.
pub fn index_folder() -> PathBuf {
    Path::new(env!("CARGO_MANIFEST_DIR")).join("../vectors/Q-07")
}

/// The text of a file.
pub fn text(path: &Path) -> String {
    std::fs::read_to_string(path).unwrap_or_else(|e| panic!("{}: {e}", path.display()))
}

/// Every line of every table in the folders is of one of these kinds, each named with its file.
pub fn all_run(kinds: &[(&str, &str)]) {
    for folder in folders() {
        let entries = std::fs::read_dir(&folder).expect("a folder of the vectors");
        let names = entries.map(|entry| entry.expect("a name").file_name());
        let names = names.map(|name| name.into_string().expect("a name in letters"));
        for file in names.filter(|name| name.ends_with(".tsv")) {
            for (number, line) in text(&folder.join(&file)).lines().enumerate() {
                let kind = line.split('\t').next().unwrap_or_default();
                let run = kinds.contains(&(&file, kind));
                assert!(
                    run,
                    "{}:{}: '{kind}' is no kind that is run",
                    name(&folder, &file),
                    number + 1
                );
            }
        }
    }
}

/// The lines of one kind in the files of one name, each handed to `compare` as its fields after the kind, with each implementation. All
/// differing lines are told.
pub fn every(file: &str, kind: &str, compare: fn(&Side, &[&str]) -> Compared) {
    let mut ran = 0;
    let mut differing = Vec::new();
    for folder in folders() {
        let table = name(&folder, file);
        let before = ran;
        for (number, line) in text(&folder.join(file)).lines().enumerate() {
            let fields: Vec<&str> = line.split('\t').collect();
            if fields[0] != kind {
                continue;
            }
            ran += 1;
            for side in SIDES {
                if let Err(how) = compare(&side, &fields[1..]) {
                    differing.push(format!("{table}:{}: {}: {how}", number + 1, side.name));
                }
            }
        }
        // the check of what another make sent came with the second folder
        let expected = kind != "allowed" || folder.ends_with("Q-12");
        assert!(
            ran > before || !expected,
            "{table} has no line of kind {kind}"
        );
    }
    println!(
        "{file}: {ran} lines of kind {kind} at {} implementations, {} differ",
        SIDES.len(),
        differing.len()
    );
    assert!(
        differing.is_empty(),
        "{} results differ:\n{}",
        differing.len(),
        differing.join("\n")
    );
}

/// A decimal number.
pub fn number<T: std::str::FromStr>(field: &str) -> T {
    field
        .parse()
        .unwrap_or_else(|_| panic!("'{field}' is no number in range"))
}

/// A decimal number, or `-` where there is none.
pub fn optional(field: &str) -> Option<usize> {
    (field != "-").then(|| number(field))
}

/// Bytes in hex, or `.` for no byte.
pub fn bytes(field: &str) -> Vec<u8> {
    if field == "." {
        Vec::new()
    } else {
        hex(field)
    }
}

/// A sending by its fields up to the state.
pub fn sending(fields: &[&str]) -> Sending {
    let &[local_as, remote_as, remote_role, mode, byte, source, state] = fields else {
        panic!("not the settings of a sending: {fields:?}");
    };
    let session = Session {
        local_as: number(local_as),
        remote_as: number(remote_as),
        local_role: counterpart(number(remote_role)),
        mode: number(mode),
        one_administration: number(byte),
    };
    Sending {
        session,
        source: number(source),
        state: number(state),
    }
}

// What a call must tell and store, by the fields after `=>`: answer, number beside it, block stored, and of a receipt the number of tags
// thrown out and the state handed on, for which a call tells 0 and 3 where there is none.
fn wanted(expected: &[&str]) -> (Receipt, Option<Vec<u8>>) {
    let &[answer, beside, stored, ref receipt @ ..] = expected else {
        panic!("{} fields after =>", expected.len());
    };
    let answer: u8 = number(answer);
    let stored = (answer == 0).then(|| bytes(stored));
    // On answer 0 the written length stands beside it, on a refusal the vector's number or, where it has none, 0.
    let beside = match &stored {
        Some(block) => block.len(),
        None => optional(beside).unwrap_or(0),
    };
    let (thrown_out, state) = match *receipt {
        [] => (0, 3),
        [thrown_out, state] => (optional(thrown_out).unwrap_or(0), handed_on(answer, state)),
        _ => panic!("{} fields past the block", receipt.len()),
    };
    let told = Receipt {
        answer,
        beside,
        thrown_out,
        state,
    };
    (told, stored)
}

/// One call in each of two buffers of `cap` bytes, against the fields after `=>`.
pub fn call(cap: &str, expected: &[&str], run: impl Fn(&mut [u8]) -> Receipt) -> Compared {
    let (wanted, stored) = wanted(expected);
    for before in patterns(optional(cap).unwrap_or(BLOCK_MAX)) {
        let mut out = before.clone();
        let got = run(&mut out);
        if got != wanted {
            return Err(format!("answered {got:?}, expected {wanted:?}"));
        }
        let after = expected_buffer(&before, stored.as_deref());
        if out != after {
            let at = (0..out.len()).find(|&i| out[i] != after[i]).unwrap();
            return Err(format!(
                "the buffer differs from byte {at} on: {}, expected {}",
                shown(&out[at..]),
                shown(&after[at..])
            ));
        }
    }
    Ok(())
}

// The state that a receipt hands on: on answer 0 the vector's number, on every other answer 3, where the vector has none.
fn handed_on(answer: u8, state: &str) -> usize {
    match (answer, optional(state)) {
        (0, Some(state)) => state,
        (1.., None) => 3,
        _ => panic!("answer {answer} with the state {state}"),
    }
}

/// A call that tells a state and a number of tags thrown out, against the four fields after `=>`: answer, number beside it, state, number.
pub fn told_numbered(expected: &[&str], got: (u8, usize, usize)) -> Compared {
    let (answer, beside, thrown_out) = got;
    let &[ref told_fields @ .., last] = expected else {
        panic!("no field after =>");
    };
    told(told_fields, (answer, beside))?;
    let wanted = optional(last).unwrap_or(0);
    if thrown_out != wanted {
        return Err(format!("{thrown_out} thrown out, expected {wanted}"));
    }
    Ok(())
}

/// A call that tells one number, against the three fields after `=>`: answer, number beside it, result.
pub fn told(expected: &[&str], got: (u8, usize)) -> Compared {
    let &[answer, beside, result] = expected else {
        panic!("{} fields after =>", expected.len());
    };
    let answer: u8 = number(answer);
    // On answer 0 the result stands beside it, on a refusal the vector's number or, where it has none, 0.
    let beside = match answer {
        0 => number(result),
        _ => optional(beside).unwrap_or(0),
    };
    if got != (answer, beside) {
        return Err(format!("answered {got:?}, expected {:?}", (answer, beside)));
    }
    Ok(())
}
