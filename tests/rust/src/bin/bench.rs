//! The library beside plain Rust: one table of the time that a call of each entry point takes, and of the desk's throughput; a
//! second table of the library's scan of VRPs beside its look-up in their index; and a third of its two functions of sending.
//! Before anything of a row is timed, the two results are compared; where they differ, the run ends with status 1.

// In a folder, where cargo takes them for no programs.
#[path = "bench/check.rs"]
mod check;
#[path = "bench/desk.rs"]
mod desk;
#[path = "bench/index.rs"]
mod index;
#[path = "bench/inputs.rs"]
mod inputs;
#[path = "bench/pairs.rs"]
mod pairs;
#[path = "bench/rows.rs"]
mod rows;

use bgp_policy::{Candidate, Session, OWN_ROUTE};
use inputs::seeded;
use policy_tests::generate::Random;
use policy_tests::{desk_program, fast};
use rows::{print, Table};
use std::hint::black_box;
use std::process::ExitCode;
use std::time::Duration;

const USAGE: &str = "usage: bench [--smoke] [--mb N]    N: megabytes of the desk's stream";

const RS: u8 = 1;
const PEER: u8 = 4;

const SIZES: [usize; 3] = [13, 256, 4055];

/// How much a run measures: passes over the rows, rounds of a row in a pass, and how long a side's turn in a round takes; bytes
/// and rounds of the desk's stream. In many passes a burst of other work does not spoil all rounds of a row.
#[derive(Clone, Copy)]
struct Effort {
    passes: u32,
    rounds: u32,
    turn: Duration,
    stream: usize,
    stream_rounds: u32,
}

const FULL: Effort = Effort {
    passes: 25,
    rounds: 10,
    turn: Duration::from_millis(1),
    stream: 200_000_000,
    stream_rounds: 5,
};

const SMOKE: Effort = Effort {
    passes: 2,
    rounds: 3,
    turn: Duration::from_micros(100),
    stream: 2_000_000,
    stream_rounds: 1,
};

// AS 64500's end of its session with AS 64510, with simple tagging.
fn session(local_role: u8) -> Session {
    Session {
        local_as: 64500,
        remote_as: 64510,
        local_role,
        mode: 1,
        one_administration: 0,
    }
}

// A row whose sides are the functions of one name in the library and in Rust, with the same arguments.
macro_rules! both {
    ($table:expr, $size:expr, |$out:ident| $name:ident($($argument:expr),+)) => {
        $table.measure(
            stringify!($name),
            $size,
            |$out| bgp_policy::$name($(black_box($argument)),+),
            |$out| fast::$name($(black_box($argument)),+),
        )
    };
}

// The functions on one block, at each size: in `table` the library beside Rust, in `pairs` the library's two functions of sending.
fn blocks(table: &mut Table, pairs: &mut Table, random: &mut Random) -> Result<(), String> {
    let made = SIZES.map(|size| (format!("{size} bytes"), inputs::sized(random, size)));
    // made once and lent: made at each call, a session costs some nanoseconds more, in Rust above all
    let (peer, rs) = (session(PEER), session(RS));
    let (peer, rs) = (black_box(&peer), black_box(&rs));
    for (size, block) in &made {
        // from a Peer and with no OTC, so that one is added
        both!(table, size, |out| receive(*peer, block, out))?;
    }
    for (size, block) in &made {
        // to an RS-Client, so that a tag and an OTC are added
        both!(table, size, |_out| send_size(*rs, OWN_ROUTE, 0, block))?;
    }
    for (size, block) in &made {
        both!(table, size, |out| send_write(*rs, OWN_ROUTE, 0, block, out))?;
    }
    pairs::rows(pairs, rs, &made)?;
    check::rows(table, rs, &made)?;
    for (size, block) in &made {
        // the nearest to the reader alone
        both!(table, size, |_out| received_tag(block))?;
    }
    Ok(())
}

// Opening, and the origin state by tables in which nothing matches, so that they are read to their end.
fn sessions_and_tables(table: &mut Table, random: &mut Random) -> Result<(), String> {
    let parameters = inputs::parameters(PEER);
    let size = format!("{} bytes", parameters.len());
    both!(table, &size, |_out| open(PEER, 1, &parameters))?;
    let block = inputs::sized(random, 13);
    for count in [100, 4096] {
        let vrps = inputs::vrps(random, count);
        both!(table, &format!("{count} VRPs"), |_out| origin_state(
            24,
            inputs::UNCOVERED,
            64500,
            &vrps,
            &block
        ))?;
    }
    // from numbers of their own: the inputs of the rows that follow do not hang on them
    let random = &mut seeded();
    for count in [100, 4096] {
        let vrps = inputs::vrps6(random, count);
        both!(table, &format!("{count} VRPs"), |_out| origin_state6(
            48,
            inputs::UNCOVERED6,
            64500,
            &vrps,
            &block
        ))?;
    }
    Ok(())
}

// Choosing among 64 candidates, and comparing two that differ in the address alone.
fn choosing(table: &mut Table, random: &mut Random) -> Result<(), String> {
    for size in [13, 256] {
        let (buffer, candidates) = inputs::candidates(random, size);
        let named = format!("64 of {size} bytes");
        both!(table, &named, |_out| choose(3, 7, &buffer, &candidates))?;
    }
    for size in [13, 256] {
        let blocks = [(); 2].map(|()| inputs::sized(&mut seeded(), size));
        let [first, second] = [0, 1].map(|i| Candidate {
            block: &blocks[i],
            state: 0,
            identifier: 5,
            address: 9 - i as u32,
        });
        let named = format!("2 of {size} bytes");
        both!(table, &named, |_out| better(first, second))?;
    }
    Ok(())
}

// The desk's row, in megabytes of input a second.
fn desks(effort: Effort) -> Result<(), String> {
    let (bytes, best) = desk::measured(effort.stream, effort.stream_rounds)?;
    let [library, rust] = best.map(|time| time.as_secs_f64());
    let megabytes = bytes as f64 / 1e6;
    let size = format!("{megabytes:.1} MB of lines");
    let sides = [megabytes / library, megabytes / rust];
    print("desk", &size, "MB/s", sides, library / rust);
    Ok(())
}

fn bench(effort: Effort) -> Result<(), String> {
    desk_program()?;
    println!(
        "Best of {} rounds (desk: {}); ratio: the library's time over Rust's; output buffers are not cleared between calls.",
        effort.passes * effort.rounds,
        effort.stream_rounds
    );
    let mut table = Table::new(effort, ["library", "Rust"]);
    let mut scans = Table::new(effort, ["scan", "look-up"]);
    let mut pairs = Table::new(effort, ["send_size", "send_write"]);
    for _ in 0..effort.passes {
        // the same inputs in each pass
        let random = &mut seeded();
        blocks(&mut table, &mut pairs, random)?;
        sessions_and_tables(&mut table, random)?;
        choosing(&mut table, random)?;
        index::rows(&mut table, &mut scans)?;
    }
    table.print();
    desks(effort)?;
    println!("The library's scan of a table beside its look-up in the index; ratio: the scan's time over the look-up's.");
    scans.print();
    println!(
        "The library's send_size beside its send_write; ratio: the first's time over the second's."
    );
    pairs.print();
    Ok(())
}

// What the arguments ask for.
fn asked(mut arguments: impl Iterator<Item = String>) -> Result<Effort, String> {
    let mut effort = FULL;
    let mut stream = None;
    while let Some(argument) = arguments.next() {
        match argument.as_str() {
            "--smoke" => effort = SMOKE,
            "--mb" => {
                let megabytes = arguments.next().and_then(|n| n.parse::<u16>().ok());
                stream = Some(megabytes.ok_or(USAGE)?);
            }
            _ => return Err(USAGE.into()),
        }
    }
    if let Some(megabytes) = stream {
        effort.stream = usize::from(megabytes) * 1_000_000;
    }
    Ok(effort)
}

fn main() -> ExitCode {
    let mut arguments = std::env::args().skip(1).peekable();
    let serves = arguments.next_if(|first| first == desk::RUST_DESK);
    let ended = if serves.is_some() {
        desk::serve().map_err(|e| format!("{}: {e}", desk::RUST_DESK))
    } else {
        asked(arguments).and_then(bench)
    };
    match ended {
        Ok(()) => ExitCode::SUCCESS,
        Err(why) => {
            eprintln!("{why}");
            ExitCode::FAILURE
        }
    }
}
