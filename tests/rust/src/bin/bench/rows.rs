//! The tables: of each row the calls of two sides, such as the library and Rust, compared, timed in turn, and printed.
use crate::Effort;
use bgp_policy::{Receipt, BLOCK_MAX};
use policy_tests::{patterns, shown};
use std::fmt::Debug;
use std::hint::black_box;
use std::time::{Duration, Instant};

/// What a call gives: the answer number first.
pub trait Answer: PartialEq + Debug {
    fn number(&self) -> u8;
}

impl Answer for (u8, usize) {
    fn number(&self) -> u8 {
        self.0
    }
}

impl Answer for (u8, usize, usize) {
    fn number(&self) -> u8 {
        self.0
    }
}

impl Answer for Receipt {
    fn number(&self) -> u8 {
        self.answer
    }
}

/// The rows of a table, in the order in which they were first measured, and the names of its two sides.
pub struct Table {
    effort: Effort,
    sides: [&'static str; 2],
    rows: Vec<Row>,
}

// The best time of a call of each side, in ns.
struct Row {
    name: String,
    size: String,
    best: [f64; 2],
}

/// One line of a table: the two sides' numbers, and the first's time over the second's.
pub fn print(name: &str, size: &str, unit: &str, sides: [f64; 2], ratio: f64) {
    let [first, second] = sides;
    println!("{name:<14} {size:<22} {unit:<5} {first:>11.1} {second:>11.1} {ratio:>7.2}");
}

// The time of some calls. What a call gives is used where it lies: a copy of three numbers just written would cost more than some
// calls do.
fn timed<T>(calls: u32, out: &mut [u8], run: &impl Fn(&mut [u8]) -> T) -> Duration {
    let start = Instant::now();
    for _ in 0..calls {
        black_box(&run(black_box(&mut *out)));
    }
    start.elapsed()
}

// How many calls fill a turn, by the best of three, so that no interruption passes for calls.
fn filling<T>(turn: Duration, out: &mut [u8], run: &impl Fn(&mut [u8]) -> T) -> u32 {
    let mut calls = 1;
    while (0..3).any(|_| timed(calls, out, run) < turn) {
        calls *= 2;
    }
    calls
}

// What both sides tell when called once: answer 0, and the same numbers. Gives the buffers that they leave.
fn same_told<T: Answer>(
    sides: [&str; 2],
    one: &impl Fn(&mut [u8]) -> T,
    two: &impl Fn(&mut [u8]) -> T,
) -> Result<[Vec<u8>; 2], String> {
    let [one_name, two_name] = sides;
    let [mut first, _] = patterns(BLOCK_MAX);
    let mut second = first.clone();
    let (answer, other) = (one(&mut first), two(&mut second));
    if answer != other {
        return Err(format!(
            "{one_name} answers {answer:?}, {two_name} {other:?}"
        ));
    }
    if answer.number() != 0 {
        return Err(format!("answered {answer:?}, where 0 is to be timed"));
    }
    Ok([first, second])
}

// The same, and both sides leave the same buffer, to its end.
fn same<T: Answer>(
    sides: [&str; 2],
    one: &impl Fn(&mut [u8]) -> T,
    two: &impl Fn(&mut [u8]) -> T,
) -> Result<(), String> {
    let [one_name, two_name] = sides;
    let [first, second] = same_told(sides, one, two)?;
    match (0..BLOCK_MAX).find(|&at| first[at] != second[at]) {
        None => Ok(()),
        Some(at) => {
            let (first, second) = (shown(&first[at..]), shown(&second[at..]));
            Err(format!(
                "from byte {at} {one_name} stores {first}, {two_name} {second}"
            ))
        }
    }
}

impl Table {
    pub fn new(effort: Effort, sides: [&'static str; 2]) -> Self {
        Table {
            effort,
            sides,
            rows: Vec::new(),
        }
    }

    pub fn print(&self) {
        let (name, size, unit, ratio) = ("entry point", "size", "unit", "ratio");
        let [first, second] = self.sides;
        println!("{name:<14} {size:<22} {unit:<5} {first:>11} {second:>11} {ratio:>7}");
        for Row { name, size, best } in &self.rows {
            print(name, size, "ns", *best, best[0] / best[1]);
        }
    }

    // The row of this name and size, a new one where there is none.
    fn best(&mut self, name: &str, size: &str) -> &mut [f64; 2] {
        let mut rows = self.rows.iter();
        let found = rows.position(|row| row.name == name && row.size == size);
        let at = found.unwrap_or(self.rows.len());
        if found.is_none() {
            self.rows.push(Row {
                name: name.into(),
                size: size.into(),
                best: [f64::INFINITY; 2],
            });
        }
        &mut self.rows[at].best
    }

    /// The sides of a row compared, and then timed in turn, so that noise hits both.
    pub fn measure<T: Answer>(
        &mut self,
        name: &str,
        size: &str,
        one: impl Fn(&mut [u8]) -> T,
        two: impl Fn(&mut [u8]) -> T,
    ) -> Result<(), String> {
        same(self.sides, &one, &two).map_err(|how| format!("{name}, {size}: {how}"))?;
        self.time(name, size, one, two);
        Ok(())
    }

    /// The same of sides of which one stores nothing: compared in what they tell.
    pub fn measure_told<T: Answer>(
        &mut self,
        name: &str,
        size: &str,
        one: impl Fn(&mut [u8]) -> T,
        two: impl Fn(&mut [u8]) -> T,
    ) -> Result<(), String> {
        same_told(self.sides, &one, &two).map_err(|how| format!("{name}, {size}: {how}"))?;
        self.time(name, size, one, two);
        Ok(())
    }

    fn time<T>(
        &mut self,
        name: &str,
        size: &str,
        one: impl Fn(&mut [u8]) -> T,
        two: impl Fn(&mut [u8]) -> T,
    ) {
        let Effort { rounds, turn, .. } = self.effort;
        let best = self.best(name, size);
        let mut out = vec![0; BLOCK_MAX];
        let calls = [filling(turn, &mut out, &one), filling(turn, &mut out, &two)];
        for _ in 0..rounds {
            let times = [
                timed(calls[0], &mut out, &one),
                timed(calls[1], &mut out, &two),
            ];
            for side in 0..2 {
                let each = times[side].as_nanos() as f64 / f64::from(calls[side]);
                best[side] = each.min(best[side]);
            }
        }
    }
}
