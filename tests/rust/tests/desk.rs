//! The desk program prints for seeded line streams what the reference and fast Rust print, however the input comes in pieces.
use policy_tests::generate::Random;
use policy_tests::lines::folders;
use policy_tests::stream::{stream, vrps};
use policy_tests::{desk_program, fast, reference};
use std::collections::BTreeMap;
use std::io::Write;
use std::os::fd::OwnedFd;
use std::os::unix::net::UnixDatagram;
use std::process::{Command, Stdio};

const STREAM: usize = 400_000;

// The program's whole output; `feed` gives it its input meanwhile, so that neither side waits for the other for good.
fn output_of(stdin: Stdio, feed: impl FnOnce() + Send) -> Vec<u8> {
    let desk = Command::new(desk_program().expect("the program"))
        .stdin(stdin)
        .stdout(Stdio::piped())
        .spawn()
        .expect("the desk program starts");
    let output = std::thread::scope(|scope| {
        scope.spawn(feed);
        desk.wait_with_output().expect("the desk program ends")
    });
    assert!(output.status.success(), "the desk ended {}", output.status);
    output.stdout
}

// Through a pipe, which may put pieces together or cut them again.
fn through_a_pipe(pieces: &[&[u8]]) -> Vec<u8> {
    let (read, mut write) = std::io::pipe().expect("a pipe");
    output_of(read.into(), move || {
        for piece in pieces {
            let written = write.write_all(piece);
            written.expect("the desk reads its whole input");
        }
    })
}

// Through a datagram socket, of which each read gets exactly one piece; an empty one ends the input.
fn read_by_read(pieces: &[&[u8]]) -> Vec<u8> {
    let (read, write) = UnixDatagram::pair().expect("a pair of sockets");
    output_of(OwnedFd::from(read).into(), move || {
        for piece in pieces.iter().chain([&&[][..]]) {
            let sent = write.send(piece);
            sent.expect("the desk reads its whole input");
        }
    })
}

fn run(input: &[u8]) -> Vec<u8> {
    through_a_pipe(&[input])
}

// The fast desk's output for an input in pieces.
fn fast_desk(pieces: &[&[u8]]) -> Vec<u8> {
    let (mut desk, mut out) = (fast::Desk::new(), Vec::new());
    pieces.iter().for_each(|piece| desk.feed(piece, &mut out));
    desk.finish(&mut out);
    out
}

// An output is the expected one; else the first line that differs is told.
fn same(name: &str, got: &[u8], expected: &[u8]) {
    let lines = |text: &[u8]| String::from_utf8_lossy(text).into_owned();
    if got != expected {
        for (got, expected) in lines(got).lines().zip(lines(expected).lines()) {
            assert!(got == expected, "{name}: {got}, the reference {expected}");
        }
        panic!("{name}: one output ends before the other");
    }
}

// The program's and the fast desk's whole output is the reference's.
fn agree(name: &str, input: &[u8]) -> Vec<u8> {
    let expected = reference::desk(input);
    same(name, &run(input), &expected);
    same(&format!("{name}, fast"), &fast::desk(input), &expected);
    expected
}

// How often lines that begin with the same two digits got each answer.
fn count(input: &[u8], output: &[u8], counts: &mut BTreeMap<(String, u8), usize>) {
    let answers = std::str::from_utf8(output).expect("the answers are text");
    for (line, answer) in input.split(|&byte| byte == b'\n').zip(answers.lines()) {
        let beginning = String::from_utf8_lossy(&line[..line.len().min(2)]).into_owned();
        let answer = answer.split(' ').nth(1).expect("a line has an answer");
        let answer = answer.parse().expect("a number");
        *counts.entry((beginning, answer)).or_default() += 1;
    }
}

#[test]
fn streams_agree() {
    let mut counts = BTreeMap::new();
    for seed in 21..27 {
        let input = stream(&mut Random(seed), STREAM);
        let output = agree(&format!("seed {seed}"), &input);
        count(&input, &output, &mut counts);
    }
    for (beginnings, answers) in [
        (&["01"][..], &[0, 4, 5, 6, 8, 12][..]),
        (&["02", "12"], &[0, 1, 3, 5, 6, 7, 12]),
        (&["03"], &[0, 2, 3, 5, 6, 7, 12]),
        (&["04", "14"], &[0, 6, 9, 12]),
    ] {
        for beginning in beginnings {
            for answer in answers {
                let count = counts.get(&(beginning.to_string(), *answer));
                let count = count.unwrap_or_else(|| panic!("{beginning}: {answer} never occurred"));
                println!("desk: {beginning}: {answer}: {count} times");
            }
        }
    }
}

// More VRPs of a kind than its family's table takes, between lines of every kind: one more is refused, and `other`, one of the
// other family, is taken.
fn agree_on_a_full_family(seed: u64, kind: u8, one_more: &str, other: &str) {
    let mut random = Random(seed);
    let mut input = stream(&mut random, 20_000);
    input.push(b'\n');
    input.extend(vrps(&mut random, kind, 7_000));
    let line = 1 + input.iter().filter(|&&byte| byte == b'\n').count();
    input.extend(format!("{one_more}\n{other}\n").into_bytes());
    input.extend(stream(&mut random, 50_000));
    let output = agree(&format!("a full table of kind {kind:02X}"), &input);
    let answers = format!("\n{line} 6 -\n{} 0 -\n", line + 1).into_bytes();
    assert!(
        output.windows(answers.len()).any(|part| part == answers),
        "line {line} is a VRP too many, and the next one is none"
    );
}

#[test]
fn full_tables_agree() {
    let ipv4 = "040A000000101800000001";
    let ipv6 = "1420010DB8000000000000000000000000203000000001";
    agree_on_a_full_family(31, 0x04, ipv4, ipv6);
    agree_on_a_full_family(32, 0x14, ipv6, ipv4);
}

#[test]
fn short_inputs_agree() {
    for input in ["", "\n", "\n\n", "0", "01", "04\n\n", "\r\n", "5A\n5a"] {
        agree(&format!("{input:?}"), input.as_bytes());
    }
}

#[test]
fn the_vectors_agree() {
    for folder in folders() {
        let read = |name: &str| std::fs::read(folder.join(name)).expect(name);
        let (input, output) = (read("desk.in"), read("desk.out"));
        let got = agree("desk.in", &input);
        assert!(got == output, "the desks differ from desk.out");
    }
}

// An input cut into pieces of up to `most` bytes.
fn cut<'a>(random: &mut Random, input: &'a [u8], most: usize) -> Vec<&'a [u8]> {
    let (mut pieces, mut rest) = (Vec::new(), input);
    while !rest.is_empty() {
        let (piece, tail) = rest.split_at((1 + random.below(most)).min(rest.len()));
        pieces.push(piece);
        rest = tail;
    }
    pieces
}

#[test]
fn pieces_agree() {
    for (seed, most) in (41..).zip([1, 2, 7, 100, 5_000, 30_000, 65_536]) {
        let mut random = Random(seed);
        // Small pieces of a shorter stream, which are many all the same.
        let input = stream(&mut random, STREAM.min(60_000 * most));
        let expected = reference::desk(&input);
        let pieces = cut(&mut random, &input, most);
        let name = |way| format!("{way}, pieces of up to {most}");
        same(&name("a pipe"), &through_a_pipe(&pieces), &expected);
        same(&name("read by read"), &read_by_read(&pieces), &expected);
        same(&name("fast"), &fast_desk(&pieces), &expected);
    }
}
