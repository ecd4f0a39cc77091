//! The desk program beside the Rust desk: two programs that read the same file and write the same bytes.
use crate::inputs;
use policy_tests::desk_program;
use policy_tests::fast::Desk;
use std::fs::{remove_file, File};
use std::io::{self, Read, Write};
use std::os::fd::AsFd;
use std::path::PathBuf;
use std::process::{Child, Command, Stdio};
use std::time::{Duration, Instant};

/// The argument that makes this program the Rust desk.
pub const RUST_DESK: &str = "desk-rust";

/// The Rust desk on standard input, which reads and writes as the desk program does: up to 64 KiB at once, nothing between.
pub fn serve() -> io::Result<()> {
    let mut input = File::from(io::stdin().as_fd().try_clone_to_owned()?);
    let mut output = File::from(io::stdout().as_fd().try_clone_to_owned()?);
    let mut desk = Desk::new();
    let mut piece = vec![0; 65536];
    let mut out = Vec::new();
    loop {
        let got = input.read(&mut piece)?;
        if got == 0 {
            break;
        }
        desk.feed(&piece[..got], &mut out);
        output.write_all(&out)?;
        out.clear();
    }
    desk.finish(&mut out);
    output.write_all(&out)
}

// A file of lines, gone at the end.
struct Stream {
    path: PathBuf,
    bytes: usize,
}

impl Drop for Stream {
    fn drop(&mut self) {
        let _ = remove_file(&self.path);
    }
}

impl Stream {
    // A stream of at least this many bytes.
    fn new(bytes: usize) -> io::Result<Self> {
        let (head, rest) = inputs::lines(&mut inputs::seeded());
        let name = format!("bench-{}.in", std::process::id());
        let mut stream = Stream {
            path: std::env::temp_dir().join(name),
            bytes: head.len(),
        };
        let mut file = File::create_new(&stream.path)?;
        file.write_all(&head)?;
        while stream.bytes < bytes {
            file.write_all(&rest)?;
            stream.bytes += rest.len();
        }
        Ok(stream)
    }

    // A desk that reads the stream.
    fn start(&self, desk: &mut Command, output: Stdio) -> io::Result<Child> {
        desk.stdin(File::open(&self.path)?).stdout(output).spawn()
    }

    // The time that a desk takes, its output thrown away.
    fn timed(&self, desk: &mut Command) -> io::Result<Duration> {
        let start = Instant::now();
        let status = self.start(desk, Stdio::null())?.wait()?;
        let time = start.elapsed();
        if status.success() {
            Ok(time)
        } else {
            Err(io::Error::other(format!("a desk ended with {status}")))
        }
    }

    // Both desks' whole outputs, compared; how they differ, if they do.
    fn compared(&self, desks: &mut [Command; 2]) -> io::Result<Option<String>> {
        let [library, rust] = desks;
        let mut library = self.start(library, Stdio::piped())?;
        let mut rust = self.start(rust, Stdio::piped())?;
        let outputs = (library.stdout.take(), rust.stdout.take());
        let (Some(mut first), Some(mut second)) = outputs else {
            return Err(io::Error::other("a desk without a standard output"));
        };
        let differing = difference(&mut first, &mut second)?;
        for desk in [&mut library, &mut rust] {
            if differing.is_some() {
                desk.kill()?;
            }
            desk.wait()?;
        }
        Ok(differing)
    }
}

// The two lines at the first byte in which two outputs differ.
fn difference(first: &mut impl Read, second: &mut impl Read) -> io::Result<Option<String>> {
    let (mut a, mut b) = (Vec::new(), Vec::new());
    loop {
        a.clear();
        b.clear();
        first.take(1 << 20).read_to_end(&mut a)?;
        second.take(1 << 20).read_to_end(&mut b)?;
        if a != b {
            let same = a.iter().zip(&b).take_while(|(x, y)| x == y).count();
            let (a, b) = (line_at(&a, same), line_at(&b, same));
            return Ok(Some(format!("the library says '{a}' and Rust '{b}'")));
        }
        if a.is_empty() {
            return Ok(None);
        }
    }
}

// The line around a place of an output, cut to 100 bytes.
fn line_at(output: &[u8], place: usize) -> String {
    let start = output[..place].iter().rposition(|&b| b == b'\n');
    let rest = &output[start.map_or(0, |at| at + 1)..];
    let line: Vec<u8> = rest.iter().copied().take_while(|&b| b != b'\n').collect();
    String::from_utf8_lossy(&line[..line.len().min(100)]).into_owned()
}

/// The stream's bytes, and the best time of each desk over it.
pub fn measured(bytes: usize, rounds: u32) -> Result<(usize, [Duration; 2]), String> {
    let library = Command::new(desk_program()?);
    run(library, bytes, rounds).map_err(|e| format!("desk: {e}"))
}

fn run(library: Command, bytes: usize, rounds: u32) -> io::Result<(usize, [Duration; 2])> {
    let mut rust = Command::new(std::env::current_exe()?);
    rust.arg(RUST_DESK);
    let mut desks = [library, rust];
    let stream = Stream::new(bytes)?;
    if let Some(differing) = stream.compared(&mut desks)? {
        return Err(io::Error::other(differing));
    }
    let mut best = [Duration::MAX; 2];
    for _ in 0..rounds {
        for (best, desk) in best.iter_mut().zip(&mut desks) {
            *best = stream.timed(desk)?.min(*best);
        }
    }
    Ok((stream.bytes, best))
}
