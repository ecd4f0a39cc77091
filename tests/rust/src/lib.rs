//! What the tests of the proved library share: bytes and hex, buffers to be compared to their end, the lines of ../vectors.

pub mod chain;
pub mod fast;
pub mod generate;
pub mod indexing;
pub mod lines;
pub mod order;
pub mod other_make;
pub mod pair;
pub mod reference;
pub mod settings;
pub mod shapes;
pub mod sides;
pub mod stream;
pub mod tables;

use std::path::{Path, PathBuf};

/// The other role of a pair; a value that is no role stays.
pub fn counterpart(role: u8) -> u8 {
    match role {
        0..=3 => 3 - role,
        other => other,
    }
}

/// Bytes from hex digits.
pub fn hex(digits: &str) -> Vec<u8> {
    assert!(digits.len() & 1 == 0, "an odd number of hex digits");
    (0..digits.len())
        .step_by(2)
        .map(|i| u8::from_str_radix(&digits[i..i + 2], 16).expect("hex digits"))
        .collect()
}

/// Bytes as hex digits, with their number; long ones are cut.
pub fn shown(bytes: &[u8]) -> String {
    let head: String = bytes.iter().take(96).map(|b| format!("{b:02X}")).collect();
    let cut = if bytes.len() > 96 { ".." } else { "" };
    format!("{head}{cut} ({} bytes)", bytes.len())
}

/// A readable block of `length` bytes with no OTC: ORIGIN, an empty AS_PATH, and one attribute of type 32 that fills the rest.
pub fn block_of(length: usize) -> Vec<u8> {
    let mut block = hex("40010100400200");
    let value = length - block.len() - 4;
    block.extend([0xD0, 32, (value / 256) as u8, (value % 256) as u8]);
    block.resize(length, 0x5A);
    block
}

/// Two buffers of a length that differ in every byte: what a call leaves alone in both of them it has not written.
pub fn patterns(length: usize) -> [Vec<u8>; 2] {
    let pattern: Vec<u8> = (0..length).map(|i| (i * 37 + 11) as u8).collect();
    let other = pattern.iter().map(|b| !b).collect();
    [pattern, other]
}

/// What a buffer must hold after an answer: the result from its start, if there is one, and past that what it held before.
pub fn expected_buffer(before: &[u8], stored: Option<&[u8]>) -> Vec<u8> {
    let mut after = before.to_vec();
    if let Some(bytes) = stored {
        after[..bytes.len()].copy_from_slice(bytes);
    }
    after
}

/// The desk program: what DESK names, else target/bin/desk at the repository's top.
pub fn desk_program() -> Result<PathBuf, String> {
    let path = match std::env::var_os("DESK") {
        Some(path) => PathBuf::from(path),
        None => Path::new(env!("CARGO_MANIFEST_DIR")).join("../../target/bin/desk"),
    };
    if path.is_file() {
        return Ok(path);
    }
    let path = path.display();
    Err(format!(
        "the desk program {path} is missing: desk.sh builds it, or DESK names another"
    ))
}
