//! The desk's lines as bytes, and its results as hex digits.

/// The most digits of a readable line.
pub const MAX_DIGITS: usize = 8_192;

/// The value of each hex digit, and 255 for every other byte.
const DIGITS: [u8; 256] = digits();

const fn digits() -> [u8; 256] {
    let mut values = [255; 256];
    let mut value = 0;
    while value < 16 {
        values[b"0123456789abcdef"[value] as usize] = value as u8;
        values[b"0123456789ABCDEF"[value] as usize] = value as u8;
        value += 1;
    }
    values
}

/// Fills `frame` with the bytes of a line; false if the line is unreadable.
pub fn decode(line: &[u8], frame: &mut Vec<u8>) -> bool {
    if line.is_empty() || line.len() % 2 != 0 || line.len() > MAX_DIGITS {
        return false;
    }
    let mut bad = 0;
    frame.clear();
    frame.extend(line.chunks_exact(2).map(|pair| {
        let (high, low) = (DIGITS[usize::from(pair[0])], DIGITS[usize::from(pair[1])]);
        bad |= high | low;
        high << 4 | low
    }));
    bad < 16
}

/// The digits of some bytes, in upper case.
pub fn encode(bytes: &[u8], out: &mut Vec<u8>) {
    let digit = |value: u8| b"0123456789ABCDEF"[usize::from(value)];
    let start = out.len();
    out.resize(start + 2 * bytes.len(), 0);
    for (pair, byte) in out[start..].chunks_exact_mut(2).zip(bytes) {
        pair.copy_from_slice(&[digit(byte >> 4), digit(byte & 15)]);
    }
}
