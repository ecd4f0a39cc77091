//! Bytes that are read from the front on.

/// The bytes that are left to read.
pub struct Input<'a>(pub &'a [u8]);

impl<'a> Input<'a> {
    pub fn is_empty(&self) -> bool {
        self.0.is_empty()
    }

    /// The next `count` bytes; none if fewer are left.
    pub fn bytes(&mut self, count: usize) -> Option<&'a [u8]> {
        if count > self.0.len() {
            return None;
        }
        let (taken, left) = self.0.split_at(count);
        self.0 = left;
        Some(taken)
    }

    /// The number in the next `count` bytes, at most four of them, high byte first.
    pub fn number(&mut self, count: usize) -> Option<u32> {
        let bytes = self.bytes(count)?.iter();
        Some(bytes.fold(0, |high, low| high * 256 + u32::from(*low)))
    }

    /// A prefix of `width` bits, whole bytes of them, as a number: the first bit is the highest.
    pub fn prefix(&mut self, width: u8) -> Option<u128> {
        let bytes = self.bytes(usize::from(width) / 8)?.iter();
        Some(bytes.fold(0, |high, low| high * 256 + u128::from(*low)))
    }

    pub fn byte(&mut self) -> Option<u8> {
        Some(self.bytes(1)?[0])
    }
}
