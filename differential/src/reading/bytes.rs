//! Little-endian operands, read from the front and written to the end.

/// What is left to be read.
pub struct Reader<'a>(&'a [u8]);

impl<'a> Reader<'a> {
    pub fn new(bytes: &'a [u8]) -> Self {
        Reader(bytes)
    }

    pub fn is_empty(&self) -> bool {
        self.0.is_empty()
    }

    fn take<const N: usize>(&mut self) -> Option<[u8; N]> {
        let (front, rest) = self.0.split_first_chunk()?;
        self.0 = rest;
        Some(*front)
    }

    /// The next so many bytes.
    pub fn part(&mut self, length: usize) -> Option<&'a [u8]> {
        self.0.split_off(..length)
    }

    pub fn byte(&mut self) -> Option<u8> {
        self.take().map(u8::from_le_bytes)
    }

    pub fn two(&mut self) -> Option<u16> {
        self.take().map(u16::from_le_bytes)
    }

    pub fn four(&mut self) -> Option<u32> {
        self.take().map(u32::from_le_bytes)
    }
}

/// Writes a count of two bytes.
///
/// # Panics
/// If the count has more: no accepted input leads there.
pub fn put_count(bytes: &mut Vec<u8>, count: usize) {
    let count = u16::try_from(count).expect("a count fits two bytes");
    bytes.extend(count.to_le_bytes());
}

pub fn put_four(bytes: &mut Vec<u8>, number: u32) {
    bytes.extend(number.to_le_bytes());
}
