//! Little-endian operands, read from the front and written to the end.

use crate::error::{ByteFault, BytesError, ValueError};
use std::num::NonZeroU32;

/// What is left to be read, and how much was read before.
pub(crate) struct Reader<'a> {
    rest: &'a [u8],
    position: usize,
}

impl<'a> Reader<'a> {
    pub(crate) fn of(bytes: &'a [u8]) -> Reader<'a> {
        Reader { rest: bytes, position: 0 }
    }

    pub(crate) fn is_empty(&self) -> bool {
        self.rest.is_empty()
    }

    /// The next byte, which stays.
    pub(crate) fn peek(&self) -> Option<u8> {
        self.rest.first().copied()
    }

    fn take<const N: usize>(&mut self) -> Result<[u8; N], BytesError> {
        let Some((front, rest)) = self.rest.split_first_chunk() else {
            let end = self.position.saturating_add(self.rest.len());
            return Err(BytesError { position: end, fault: ByteFault::EarlyEnd });
        };
        self.rest = rest;
        self.position = self.position.saturating_add(N);
        Ok(*front)
    }

    pub(crate) fn byte(&mut self) -> Result<u8, BytesError> {
        self.take().map(u8::from_le_bytes)
    }

    pub(crate) fn two(&mut self) -> Result<u16, BytesError> {
        self.take().map(u16::from_le_bytes)
    }

    pub(crate) fn four(&mut self) -> Result<u32, BytesError> {
        self.take().map(u32::from_le_bytes)
    }

    /// Four bytes that are not 0.
    pub(crate) fn stride(&mut self) -> Result<NonZeroU32, BytesError> {
        NonZeroU32::new(self.four()?).ok_or_else(|| self.fault(4, ByteFault::Stride))
    }

    /// The value, if all bytes are read.
    pub(crate) fn whole<T>(&self, value: T) -> Result<T, BytesError> {
        if self.is_empty() { Ok(value) } else { Err(self.fault(0, ByteFault::LeftOver)) }
    }

    /// A fault in what was read so many bytes ago.
    pub(crate) fn fault(&self, ago: usize, fault: ByteFault) -> BytesError {
        BytesError { position: self.position.saturating_sub(ago), fault }
    }
}

/// A count of two bytes, or the error that there are more.
pub(crate) fn put_count(
    bytes: &mut Vec<u8>,
    count: usize,
    error: impl FnOnce(usize) -> ValueError,
) -> Result<(), ValueError> {
    let count = u16::try_from(count).map_err(|_| error(count))?;
    bytes.extend(count.to_le_bytes());
    Ok(())
}

pub(crate) fn put_four(bytes: &mut Vec<u8>, number: u32) {
    bytes.extend(number.to_le_bytes());
}
