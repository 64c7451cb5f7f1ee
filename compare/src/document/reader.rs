//! Reads at a position of a stream ('Refusals and their places', 2 and 3).

use crate::oracle::refusal::Refusal;

pub(super) type Read<T> = Result<T, Refusal>;

/// The next position in a stream.
#[derive(Clone, Copy)]
pub(super) struct Reader<'a> {
    data: &'a [u8],
    pub(super) at: usize,
}

impl<'a> Reader<'a> {
    /// "Start beyond the stream: 2."
    pub(super) fn new(data: &'a [u8], start: usize) -> Read<Self> {
        let mut reader = Reader { data, at: 0 };
        reader.set(start)?;
        Ok(reader)
    }

    /// A refusal at a place.
    pub(super) fn refuse<T>(number: u8, place: usize) -> Read<T> {
        Err(Refusal::new(number, place as u64))
    }

    /// One read of so many bytes: "too few bytes for a read", "where the read starts".
    pub(super) fn take(&mut self, count: usize) -> Read<&'a [u8]> {
        let Some(part) = self.data.get(self.at..self.at + count) else {
            return Self::refuse(3, self.at);
        };
        self.at += count;
        Ok(part)
    }

    /// "position set past the stream's end", "that position".
    pub(super) fn set(&mut self, to: usize) -> Read<()> {
        if to > self.data.len() {
            return Self::refuse(2, to);
        }
        self.at = to;
        Ok(())
    }

    pub(super) fn byte(&mut self) -> Read<u8> {
        Ok(self.take(1)?[0])
    }

    pub(super) fn half(&mut self) -> Read<u16> {
        Ok(number(self.take(2)?) as u16)
    }

    pub(super) fn word(&mut self) -> Read<u32> {
        Ok(number(self.take(4)?) as u32)
    }
}

/// "Little-endian."
pub(super) fn number(bytes: &[u8]) -> u64 {
    let digits = bytes.iter().rev();
    digits.fold(0, |number, &byte| number << 8 | u64::from(byte))
}
