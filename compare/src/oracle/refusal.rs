//! The printed errors as document 01's refusals.

use crate::err::{DeserializationError, EvtxError};

/// A number and a place of document 01's table.
#[derive(Debug, Clone, Copy, PartialEq, Eq)]
pub struct Refusal {
    pub number: u8,
    pub place: u64,
}

impl Refusal {
    /// The number of an error that document 01 has no refusal for: what the Rust refuses and the
    /// document reads.
    pub const UNKNOWN: u8 = 0;

    pub const fn new(number: u8, place: u64) -> Self {
        Refusal { number, place }
    }

    /// The refusal of a read in a stream. These errors carry their place: the cursor's position
    /// where the read starts, or after the byte that was not known.
    pub(crate) fn of_read(err: &DeserializationError) -> Self {
        use DeserializationError as E;
        match err {
            E::OutOfBounds { offset, .. } => Refusal::new(2, *offset),
            E::Truncated { offset, .. } => Refusal::new(3, *offset),
            E::InvalidValueVariant { offset, .. } => Refusal::new(7, *offset),
            E::UnimplementedValueVariant { offset, .. } => Refusal::new(8, *offset),
            E::InvalidToken { offset, .. } => Refusal::new(9, *offset),
            E::WevtInlineNameMissingNulTerminator { offset, .. } => Refusal::new(11, *offset),
            E::WevtInlineNameHashMismatch { offset, .. } => Refusal::new(12, *offset),
            E::Io(err) => Refusal::of_message(&err.to_string()),
            err => panic!("not an error of a stream: {err:?}"),
        }
    }

    /// The refusal of an error that carries only a message. Both such errors end in the cursor's
    /// position: an array's size against its element, and the odd size of a string.
    fn of_message(message: &str) -> Self {
        let place = message
            .split_once("at offset ")
            .map(|(_, rest)| rest.trim_end_matches(|c: char| !c.is_ascii_digit()))
            .and_then(|digits| digits.parse().ok())
            .unwrap_or_else(|| panic!("no place in: {message}"));
        if message.contains("misaligned sized array") {
            Refusal::new(10, place)
        } else {
            Refusal::new(Refusal::UNKNOWN, place)
        }
    }

    /// The refusal of a token walk.
    pub(crate) fn of_walk(err: &EvtxError) -> Self {
        match err {
            EvtxError::DeserializationError(err) => Refusal::of_read(err),
            err => panic!("not an error of a token walk: {err:?}"),
        }
    }

    /// The refusal of a chunk header that is long enough: its magic.
    pub(crate) fn of_chunk(err: &DeserializationError) -> Self {
        match err {
            DeserializationError::InvalidEvtxChunkMagic { .. } => Refusal::new(4, 0),
            err => panic!("not an error of a chunk header: {err:?}"),
        }
    }

    /// The refusal of the record at `offset`. The errors do not all say where, and the place of
    /// each is the record's offset.
    pub(crate) fn of_record(err: &EvtxError, offset: u64) -> Self {
        use DeserializationError as E;
        let number = match err {
            EvtxError::DeserializationError(E::Truncated { .. }) => 3,
            EvtxError::DeserializationError(E::InvalidEvtxRecordHeaderMagic { .. }) => 4,
            EvtxError::InvalidDataSize { .. } => 5,
            EvtxError::DeserializationError(E::InvalidRecordTimestamp { .. }) => 6,
            // The payload's end lies outside the chunk; only this error is wrapped so.
            EvtxError::FailedToParseRecord { .. } => 3,
            // A strict read's size copy differs, or is cut off by the chunk's end.
            EvtxError::FailedToCreateRecordModel(_) => 17,
            err => panic!("not an error of a record: {err:?}"),
        };
        Refusal::new(number, offset)
    }
}
