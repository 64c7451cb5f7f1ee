//! A child of the printed evtx_chunk.rs, which may see what is private there.
//!
//! Nothing is decided here: the calls hand the printed walk its state and hand back what it did.

use super::{EVTX_CHUNK_HEADER_SIZE, EvtxChunk, EvtxChunkHeader, IterRawRecords, RawRecord};
use crate::err::EvtxError;
use crate::string_cache::StringCache;
use crate::{Bump, ParserSettings};
use std::ops::Range;
use std::sync::Arc;

/// The walk's state: the walk position if one stands, and the carve range.
pub(crate) type State = (Option<u64>, Range<u64>);

/// A chunk for the printed walk. The printed constructor would also read the chunk's string
/// table, and refuse the chunk for a damaged one; caches are left out of the port, so the chunk
/// is put together here with an empty one.
pub(crate) fn bare_chunk<'a>(
    data: &'a [u8],
    header: &'a EvtxChunkHeader,
    recovery: bool,
) -> EvtxChunk<'a> {
    EvtxChunk {
        data,
        header,
        string_cache: StringCache::populate(data, &[]).expect("no strings to read"),
        arena: Bump::new(),
        settings: Arc::new(ParserSettings::default().recover_records(recovery)),
        render_caches: Default::default(),
        render_budget: Default::default(),
        program_store: Default::default(),
        number: None,
    }
}

/// The header of a chunk that says nothing, for calls that need a chunk but not its header.
pub(crate) fn blank_header() -> EvtxChunkHeader {
    let mut blank = [0; EVTX_CHUNK_HEADER_SIZE];
    blank[..8].copy_from_slice(b"ElfChnk\0");
    EvtxChunkHeader::from_bytes(&blank).expect("a header with its magic")
}

/// The string and the template offsets.
pub(crate) fn offsets(header: &EvtxChunkHeader) -> (&[u32], &[u32]) {
    (&header.strings_offsets, &header.template_offsets)
}

/// Where the live records end.
pub(crate) fn live_end(chunk: &EvtxChunk<'_>) -> u64 {
    chunk.iter_raw().live_end()
}

/// One read at `offset`, strict or plain, with the record's end.
pub(crate) fn record_at<'a>(
    chunk: &'a EvtxChunk<'a>,
    offset: u64,
    strict: bool,
) -> Result<(RawRecord<'a>, u64), EvtxError> {
    chunk.iter_raw().record_at(offset, strict)
}

/// The resync offset after an unreadable record at `offset`.
pub(crate) fn resync(chunk: &EvtxChunk<'_>, offset: u64) -> Option<u64> {
    chunk.iter_raw().find_live_record(offset + 1)
}

/// The state that the printed walk starts with.
pub(crate) fn start(chunk: &EvtxChunk<'_>) -> State {
    let records = chunk.iter_raw();
    (records.walk, records.carve)
}

/// One step of the walk from any state.
pub(crate) fn step<'a>(
    chunk: &'a EvtxChunk<'a>,
    (walk, carve): State,
) -> (Option<Result<RawRecord<'a>, EvtxError>>, State) {
    let mut records = IterRawRecords { chunk, walk, carve };
    let answer = records.next();
    (answer, (records.walk, records.carve))
}
