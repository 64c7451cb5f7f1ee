//! The printed Rust as the benchmark calls it: the record walk into rows, of a chunk or of all chunks of
//! a file, and the token walk into a sheet.
//!
//! Each stands behind a call of the C ABI that is never inlined, as the port's calls do. What the
//! printed code wants beside the bytes is made before the clock starts: the opened chunk, and the
//! arena, which each call resets and so uses again.

use crate::binxml::BinXmlTemplateValues;
use crate::binxml::ir::{TEMPLATE_DEFINITION_HEADER_SIZE, read_template_definition_header_at};
use crate::binxml::tokens::{Stream, TokenSink, walk_tokens};
use crate::binxml::value_variant::BinXmlValue;
use crate::err::{EvtxError, Result as EvtxResult};
use crate::evtx_chunk::{RawRecord, chunk_header_crc, raw_walk};
use crate::oracle::file::{self, Header};
use crate::oracle::kinds;
use crate::oracle::refusal::Refusal;
use crate::oracle::tokens::Asked;
use crate::utils::Utf16LeSlice;
use crate::{
    Bump, ChunkOffset, EvtxChunk, EvtxChunkHeader, ParserSettings, WINDOWS_1252, evtx_parser,
};
use std::hint::black_box;
use std::slice::{from_raw_parts, from_raw_parts_mut};
use std::sync::Arc;

/// The memchr that the printed code searches with; empty for the stand-in.
pub const MEMCHR: &str = env!("MEMCHR");

/// The crc32fast that the printed code counts with; empty for the stand-in.
pub const CRC: &str = env!("CRC");

/// What of a token's two words in a sheet the printed walk tells its sink: kind, number and flag of
/// the first, and the second, which is the name's offset. Where a token stands, how long it is and
/// whether an open token announces attributes it does not tell.
pub const TOLD: [u64; 2] = [0xf << 60 | 0xffff << 10 | 1 << 9, !0];

/// Bytes of a record before its payload, and around it.
const RECORD_HEAD: u64 = 24;
const RECORD_FRAME: u64 = 28;

/// A call on lent words, which answers one word as the port's calls do.
pub type Call<'a> = Box<dyn FnMut(&mut [u64]) -> u64 + 'a>;

/// The whole record walk of a chunk, five words an answer.
pub fn list(chunk: &[u8], recovery: bool) -> Call<'_> {
    // Never freed: the opened chunk borrows it, and a closure cannot own both.
    let header: &EvtxChunkHeader = Box::leak(Box::new(header_of(chunk)));
    let chunk = raw_walk::bare_chunk(chunk, header, recovery);
    // SAFETY: the words are lent for the call.
    Box::new(move |rows| unsafe { list_into(black_box(&chunk), rows.as_mut_ptr(), rows.len()) })
}

/// The record walks of all chunks of a file in memory, one after the other, six words an answer. Each of
/// them is opened before.
pub fn list_file(file: &[u8], recovery: bool) -> Call<'_> {
    let header = Header::read(file).expect("a sound file");
    let open = |(offset, chunk)| {
        let header: &EvtxChunkHeader = Box::leak(Box::new(header_of(chunk)));
        (offset as u64, raw_walk::bare_chunk(chunk, header, recovery))
    };
    let chunks: Vec<(u64, EvtxChunk<'_>)> = file::chunks(file, &header).map(open).collect();
    // SAFETY: the words are lent for the call.
    Box::new(move |rows| unsafe {
        list_file_into(black_box(&chunks), rows.as_mut_ptr(), rows.len())
    })
}

/// Whether a chunk's header has the checksum that it stores: 1 or 0.
pub fn checksum(chunk: &[u8]) -> Call<'_> {
    // SAFETY: the bytes are lent for the call.
    Box::new(move |_| unsafe { checksum_of(black_box(chunk).as_ptr(), chunk.len()) })
}

/// # Safety
/// The bytes are good for their length.
#[inline(never)]
unsafe extern "C" fn checksum_of(chunk: *const u8, len: usize) -> u64 {
    // SAFETY: as the caller says.
    let chunk = unsafe { from_raw_parts(chunk, len) };
    let stored = u32::from_le_bytes([chunk[124], chunk[125], chunk[126], chunk[127]]);
    u64::from(stored == chunk_header_crc(chunk))
}

/// What `list` does before the clock starts: the chunk's header is read and the chunk is opened.
pub fn open(chunk: &[u8]) -> Call<'_> {
    let settings = Arc::new(ParserSettings::default());
    Box::new(move |_| {
        let header = header_of(black_box(chunk));
        let opened = EvtxChunk::new(chunk, &header, settings.clone()).expect("a sound chunk");
        black_box(&opened);
        0
    })
}

/// Which streams are walked: the one alone, those in its values too, or the definitions that instances name as well.
const ALONE: u8 = 0;
const NESTED: u8 = 1;
const DEFINED: u8 = 2;

/// The token walk of a stream, two words a token.
pub fn sheet(stream: &[u8], asked: Asked) -> Call<'_> {
    walk::<ALONE>(stream, asked)
}

/// The token walks of a stream and of the streams in its values of type 21, two words a token: these after their instance's.
pub fn nested(stream: &[u8], asked: Asked) -> Call<'_> {
    walk::<NESTED>(stream, asked)
}

/// The token walks of a payload, of the definitions of its instances and of the streams in its values, two words a token: an instance's definition
/// after it, then its values' streams.
pub fn event(stream: &[u8], asked: Asked) -> Call<'_> {
    walk::<DEFINED>(stream, asked)
}

fn walk<const WHICH: u8>(stream: &[u8], asked: Asked) -> Call<'_> {
    // The printed walk takes names for inline ones where it is given no chunk; it looks at nothing
    // in it.
    let header: &EvtxChunkHeader = Box::leak(Box::new(raw_walk::blank_header()));
    let chunk = raw_walk::bare_chunk(stream, header, false);
    let mut arena = Bump::with_capacity(evtx_parser::EVTX_CHUNK_SIZE);
    Box::new(move |sheet| {
        let chunk = (!asked.inline_names).then_some(&chunk);
        // SAFETY: the bytes live as long as this closure, and the words are lent for the call.
        unsafe {
            sheet_into::<WHICH>(
                black_box(stream.as_ptr()),
                stream.len(),
                asked.start as u32,
                asked.length as u32,
                u32::from(asked.dependencies),
                chunk,
                &mut arena,
                sheet.as_mut_ptr(),
                sheet.len(),
            )
        }
    })
}

/// The answer word of a refusal.
pub fn refused(refusal: Refusal) -> u64 {
    1 << 63 | u64::from(refusal.number) << 56 | refusal.place
}

fn header_of(chunk: &[u8]) -> EvtxChunkHeader {
    EvtxChunkHeader::from_bytes(chunk).expect("a sound chunk")
}

/// # Safety
/// `rows` is good for `len` words.
#[inline(never)]
unsafe extern "C" fn list_into(chunk: &EvtxChunk<'_>, rows: *mut u64, len: usize) -> u64 {
    // SAFETY: as the caller says.
    let rows = unsafe { from_raw_parts_mut(rows, len) }.as_chunks_mut().0;
    let mut count = 0;
    for answer in chunk.iter_raw() {
        let Some(row) = rows.get_mut(count) else {
            return refused(Refusal::new(16, 0));
        };
        *row = match answer {
            Ok(raw) => row_of(chunk, &raw),
            Err(err) => refused_row(&err),
        };
        count += 1;
    }
    count as u64
}

/// # Safety
/// `rows` is good for `len` words.
#[inline(never)]
unsafe extern "C" fn list_file_into(
    chunks: &Vec<(u64, EvtxChunk<'_>)>,
    rows: *mut u64,
    len: usize,
) -> u64 {
    // SAFETY: as the caller says.
    let rows: &mut [[u64; 6]] = unsafe { from_raw_parts_mut(rows, len) }.as_chunks_mut().0;
    let mut count = 0;
    for (offset, chunk) in chunks {
        for answer in chunk.iter_raw() {
            let Some(row) = rows.get_mut(count) else {
                return refused(Refusal::new(16, 0));
            };
            let words = match answer {
                Ok(raw) => row_of(chunk, &raw),
                Err(err) => refused_row(&err),
            };
            row[0] = *offset;
            row[1..].copy_from_slice(&words);
            count += 1;
        }
    }
    count as u64
}

/// A record's row. The FILETIME is read again: the way back from the timestamp that the walk has
/// made of it is long, and nobody who has a timestamp goes it.
#[inline(always)]
fn row_of(chunk: &EvtxChunk<'_>, raw: &RawRecord<'_>) -> [u64; 5] {
    black_box(&raw.timestamp);
    let payload = raw.binxml_offset as usize;
    let filetime = chunk.data[payload - 8..payload]
        .try_into()
        .expect("8 bytes");
    [
        if raw.recovered { 2 } else { 1 },
        raw.binxml_offset - RECORD_HEAD,
        raw.bytes.len() as u64 + RECORD_FRAME,
        raw.event_record_id,
        u64::from_le_bytes(filetime),
    ]
}

#[cold]
fn refused_row(err: &EvtxError) -> [u64; 5] {
    let EvtxError::FailedToReadRecordAt { offset, source, .. } = err else {
        panic!("not an error of the walk: {err:?}");
    };
    let refusal = Refusal::of_record(source, *offset);
    [3, refusal.place, u64::from(refusal.number), 0, 0]
}

/// # Safety
/// `stream` and `sheet` are good for their lengths.
#[inline(never)]
#[allow(clippy::too_many_arguments, reason = "the port's call has as many")]
unsafe extern "C" fn sheet_into<const WHICH: u8>(
    stream: *const u8,
    stream_len: usize,
    start: u32,
    length: u32,
    dependencies: u32,
    chunk: Option<&EvtxChunk<'_>>,
    arena: &mut Bump,
    sheet: *mut u64,
    sheet_len: usize,
) -> u64 {
    arena.reset();
    let stream = Stream {
        // SAFETY: as the caller says.
        data: unsafe { from_raw_parts(stream, stream_len) },
        chunk,
        ansi_codec: WINDOWS_1252,
        bump: arena,
    };
    let mut sheet = Sheet::<WHICH> {
        // SAFETY: as the caller says.
        words: unsafe { from_raw_parts_mut(sheet, sheet_len) }
            .as_chunks_mut()
            .0,
        count: 0,
        stream,
    };
    let (start, length) = (start as usize, length as usize);
    match walk_tokens(stream, start, length, dependencies != 0, &mut sheet) {
        Ok(()) => sheet.count as u64,
        Err(err) => refused(Refusal::of_walk(&err)),
    }
}

/// A sink that writes two words a token, and walks definitions and the streams in values too if it is asked to.
struct Sheet<'s, 'a, const WHICH: u8> {
    words: &'s mut [[u64; 2]],
    count: usize,
    stream: Stream<'a>,
}

impl<'a, const WHICH: u8> Sheet<'_, 'a, WHICH> {
    #[inline(always)]
    fn put(&mut self, kind: u8, number: u16, flag: bool, name: ChunkOffset) -> EvtxResult<()> {
        let Some(words) = self.words.get_mut(self.count) else {
            return Err(EvtxError::FailedToCreateRecordModel("no room"));
        };
        let first = u64::from(kind) << 60 | u64::from(number) << 10 | u64::from(flag) << 9;
        *words = [first, u64::from(name) << 32];
        self.count += 1;
        Ok(())
    }

    /// The walk of a part of the stream.
    fn inner(&mut self, bytes: &'a [u8]) -> EvtxResult<()> {
        let start = bytes.as_ptr().addr() - self.stream.data.as_ptr().addr();
        walk_tokens(self.stream, start, bytes.len(), false, self)
    }

    /// The walk of the definition there.
    fn definition(&mut self, offset: ChunkOffset) -> EvtxResult<()> {
        let data = self.stream.data;
        let header = read_template_definition_header_at(data, offset)?;
        let start = offset as usize + TEMPLATE_DEFINITION_HEADER_SIZE;
        walk_tokens(self.stream, start, header.data_size as usize, true, self)
    }

    #[inline(always)]
    fn nameless(&mut self, kind: u8, number: u16, flag: bool) -> EvtxResult<()> {
        self.put(kind, number, flag, 0)
    }
}

impl<'a, const WHICH: u8> TokenSink<'a> for Sheet<'_, 'a, WHICH> {
    fn template_instance(&mut self, instance: BinXmlTemplateValues<'a>) -> EvtxResult<()> {
        self.nameless(kinds::INSTANCE, 0, false)?;
        if WHICH == DEFINED {
            self.definition(instance.template_def_offset)?;
        }
        if WHICH != ALONE {
            for value in &instance.values {
                if let BinXmlValue::BinXmlType(bytes) = value {
                    self.inner(bytes)?;
                }
            }
        }
        Ok(())
    }
    fn open_start(&mut self, name: ChunkOffset, dependency: Option<u16>) -> EvtxResult<()> {
        let (number, flag) = (dependency.unwrap_or(0), dependency.is_some());
        self.put(kinds::OPEN, number, flag, name)
    }
    fn close_start(&mut self) -> EvtxResult<()> {
        self.nameless(kinds::CLOSE_START, 0, false)
    }
    fn close_empty(&mut self) -> EvtxResult<()> {
        self.nameless(kinds::CLOSE_EMPTY, 0, false)
    }
    fn close_element(&mut self) -> EvtxResult<()> {
        self.nameless(kinds::CLOSE_ELEMENT, 0, false)
    }
    fn value(&mut self, _: BinXmlValue<'a>) -> EvtxResult<()> {
        self.nameless(kinds::VALUE, 0, false)
    }
    fn attribute(&mut self, name: ChunkOffset) -> EvtxResult<()> {
        self.put(kinds::ATTRIBUTE, 0, false, name)
    }
    fn entity_ref(&mut self, name: ChunkOffset) -> EvtxResult<()> {
        self.put(kinds::ENTITY_REF, 0, false, name)
    }
    fn pi_target(&mut self, name: ChunkOffset) -> EvtxResult<()> {
        self.put(kinds::PI_TARGET, 0, false, name)
    }
    fn pi_data(&mut self, _: Utf16LeSlice<'a>) -> EvtxResult<()> {
        self.nameless(kinds::PI_DATA, 0, false)
    }
    fn cdata(&mut self, _: Utf16LeSlice<'a>) -> EvtxResult<()> {
        self.nameless(kinds::CDATA, 0, false)
    }
    fn char_ref(&mut self, ch: u16) -> EvtxResult<()> {
        self.nameless(kinds::CHAR_REF, ch, false)
    }
    fn substitution(&mut self, id: u16, optional: bool) -> EvtxResult<()> {
        self.nameless(kinds::SUBSTITUTION, id, optional)
    }
}

/// The merge of two lists of writes as one would write it with std: each list sorted by tag and time, which keeps places in order, then one
/// pass over both. (The printed Rust has no merge.)
pub fn merge<'a>(primary: &'a [u64], other: &'a [u64], rule_two: bool) -> Call<'a> {
    Box::new(move |rows| {
        let (primary, other) = (sorted(primary), sorted(other));
        let (mut i, mut j, mut count) = (0, 0, 0);
        while i < primary.len() || j < other.len() {
            let tag = match (primary.get(i), other.get(j)) {
                (Some(a), Some(b)) => a[0].min(b[0]),
                (Some(a), None) => a[0],
                (None, Some(b)) => b[0],
                (None, None) => break,
            };
            let first = newest(&primary, &mut i, tag);
            let second = newest(&other, &mut j, tag);
            let row = match (first, second) {
                (Some(a), Some(b)) if rule_two && a[1] < b[1] => b,
                (Some(a), _) => a,
                (None, Some(b)) => b,
                (None, None) => break,
            };
            rows[3 * count..3 * count + 3].copy_from_slice(&row);
            count += 1;
        }
        count as u64
    })
}

fn sorted(list: &[u64]) -> Vec<[u64; 3]> {
    let mut writes = list.as_chunks::<3>().0.to_vec();
    writes.sort_by_key(|write| (write[0], write[1]));
    writes
}

/// The last write of a tag, where the tag is the next one; `at` goes past it.
fn newest(writes: &[[u64; 3]], at: &mut usize, tag: u64) -> Option<[u64; 3]> {
    let mut newest = None;
    while let Some(write) = writes.get(*at).filter(|write| write[0] == tag) {
        newest = Some(*write);
        *at += 1;
    }
    newest
}
