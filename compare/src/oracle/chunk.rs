//! The chunk side: header, record read, resync offset, record walk.

use crate::err::EvtxError;
use crate::evtx_chunk::{EvtxChunkData, EvtxChunkHeader, RawRecord, chunk_header_crc, raw_walk};
use crate::oracle::CHUNK_SIZE;
use crate::oracle::differences::{Difference, Met};
use crate::oracle::refusal::Refusal;
use crate::{EvtxChunk, checksum_ieee};
use std::fmt::Write;
use std::ops::Range;

const CHUNK_END: u64 = CHUNK_SIZE as u64;
/// Where the header ends and the records begin.
const FIRST_RECORD: usize = 512;
/// Bytes of a record around its payload: 24 before it, and the size copy.
const RECORD_HEAD: u64 = 24;
const RECORD_FRAME: u64 = 28;
/// From 1601, where a FILETIME starts, to 1970, in nanoseconds.
const FILETIME_TO_UNIX_NANOS: i128 = 11_644_473_600 * 1_000_000_000;

/// A record as the printed walk hands it out.
#[derive(Debug, Clone, Copy, PartialEq, Eq)]
pub struct Record {
    pub carved: bool,
    pub offset: u64,
    pub size: u64,
    pub id: u64,
    pub filetime: u64,
    pub payload_start: u64,
    pub payload_length: u64,
}

impl Record {
    /// The printed record has no offset, size or FILETIME of its own: they follow from where its
    /// payload stands, from how long it is, and from the timestamp made of the FILETIME.
    fn new(raw: &RawRecord<'_>) -> Self {
        let payload_length = raw.bytes.len() as u64;
        let filetime = (raw.timestamp.as_nanosecond() + FILETIME_TO_UNIX_NANOS) / 100;
        Record {
            carved: raw.recovered,
            offset: raw.binxml_offset - RECORD_HEAD,
            size: payload_length + RECORD_FRAME,
            id: raw.event_record_id,
            filetime: u64::try_from(filetime).expect("made from a u64"),
            payload_start: raw.binxml_offset,
            payload_length,
        }
    }

    pub(crate) fn fields(&self) -> String {
        let Record {
            size,
            id,
            filetime,
            payload_start,
            payload_length,
            ..
        } = self;
        format!("{size} {id} {filetime} {payload_start} {payload_length}")
    }
}

/// An answer of the walk.
#[derive(Debug, Clone, Copy, PartialEq, Eq)]
pub enum Answer {
    Record(Record),
    Refused(Refusal),
    Done,
}

impl Answer {
    fn new(answer: Option<Result<RawRecord<'_>, EvtxError>>) -> Self {
        match answer {
            None => Answer::Done,
            Some(Ok(raw)) => Answer::Record(Record::new(&raw)),
            Some(Err(EvtxError::FailedToReadRecordAt { offset, source, .. })) => {
                Answer::Refused(Refusal::of_record(&source, offset))
            }
            Some(Err(err)) => panic!("not an error of the walk: {err:?}"),
        }
    }

    pub(crate) fn line(&self) -> String {
        match self {
            Answer::Record(record) => {
                let item = if record.carved { "carved" } else { "live" };
                format!("{item} {} {}\n", record.offset, record.fields())
            }
            Answer::Refused(refusal) => refused(*refusal),
            Answer::Done => "done\n".to_owned(),
        }
    }
}

/// The walk's state, as mode P carries it.
#[derive(Debug, Clone, PartialEq, Eq)]
pub struct State {
    pub position: Option<u64>,
    pub carve: Range<u64>,
    pub recovery: bool,
}

impl State {
    /// The five words; where no position stands, its word is not looked at.
    pub fn from_words([stands, position, carve_start, carve_end, recovery]: [u64; 5]) -> Self {
        State {
            position: (stands != 0).then_some(position),
            carve: carve_start..carve_end,
            recovery: recovery != 0,
        }
    }

    /// The printed walk keeps no position once it has ended: its word is then 0.
    pub fn words(&self) -> [u64; 5] {
        [
            u64::from(self.position.is_some()),
            self.position.unwrap_or(0),
            self.carve.start,
            self.carve.end,
            u64::from(self.recovery),
        ]
    }
}

pub(crate) fn refused(Refusal { number, place }: Refusal) -> String {
    format!("refused {number} {place}\n")
}

/// Document 01 refuses a chunk of any other length; the printed Rust reads a chunk of any length
/// from 512 bytes on, so the document's rule is put before it.
fn check_length(chunk: &[u8]) -> Result<(), Refusal> {
    if chunk.len() == CHUNK_SIZE {
        Ok(())
    } else {
        Err(Refusal::new(1, 0))
    }
}

fn header(chunk: &[u8]) -> Result<EvtxChunkHeader, Refusal> {
    check_length(chunk)?;
    EvtxChunkHeader::from_bytes(chunk).map_err(|err| Refusal::of_chunk(&err))
}

/// One read at `offset`. It refuses 1 for the chunk's length and looks at no chunk header.
pub fn read_record(chunk: &[u8], offset: u64, strict: bool) -> Result<Record, Refusal> {
    check_length(chunk)?;
    let blank = raw_walk::blank_header();
    let chunk = raw_walk::bare_chunk(chunk, &blank, false);
    match raw_walk::record_at(&chunk, offset, strict) {
        Ok((raw, _end)) => Ok(Record::new(&raw)),
        Err(err) => Err(Refusal::of_record(&err, offset)),
    }
}

/// The resync offset after an unreadable record at `offset`.
pub fn resync(chunk: &[u8], offset: u64) -> Result<Option<u64>, Refusal> {
    let header = header(chunk)?;
    let chunk = raw_walk::bare_chunk(chunk, &header, false);
    Ok(raw_walk::resync(&chunk, offset))
}

/// A chunk that the printed walk goes over.
struct Walk<'a> {
    chunk: EvtxChunk<'a>,
}

impl<'a> Walk<'a> {
    fn new(chunk: &'a [u8], header: &'a EvtxChunkHeader, recovery: bool) -> Self {
        let chunk = raw_walk::bare_chunk(chunk, header, recovery);
        Walk { chunk }
    }

    fn start(&self) -> State {
        let (position, carve) = raw_walk::start(&self.chunk);
        let recovery = self.chunk.settings.should_recover_records();
        State {
            position,
            carve,
            recovery,
        }
    }

    /// One step from any state, and what it meets.
    fn step(&self, before: State, met: &mut Met) -> (Answer, State) {
        let state = (before.position, before.carve);
        let (answer, (position, carve)) = raw_walk::step(&self.chunk, state);
        let answer = Answer::new(answer);
        let after = State {
            position,
            carve,
            recovery: before.recovery,
        };
        match answer {
            Answer::Record(record) if record.offset + record.size > CHUNK_END => {
                met.insert(Difference::EndOutside);
            }
            // The walk passed a header that the chunk's end cuts, and said nothing.
            Answer::Record(Record { carved: true, .. }) | Answer::Done => {
                let cut = |at| at < raw_walk::live_end(&self.chunk) && at + RECORD_HEAD > CHUNK_END;
                if after.position.is_none() && before.position.is_some_and(cut) {
                    met.insert(Difference::CutHeader);
                }
            }
            _ => {}
        }
        (answer, after)
    }
}

/// What is said of a chunk's header, or its refusal.
fn on_header(
    chunk: &[u8],
    out: &mut String,
    say: impl FnOnce(EvtxChunkHeader, &mut String) -> Met,
) -> Met {
    match header(chunk) {
        Ok(header) => say(header, out),
        Err(refusal) => {
            out.push_str(&refused(refusal));
            Met::new()
        }
    }
}

/// The printed chunk, for its checksum calls.
fn printed(chunk: &[u8], header: EvtxChunkHeader) -> EvtxChunkData {
    EvtxChunkData {
        header,
        data: chunk.to_vec(),
        number: None,
    }
}

/// Mode H.
pub fn answer_header(chunk: &[u8], out: &mut String) -> Met {
    on_header(chunk, out, |header, out| say_header(chunk, header, out))
}

fn say_header(chunk: &[u8], header: EvtxChunkHeader, out: &mut String) -> Met {
    let mut met = Met::new();
    let fields = [
        header.first_event_record_number,
        header.last_event_record_number,
        header.first_event_record_id,
        header.last_event_record_id,
        u64::from(header.header_size),
        u64::from(header.last_event_record_data_offset),
        u64::from(header.free_space_offset),
        u64::from(header.events_checksum),
        u64::from(header.flags.bits()),
        u64::from(header.header_chunk_checksum),
    ];
    let (strings, templates) = raw_walk::offsets(&header);
    let (strings, templates) = (words("strings", strings), words("templates", templates));

    // The printed call, which also takes a header whose flags say that it stores no checksum.
    let equal = header.header_chunk_checksum == chunk_header_crc(chunk);
    let valid = printed(chunk, header).validate_header_checksum();
    if valid != equal {
        met.insert(Difference::NoChecksum);
    }

    out.push_str(&words("header", &fields));
    out.push_str(if valid {
        "checksum yes\n"
    } else {
        "checksum no\n"
    });
    out.push_str(&strings);
    out.push_str(&templates);
    met
}

/// Mode E.
pub fn answer_events(chunk: &[u8], out: &mut String) -> Met {
    on_header(chunk, out, |header, out| say_events(chunk, header, out))
}

fn say_events(chunk: &[u8], header: EvtxChunkHeader, out: &mut String) -> Met {
    let mut met = Met::new();
    let records = chunk.get(FIRST_RECORD..header.free_space_offset as usize);
    let equal = records.is_some_and(|bytes| header.events_checksum == checksum_ieee(bytes));
    // The printed call, which also takes a chunk whose flags say that it stores no checksum.
    let valid = printed(chunk, header).validate_data_checksum();
    if valid != equal {
        met.insert(Difference::NoChecksum);
    }
    out.push_str(if valid { "events yes\n" } else { "events no\n" });
    met
}

/// Mode R.
pub fn answer_record(chunk: &[u8], offset: u64, strict: bool, out: &mut String) -> Met {
    let mut met = Met::new();
    match read_record(chunk, offset, strict) {
        Ok(record) => {
            writeln!(out, "record {}", record.fields()).expect("a String takes all");
            if record.offset + record.size > CHUNK_END {
                met.insert(Difference::EndOutside);
            }
        }
        Err(refusal) => {
            out.push_str(&refused(refusal));
            // A copy called wrong that is cut off: the plain read says how long the record is.
            let plain = read_record(chunk, offset, false);
            let end = plain.map_or(0, |record| record.offset + record.size);
            if refusal.number == 17 && end > CHUNK_END {
                met.insert(Difference::EndOutside);
            }
        }
    }
    match resync(chunk, offset) {
        Ok(Some(offset)) => writeln!(out, "resync {offset}").expect("a String takes all"),
        Ok(None) => out.push_str("resync none\n"),
        Err(_) => {}
    }
    met
}

/// Mode W.
pub fn answer_walk(chunk: &[u8], recovery: bool, out: &mut String) -> Met {
    on_header(chunk, out, |header, out| {
        say_walk(chunk, &header, recovery, out)
    })
}

fn say_walk(chunk: &[u8], header: &EvtxChunkHeader, recovery: bool, out: &mut String) -> Met {
    let mut met = Met::new();
    let walk = Walk::new(chunk, header, recovery);
    let mut state = walk.start();
    loop {
        let (answer, after) = walk.step(state, &mut met);
        out.push_str(&answer.line());
        if answer == Answer::Done {
            return met;
        }
        state = after;
    }
}

/// Mode P. A refused chunk leaves the state as it is.
pub fn answer_step(chunk: &[u8], state: State, out: &mut String) -> Met {
    let mut met = Met::new();
    let (answer, state) = match header(chunk) {
        Ok(header) => Walk::new(chunk, &header, state.recovery).step(state, &mut met),
        Err(refusal) => (Answer::Refused(refusal), state),
    };
    out.push_str(&answer.line());
    out.push_str(&words("state", &state.words()));
    met
}

/// A line of a word and numbers.
pub(crate) fn words<N: std::fmt::Display>(word: &str, numbers: &[N]) -> String {
    let mut line = word.to_owned();
    for number in numbers {
        write!(line, " {number}").expect("a String takes all");
    }
    line.push('\n');
    line
}
