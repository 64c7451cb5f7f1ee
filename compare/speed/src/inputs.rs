//! What the calls are timed on: chunks and streams.

use compare::Hasher;
use compare::cases::random::Random;
use compare::oracle::tokens::Asked;

const CHUNK: usize = 65536;
/// Of a file's header, as Windows writes it.
const BLOCK: usize = 4096;
/// Where records start.
const FIRST: usize = 512;
/// About as long as the long streams are.
const LONG: usize = 60_000;
const FILETIME: u64 = 133_000_000_000_000_000;
const MAGIC: [u8; 4] = [0x2a, 0x2a, 0, 0];

/// A chunk with a header and nothing else.
fn bare_chunk(last_id: u64, last: usize, free: usize) -> Vec<u8> {
    let mut chunk = vec![0; CHUNK];
    chunk[..8].copy_from_slice(b"ElfChnk\0");
    chunk[24..32].copy_from_slice(&1_u64.to_le_bytes());
    chunk[32..40].copy_from_slice(&last_id.to_le_bytes());
    chunk[40..44].copy_from_slice(&128_u32.to_le_bytes());
    chunk[44..48].copy_from_slice(&(last as u32).to_le_bytes());
    chunk[48..52].copy_from_slice(&(free as u32).to_le_bytes());
    chunk
}

/// As many records of a size as a chunk holds. Live ones, or old ones behind the free space's start.
pub fn records(size: usize, live: bool) -> Vec<u8> {
    let count = (CHUNK - FIRST) / size;
    let end = FIRST + count * size;
    let free = if live { end } else { FIRST };
    let mut chunk = bare_chunk(count as u64, end - size, free);
    for (id, record) in (1_u64..).zip(chunk[FIRST..end].chunks_exact_mut(size)) {
        put_record(record, id);
    }
    chunk
}

fn put_record(record: &mut [u8], id: u64) {
    let size = record.len();
    let stored = (size as u32).to_le_bytes();
    record.fill(b'x');
    record[..4].copy_from_slice(&MAGIC);
    record[4..8].copy_from_slice(&stored);
    record[8..16].copy_from_slice(&id.to_le_bytes());
    record[16..24].copy_from_slice(&(FILETIME + id * 12_345).to_le_bytes());
    record[size - 4..].copy_from_slice(&stored);
}

/// A log of so many chunks, each full of records of 304 to 1,104 bytes, as ordinary ones are, up to where the next does not fit.
pub fn log(chunks: usize) -> Vec<u8> {
    let mut random = Random::new(1);
    let mut log = vec![0; BLOCK];
    let mut next = 1;
    log[..8].copy_from_slice(b"ElfFile\0");
    log[40..42].copy_from_slice(&(BLOCK as u16).to_le_bytes());
    for _ in 0..chunks {
        let (chunk, after) = ordinary(&mut random, next);
        log.extend(chunk);
        next = after;
    }
    log
}

/// A chunk of such a log, from this ID on, and the ID after its last.
fn ordinary(random: &mut Random, first_id: u64) -> (Vec<u8>, u64) {
    let mut records: Vec<(usize, usize)> = Vec::new();
    let mut end = FIRST;
    loop {
        let size = 8 * random.between(38, 138);
        if end + size > CHUNK {
            break;
        }
        records.push((end, size));
        end += size;
    }
    let next = first_id + records.len() as u64;
    let last = records.last().map_or(FIRST, |(at, _)| *at);
    let mut chunk = bare_chunk(next - 1, last, end);
    chunk[24..32].copy_from_slice(&first_id.to_le_bytes());
    for ((at, size), id) in records.into_iter().zip(first_id..) {
        put_record(&mut chunk[at..at + size], id);
    }
    (chunk, next)
}

/// A chunk with the right checksum in its header.
pub fn sealed(mut chunk: Vec<u8>) -> Vec<u8> {
    let mut hasher = Hasher::new();
    hasher.update(&chunk[..120]);
    hasher.update(&chunk[128..FIRST]);
    chunk[124..128].copy_from_slice(&hasher.finalize().to_le_bytes());
    chunk
}

/// A chunk that is free space, with these bytes over and over.
pub fn repeated(bytes: &[u8]) -> Vec<u8> {
    let mut chunk = bare_chunk(1, FIRST, FIRST);
    for (place, byte) in chunk[FIRST..].iter_mut().zip(bytes.iter().cycle()) {
        *place = *byte;
    }
    chunk
}

/// A chunk that is free space, with random bytes in which the magic nowhere stands.
pub fn random() -> Vec<u8> {
    let mut chunk = bare_chunk(1, FIRST, FIRST);
    let mut random = Random::new(1);
    chunk[FIRST..].fill_with(|| random.byte());
    while let Some(at) = chunk.windows(4).position(|bytes| bytes == MAGIC) {
        chunk[at] = 0;
    }
    chunk
}

/// A stream, and how it is walked.
pub struct Stream {
    pub bytes: Vec<u8>,
    pub asked: Asked,
}

impl Stream {
    fn whole(bytes: Vec<u8>, dependencies: bool, inline_names: bool) -> Self {
        let asked = Asked {
            start: 0,
            length: bytes.len(),
            dependencies,
            inline_names,
        };
        Stream { bytes, asked }
    }
}

/// One element full of elements of four shapes: a text in an attribute and a substitution as
/// content, a text as content, empty, and two attributes with substitutions.
pub fn elements(dependencies: bool, inline_names: bool) -> Stream {
    let mut maker = Maker::new(dependencies, inline_names);
    maker.open(0, false);
    maker.put(&[0x02]);
    for turn in 0.. {
        if maker.bytes.len() > LONG {
            break;
        }
        let name = 1 + turn % 6;
        match turn % 4 {
            0 => {
                maker.open(name, true);
                maker.attribute(7);
                maker.text("SubjectUserSid");
                maker.put(&[0x02]);
                maker.substitution(turn);
                maker.put(&[0x04]);
            }
            1 => {
                maker.open(name, false);
                maker.put(&[0x02]);
                maker.text("0x8020000000000000");
                maker.put(&[0x04]);
            }
            2 => {
                maker.open(name, false);
                maker.put(&[0x03]);
            }
            _ => {
                maker.open(name, true);
                maker.attribute(8);
                maker.substitution(turn);
                maker.attribute(9);
                maker.substitution(turn + 1);
                maker.put(&[0x03]);
            }
        }
    }
    maker.put(&[0x04, 0x00]);
    Stream::whole(maker.bytes, dependencies, inline_names)
}

/// How many units a long text or name has.
const LONG_TEXT: usize = 1000;

/// The units of a long text or name: letters, and a pair of surrogates now and then.
fn long_units() -> Vec<u16> {
    "Ein Tagname \u{1f3ed} "
        .encode_utf16()
        .cycle()
        .take(LONG_TEXT)
        .collect()
}

/// One element that holds nothing but long texts, each behind these bytes: a string's or CDATA's.
fn long_texts(front: &[u8]) -> Stream {
    let mut maker = Maker::new(false, false);
    maker.open(0, false);
    maker.put(&[0x02]);
    while maker.bytes.len() < LONG - 2 * LONG_TEXT {
        maker.put(front);
        maker.put_units(&long_units());
    }
    maker.put(&[0x04, 0x00]);
    Stream::whole(maker.bytes, false, false)
}

pub fn long_strings() -> Stream {
    long_texts(&[0x05, 0x01])
}

pub fn long_cdata() -> Stream {
    long_texts(&[0x07])
}

/// One element full of empty ones, each with a long inline name.
pub fn long_names() -> Stream {
    let mut maker = Maker::new(false, true);
    maker.open(0, false);
    maker.put(&[0x02]);
    while maker.bytes.len() < LONG - 2 * LONG_TEXT {
        maker.put(&[0x01, 0, 0, 0, 0]);
        maker.put16(hash(long_units()));
        maker.put_units(&long_units());
        maker.put(&[0, 0, 0x03]);
    }
    maker.put(&[0x04, 0x00]);
    Stream::whole(maker.bytes, false, true)
}

/// Instances of 20 values one after the other, which is no body.
pub fn instances() -> Stream {
    let mut bytes = Vec::new();
    while bytes.len() < LONG {
        bytes.extend(instance());
    }
    bytes.push(0);
    Stream::whole(bytes, false, false)
}

/// What a record mostly carries: a fragment header, an instance of 20 values, the end.
pub fn single() -> Stream {
    let bytes = [FRAGMENT, &instance(), &[0]].concat();
    Stream::whole(bytes, false, false)
}

/// The same as the record of a chunk, in the chunk.
pub fn single_in_chunk() -> Stream {
    in_chunk(single(), 512)
}

/// A stream in a record of this size, about in the middle of a chunk of such records.
fn in_chunk(Stream { bytes, mut asked }: Stream, size: usize) -> Stream {
    let mut chunk = records(size, true);
    asked.start = FIRST + CHUNK / size / 2 * size - size + 24;
    chunk[asked.start..asked.start + bytes.len()].copy_from_slice(&bytes);
    Stream {
        bytes: chunk,
        asked,
    }
}

const NAMES: [&str; 28] = [
    "EventData",
    "Data",
    "Provider",
    "EventID",
    "TimeCreated",
    "Execution",
    "Computer",
    "Name",
    "ProcessID",
    "ThreadID",
    "Event",
    "System",
    "xmlns",
    "Guid",
    "Qualifiers",
    "Version",
    "Level",
    "Task",
    "Opcode",
    "Keywords",
    "SystemTime",
    "EventRecordID",
    "Correlation",
    "ActivityID",
    "RelatedActivityID",
    "Channel",
    "Security",
    "UserID",
];

const FRAGMENT: &[u8] = &[0x0f, 1, 1, 0];

/// The id of every instance, which its definition's GUID begins with.
const ID: u32 = 7;

/// The type whose values hold a stream of their own.
const BODY: u8 = 0x21;

/// Type codes and sizes of the values of an event's data.
const EVENT_DATA: [(u8, u16); 10] = [
    (0x13, 28), // SID
    (0x01, 24), // STRING
    (0x01, 38), // STRING
    (0x15, 8),  // HEX_INT64
    (0x01, 90), // STRING
    (0x08, 4),  // UINT32
    (0x0f, 16), // GUID
    (0x01, 60), // STRING
    (0x14, 4),  // HEX_INT32
    (0x01, 30), // STRING
];

/// Type codes and sizes of an instance's values: those of a record's system part and a few more.
const VALUES: [(u8, u16); 20] = [
    (0x04, 1),  // UINT8
    (0x04, 1),  // UINT8
    (0x06, 2),  // UINT16
    (0x06, 2),  // UINT16
    (0x00, 0),  // NULL
    (0x15, 8),  // HEX_INT64
    (0x11, 8),  // FILETIME
    (0x13, 28), // SID
    (0x08, 4),  // UINT32
    (0x08, 4),  // UINT32
    (0x0a, 8),  // UINT64
    (0x04, 1),  // UINT8
    (0x00, 0),  // NULL
    (0x01, 38), // STRING
    (0x0f, 16), // GUID
    (0x01, 24), // STRING
    (0x14, 4),  // HEX_INT32
    (0x0d, 4),  // BOOL
    (0x0e, 16), // BINARY
    (0x01, 30), // STRING
];

/// An instance of these values, whose definition stands elsewhere.
fn instance() -> Vec<u8> {
    instance_of(&VALUES, &[])
}

/// The same with one value more, of type 21, that holds these bytes, if there are any.
fn instance_of(values: &[(u8, u16)], inner: &[u8]) -> Vec<u8> {
    defined_instance(0, values, inner)
}

/// The same with its definition's offset.
fn defined_instance(definition: usize, values: &[(u8, u16)], inner: &[u8]) -> Vec<u8> {
    let mut values = values.to_vec();
    if !inner.is_empty() {
        values.push((BODY, inner.len() as u16));
    }
    let mut bytes = vec![0x0c, 1];
    bytes.extend(ID.to_le_bytes());
    bytes.extend((definition as u32).to_le_bytes());
    bytes.extend((values.len() as u32).to_le_bytes());
    for (code, size) in &values {
        bytes.extend(size.to_le_bytes());
        bytes.extend([*code, 0]);
    }
    for (code, size) in values {
        let size = usize::from(size);
        match code {
            0x13 => bytes.extend([1, 5].into_iter().chain([0; 26])),
            0x0d => bytes.extend(1_u32.to_le_bytes()),
            0x01 => bytes.extend(b"S\0".repeat(size / 2)),
            BODY => bytes.extend(inner),
            _ => bytes.extend(vec![0x11; size]),
        }
    }
    bytes
}

/// A record as Windows writes it: a fragment header, an instance of 18 values, the last of which holds a fragment header and an instance of 10
/// values, the data of an event.
pub fn record() -> Stream {
    let inner = [FRAGMENT, &instance_of(&EVENT_DATA, &[])].concat();
    let bytes = [FRAGMENT, &instance_of(&VALUES[..17], &inner), &[0]].concat();
    Stream::whole(bytes, false, false)
}

/// The same as a record of a chunk, in the chunk.
pub fn record_in_chunk() -> Stream {
    in_chunk(record(), 1024)
}

/// A record as Windows writes it, with the definitions of its two instances elsewhere: System with 18 values, the last of which is EventData with
/// 10. Names are offsets; each stands in place where it is met first.
pub fn event() -> Stream {
    let mut maker = Maker::new(true, false);
    let payload = event_payload(&mut maker);
    let start = maker.bytes.len();
    maker.put(&payload);
    event_stream(maker.bytes, start, payload.len())
}

/// The same in a chunk: the definitions among its first records, the record about in its middle.
pub fn event_in_chunk() -> Stream {
    const SIZE: usize = 1024;
    let mut maker = Maker::new(true, false);
    maker.bytes = records(SIZE, true)[..FIRST + 24].to_vec();
    let payload = event_payload(&mut maker);
    let mut chunk = records(SIZE, true);
    chunk[..maker.bytes.len()].copy_from_slice(&maker.bytes);
    let start = FIRST + CHUNK / SIZE / 2 * SIZE - SIZE + 24;
    chunk[start..start + payload.len()].copy_from_slice(&payload);
    event_stream(chunk, start, payload.len())
}

fn event_stream(bytes: Vec<u8>, start: usize, length: usize) -> Stream {
    let asked = Asked {
        start,
        length,
        dependencies: false,
        inline_names: false,
    };
    Stream { bytes, asked }
}

/// Puts both definitions down, and answers the payload that names them.
fn event_payload(maker: &mut Maker) -> Vec<u8> {
    let system = maker.definition(Maker::system);
    let data = maker.definition(Maker::event_data);
    let inner = [FRAGMENT, &defined_instance(data, &EVENT_DATA, &[])].concat();
    let outer = defined_instance(system, &VALUES[..17], &inner);
    [FRAGMENT, &outer, &[0]].concat()
}

struct Maker {
    bytes: Vec<u8>,
    dependencies: bool,
    inline_names: bool,
    /// Where each name stands, once it does: an offset name stands in place where it is met first.
    names: [Option<u32>; NAMES.len()],
}

/// The hash of a name.
fn hash(units: impl IntoIterator<Item = u16>) -> u16 {
    let step = |hash: u32, unit: u16| hash.wrapping_mul(65599).wrapping_add(u32::from(unit));
    units.into_iter().fold(0, step) as u16
}

impl Maker {
    fn new(dependencies: bool, inline_names: bool) -> Self {
        Maker {
            bytes: Vec::new(),
            dependencies,
            inline_names,
            names: NAMES.map(|_| None),
        }
    }

    fn put(&mut self, bytes: &[u8]) {
        self.bytes.extend(bytes);
    }

    fn put16(&mut self, number: u16) {
        self.put(&number.to_le_bytes());
    }

    fn put32(&mut self, number: u32) {
        self.put(&number.to_le_bytes());
    }

    fn units(&mut self, text: &str) {
        let units: Vec<u16> = text.encode_utf16().collect();
        self.put_units(&units);
    }

    fn put_units(&mut self, units: &[u16]) {
        self.put16(units.len() as u16);
        for &unit in units {
            self.put16(unit);
        }
    }

    fn name(&mut self, number: usize) {
        let name = NAMES[number];
        let hash = hash(name.encode_utf16());
        if self.inline_names {
            self.put16(hash);
        } else if let Some(offset) = self.names[number] {
            return self.put32(offset);
        } else {
            let offset = self.bytes.len() as u32 + 4;
            self.names[number] = Some(offset);
            self.put32(offset);
            self.put32(0);
            self.put16(hash);
        }
        self.units(name);
        self.put16(0);
    }

    fn open(&mut self, name: usize, attributes: bool) {
        self.put(&[if attributes { 0x41 } else { 0x01 }]);
        if self.dependencies {
            // Every third element has a dependency.
            self.put16(if name.is_multiple_of(3) { 5 } else { 0xffff });
        }
        self.put32(0);
        self.name(name);
        if attributes {
            self.put32(0);
        }
    }

    fn attribute(&mut self, name: usize) {
        self.put(&[0x06]);
        self.name(name);
    }

    fn text(&mut self, text: &str) {
        self.put(&[0x05, 0x01]);
        self.units(text);
    }

    fn substitution(&mut self, turn: usize) {
        self.put(&[0x0e]);
        self.put16(turn as u16 % 20);
        self.put(&[0x01]);
    }

    /// A definition with the tokens that `tokens` puts; its offset.
    fn definition(&mut self, tokens: fn(&mut Self)) -> usize {
        let offset = self.bytes.len();
        self.put32(0);
        self.put32(ID);
        self.put(&[0x5a; 12]);
        self.put32(0);
        let start = self.bytes.len();
        self.put(FRAGMENT);
        tokens(self);
        self.put(&[0x00]);
        let length = (self.bytes.len() - start) as u32;
        self.bytes[start - 4..start].copy_from_slice(&length.to_le_bytes());
        offset
    }

    /// An element that holds a substitution.
    fn holding(&mut self, name: usize, number: usize) {
        self.open(name, false);
        self.put(&[0x02]);
        self.substitution(number);
        self.put(&[0x04]);
    }

    /// An empty element whose attributes hold a substitution each.
    fn attributed(&mut self, name: usize, attributes: &[(usize, usize)]) {
        self.open(name, true);
        for &(attribute, number) in attributes {
            self.attribute(attribute);
            self.substitution(number);
        }
        self.put(&[0x03]);
    }

    /// The definition of a record: Event with System, and what its last value holds.
    fn system(&mut self) {
        self.open(10, true);
        self.attribute(12);
        self.text("http://schemas.microsoft.com/win/2004/08/events/event");
        self.put(&[0x02]);
        self.open(11, false);
        self.put(&[0x02]);
        self.attributed(2, &[(7, 13), (13, 14)]);
        self.open(3, true);
        self.attribute(14);
        self.substitution(4);
        self.put(&[0x02]);
        self.substitution(3);
        self.put(&[0x04]);
        for (name, number) in [(15, 11), (16, 0), (17, 2), (18, 1), (19, 5)] {
            self.holding(name, number);
        }
        self.attributed(4, &[(20, 6)]);
        self.holding(21, 10);
        self.attributed(22, &[(23, 7), (24, 12)]);
        self.attributed(5, &[(8, 8), (9, 9)]);
        self.holding(25, 15);
        self.holding(6, 16);
        self.attributed(26, &[(27, 12)]);
        self.put(&[0x04]);
        self.substitution(17);
        self.put(&[0x04]);
    }

    /// The definition of an event's data.
    fn event_data(&mut self) {
        self.open(0, false);
        self.put(&[0x02]);
        for (number, name) in [
            "SubjectUserSid",
            "SubjectUserName",
            "SubjectDomainName",
            "SubjectLogonId",
            "ObjectName",
            "HandleId",
            "TransactionId",
            "ProcessName",
            "AccessMask",
            "AccessList",
        ]
        .into_iter()
        .enumerate()
        {
            self.open(1, true);
            self.attribute(7);
            self.text(name);
            self.put(&[0x02]);
            self.substitution(number);
            self.put(&[0x04]);
        }
        self.put(&[0x04]);
    }
}

/// Two lists of writes.
pub struct Lists {
    pub primary: Vec<u64>,
    pub other: Vec<u64>,
}

/// The tags of two lists: all different, rising or in any order; one tag; any of 1,024.
#[derive(Clone, Copy)]
pub enum Tags {
    Rising,
    Different,
    One,
    Random,
}

/// Lists of so many writes each. Times rise, as in a log.
pub fn lists(tags: Tags, writes: usize) -> Lists {
    let mut random = Random::new(23);
    let mut list = |from: u64| {
        let mut order: Vec<u64> = (0..writes as u64).map(|i| from + 2 * i).collect();
        match tags {
            Tags::Rising => {}
            Tags::Different => {
                for i in (1..order.len()).rev() {
                    order.swap(i, random.below(i + 1));
                }
            }
            Tags::One => order.fill(5),
            Tags::Random => order.iter_mut().for_each(|tag| *tag = random.below(1024) as u64),
        }
        let mut time = 133_500_000_000_000_000;
        let mut words = Vec::with_capacity(3 * writes);
        for tag in order {
            time += random.below(1000) as u64;
            words.extend([tag, time, random.word()]);
        }
        words
    };
    Lists {
        primary: list(0),
        other: list(1),
    }
}
