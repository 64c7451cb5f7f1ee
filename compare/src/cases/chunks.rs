//! Chunks full of records, and the ways in which they are damaged.

use super::random::Random;
use crate::Hasher;
use std::ops::Range;

pub const SIZE: usize = 65536;
const FIRST: usize = 512;
const MAGIC: [u8; 4] = *b"**\0\0";
/// The bytes of a record around its payload, and those before it.
const FRAME: usize = 28;
const HEAD: usize = 24;
const LAST_FILETIME: u64 = 2_650_466_808_009_999_999;

/// A chunk, and where something stands in it that is worth asking about.
#[derive(Clone)]
pub struct Chunk {
    pub bytes: Vec<u8>,
    places: Vec<usize>,
    starts: Vec<usize>,
    first_id: u64,
    last_id: u64,
}

/// A chunk, damaged in none to five ways.
pub fn make(random: &mut Random) -> Chunk {
    let mut chunk = Chunk::sound(random);
    for _ in 0..random.one_of(&[0, 1, 1, 1, 2, 2, 3, 5]) {
        chunk.damage(random);
    }
    // Many records and most headers have the right checksum, whatever was done to them.
    if random.once_in(2) {
        chunk.set_events_checksum();
    }
    if !random.once_in(5) {
        chunk.set_checksum();
    }
    if random.once_in(40) {
        let at = random.below(8);
        chunk.bytes[at] ^= 1 << random.below(8);
    }
    if random.once_in(40) {
        let length = random.one_of(&[0, 1, 511, 512, 513, SIZE - 1, SIZE + 1, 2 * SIZE - 40]);
        chunk.bytes.resize(length, 0);
    }
    chunk
}

/// Two chunks with the same header that cannot be read at the same record, each for its own reason, and are equal from a later record
/// on. What stands before that one may differ, and other damages are the same in both.
pub fn make_pair(random: &mut Random) -> [Chunk; 2] {
    let (mut one, live) = loop {
        let chunk = Chunk::sound(random);
        let live = chunk.live();
        if live.len() > 1 {
            break (chunk, live);
        }
    };
    for _ in 0..random.one_of(&[0, 0, 0, 1, 2]) {
        one.damage(random);
    }
    let first = random.below((live.len() - 1).min(40));
    let last = (first + random.one_of(&[1, 1, 1, 2, 3])).min(live.len() - 1);
    let range = live[first]..live[last];
    let across = one.across(random, &range);
    let mut other = one.clone();
    for chunk in [&mut one, &mut other] {
        if first > 0 && random.once_in(3) {
            let before = random.below(first);
            chunk.break_record(random, live[before]..live[before + 1]);
        }
        chunk.break_record(random, range.clone());
        // The head of a record whose end lies behind the range.
        if let Some((from, size)) = across
            && random.once_in(2)
        {
            let id = chunk.some_id(random);
            chunk.head_record(random, from, size, id);
        }
    }
    [one, other]
}

/// A record's size: most are small, so that a chunk holds many.
fn size(random: &mut Random) -> usize {
    let last = random.one_of(&[28, 29, 32, 60, 100, 300, 900, 5000]);
    random.between(FRAME, last)
}

fn filetime(random: &mut Random) -> u64 {
    match random.below(12) {
        0 => random.one_of(&[0, 1, LAST_FILETIME, LAST_FILETIME - 1]),
        1 => random.word() % (LAST_FILETIME + 1),
        _ => 132_000_000_000_000_000 + random.word() % 1_000_000_000_000_000,
    }
}

impl Chunk {
    /// A header and records that are as they should be, and stale records behind them.
    fn sound(random: &mut Random) -> Self {
        let first_id = match random.below(6) {
            0 => 0,
            1 => 1,
            2 => u64::MAX - random.below(100) as u64,
            3 => random.word(),
            _ => random.below(1_000_000) as u64,
        };
        let mut chunk = Chunk {
            bytes: vec![0; SIZE],
            places: vec![0, FIRST, SIZE],
            starts: Vec::new(),
            first_id,
            last_id: first_id,
        };
        let most = random.one_of(&[0, 1, 2, 3, 10, 40, 3000]);
        let full = random.once_in(3);
        let (count, end) = chunk.fill(random, FIRST, first_id, most, full);
        chunk.last_id = first_id.wrapping_add((count as u64).saturating_sub(1));
        let last = chunk.starts.last().copied().unwrap_or(0);
        chunk.bytes[..8].copy_from_slice(b"ElfChnk\0");
        for (at, number) in [
            (8, first_id.wrapping_add(random.below(3) as u64)),
            (16, chunk.last_id),
            (24, first_id),
            (32, chunk.last_id),
        ] {
            chunk.put64(at, number);
        }
        let flags = random.one_of(&[0, 0, 0, 1, 2, 4, 5, 0xffff_ffff_u32]);
        let checksum = random.word() as u32;
        for (at, number) in [
            (40, 128),
            (44, last as u32),
            (48, end as u32),
            (52, checksum),
            (120, flags),
        ] {
            chunk.put32(at, number);
        }
        if random.once_in(3) {
            for at in 128..FIRST {
                chunk.bytes[at] = random.byte();
            }
        }
        // Behind the free space: nothing, stale records, or noise.
        let stale = first_id.wrapping_sub(random.below(2000) as u64);
        match random.below(4) {
            0 => {}
            1 => chunk.noise(random, end, SIZE),
            _ => {
                let (from, full) = (end + random.below(60), random.once_in(2));
                chunk.fill(random, from, stale, 3000, full);
            }
        }
        chunk
    }

    /// Records from `at` on, at most `most`; the last one ends at the chunk's end if `full`. Gives
    /// their count, and where they end.
    fn fill(
        &mut self,
        random: &mut Random,
        mut at: usize,
        id: u64,
        most: usize,
        full: bool,
    ) -> (usize, usize) {
        let mut count = 0;
        let fixed = random.once_in(2).then(|| size(random));
        while count < most {
            let left = SIZE.saturating_sub(at);
            let mut size = fixed.unwrap_or_else(|| size(random));
            let last = left < size + FRAME || count + 1 == most && random.once_in(2);
            if full && last {
                size = left;
            }
            if left < size.max(FRAME) {
                break;
            }
            self.put_record(random, at, size, id.wrapping_add(count as u64));
            self.starts.push(at);
            at += size;
            count += 1;
        }
        self.places.push(at);
        (count, at)
    }

    /// A record that is right in all, with a payload.
    fn put_record(&mut self, random: &mut Random, at: usize, size: usize, id: u64) {
        match random.below(8) {
            0 => {}
            1 => self.noise(random, at, at + size),
            2 => self.bytes[at..at + size].fill(b'*'),
            _ => {
                // Text, with zeros between.
                for place in (at..at + size).step_by(2) {
                    self.bytes[place] = b'a' + (place % 26) as u8;
                }
            }
        }
        self.frame_record(random, at, size, id);
    }

    /// The numbers of a record, with what stands between them left as it is.
    fn frame_record(&mut self, random: &mut Random, at: usize, size: usize, id: u64) {
        self.head_record(random, at, size, id);
        self.put32(at + size - 4, size as u32);
    }

    /// Those at its start alone.
    fn head_record(&mut self, random: &mut Random, at: usize, size: usize, id: u64) {
        self.put(at, &MAGIC);
        self.put32(at + 4, size as u32);
        self.put64(at + 8, id);
        self.put64(at + 16, filetime(random));
    }

    /// Where the records begin that lie below the free space offset.
    fn live(&self) -> Vec<usize> {
        let word = [48, 49, 50, 51].map(|at| self.bytes[at]);
        let free = u32::from_le_bytes(word) as usize;
        let below = |at: &usize| *at < free;
        self.starts.iter().copied().filter(below).collect()
    }

    /// Makes the record at the range's start unreadable, and what stands behind it in the range anything.
    fn break_record(&mut self, random: &mut Random, range: Range<usize>) {
        let (at, end) = (range.start, range.end);
        match random.below(6) {
            0 => {}
            1 => self.noise(random, at, end),
            2 => self.bytes[range].fill(0),
            // Records inside it, most of another time.
            _ => {
                for _ in 0..random.between(1, 3) {
                    let from = at + random.below(end - at);
                    let size = FRAME + random.below(40);
                    let old = self.first_id.wrapping_sub(1 + random.below(9) as u64);
                    let id = if random.once_in(6) {
                        self.some_id(random)
                    } else {
                        old
                    };
                    if from + size <= end {
                        self.frame_record(random, from, size, id);
                    }
                }
            }
        }
        let reason = random.below(5);
        if reason < 3 {
            self.head_record(random, at, end - at, self.first_id);
        }
        match reason {
            0 => self.put64(
                at + 16,
                random.one_of(&[LAST_FILETIME + 1, 1 << 63, u64::MAX]),
            ),
            1 => self.put32(at + 4, random.one_of(&[0, 1, 24, 27])),
            2 => self.put32(at + 4, (SIZE - at + random.between(1, 60)) as u32),
            3 => self.put(at, &[0; 4]),
            _ => self.put(at + random.below(4), &[random.one_of(&[1, 0x2b, 0xff])]),
        }
    }

    /// Room for a record that begins in the range and ends in the record behind it: its size copy is put there.
    fn across(&mut self, random: &mut Random, range: &Range<usize>) -> Option<(usize, usize)> {
        let behind = self.size_at(range.end);
        if range.len() < 2 * HEAD || !(FRAME + 4..=900).contains(&behind) || random.once_in(2) {
            return None;
        }
        let from = random.between(range.start + HEAD, range.end - HEAD);
        let copy = range.end + random.between(HEAD, behind - 8);
        let size = copy + 4 - from;
        self.put32(copy, size as u32);
        Some((from, size))
    }

    /// Bytes that look like something: stars, magics, zeros and others.
    fn noise(&mut self, random: &mut Random, from: usize, to: usize) {
        let kind = random.below(4);
        for at in from..to.min(SIZE) {
            self.bytes[at] = match kind {
                0 => random.byte(),
                1 => random.one_of(b"**\0\0\0"),
                2 => MAGIC[at % 4],
                _ => MAGIC[at / 2 % 4],
            };
        }
    }

    /// As much of `bytes` as lies within the chunk.
    fn put(&mut self, at: usize, bytes: &[u8]) {
        for (place, byte) in (at..SIZE).zip(bytes) {
            self.bytes[place] = *byte;
        }
    }

    fn put32(&mut self, at: usize, number: u32) {
        self.put(at, &number.to_le_bytes());
    }

    fn put64(&mut self, at: usize, number: u64) {
        self.put(at, &number.to_le_bytes());
    }

    fn set_checksum(&mut self) {
        let mut hasher = Hasher::new();
        hasher.update(&self.bytes[..120]);
        hasher.update(&self.bytes[128..FIRST]);
        self.put32(124, hasher.finalize());
    }

    /// Of the bytes up to the free space offset, where it leads to some.
    fn set_events_checksum(&mut self) {
        let word = [48, 49, 50, 51].map(|at| self.bytes[at]);
        let free = u32::from_le_bytes(word) as usize;
        if let Some(records) = self.bytes.get(FIRST..free) {
            let mut hasher = Hasher::new();
            hasher.update(records);
            self.put32(52, hasher.finalize());
        }
    }

    fn size_at(&self, at: usize) -> usize {
        let bytes = self.bytes.get(at + 4..at + 8);
        bytes.map_or(0, |b| u32::from_le_bytes([b[0], b[1], b[2], b[3]]) as usize)
    }

    /// Where a record starts, or a place near the chunk's end, or any.
    fn place(&mut self, random: &mut Random) -> usize {
        let at = match random.below(12) {
            0 => random.between(FIRST, SIZE - 1),
            1 => random.between(SIZE - 64, SIZE - 1),
            _ if self.starts.is_empty() => FIRST,
            2..=5 => self.starts[random.below(self.starts.len().min(4))],
            _ => self.starts[random.below(self.starts.len())],
        };
        self.places.push(at);
        at
    }

    /// Where something stands: a record, or what was damaged.
    pub fn some_place(&self, random: &mut Random) -> u64 {
        if random.once_in(2) {
            return self.some_record(random).0;
        }
        self.places[random.below(self.places.len())] as u64
    }

    /// Where a record starts, and where it says that it ends.
    pub fn some_record(&self, random: &mut Random) -> (u64, u64) {
        if self.starts.is_empty() {
            return (FIRST as u64, SIZE as u64);
        }
        let at = self.starts[random.below(self.starts.len())];
        (at as u64, (at + self.size_at(at)) as u64)
    }

    /// One damage.
    fn damage(&mut self, random: &mut Random) {
        let at = self.place(random);
        match random.below(16) {
            // The record's magic.
            0 => {
                let byte = at + random.below(4);
                let wrong = random.byte();
                self.put(byte, &[wrong]);
            }
            // Zeros where a record should be.
            1 => {
                let length = random.one_of(&[1, 2, 3, 4, 5, 24, 28, 100, SIZE]);
                self.put(at, &vec![0; length]);
            }
            // Its size, with a right copy or not.
            2 | 3 => self.damage_size(random, at),
            // Its copy.
            4 => {
                let size = self.size_at(at);
                let wrong = random.one_of(&[0, 27, size + 1, size ^ 0x0100_0000, size + 65536]);
                self.put32((at + size).saturating_sub(4).min(SIZE), wrong as u32);
            }
            // Its FILETIME.
            5 => {
                let late = [
                    LAST_FILETIME,
                    LAST_FILETIME + 1,
                    1 << 63,
                    u64::MAX,
                    LAST_FILETIME - 1,
                ];
                self.put64(at + 16, random.one_of(&late));
            }
            // Its ID: out of the range, at its ends, the last one early.
            6 | 7 => {
                let id = self.some_id(random);
                self.put64(at + 8, id);
            }
            // The free space offset.
            8 | 9 => {
                let free = self.some_offset(random, at);
                self.put32(48, free);
                self.places.push(free as usize);
            }
            // The last record's offset.
            10 => {
                let last = self.some_offset(random, at);
                self.put32(44, last);
                self.places.push(last as usize);
            }
            // The range of IDs.
            11 => {
                let id = self.some_id(random);
                self.put64(random.one_of(&[24, 32]), id);
            }
            // A record inside another one's payload, or across it.
            12 | 13 => {
                let from = at + random.below(80);
                let size = FRAME + random.below(60);
                self.places.push(from);
                if from + size <= SIZE {
                    let id = self.some_id(random);
                    self.frame_record(random, from, size, id);
                }
            }
            // A record that ends at the chunk's end or near it.
            14 => {
                let from = SIZE - random.between(1, 60);
                self.places.push(from);
                self.put(from, &MAGIC);
                let size = SIZE - from + random.below(7);
                self.put32(from + 4, size as u32);
                let id = self.some_id(random);
                self.put64(from + 8, id);
                self.put64(from + 16, filetime(random));
                if from + HEAD < SIZE {
                    self.put32(from + size - 4, size as u32);
                }
            }
            // Noise over a stretch.
            _ => {
                let length = random.one_of(&[1, 4, 30, 1000, SIZE]);
                self.noise(random, at, at + length);
            }
        }
    }

    fn damage_size(&mut self, random: &mut Random, at: usize) {
        let size = self.size_at(at);
        let left = SIZE - at;
        let wrong = match random.below(5) {
            0 => random.one_of(&[0, 20, 23, 24, 27]),
            1 => random.one_of(&[28, 29, 30, 32]),
            2 => random.one_of(&[
                65536,
                65535,
                1 << 31,
                u32::MAX as usize,
                u32::MAX as usize - 27,
            ]),
            3 => random.around(size as u64) as usize,
            _ => random.around(left as u64 + 1) as usize,
        };
        self.put32(at + 4, wrong as u32);
        self.places.push(at.wrapping_add(wrong));
        if random.once_in(2) && wrong >= 8 && wrong <= left {
            self.put32(at + wrong - 4, wrong as u32);
        }
    }

    /// An ID at an end of the range or beside it, or another one.
    fn some_id(&self, random: &mut Random) -> u64 {
        let (first, last) = (self.first_id, self.last_id);
        let within = first.wrapping_add(random.below(40) as u64);
        let others = [0, u64::MAX, 1 << 63, within, within];
        match random.below(3) {
            0 => random.one_of(&[first, last, last]),
            1 => random.one_of(&[first.wrapping_sub(1), last.wrapping_add(1)]),
            _ => random.one_of(&others),
        }
    }

    /// An offset for the header: at or near a record's start, within it, at the chunk's end, or far off.
    fn some_offset(&self, random: &mut Random, at: usize) -> u32 {
        let size = self.size_at(at).min(SIZE);
        let offset = match random.below(6) {
            0 => random.one_of(&[0, 3, 4, 24, 508, 511, 512, 513, 516]),
            1 => random.around(at as u64) as usize,
            2 => at + random.below(size + 1),
            3 => random.around((at + size) as u64) as usize,
            4 => random.around(SIZE as u64) as usize,
            _ => random.one_of(&[
                u32::MAX as usize,
                u32::MAX as usize - 3,
                1 << 31,
                SIZE * 2,
                SIZE - 4,
                SIZE - 28,
            ]),
        };
        offset as u32
    }
}
