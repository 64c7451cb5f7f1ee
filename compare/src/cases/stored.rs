//! The batch that the repository stores: few whole chunks, since each is 64 KiB, and many cases that need none.

use super::Case;
use super::chunk_cases::case;
use super::chunks::SIZE;
use super::event_cases;
use super::file_cases;
use super::kept_cases;
use super::merge_cases;
use super::stored_bodies;
use super::stored_nests;
use super::stored_tokens;
use crate::Hasher;
use crate::oracle::batch::EVENTS;

const MAGIC: &[u8] = b"ElfChnk\0";

pub fn cases() -> Vec<Case> {
    let mut cases = whole_chunks();
    cases.extend(damaged_pair().map(|chunk| case(b'W', 1, 0, &[], &chunk)));
    cases.extend(short_chunks());
    cases.extend(stored_tokens::cases());
    cases.extend(stored_bodies::cases());
    cases.extend(stored_nests::cases());
    cases.extend(file_cases::stored());
    cases.extend(kept_cases::stored());
    cases.extend(merge_cases::stored());
    cases.extend(event_cases::stored());
    // No such mode: the run ends.
    cases.push(case(b'Z', 0, 0, &[], &[]));
    cases.push(case(b'H', 0, 0, &[], &[]));
    cases
}

/// Each mode on a chunk.
fn whole_chunks() -> Vec<Case> {
    let damaged = damaged();
    // The walk has come to the chunk's last bytes, which are too few for a record's header.
    let cut = chunk(&[(48, &65536_u32.to_le_bytes())]);
    vec![
        case(b'H', 0, 0, &[], &numbered()),
        case(EVENTS, 0, 0, &[], &with_records()),
        case(EVENTS, 0, 0, &[], &chunk(&[(48, &512_u32.to_le_bytes())])),
        case(EVENTS, 0, 0, &[], &chunk(&[(48, &511_u32.to_le_bytes())])),
        case(b'R', 1, 600, &[], &damaged),
        case(b'W', 1, 0, &[], &damaged),
        case(b'W', 0, 0, &[], &damaged),
        case(b'P', 0, 0, &state([1, 65513, 0, 0, 1]), &cut),
    ]
}

/// Chunks of a wrong length, in each mode, and states of all kinds.
fn short_chunks() -> Vec<Case> {
    let mut cases = Vec::new();
    for length in [0, 1, 511, 512] {
        let mut short = chunk(&[]);
        short.truncate(length);
        for mode in [b'H', EVENTS, b'R', b'W'] {
            cases.push(case(mode, 0xff, 512, &[], &short));
        }
        cases.push(case(b'P', 0, 0, &state([1, 512, 0, 0, 0]), &short));
    }
    for number in [
        0,
        1,
        2,
        9,
        10,
        99,
        100,
        65535,
        65536,
        1 << 32,
        1 << 63,
        u64::MAX - 1,
        u64::MAX,
    ] {
        for words in [
            [number, 7, 8, 9, 1],
            [1, number, 8, 9, 0],
            [1, 7, number, 9, 1],
            [0, 7, 8, number, 0],
            [1, 7, 8, 9, number],
        ] {
            cases.push(case(b'P', 0, 0, &state(words), &[]));
        }
    }
    cases
}

fn state(words: [u64; 5]) -> Vec<u8> {
    words.into_iter().flat_map(u64::to_le_bytes).collect()
}

/// A chunk of zeros but for the magic and these bytes.
pub(super) fn chunk(parts: &[(usize, &[u8])]) -> Vec<u8> {
    let mut chunk = vec![0; SIZE];
    chunk[..MAGIC.len()].copy_from_slice(MAGIC);
    for (at, bytes) in parts {
        chunk[*at..*at + bytes.len()].copy_from_slice(bytes);
    }
    chunk
}

/// A header in which no two bytes beside each other are the same, with the right checksum.
fn numbered() -> Vec<u8> {
    let mut chunk = chunk(&[]);
    for (byte, place) in chunk[MAGIC.len()..512].iter_mut().zip(0_usize..) {
        *byte = (place * 37 + place / 256 * 5 + 11) as u8;
    }
    let mut hasher = Hasher::new();
    hasher.update(&chunk[..120]);
    hasher.update(&chunk[128..512]);
    chunk[124..128].copy_from_slice(&hasher.finalize().to_le_bytes());
    chunk
}

/// Records up to the chunk's end, with the right events checksum, whatever the flags say.
fn with_records() -> Vec<u8> {
    let mut chunk = chunk(&[(48, &65536_u32.to_le_bytes()), (120, &[4])]);
    for (byte, place) in chunk[512..].iter_mut().zip(0_usize..) {
        *byte = (place * 41 + place / 256 * 3 + 7) as u8;
    }
    let mut hasher = Hasher::new();
    hasher.update(&chunk[512..]);
    chunk[52..56].copy_from_slice(&hasher.finalize().to_le_bytes());
    chunk
}

/// The bytes of a record: its size, what its size copy says, its ID and its FILETIME.
fn record(size: u32, copy: u32, id: u64, filetime: u64) -> Vec<u8> {
    let mut record = vec![0; size as usize];
    record[..4].copy_from_slice(b"**\0\0");
    record[4..8].copy_from_slice(&size.to_le_bytes());
    record[8..16].copy_from_slice(&id.to_le_bytes());
    record[16..24].copy_from_slice(&filetime.to_le_bytes());
    record[size as usize - 4..].copy_from_slice(&copy.to_le_bytes());
    record
}

/// Document 02's P14: three records, the second one with a record of ID 99 in its payload. In the one chunk the second has no magic, in the
/// other its FILETIME is all ones, and the record in it has no magic.
pub fn damaged_pair() -> [Vec<u8>; 2] {
    let header = [(24, 1_u64), (32, 3)].map(|(at, id)| (at, id.to_le_bytes()));
    let offsets = [(44, 596_u32), (48, 624)].map(|(at, offset)| (at, offset.to_le_bytes()));
    let of = |second: u64| {
        [
            (512, record(28, 28, 1, 0)),
            (540, record(56, 56, 2, second)),
            (564, record(28, 28, 99, 0)),
            (596, record(28, 28, 3, 0)),
        ]
    };
    let chunk_of = |records: [(usize, Vec<u8>); 4], zero: usize| {
        let mut parts: Vec<(usize, &[u8])> = Vec::new();
        parts.extend(header.iter().map(|(at, bytes)| (*at, &bytes[..])));
        parts.extend(offsets.iter().map(|(at, bytes)| (*at, &bytes[..])));
        parts.extend(records.iter().map(|(at, bytes)| (*at, &bytes[..])));
        parts.push((zero, &[0]));
        chunk(&parts)
    };
    [chunk_of(of(0), 540), chunk_of(of(u64::MAX), 564)]
}

/// Records 7 to 12: 8 has a late FILETIME, between it and the next live one stand a record of another
/// time and one with a wrong copy, zeros stand after 10, the last one comes with a wrong copy, and
/// behind the free space is a stale one.
pub(super) fn damaged() -> Vec<u8> {
    const LAST_FILETIME: u64 = 2_650_466_808_009_999_999;
    let header = [(24, 7_u64), (32, 12)].map(|(at, id)| (at, id.to_le_bytes()));
    let offsets = [(44, 1200_u32), (48, 1300)].map(|(at, offset)| (at, offset.to_le_bytes()));
    let records = [
        (512, record(88, 88, 7, 0)),
        (600, record(100, 100, 8, LAST_FILETIME + 1)),
        (650, record(28, 28, 6, 1)),
        (720, record(40, 41, 9, 2)),
        (801, record(99, 99, 9, LAST_FILETIME)),
        (900, record(28, 28, 10, 132_000_000_000_000_000)),
        (1000, record(50, 50, 3, 4)),
        (1100, record(100, 100, 11, 5)),
        (1200, record(60, 61, 12, 6)),
        (1400, record(300, 300, u64::MAX, 7)),
    ];
    let mut parts: Vec<(usize, &[u8])> = Vec::new();
    parts.extend(header.iter().map(|(at, bytes)| (*at, &bytes[..])));
    parts.extend(offsets.iter().map(|(at, bytes)| (*at, &bytes[..])));
    parts.extend(records.iter().map(|(at, bytes)| (*at, &bytes[..])));
    chunk(&parts)
}
