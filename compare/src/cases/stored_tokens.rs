//! The token side of the stored batch: every token byte, every type code, every cut, every refusal, and document 01's samples.

use super::Case;
use super::streams::{KNOWN, width};
use super::texts;
use super::token_cases::case;

/// The token bytes that the walk knows.
const TOKENS: [u8; 22] = [
    0x00, 0x01, 0x02, 0x03, 0x04, 0x05, 0x06, 0x07, 0x08, 0x09, 0x0a, 0x0b, 0x0c, 0x0d, 0x0e, 0x0f,
    0x41, 0x45, 0x46, 0x47, 0x48, 0x49,
];
const SIZES: [u16; 8] = [0, 1, 2, 3, 4, 8, 16, 40];
/// How much data a value is read from.
const DATA: usize = 48;
/// Known to the Rust and not to the document.
const BINARY_ARRAY: u8 = 0x8e;

/// What a walk is asked for: flags and stream.
pub type Sample = (u8, &'static str);

/// A token of each shape: each is cut at every place.
pub const WHOLE: &[Sample] = &[
    (0, "01 11223344 00020000"),
    (1, "41 FFFF 11223344 00020000 55667788"),
    (
        1,
        "01 0000 00000000 0B000000 00000000 1234 0100 4100 0000 02",
    ),
    (3, "41 0700 11223344 4110 0200 4100 4200 0000 55667788"),
    (0, "46 05000000 00000000 4110 0200 4100 4200 0000 02"),
    (2, "09 4100 0100 4100 0000 03"),
    (0, "0A 00020000 0B 0300 4100 0000 4200"),
    (2, "0A 0000 0000 0000 07 0200 4100 4200 04"),
    (0, "08 FFFF 48 0001 0D 0200 01 0E FFFF 95"),
    (
        0,
        "0F 01 01 00 05 01 0200 4100 4200 45 13 01 01 000000000005 12000000 00",
    ),
    (
        0,
        "0C 01 07000000 0A000000 FFFFFFFF 00112233445566778899AABBCCDDEEFF 03000000 AAAAAA 00000000 02",
    ),
    (
        0,
        "0C 01 07000000 00020000 03000000 0200 08 00 0500 01 FF 0800 86 00 2A000000 4100 0000 AA 0102030405060708",
    ),
    (
        0,
        "0C 00 00000000 00000000 02000000 0300 00 00 0600 05 00 AAAAAA FEFF AAAAAAAA 03",
    ),
];

/// Refusals, with what decides between two of them.
pub const REFUSED: &[Sample] = &[
    // 2: a name in place, a definition, a deleted value and a short read go past the end.
    (0, "06 05000000 00000000 0000 0100 4100"),
    (0, "06 05000000 00000000 0000 FF7F 4100"),
    (0, "06 05000000 00000000 0000 0080 4100"),
    (0, "06 05000000 00000000 0000 FFFF 4100"),
    (
        0,
        "0C 00 00000000 0A000000 00000000 00000000000000000000000000000000 01000000",
    ),
    (
        0,
        "0C 00 00000000 0A000000 00000000 00000000000000000000000000000000 FFFFFFFF",
    ),
    (0, "0C 00 00000000 00000000 01000000 0300 00 00 0000"),
    (0, "0C 00 00000000 00000000 01000000 FFFF 03 00 0000"),
    // 3: more values are said than the table holds.
    (0, "0C 00 00000000 00000000 FFFFFFFF 0000 00 00 0000 00 00"),
    // 7 in the table comes before 3, 8 and 10 in the values.
    (0, "0C 00 00000000 00000000 02000000 0400 08 00 0000 16 00"),
    (0, "0C 00 00000000 00000000 02000000 0000 20 00 0000 22 00"),
    (
        0,
        "0C 00 00000000 00000000 02000000 0100 86 00 0000 80 00 00",
    ),
    // 10 comes before 3.
    (0, "0C 00 00000000 00000000 01000000 0700 87 00 00"),
    // 8 without a byte.
    (0, "05 02"),
    (0, "45 10 00000000"),
    // 7 of a substitution.
    (0, "0D 0000 16"),
    (0, "0E 0000 FF"),
    // 9 after tokens, after a fragment header, and where the walk stops before it.
    (0, "02 03 04 10"),
    (0, "0F 00 00 00 42"),
    (0, "00 10"),
    // 11, 12, and 11 before 12.
    (2, "06 4100 0100 4100 0100"),
    (2, "06 4200 0100 4100 0000"),
    (2, "06 4200 0100 4100 0100"),
    (2, "06 0100 0000 0000"),
    (2, "02 49 4110 0200 4200 4100 0000"),
    // Read: a hash of more than 32 bits on the way, and a name of zero units.
    (2, "06 3FF0 0300 FFFF FFFF FFFF 0000"),
    (2, "06 0000 0200 0000 0000 0000"),
];

/// Document 01's samples.
pub const DOCUMENT: &[Sample] = &[
    (0, ""),
    (0, "10"),
    (0, "01 00000000 00020000 03 00"),
    (1, "01 FFFF 00000000 00020000 03 00"),
    (1, "01 0000 00000000 00020000 03 00"),
    (0, "05 01 0200 4100 4200"),
    (2, "06 4110 0200 4100 4200 0000"),
    (0, "0C 01 07000000 00020000 01000000 0200 0800 2A000000"),
    (
        0,
        "0C 01 07000000 00020000 01000000 0600 0800 2A000000 0000",
    ),
    (0, "0C 01 07000000 00020000 01000000 0600 0800 2A000000 00"),
    (0, "0C 01 07000000 00020000 01000000 0300 8600 2A000000"),
];

/// Both open bytes, with attributes and without, and all tokens that have a name: at 0, within the stream, in place or next to
/// it, far off, and inline.
pub const NAMES: &[Sample] = &[
    (0, "01 00000000 00000000 03"),
    (0, "41 00000000 00000000 00000000 03"),
    (0, "01 00000000 00020000 06 00020000 03"),
    (
        0,
        "41 00000000 00020000 00000000 46 FFFFFFFF 05 00 06 00000080 03",
    ),
    (1, "41 FFFF 11223344 FFFFFFFF 55667788 03"),
    (1, "41 0000 11223344 FFFF0000 55667788 02 04"),
    (1, "01 FEFF 11223344 00000100 03"),
    (
        0,
        "06 00000000 46 01000000 09 00000000 49 FFFFFFFF 0A 00000000 0A FEFFFF7F",
    ),
    (0, "01 00000000 08000000 03"),
    (0, "01 00000000 0A000000 03"),
    (
        0,
        "41 00000000 09000000 00000000 0000 0000 0000 AAAAAAAA 06 1C000000 00000000 0000 0000 0000 \
         49 2B000000 00000000 0000 0000 0000 0A 3A000000 00000000 0000 0000 0000 03",
    ),
    (2, "01 00000000 0000 0000 0000 03"),
    (3, "01 FFFF 00000000 4100 0100 4100 0000 03"),
    (3, "41 0100 00000000 4100 0100 4100 0000 00000000 03"),
    (
        2,
        "41 00000000 4110 0200 4100 4200 0000 00000000 46 0000 0000 0000 09 4100 0100 4100 0000 02 \
         0A 0000 0000 0000 0B 0000 04",
    ),
];

pub fn cases() -> Vec<Case> {
    let mut cases = samples(DOCUMENT);
    cases.push(case(b'T', 0, 0, 1, &[]));
    cases.push(case(b'T', 0, 1, 0, &[]));
    cases.extend(samples(NAMES));
    cases.extend(later(NAMES));
    cases.extend(samples(REFUSED));
    cases.extend(texts::cases(2));
    cases.extend(token_bytes());
    cases.extend(cuts());
    cases.extend(windows());
    cases.extend(value_tokens());
    cases.extend(sized_values());
    cases.extend(singles());
    cases.extend(limits());
    cases
}

pub fn hex(text: &str) -> Vec<u8> {
    let digits: Vec<u8> = text.bytes().filter(|byte| *byte != b' ').collect();
    let digit = |byte: u8| char::from(byte).to_digit(16).expect("hex") as u8;
    let pairs = digits.as_chunks::<2>().0.iter();
    pairs
        .map(|&[high, low]| digit(high) * 16 + digit(low))
        .collect()
}

/// The walk over a whole stream.
fn walk(flags: u8, data: &[u8]) -> Case {
    case(b'T', flags, 0, data.len() as u32, data)
}

fn samples(samples: &[Sample]) -> Vec<Case> {
    let walk = |(flags, text): &Sample| walk(*flags, &hex(text));
    samples.iter().map(walk).collect()
}

/// The walk over streams that have bytes before them: offsets count from the first of these all the same.
fn later(samples: &[Sample]) -> Vec<Case> {
    let walk = |(flags, text): &Sample| {
        let (start, length, stream) = moved(text);
        case(b'T', *flags, start, length, &stream)
    };
    samples.iter().map(walk).collect()
}

/// A stream with some bytes before it: start, length and all bytes.
pub fn moved(text: &str) -> (u32, u32, Vec<u8>) {
    let (before, stream) = ([0xaa; 3], hex(text));
    let length = stream.len() as u32;
    (3, length, [&before[..], &stream].concat())
}

/// Every byte as a token: alone, with bytes after it, and those of a token with all flags.
fn token_bytes() -> Vec<Case> {
    let after = [
        hex("01 00 02 00 41 00 00 00 02 03 04 00"),
        hex("41 00 01 00 41 00 00 00 02 03 04 00"),
    ];
    let mut cases = Vec::new();
    for byte in 0..=255 {
        cases.push(walk(0, &[byte]));
        let flags = if TOKENS.contains(&byte) { 0..4 } else { 0..1 };
        for flags in flags {
            for after in &after[..if flags == 0 { 1 } else { 2 }] {
                cases.push(walk(flags, &[&[byte], &after[..]].concat()));
            }
        }
    }
    cases
}

/// Streams cut at every place, and the walk told of all of it.
fn cuts() -> Vec<Case> {
    let mut cases = Vec::new();
    for (flags, text) in WHOLE {
        let whole = hex(text);
        for end in 0..=whole.len() {
            cases.push(case(b'T', *flags, 0, whole.len() as u32, &whole[..end]));
        }
    }
    cases
}

/// A stream from every place on, with lengths that end in a token, at the end and far off.
fn windows() -> Vec<Case> {
    let stream = hex("02 08 4100 0F 010100 0D 0200 01 07 0100 4200 05 04 FF 03 00 04");
    let size = stream.len() as u32;
    let mut cases = Vec::new();
    for start in 0..=size + 1 {
        for length in [0, 1, size.saturating_sub(start), u32::MAX] {
            cases.push(case(b'T', 0, start, length, &stream));
        }
    }
    for start in [65536, 1 << 31, u32::MAX] {
        cases.push(case(b'T', 0, start, u32::MAX, &stream));
    }
    for length in 0..=size + 1 {
        cases.push(case(b'T', 0, 0, length, &stream));
    }
    cases
}

/// Data with zero units that end at 4, 8, 16 and 40, and no two other bytes the same.
fn mixed() -> Vec<u8> {
    let mut data: Vec<u8> = (1..=DATA as u8).collect();
    for end in [4, 8, 16, 40] {
        data[end - 2..end].fill(0);
    }
    data
}

/// Data whose numbers are negative.
fn high() -> Vec<u8> {
    (0..DATA as u8).map(|place| 255 - place).collect()
}

/// Every type code as a value token.
fn value_tokens() -> Vec<Case> {
    let text = hex("0300 4100 0000 4200 4300 4400 4500 4600 4700");
    let mut cases = Vec::new();
    for code in 0..=255 {
        let value = |data: &[u8]| walk(0, &[&[0x05, code], data].concat());
        cases.push(value(&[]));
        if !KNOWN.contains(&code) && code != BINARY_ARRAY {
            continue;
        }
        for data in [mixed(), high()] {
            cases.push(value(&data[..20]));
        }
        for end in 1..=text.len() {
            cases.push(value(&text[..end]));
        }
    }
    cases
}

/// Every type code as a descriptor, with sizes and data of its own length and of other lengths.
fn sized_values() -> Vec<Case> {
    let mut cases = Vec::new();
    for code in 0..=255 {
        let value = |size: u16, data: &[u8]| {
            let mut stream = hex("0C 01 07000000 00020000 01000000");
            stream.extend(size.to_le_bytes());
            stream.extend([code, 0]);
            stream.extend(data);
            walk(0, &stream)
        };
        if !KNOWN.contains(&code) && code != BINARY_ARRAY {
            cases.push(value(4, &[]));
            continue;
        }
        for size in SIZES {
            cases.push(value(size, &mixed()));
            let length = usize::from(size);
            let mut ends = vec![length.saturating_sub(1), length, width(code) - 1];
            ends.sort_unstable();
            ends.dedup();
            for end in ends {
                cases.push(value(size, &high()[..end]));
            }
        }
    }
    cases
}

/// The single instance, and where it ends.
fn singles() -> Vec<Case> {
    let mut cases = Vec::new();
    for text in [
        "",
        "0C",
        "0C 00",
        "0C 00 00 01",
        "0C 0F 00 00 0C 00",
        "0F",
        "0F 01 01 00",
        "0F 01 01 00 0C",
        "0F 01 01 00 0C 00",
        "0F 01 01 00 0C 0C 00 01",
        "0F 01 01 00 0D 00",
        "0F 01 01 0C 00 00",
        "00 0C 00 00 0C 00",
        "10",
    ] {
        let stream = hex(text);
        let size = stream.len() as u32;
        for consumed in (0..=size + 1).chain([65536, u32::MAX]) {
            cases.push(case(b'S', 0, consumed, 0, &stream));
        }
    }
    for first in 0..=255 {
        cases.push(case(b'S', 0, 1, 0, &[first, first]));
    }
    cases
}

/// Streams at the limit of their length.
fn limits() -> Vec<Case> {
    let mut most = vec![0x03; 65536];
    let end = hex("02 05 01 0200 4100 4200 41 00000000 0000 0000 0000 00000000 04");
    let at = most.len() - end.len();
    most[at..].copy_from_slice(&end);
    let more = vec![0; 65537];
    vec![
        case(b'T', 2, at as u32, end.len() as u32 + 1, &most),
        case(b'T', 0, 0, 1, &more),
    ]
}
