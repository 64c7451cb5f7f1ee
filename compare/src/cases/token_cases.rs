//! Cases on a token stream: walks with all flags from many places, and the single instance.

use super::Case;
use super::random::Random;
use super::streams::{self, Stream};

const DEPENDENCIES: u8 = 1;
const INLINE: u8 = 2;

/// The cases that one stream is asked for.
pub fn of_one_stream(random: &mut Random) -> Vec<Case> {
    match random.below(3000) {
        0 => long(random),
        1..=900 => noise(random),
        901..=1200 => single(random),
        _ => walks(random),
    }
}

/// A case of a mode.
pub fn case(mode: u8, flags: u8, start: u32, length: u32, data: &[u8]) -> Case {
    Case {
        mode,
        flags,
        start,
        length,
        data: data.to_vec(),
    }
}

/// A walk over a stream as it is meant, then with other flags and windows, then changed.
fn walks(random: &mut Random) -> Vec<Case> {
    let mut stream = streams::make(random);
    let meant = flags(&stream);
    let mut cases = vec![whole(b'T', &stream, meant)];
    // Flags that a mode does not name are passed over.
    let other = (meant ^ random.one_of(&[1, 2, 3])) | random.one_of(&[0, 0, 0xfc]);
    cases.push(whole(b'T', &stream, other));
    let (start, length) = window(random, &stream);
    cases.push(case(b'T', meant, start, length, &stream.bytes));

    let sound = stream.bytes.clone();
    for _ in 0..random.between(2, 6) {
        stream.bytes.clone_from(&sound);
        for _ in 0..random.one_of(&[1, 1, 1, 2, 4]) {
            stream.change(random);
        }
        if random.once_in(4) {
            let (start, length) = window(random, &stream);
            cases.push(case(b'T', meant, start, length, &stream.bytes));
        } else {
            cases.push(whole(b'T', &stream, meant));
        }
    }
    cases
}

/// The flags that a stream is meant for.
pub fn flags(stream: &Stream) -> u8 {
    let dependencies = if stream.dependencies { DEPENDENCIES } else { 0 };
    let inline = if stream.inline { INLINE } else { 0 };
    dependencies | inline
}

/// The walk from the first token to the stream's end, in a mode.
pub fn whole(mode: u8, stream: &Stream, flags: u8) -> Case {
    let length = stream.bytes.len().saturating_sub(stream.start) as u32;
    case(mode, flags, stream.start as u32, length, &stream.bytes)
}

/// A start and a length: a token's, any inside, the ends, or far off.
pub fn window(random: &mut Random, stream: &Stream) -> (u32, u32) {
    let size = stream.bytes.len();
    let known = stream.places[random.below(stream.places.len())];
    let start = match random.below(10) {
        0 => random.one_of(&[0, size, size + 1, 0x10000, 1 << 31, 0xffff_ffff]),
        1 => random.below(size + 1),
        2..=4 => known,
        _ => stream.start,
    };
    let left = size.saturating_sub(start);
    let length = match random.below(8) {
        0 => 0,
        1 => random.one_of(&[1, left + 1, left + 2, 0x10000]),
        2 => random.one_of(&[1 << 31, 0xffff_ffff, 0xffff_ffff - start]),
        3 => random.below(left + 1),
        4 | 5 => known.saturating_sub(start),
        _ => left,
    };
    (start as u32, length as u32)
}

/// Few bytes, with all flags.
fn noise(random: &mut Random) -> Vec<Case> {
    let bytes = streams::noise(random);
    let size = bytes.len();
    let mut cases = Vec::new();
    for flags in 0..4 {
        let start = random.one_of(&[0, 0, 0, 0, 0, 1, size, size + 1]);
        let left = size.saturating_sub(start);
        let length = random.one_of(&[left, left, left, left, left + 1, left / 2, 0xffff_ffff]);
        cases.push(case(b'T', flags, start as u32, length as u32, &bytes));
    }
    cases.push(consumed(random, &bytes, size));
    cases
}

/// The single instance of streams that have its shape, or nearly.
fn single(random: &mut Random) -> Vec<Case> {
    let mut stream = streams::make(random);
    let mut bytes = stream.bytes.split_off(stream.start);
    match random.below(4) {
        0 => bytes.insert(0, 0x0c),
        1 | 2 => {
            let any = random.byte();
            let last = random.one_of(&[0x0c, 0x0c, 0x0c, 0x0f, any]);
            bytes.splice(0..0, [0x0f, any, 1, 0, last]);
        }
        _ => {}
    }
    if random.once_in(2) {
        bytes.truncate(random.below(8));
    }
    let known = stream.places[random.below(stream.places.len())];
    (0..3)
        .map(|_| consumed(random, &bytes, known.saturating_sub(stream.start)))
        .collect()
}

/// A case on the single instance, with a place up to which it was read.
fn consumed(random: &mut Random, bytes: &[u8], known: usize) -> Case {
    let size = bytes.len();
    let place = match random.below(6) {
        0 => random.one_of(&[0, size, size + 1, 0x10000, 0x7fff_ffff, 0xffff_ffff]),
        1 => size.saturating_sub(1),
        2 => known,
        _ => random.below(size + 2),
    };
    case(b'S', random.byte(), place as u32, 0, bytes)
}

/// A stream at the limit of its length.
fn long(random: &mut Random) -> Vec<Case> {
    let size = random.one_of(&[65535, 65536, 65536, 65537]);
    let stream = streams::long(random, size);
    let mut cases = vec![whole(b'T', &stream, flags(&stream))];
    let start = random.between(size - 40, size + 1);
    let length = random.one_of(&[1, 40, 0xffff_ffff]);
    cases.push(case(
        b'T',
        flags(&stream),
        start as u32,
        length,
        &stream.bytes,
    ));
    cases.push(consumed(random, &stream.bytes, size));
    cases
}
