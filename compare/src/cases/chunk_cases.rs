//! Cases on a chunk: its header, reads at many places, whole walks, and single steps from any state; and on a pair of chunks.

use super::Case;
use super::chunks::{self, Chunk, SIZE};
use super::random::Random;
use crate::oracle::batch::EVENTS;

/// The cases that one chunk is asked for.
pub fn of_one_chunk(random: &mut Random) -> Vec<Case> {
    let chunk = chunks::make(random);
    let mut cases = Vec::new();
    if random.once_in(2) {
        cases.push(case(b'H', random.byte(), 0, &[], &chunk.bytes));
    }
    if random.once_in(2) {
        cases.push(case(EVENTS, random.byte(), 0, &[], &chunk.bytes));
    }
    // Flags that a mode does not name are passed over.
    let more = random.one_of(&[0, 0, 2, 0xfe]);
    for recovery in 0..2 {
        cases.push(case(b'W', recovery | more, 0, &[], &chunk.bytes));
    }
    for _ in 0..6 {
        let start = place(random, &chunk) as u32;
        let strict = random.one_of(&[0, 1, 1, 2, 3, 0xff]);
        cases.push(case(b'R', strict, start, &[], &chunk.bytes));
    }
    for _ in 0..8 {
        let state = state(random, &chunk);
        cases.push(case(b'P', random.byte(), 0, &state, &chunk.bytes));
    }
    cases
}

/// A pair of chunks, walked with recovery, and then without: four cases.
pub fn of_one_pair(random: &mut Random) -> Vec<Case> {
    let pair = chunks::make_pair(random);
    let walks = [1, 0].map(|recovery| {
        let walk = |chunk: &Chunk| case(b'W', recovery, 0, &[], &chunk.bytes);
        [walk(&pair[0]), walk(&pair[1])]
    });
    walks.into_iter().flatten().collect()
}

/// A case whose data is `front` and then the chunk.
pub fn case(mode: u8, flags: u8, start: u32, front: &[u8], chunk: &[u8]) -> Case {
    let data = [front, chunk].concat();
    Case {
        mode,
        flags,
        start,
        length: 0,
        data,
    }
}

/// An offset to read at: where something stands, near it, near the chunk's end, or far off.
fn place(random: &mut Random, chunk: &Chunk) -> u64 {
    let known = chunk.some_place(random);
    match random.below(10) {
        0 => random.between(SIZE - 30, SIZE + 2) as u64,
        1 => random.one_of(&[
            0,
            488,
            511,
            512,
            65536,
            65537,
            131_072,
            0x7fff_ffff,
            0xffff_fffe,
            0xffff_ffff,
        ]),
        2 => random.below(SIZE) as u64,
        3 | 4 => random.around(known),
        _ => known,
    }
}

/// A number of a state: a place, or one that no chunk reaches.
fn position(random: &mut Random, chunk: &Chunk) -> u64 {
    let absurd = [
        1 << 16,
        1 << 32,
        (1 << 32) - 1,
        1 << 63,
        (1 << 63) - 1,
        u64::MAX,
        u64::MAX - 1,
    ];
    match random.below(8) {
        0 => random.one_of(&absurd),
        1 => random.word(),
        _ => place(random, chunk),
    }
}

/// Any state: sensible ones, used-up and turned-round ranges, and absurd numbers.
fn state(random: &mut Random, chunk: &Chunk) -> Vec<u8> {
    let stands = random.one_of(&[0, 1, 1, 1, 2, u64::MAX]);
    let from = position(random, chunk);
    let (from, to) = match random.below(8) {
        0 => (from, from),
        1 => (from, SIZE as u64),
        2 => (from, from.wrapping_add(random.below(200) as u64)),
        3 => (0, 0),
        4 => {
            let (start, end) = chunk.some_record(random);
            (random.around(start), random.around(end))
        }
        _ => (from, position(random, chunk)),
    };
    let recovery = random.one_of(&[0, 1, 1, 3, 1 << 63]);
    [stands, position(random, chunk), from, to, recovery]
        .into_iter()
        .flat_map(u64::to_le_bytes)
        .collect()
}
