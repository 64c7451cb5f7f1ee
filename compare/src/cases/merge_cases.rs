//! Cases of mode M: two lists of writes, a rule, and room for the result.

use super::Case;
use super::random::Random;
use std::collections::BTreeSet;

const MOST_WRITES: usize = 4096;

/// A write: tag number, FILETIME, value.
type Write = [u64; 3];

/// The cases that two lists are asked for: both rules, with room around what is needed.
pub fn of_two_lists(random: &mut Random) -> Vec<Case> {
    let (a, b) = lengths(random);
    let tags = Tags::new(random, a + b);
    let times = Times::new(random);
    let primary = list(random, a, &tags, times);
    let other = list(random, b, &tags, times);
    let rows = rows_needed(&primary, &other);
    // Now and then a word or two more, which are no write.
    let (more, others) = (random.one_of(&[0, 0, 0, 1, 2]), random.one_of(&[0, 0, 0, 1, 2]));
    let primary = words(&primary, more);
    let other = words(&other, others);
    let mut cases = Vec::new();
    for rule in 0..2 {
        let room = room(random, rows);
        // Flags that the mode does not name are passed over.
        let flags = rule | random.one_of(&[0, 0, 2, 0xfe]);
        cases.push(case(flags, room, &primary, &other, 0));
    }
    cases
}

/// How long the lists are: short ones mostly, and some at the limit.
fn lengths(random: &mut Random) -> (usize, usize) {
    let one = |random: &mut Random| match random.below(40) {
        0 => MOST_WRITES,
        1 => MOST_WRITES + 1,
        2 => random.between(200, MOST_WRITES),
        3..=9 => 0,
        10..=19 => random.between(1, 3),
        _ => random.between(1, 60),
    };
    (one(random), one(random))
}

/// The tags that lists draw from, and in which order they come.
struct Tags {
    of: Vec<u64>,
    order: usize,
}

impl Tags {
    fn new(random: &mut Random, count: usize) -> Self {
        let edges = [0, 1, u64::MAX, u64::MAX - 1, 1 << 63, (1 << 63) - 1, 1 << 32];
        let of = match random.below(5) {
            // One tag; few; tags at the edges; as many as there are writes; all bits.
            0 => vec![random.one_of(&edges)],
            1 => (0..random.between(2, 5) as u64).collect(),
            2 => edges.to_vec(),
            3 => (0..count.max(1) as u64).collect(),
            _ => (0..count.max(1)).map(|_| random.word()).collect(),
        };
        Tags {
            of,
            order: random.below(4),
        }
    }
}

/// The times of writes: all the same, two, few, or all bits.
#[derive(Clone, Copy)]
struct Times(usize);

impl Times {
    fn new(random: &mut Random) -> Self {
        Times(random.below(4))
    }

    fn one(self, random: &mut Random) -> u64 {
        match self.0 {
            0 => 133_500_000_000_000_000,
            1 => random.below(2) as u64,
            2 => 133_500_000_000_000_000 + random.below(5) as u64,
            _ => random.word(),
        }
    }
}

/// A list whose tags rise, fall, stand still at times or come as they like.
fn list(random: &mut Random, length: usize, tags: &Tags, times: Times) -> Vec<Write> {
    let mut drawn: Vec<u64> = (0..length).map(|_| random.one_of(&tags.of)).collect();
    match tags.order {
        0 => drawn.sort_unstable(),
        1 => drawn.sort_unstable_by(|a, b| b.cmp(a)),
        // Two rising halves.
        2 => {
            let half = length / 2;
            drawn[..half].sort_unstable();
            drawn[half..].sort_unstable();
        }
        _ => {}
    }
    drawn
        .into_iter()
        .map(|tag| [tag, times.one(random), random.word()])
        .collect()
}

fn rows_needed(primary: &[Write], other: &[Write]) -> usize {
    let tags: BTreeSet<u64> = primary.iter().chain(other).map(|write| write[0]).collect();
    tags.len()
}

/// Room around what is needed, in words; now and then more than counts.
fn room(random: &mut Random, rows: usize) -> u32 {
    let needed = 3 * rows;
    match random.below(12) {
        0 => 0,
        1 => needed.saturating_sub(1) as u32,
        2 => needed.saturating_sub(3) as u32,
        3..=5 => needed as u32,
        6 => needed as u32 + 1,
        7 => needed as u32 + 2,
        8 => needed as u32 + 3,
        9 if rows < 8 => random.one_of(&[65536, 65537, u32::MAX]),
        _ => needed as u32 + random.below(40) as u32,
    }
}

/// The words of writes, and so many more.
fn words(writes: &[Write], more: usize) -> Vec<u64> {
    let mut words = writes.concat();
    words.extend((0..more).map(|i| u64::MAX - i as u64));
    words
}

/// A case; `cut` bytes are missing at its end.
fn case(flags: u8, room: u32, primary: &[u64], other: &[u64], cut: usize) -> Case {
    let mut data = Vec::new();
    for number in [primary.len() as u32, other.len() as u32, room] {
        data.extend(number.to_le_bytes());
    }
    for word in primary.iter().chain(other) {
        data.extend(word.to_le_bytes());
    }
    data.truncate(data.len() - cut);
    Case {
        mode: b'M',
        flags,
        start: 0,
        length: 0,
        data,
    }
}

/// The stored ones. Lists at the limit and past it are among the made cases: each takes 96 KiB.
pub fn stored() -> Vec<Case> {
    let [a, b, c, d, e, f] = [0xa, 0xb, 0xc, 0xd, 0xe, 0xf];
    // The sample: rule one gives b, c, e, and rule two b, d, e.
    let primary = [[5, 10, a], [3, 7, b], [5, 10, c]].concat();
    let other = [[5, 12, d], [9, 1, e], [3, 7, f]].concat();
    let mut cases = Vec::new();
    for rule in 0..2 {
        for room in [0, 8, 9, 10, 11, 12] {
            cases.push(case(rule, room, &primary, &other, 0));
        }
        for (one, two) in [
            (&[][..], &[][..]),
            (&primary[..], &[][..]),
            (&[][..], &other[..]),
            (&other[..], &primary[..]),
            (&primary[..], &primary[..]),
            (&primary[..8], &other[..7]),
            (&primary[..2], &other[..1]),
        ] {
            cases.push(case(rule, 12, one, two, 0));
        }
        // Tags and times at the edges, in falling order, and values of all bits.
        let edges: Vec<u64> = [u64::MAX, 1 << 63, 1 << 32, 1, 0]
            .into_iter()
            .flat_map(|tag| [tag, !tag, tag ^ 0x0123_4567_89ab_cdef])
            .collect();
        let late: Vec<u64> = [0, u64::MAX, 1 << 63]
            .into_iter()
            .flat_map(|tag| [tag, u64::MAX, tag])
            .collect();
        cases.push(case(rule, 15, &edges, &late, 0));
        cases.push(case(rule, 15, &late, &edges, 0));
        cases.push(case(rule, 14, &late, &edges, 0));
    }
    // Ties within a list and across: the later place, and the primary's.
    for (first, second, third) in [(1, 1, 1), (2, 1, 1), (1, 2, 1), (1, 1, 2), (2, 2, 1), (1, 2, 2)] {
        for rule in 0..2 {
            let primary = [[7, first, 1], [7, second, 2]].concat();
            let other = [[7, third, 3], [7, third, 4]].concat();
            cases.push(case(rule, 3, &primary, &other, 0));
        }
    }
    cases
}

/// Data that are shorter than their parts: the run ends.
pub fn cut() -> Vec<Case> {
    let words: Vec<u64> = (0..6).collect();
    vec![
        case(0, 9, &words, &words, 1),
        case(0, 9, &words, &words, 8),
        case(0, 9, &words, &words, 96),
    ]
}
