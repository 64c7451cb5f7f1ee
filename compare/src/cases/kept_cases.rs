//! Cases on kept sheets (document 02, P3): the right one, one with a word wrong in each field, with words missing or extra, that
//! of other flags, and on streams that are refused, with rooms around the need.

use super::Case;
use super::lists;
use super::random::Random;
use super::stored_bodies::SHEETS;
use super::stored_tokens::{DOCUMENT, REFUSED, hex};
use super::streams::{self, Stream, shortest_of_list};
use super::token_cases::{self, case, flags, window};
use crate::document::streams::walk;
use crate::oracle::kinds::{CLOSE_ELEMENT, CLOSE_EMPTY, CLOSE_START};
use crate::oracle::tokens::Asked;

/// The flag that asks for the old sheet.
const NARROW: u8 = 4;
/// The first and the last bit of each field of a first word, and of the spare places: kind, place, length, number, flag, announced,
/// spare.
const FIRST: [u32; 12] = [63, 60, 59, 43, 42, 26, 25, 10, 9, 8, 7, 0];
/// Of a second word: name, spare.
const SECOND: [u32; 4] = [63, 32, 31, 0];

/// A stream and how it is read; flag 4: which way its sheet is moved.
struct Walk<'a> {
    flags: u8,
    start: u32,
    length: u32,
    stream: &'a [u8],
}

impl Walk<'_> {
    /// The words of the tokens before the walk's end or its refusal, by form: old, new.
    fn words(&self) -> (Vec<u64>, Vec<u64>) {
        let asked = Asked {
            start: self.start as usize,
            length: self.length as usize,
            dependencies: self.flags & 1 != 0,
            inline_names: self.flags & 2 != 0,
        };
        let rows: Vec<_> = walk(self.stream, asked)
            .tokens
            .iter()
            .map(|token| token.row())
            .collect();
        let new = rows.iter().flat_map(|row| row.words()).collect();
        (rows.iter().map(|row| row.old_word()).collect(), new)
    }

    fn narrow(&self) -> bool {
        self.flags & NARROW != 0
    }

    /// The right sheet to give, and how many words are needed for the other one.
    fn right(&self) -> (Vec<u64>, u32) {
        let (old, new) = self.words();
        if self.narrow() {
            (new, old.len() as u32)
        } else {
            (old, new.len() as u32)
        }
    }

    /// A case that gives these words and lends so many.
    fn given(&self, given: &[u64], room: u32) -> Case {
        let count = given.len() as u32;
        let mut data = [room.to_le_bytes(), count.to_le_bytes()].concat();
        data.extend(given.iter().flat_map(|word| word.to_le_bytes()));
        data.extend(self.stream);
        case(b'K', self.flags, self.start, self.length, &data)
    }

    /// The bits that tell the fields of a word apart, by its number.
    fn bits(&self, word: usize) -> &'static [u32] {
        if self.narrow() && word % 2 == 1 {
            &SECOND
        } else {
            &FIRST
        }
    }
}

/// The cases that one stream is asked for.
pub fn of_one_sheet(random: &mut Random) -> Vec<Case> {
    let stream = match random.below(1000) {
        0 => return many_tokens(random),
        1..=300 => {
            let levels = random.between(1, 4);
            let list = lists::body(random, levels);
            streams::of_list(random, &list)
        }
        301..=400 => {
            let mut changed = streams::make(random);
            changed.change(random);
            changed
        }
        _ => streams::make(random),
    };
    let way = random.one_of(&[0, NARROW]);
    let (start, length) = if random.once_in(5) {
        window(random, &stream)
    } else {
        let whole = token_cases::whole(b'K', &stream, 0);
        (whole.start, whole.length)
    };
    moved(random, &stream, flags(&stream) | way, start, length)
}

/// The right sheet with some rooms, then changed ones.
fn moved(random: &mut Random, stream: &Stream, flags: u8, start: u32, length: u32) -> Vec<Case> {
    let stream = &stream.bytes;
    let asked = Walk {
        flags,
        start,
        length,
        stream,
    };
    let (right, need) = asked.right();
    let rooms = [
        need,
        need,
        need.saturating_sub(1),
        need + 1,
        need / 2,
        2 * need,
        0,
    ];
    let mut cases = vec![
        asked.given(&right, need),
        asked.given(&right, random.one_of(&rooms)),
    ];
    // Flags that the mode does not name are passed over.
    let other = (flags ^ random.one_of(&[1, 2, 3, NARROW])) | random.one_of(&[0, 0, 0xf8]);
    cases.push(
        Walk {
            flags: other,
            ..asked
        }
        .given(&right, random.one_of(&rooms)),
    );
    for _ in 0..random.between(2, 5) {
        let mut given = right.clone();
        for _ in 0..random.one_of(&[1, 1, 1, 2, 3]) {
            change(random, &asked, &mut given);
        }
        cases.push(asked.given(&given, random.one_of(&rooms)));
    }
    cases
}

/// One word wrong, missing, extra or elsewhere, or none left.
fn change(random: &mut Random, asked: &Walk<'_>, given: &mut Vec<u64>) {
    let any = random.word();
    if given.is_empty() {
        given.push(random.one_of(&[0, any]));
        return;
    }
    let word = random.below(given.len());
    let last = given[given.len() - 1];
    match random.below(8) {
        0 => given.truncate(word),
        1 => given.push(random.one_of(&[0, last, u64::MAX, any])),
        2 => {
            given.remove(word);
        }
        3 => given.insert(word, random.one_of(&[0, last, any])),
        4 => given.swap(word, 0),
        5 => {
            given.pop();
        }
        _ => given[word] ^= 1 << random.one_of(asked.bits(word)),
    }
}

/// About as many tokens as the calls have words of their own for, and as many as a case may hold.
fn many_tokens(random: &mut Random) -> Vec<Case> {
    let flags = random.one_of(&[0, NARROW]);
    let most = if flags == 0 { 32768 } else { 19500 };
    let tokens = random.one_of(&[8191, 8192, 8193, 12000, most]);
    let kinds = [CLOSE_START, CLOSE_EMPTY, CLOSE_ELEMENT];
    let list: Vec<u8> = (0..tokens).map(|_| random.one_of(&kinds)).collect();
    let stream = &shortest_of_list(&list)[..];
    let asked = Walk {
        flags,
        start: 0,
        length: stream.len() as u32,
        stream,
    };
    let (right, need) = asked.right();
    let mut wrong = right.clone();
    let word = random.one_of(&[0, right.len() / 2, right.len() - 1]);
    wrong[word] ^= 1 << random.one_of(asked.bits(word));
    let missing = &right[..right.len() - 1];
    let extra = [&right[..], &[0]].concat();
    vec![
        asked.given(&right, need),
        asked.given(&right, need - 1),
        asked.given(&wrong, 0),
        asked.given(missing, 1),
        asked.given(&extra, 2),
    ]
}

/// The stored cases: document 01's samples and the sheet's, both ways.
pub fn stored() -> Vec<Case> {
    let mut cases = Vec::new();
    for (flags, text) in [DOCUMENT, SHEETS].concat() {
        for way in [0, NARROW] {
            let stream = &hex(text)[..];
            let length = stream.len() as u32;
            let asked = Walk {
                flags: flags | way,
                start: 0,
                length,
                stream,
            };
            cases.extend(every_change(&asked));
        }
    }
    for (flags, text) in REFUSED {
        for way in [0, NARROW] {
            let stream = &hex(text)[..];
            let length = stream.len() as u32;
            let asked = Walk {
                flags: flags | way,
                start: 0,
                length,
                stream,
            };
            let (read, need) = asked.right();
            cases.push(asked.given(&read, need));
            cases.push(asked.given(&[0], 0));
        }
    }
    let nothing = Walk {
        flags: 0,
        start: 0,
        length: 0,
        stream: &[],
    };
    cases.push(nothing.given(&[], 0));
    cases.push(nothing.given(&[0], 1));
    for (start, length) in [(1, 0), (0, 1)] {
        cases.push(
            Walk {
                start,
                length,
                ..nothing
            }
            .given(&[], 1),
        );
    }
    cases
}

/// One word wrong in each field of the first two tokens and of the last word, and in a word and the next one; one word missing, all,
/// one extra; other flags; rooms around the need.
fn every_change(asked: &Walk<'_>) -> Vec<Case> {
    let (right, need) = asked.right();
    let mut cases = Vec::new();
    let few = need.saturating_sub(1);
    for room in [0, few, need, need + 1] {
        cases.push(asked.given(&right, room));
    }
    for flag in [1, 2, NARROW] {
        let other = Walk {
            flags: asked.flags ^ flag,
            ..*asked
        };
        cases.push(other.given(&right, need));
    }
    for words in 0..right.len() {
        cases.push(asked.given(&right[..words], need));
    }
    for extra in [0, u64::MAX] {
        cases.push(asked.given(&[&right[..], &[extra]].concat(), 0));
    }
    for word in (0..right.len()).filter(|word| *word < 4 || word + 1 == right.len()) {
        for bit in asked.bits(word) {
            let mut given = right.clone();
            given[word] ^= 1 << bit;
            cases.push(asked.given(&given, need));
            if let Some(next) = given.get_mut(word + 1) {
                *next ^= 1;
                cases.push(asked.given(&given, 0));
            }
        }
    }
    cases
}
