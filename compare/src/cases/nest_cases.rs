//! Cases on bodies inside values (document 02, P9): sound ones of up to ten levels, changed ones, values that end early and late, every
//! short value and every short body in one, and rooms around the need.

use super::Case;
use super::body_cases::{self, around, lending, needed};
use super::lists;
use super::random::Random;
use super::short;
use super::streams::{self, FRAGMENT, Stream, shortest_of_list};
use super::token_cases::{flags, whole, window};
use crate::document::nests;
use crate::oracle::kinds::{
    ALL, ANNOUNCING, ATTRIBUTE, CLOSE_EMPTY, CLOSE_START, INSTANCE, OPEN, PI_DATA, PI_TARGET, VALUE,
};
use crate::oracle::nests::{BODY, by_machine};
use crate::oracle::tokens::Asked;

/// A stream's limit, and an instance with one value, before the value.
const SIZE: usize = 65536;
const HEAD: usize = 18;
/// A type that is never read.
const UNREAD: u8 = 0x20;
/// A number of four bytes.
const NUMBER: u8 = 0x08;

/// The cases that one stream is asked for.
pub fn of_one_nest(random: &mut Random) -> Vec<Case> {
    if random.once_in(1500) {
        return wide(random);
    }
    let levels = random.one_of(&[1, 1, 1, 2, 2, 3, 4, 7, 8, 8, 9, 9, 10]);
    let mut stream = streams::nested(random, levels);
    if stream.bytes.len() > 4000 && !random.once_in(50) {
        return Vec::new();
    }
    let meant = flags(&stream);
    let mut cases = vec![
        on_whole(random, b'N', &stream, meant),
        on_whole(random, b'N', &stream, meant),
        on_whole(random, b'B', &stream, meant),
    ];
    let other = (meant ^ random.one_of(&[1, 2, 3])) | random.one_of(&[0, 0, 0xfc]);
    cases.push(on_whole(random, b'N', &stream, other));
    let asked = window(random, &stream);
    cases.push(lent(random, b'N', &stream, meant, asked));
    let sound = stream.bytes.clone();
    for _ in 0..random.between(2, 6) {
        stream.bytes.clone_from(&sound);
        for _ in 0..random.one_of(&[1, 1, 1, 2]) {
            resize(random, &mut stream);
        }
        cases.push(on_whole(random, b'N', &stream, meant));
    }
    cases
}

/// As many tokens as values can hold: in one value, in many, and some levels down; up to a stream's limit, and a byte over it.
fn wide(random: &mut Random) -> Vec<Case> {
    let element = shortest_of_list(&[OPEN, CLOSE_EMPTY]);
    let levels = random.one_of(&[1, 2, 8]);
    let body = match random.below(3) {
        0 => {
            let count = random.one_of(&[1000, 2048, 4000, 4600]);
            let values = vec![(BODY, element.len(), &element[..]); count];
            deep(levels - 1, &instance(&values))
        }
        1 => {
            let list = lists::filled(&[VALUE], SIZE - HEAD * levels);
            deep(levels, &shortest_of_list(&list))
        }
        _ => {
            let count = random.one_of(&[8, 100, 4095, 4096, 4097, 8000]);
            let content = [VALUE].repeat(count);
            deep(levels, &shortest_of_list(&lists::nested(1, &content)))
        }
    };
    let more = random.one_of(&[0, 0, SIZE, SIZE, SIZE + 1]);
    let mut bytes = body;
    bytes.resize(bytes.len().max(more), 0);
    let length = bytes.len() as u32;
    let rooms = needed(tokens(&bytes, 0, (0, length)));
    let lent = |rooms: [u32; 2]| lending(b'N', 0, &rooms, 0, length, &bytes);
    let [sheet, table] = rooms;
    vec![
        lent(rooms),
        lent([sheet - 1, table]),
        lent([sheet, table - 1]),
        lent([0, 0]),
        lending(b'B', 0, &[2, 1], 0, length, &bytes),
    ]
}

/// One change to a stream's bytes, or to the size of one of its values of type 21.
fn resize(random: &mut Random, stream: &mut Stream) {
    let descriptor = |at: &usize| matches!(stream.bytes.get(*at..*at + 4), Some([_, _, BODY, _]));
    let sizes: Vec<usize> = stream.places.iter().copied().filter(descriptor).collect();
    if sizes.is_empty() || random.once_in(3) {
        return stream.change(random);
    }
    let at = random.one_of(&sizes);
    let size = u16::from_le_bytes([stream.bytes[at], stream.bytes[at + 1]]);
    let any = random.below(usize::from(size) + 4) as u16;
    let [less, more] = [size.wrapping_sub(1), size.wrapping_add(1)];
    let size = random.one_of(&[0, 1, less, less, more, more, size.wrapping_add(4), any, any]);
    stream.bytes[at..at + 2].copy_from_slice(&size.to_le_bytes());
}

fn on_whole(random: &mut Random, mode: u8, stream: &Stream, flags: u8) -> Case {
    let Case { start, length, .. } = whole(mode, stream, flags);
    lent(random, mode, stream, flags, (start, length))
}

/// A case with words for the tokens that there are, or about as many.
fn lent(random: &mut Random, mode: u8, stream: &Stream, flags: u8, asked: (u32, u32)) -> Case {
    let tokens = tokens(&stream.bytes, flags, asked);
    body_cases::lent(random, mode, stream, flags, asked, tokens)
}

/// How many tokens the call counts; few where it refuses.
pub fn tokens(stream: &[u8], flags: u8, (start, length): (u32, u32)) -> usize {
    let asked = Asked {
        start: start as usize,
        length: length as usize,
        dependencies: flags & 1 != 0,
        inline_names: flags & 2 != 0,
    };
    nests::read(stream, asked, by_machine).map_or(2, |joined| joined.table.len())
}

/// An instance, and its values: their types, sizes and bytes.
pub fn instance(values: &[(u8, usize, &[u8])]) -> Vec<u8> {
    let mut bytes = vec![0x0c, 1, 7, 0, 0, 0, 0, 2, 0, 0];
    bytes.extend((values.len() as u32).to_le_bytes());
    for (code, size, _) in values {
        bytes.extend((*size as u16).to_le_bytes());
        bytes.extend([*code, 0]);
    }
    bytes.extend(values.iter().flat_map(|(_, _, bytes)| *bytes));
    bytes
}

/// An instance with one value that holds these bytes.
pub fn inside(body: &[u8]) -> Vec<u8> {
    instance(&[(BODY, body.len(), body)])
}

/// So many instances, each in the value of the one before, and these bytes in the last.
pub fn deep(instances: usize, body: &[u8]) -> Vec<u8> {
    (0..instances).fold(body.to_vec(), |body, _| inside(&body))
}

/// A whole stream, with words for its tokens and one more.
pub fn enough(stream: &[u8]) -> Case {
    let length = stream.len() as u32;
    let rooms = needed(tokens(stream, 0, (0, length)) + 1);
    lending(b'N', 0, &rooms, 0, length, stream)
}

/// Every body of up to three tokens in a value that is as long, and shorter and longer by one; every value of up to two bytes, and of three and
/// four over the bytes that mean something to the walk; levels; two values.
pub fn short_nests() -> impl Iterator<Item = Case> {
    let lists = (0..=3).flat_map(|length| lists::every(&ALL, length));
    let bodies = lists.flat_map(|list| sizes(&shortest_of_list(&list)));
    let values = short::streams().map(|value| enough(&[&inside(&value)[..], &[0; 4]].concat()));
    bodies.chain(levels()).chain(pairs()).chain(values)
}

/// A value of these bytes, as long as they are, shorter and longer by one and empty, with bytes behind it.
pub fn sizes(value: &[u8]) -> Vec<Case> {
    let length = value.len();
    let mut sizes = vec![0, length.saturating_sub(1), length, length + 1];
    sizes.dedup();
    let of_size = |size| enough(&[&instance(&[(BODY, size, value)])[..], &[0, 3, 0]].concat());
    sizes.into_iter().map(of_size).collect()
}

/// Every token in up to ten instances, with the value of each size, the last also with a fragment header and with rooms around the need.
fn levels() -> Vec<Case> {
    let mut cases = Vec::new();
    for instances in 0..=10 {
        for list in (0..=1).flat_map(|length| lists::every(&ALL, length)) {
            let body = shortest_of_list(&list);
            cases.push(enough(&deep(instances, &body)));
            cases.push(enough(&deep(instances, &[&FRAGMENT[..], &body].concat())));
            for size in [0, body.len().saturating_sub(1), body.len() + 1] {
                let last = instance(&[(BODY, size, &body)]);
                cases.push(enough(&[&deep(instances, &last)[..], &[0; 4]].concat()));
            }
        }
        let element = deep(instances, &shortest_of_list(&[OPEN, CLOSE_EMPTY]));
        cases.extend(all_rooms(&element, instances + 2));
    }
    cases
}

/// Rooms around the need of so many tokens.
pub fn all_rooms(stream: &[u8], tokens: usize) -> Vec<Case> {
    let [sheets, tables] = around(tokens);
    let length = stream.len() as u32;
    let mut cases = Vec::new();
    for sheet in sheets {
        for &table in &tables {
            cases.push(lending(b'N', 0, &[sheet, table], 0, length, stream));
        }
    }
    cases
}

/// Bodies that are read, and one for each refusal that a value may have.
pub fn bodies() -> Vec<Vec<u8>> {
    let lists: [&[u8]; 13] = [
        &[],
        &[OPEN, CLOSE_EMPTY],
        &[INSTANCE],
        &[PI_TARGET, PI_DATA, OPEN, CLOSE_EMPTY, PI_TARGET, PI_DATA],
        &[PI_TARGET, PI_DATA, INSTANCE, PI_TARGET, PI_DATA],
        &[PI_TARGET, PI_DATA],
        &[PI_TARGET, PI_DATA, PI_TARGET],
        &[ANNOUNCING, ATTRIBUTE, VALUE, CLOSE_EMPTY],
        &[ANNOUNCING, CLOSE_EMPTY],
        &[OPEN, ATTRIBUTE, CLOSE_EMPTY],
        &[OPEN],
        &[VALUE],
        &[INSTANCE, INSTANCE],
    ];
    let mut bodies: Vec<Vec<u8>> = lists.map(shortest_of_list).into();
    let bytes: [&[u8]; 12] = [
        &[0],
        &[0, 0x10],
        &[0x10],
        &[0x0f],
        &FRAGMENT,
        &[0x05, 0x21, 0, 0],
        &[0x05, 0x16],
        &[0x06, 0, 0],
        &[0x07, 1, 0],
        &[0x0d, 0, 0, 0x21],
        &[0x0d, 0, 0, 0x16],
        &[0x05],
    ];
    bodies.extend(bytes.map(<[u8]>::to_vec));
    let inner: [(u8, usize, &[u8]); 5] = [
        (UNREAD, 0, &[]),
        (0x86, 3, &[0; 3]),
        (BODY, 0, &[]),
        (BODY, 1, &[0x10]),
        (BODY, 9, &[0; 4]),
    ];
    bodies.extend(inner.map(|value| instance(&[value])));
    let levels = [63, 64, 65].map(|levels| shortest_of_list(&lists::nested(levels, &[])));
    bodies.extend([1, 2].map(|levels| deep(levels, &shortest_of_list(&[OPEN, CLOSE_EMPTY]))));
    bodies.extend(levels);
    bodies
}

/// Two values, of each body, with another between them; and what stands around their instance.
fn pairs() -> Vec<Case> {
    let bodies = bodies();
    let mut cases = Vec::new();
    for first in &bodies {
        for second in &bodies {
            cases.push(enough(&two(first, second)));
        }
        cases.extend(around_instance(&inside(first)));
        cases.extend(before_others(first));
    }
    cases
}

/// Two values of type 21 and a number between them.
pub fn two(first: &[u8], second: &[u8]) -> Vec<u8> {
    instance(&[
        (BODY, first.len(), first),
        (NUMBER, 4, &[1, 2, 3, 4]),
        (BODY, second.len(), second),
    ])
}

/// An instance between pairs, before and after other tokens, and in an element.
pub fn around_instance(instance: &[u8]) -> Vec<Case> {
    let parts: [(&[u8], &[u8]); 8] = [
        (&[PI_TARGET, PI_DATA], &[]),
        (&[], &[PI_TARGET, PI_DATA]),
        (&[PI_TARGET, PI_DATA], &[PI_TARGET, PI_DATA]),
        (&[PI_TARGET], &[]),
        (&[], &[PI_TARGET]),
        (&[VALUE], &[]),
        (&[], &[VALUE]),
        (&[OPEN, CLOSE_START], &[]),
    ];
    let [instance, others] = [instance, &[0x10]];
    let mut cases = vec![enough(&[instance, others].concat())];
    for (before, after) in parts {
        let [before, after] = [before, after].map(shortest_of_list);
        cases.push(enough(&[&before, instance, &after].concat()));
    }
    cases
}

/// A body in a value before values that are refused, each in its own way, or cut.
pub fn before_others(body: &[u8]) -> Vec<Case> {
    let others: [(u8, usize, &[u8]); 8] = [
        (UNREAD, 0, &[]),
        (0x86, 3, &[0; 3]),
        (NUMBER, 4, &[0]),
        (NUMBER, 9, &[0; 5]),
        (0x10, 5, &[0; 5]),
        (0x16, 0, &[]),
        (BODY, 5, &[3; 4]),
        (0x00, 9, &[3; 4]),
    ];
    let with = |other| enough(&instance(&[(BODY, body.len(), body), other]));
    let behind = |other| enough(&instance(&[other, (BODY, body.len(), body)]));
    others
        .into_iter()
        .flat_map(|other| [with(other), behind(other)])
        .collect()
}
