//! Bodies inside values in the stored batch (document 02, P9): the samples with every size, levels, each refusal inside a value and what comes
//! after it, names and dependencies, windows, and rooms.

use super::Case;
use super::body_cases::{joined, lending};
use super::nest_cases::{
    all_rooms, around_instance, before_others, bodies, deep, enough, inside, instance, sizes,
    tokens, two,
};
use super::stored_tokens::hex;
use super::streams::shortest_of_list;
use crate::oracle::kinds::{CLOSE_EMPTY, OPEN};
use crate::oracle::nests::BODY;

/// Bodies of more bytes are left to the made cases.
const SHORT: usize = 40;

/// An element whose name has an offset of its own.
const ELEMENT: &str = "01 00000000 00020000 03";

/// Bodies whose names are inline, in place or not: by the stream's first byte, and by the value's. Flags, and the body.
const NAMES: &[(u8, &str)] = &[
    (0, "01 00000000 1B000000 00000000 0000 0000 0000 03"),
    (0, "01 00000000 09000000 03"),
    (
        0,
        "0C 00 00000000 1C000000 00000000 00112233445566778899AABBCCDDEEFF 01000000 AA 00000000",
    ),
    (0, "0C 00 00000000 0A000000 00000000"),
    (1, ELEMENT),
    (1, "01 FFFF 00000000 00020000 03"),
    (2, ELEMENT),
    (2, "01 00000000 0000 0000 0000 03"),
    (2, "01 00000000 4100 0100 4100 0100 03"),
    (2, "01 00000000 4200 0100 4100 0000 03"),
    (
        3,
        "41 00000000 4100 0100 4100 0000 00000000 06 0000 0000 0000 05 00 03",
    ),
    (0xfc, ELEMENT),
];

pub fn cases() -> Vec<Case> {
    let mut cases = samples();
    cases.extend(levels());
    cases.extend(refusals());
    cases.extend(names());
    cases.extend(windows());
    cases
}

/// A body in one value of every size, between pairs, before others, and three values.
fn samples() -> Vec<Case> {
    let element = hex(ELEMENT);
    let value = [&element[..], &[0]].concat();
    let mut cases: Vec<Case> = (0..=value.len() + 2)
        .map(|size| enough(&instance(&[(BODY, size, &value)])))
        .collect();
    cases.extend(sizes(&hex("0F 01 01 00")));
    cases.extend(sizes(&[0, 0x10]));
    cases.extend(around_instance(&inside(&value)));
    cases.extend(all_rooms(&two(&element, &element), 5));
    cases.extend(all_rooms(&inside(&element), 3));
    let two = two(&element, &element);
    let length = two.len() as u32;
    cases.push(joined(0, [10, 5], 0, length, &two));
    cases
}

/// An element in up to ten instances, and what a ninth level is refused whatever it holds.
fn levels() -> Vec<Case> {
    let element = shortest_of_list(&[OPEN, CLOSE_EMPTY]);
    let mut cases: Vec<Case> = (0..=10)
        .map(|instances| enough(&deep(instances, &element)))
        .collect();
    for text in ["", "00", "10", "0F", "05 00", "0F 01 01 00"] {
        cases.push(enough(&deep(8, &hex(text))));
        cases.push(enough(&deep(9, &hex(text))));
    }
    // Beside each other, and the second one deeper.
    cases.push(enough(&two(&deep(7, &element), &deep(8, &element))));
    // Its own read comes before the level.
    cases.push(enough(&deep(8, &instance(&[(BODY, 3, &[0, 0])]))));
    cases
}

/// Each body that may be refused: alone, in one more level, cut, before and after values that are refused, and before another one.
fn refusals() -> Vec<Case> {
    let all = bodies();
    let short = || all.iter().filter(|body| body.len() <= SHORT);
    let mut cases = Vec::new();
    for body in &all {
        cases.push(enough(&inside(body)));
    }
    for body in short() {
        let inner = inside(body);
        cases.push(enough(&inside(&inner)));
        // The window of the first instance ends a byte before its body does.
        cases.push(enough(&instance(&[(BODY, inner.len() - 1, &inner)])));
        cases.push(enough(&[&inner[..], &[0x10]].concat()));
        cases.push(enough(&two(&hex(ELEMENT), body)));
        cases.push(enough(&two(body, &[0x10])));
        let length = inner.len() as u32;
        cases.push(joined(0, [4, 2], 0, length, &inner));
    }
    for body in [&[][..], &[0x10], &[0x0f], &[0x05, 0], &hex(ELEMENT)] {
        cases.extend(before_others(body));
    }
    let both = instance(&[(BODY, 1, &[0x10]), (0x20, 0, &[])]);
    cases.push(joined(0, [4, 2], 0, both.len() as u32, &both));
    cases
}

fn names() -> Vec<Case> {
    let inner = |(flags, text): &(u8, &str)| {
        let stream = inside(&hex(text));
        let length = stream.len() as u32;
        let rooms = [9, 4];
        lending(b'N', *flags, &rooms, 0, length, &stream)
    };
    NAMES.iter().map(inner).collect()
}

/// A stream of two values with bytes before it: from places in it, with lengths that end in it and far off.
fn windows() -> Vec<Case> {
    let element = hex(ELEMENT);
    let stream = [&[0xaa; 3][..], &two(&element, &element), &[0x10]].concat();
    let size = stream.len() as u32;
    let mut asked: Vec<(u32, u32)> = [0, 1, 26, 48, 49, size - 4, size - 3, u32::MAX]
        .map(|length| (3, length))
        .into();
    asked.extend([29, 33, 43, size - 1, size, size + 1, u32::MAX].map(|start| (start, 10)));
    let case = |(start, length): (u32, u32)| {
        let tokens = tokens(&stream, 0, (start, length)) as u32;
        lending(b'N', 0, &[2 * tokens, tokens], start, length, &stream)
    };
    let mut cases: Vec<Case> = asked.into_iter().map(case).collect();
    for (start, length) in [(0, 0), (0, 1), (1, 0)] {
        cases.push(lending(b'N', 0, &[1, 1], start, length, &[]));
    }
    cases
}
