//! The owner tables, sheets and joined calls of the stored batch: short lists of tokens, bodies of every token, each refusal of the
//! grammar, the limit of levels, the sheet's every field, and lent words that are too few, enough or more. Of
//! streams at the limit of their length there are two; the made cases have more, since each has 64 KiB.

use super::Case;
use super::body_cases::{calls, fragments, joined, needed, owners, sheet, shown};
use super::lists::{every, nested};
use super::stored_tokens::{DOCUMENT, NAMES, REFUSED, Sample, WHOLE, hex, moved};
use super::streams::shortest_of_list;
use super::token_cases::case;
use crate::oracle::kinds::{
    ALL, ANNOUNCING, ATTRIBUTE, CDATA, CHAR_REF, CLOSE_ELEMENT, CLOSE_EMPTY, CLOSE_START,
    ENTITY_REF, INSTANCE, OPEN, PI_DATA, PI_TARGET, SUBSTITUTION, VALUE,
};

/// A body with every token in every place where it may stand.
const EVERY_TOKEN: [u8; 40] = [
    PI_TARGET,
    PI_DATA,
    ANNOUNCING,
    ATTRIBUTE,
    ATTRIBUTE,
    VALUE,
    SUBSTITUTION,
    CHAR_REF,
    ENTITY_REF,
    ATTRIBUTE,
    VALUE,
    CLOSE_START,
    VALUE,
    SUBSTITUTION,
    CHAR_REF,
    ENTITY_REF,
    CDATA,
    PI_TARGET,
    PI_DATA,
    OPEN,
    CLOSE_EMPTY,
    ANNOUNCING,
    ATTRIBUTE,
    ENTITY_REF,
    CLOSE_EMPTY,
    ANNOUNCING,
    ATTRIBUTE,
    CLOSE_START,
    OPEN,
    CLOSE_START,
    PI_TARGET,
    PI_DATA,
    PI_TARGET,
    PI_DATA,
    CLOSE_ELEMENT,
    CDATA,
    CLOSE_ELEMENT,
    CLOSE_ELEMENT,
    PI_TARGET,
    PI_DATA,
];

/// Streams whose tokens hold what the sheet shows, or what it does not: both names, in place and
/// elsewhere, dependencies, instances, and where the walk reads on.
pub(super) const SHEETS: &[Sample] = &[
    (0, "01 00000000 00020000 03 00"),
    (1, "01 FFFF 00000000 00020000 03 00"),
    (1, "01 0000 00000000 00020000 03 00"),
    (1, "41 FEFF 11223344 00020000 55667788 02 04 00"),
    (
        1,
        "0F 01 01 00 01 0700 00000000 0F000000 00000000 1234 0100 4100 0000 0F 01 01 00 03 00 10",
    ),
    (
        3,
        "41 0780 11223344 4110 0200 4100 4200 0000 55667788 46 4100 0100 4100 0000 45 01 0100 4200 02 04",
    ),
    (
        2,
        "01 00000000 0000 0000 0000 02 48 FFFF 08 0100 0D FFFF 01 0E 0080 95 0D 0000 23 04",
    ),
    (
        0,
        "01 00000000 00020000 02 49 00020000 0A 00020000 0B 0200 4100 4200 47 0100 4100 04 00",
    ),
    (
        0,
        "0C 01 07000000 00020000 03000000 0200 08 00 0500 01 FF 0800 86 00 2A000000 4100 0000 AA 0102030405060708 0F 01 01 00 00 02",
    ),
    (
        0,
        "0C 01 07000000 0A000000 FFFFFFFF 00112233445566778899AABBCCDDEEFF 03000000 AAAAAA 00000000 02",
    ),
];

pub fn cases() -> Vec<Case> {
    let mut cases = samples();
    cases.extend(short_lists());
    cases.extend(changed());
    cases.extend(levels());
    cases.extend(rooms());
    cases.extend(windows());
    // The longest stream, all of tokens of one byte: as many tokens as there can be, and the most words that a sheet needs.
    cases.push(case(b'O', 0, 0, 65536, &[4; 65536]));
    cases.push(sheet(0, 1, 0, 65536, &[4; 65536]));
    cases
}

/// A stream's owner table, its sheet alone and the joined call, with words for so many tokens.
fn all_modes(flags: u8, stream: &[u8], tokens: usize) -> Vec<Case> {
    let size = stream.len() as u32;
    let rooms = needed(tokens);
    vec![
        case(b'O', flags, 0, size, stream),
        sheet(flags, rooms[0], 0, size, stream),
        joined(flags, rooms, 0, size, stream),
    ]
}

/// Document 01's samples, and streams of every token and every refusal of the walk.
fn samples() -> Vec<Case> {
    let mut cases = Vec::new();
    for (flags, text) in [DOCUMENT, SHEETS, WHOLE, NAMES].concat() {
        cases.extend(all_modes(flags, &hex(text), 7));
    }
    for (flags, text) in NAMES {
        let (start, length, stream) = moved(text);
        cases.push(sheet(*flags, 15, start, length, &stream));
        cases.push(joined(*flags, [15, 7], start, length, &stream));
    }
    for (flags, text) in REFUSED {
        cases.extend(all_modes(*flags, &hex(text), 2));
    }
    for (start, length) in [(0, 1), (1, 0), (1, 1)] {
        cases.push(case(b'O', 0, start, length, &[]));
        cases.push(sheet(0, 1, start, length, &[]));
        cases.push(joined(0, [1, 1], start, length, &[]));
    }
    // The walk's refusal comes before the grammar's, and that before the lack of words.
    for text in ["04 10", "04 05 02", "04", "01 00000000 00020000"] {
        cases.extend(all_modes(0, &hex(text), 0));
    }
    cases
}

/// Lists of up to two tokens; of three after an open one, and of four after a start; and what may stand around the root.
fn short_lists() -> Vec<Case> {
    let mut cases = Vec::new();
    let mut put = |front: &[u8], length: usize| {
        for list in every(&ALL, length) {
            let list = [front, &list].concat();
            cases.push(owners(&shortest_of_list(&list)));
        }
    };
    put(&[], 0);
    put(&[], 1);
    put(&[], 2);
    put(&[OPEN], 2);
    put(&[OPEN, ATTRIBUTE], 1);
    put(&[ANNOUNCING], 2);
    put(&[ANNOUNCING, ATTRIBUTE], 2);
    put(&[OPEN, CLOSE_START, ANNOUNCING], 1);
    put(&[OPEN, CLOSE_START], 2);
    put(&[OPEN, CLOSE_START, PI_TARGET], 1);
    put(&[OPEN, CLOSE_START, OPEN, CLOSE_EMPTY], 1);
    put(&[OPEN, CLOSE_START, OPEN, CLOSE_START], 1);
    put(&[OPEN, CLOSE_EMPTY], 1);
    put(&[OPEN, CLOSE_START, CLOSE_ELEMENT], 1);
    put(&[INSTANCE, INSTANCE], 1);
    let pair = [PI_TARGET, PI_DATA];
    put(&pair, 1);
    for root in [&[INSTANCE][..], &[OPEN, CLOSE_EMPTY]] {
        let led = [&pair, root].concat();
        for front in [root, &led] {
            put(&[front, &pair[..1]].concat(), 0);
            put(&[front, &pair[..1]].concat(), 1);
            put(&[front, &pair].concat(), 0);
            put(&[front, &pair].concat(), 1);
        }
        put(&led, 0);
        put(&led, 1);
        // A second leading pair, and a second closing one.
        put(&[&pair, &led[..]].concat(), 0);
        put(&[root, &pair, &pair].concat(), 0);
    }
    put(&[PI_TARGET, PI_DATA, OPEN], 1);
    cases
}

/// The body of every token: as it is, in fragments, with each token dropped, doubled, swapped with
/// the next one, and cut before it, and with each open token that announces otherwise.
fn changed() -> Vec<Case> {
    let mut cases = vec![fragments(&EVERY_TOKEN)];
    let mut put = |list: &[u8]| cases.push(owners(&shortest_of_list(list)));
    put(&EVERY_TOKEN);
    for at in 0..EVERY_TOKEN.len() {
        let (front, back) = EVERY_TOKEN.split_at(at);
        put(front);
        put(&[front, &back[..1], back].concat());
        put(&[front, &back[1..]].concat());
        if back.len() > 1 {
            put(&[front, &[back[1], back[0]], &back[2..]].concat());
        }
        match back[0] {
            OPEN => put(&[front, &[ANNOUNCING], &back[1..]].concat()),
            ANNOUNCING => put(&[front, &[OPEN], &back[1..]].concat()),
            _ => {}
        }
    }
    cases
}

/// Elements as deep as may be, and deeper: cut after the open token, whole, with something in the
/// innermost, with a token that no body has there, and with an innermost that announces attributes and has none, or has one and announces
/// none.
fn levels() -> Vec<Case> {
    let mut cases = Vec::new();
    for levels in [1, 2, 63, 64, 65, 66] {
        let mut put = |list: &[u8]| cases.push(owners(&shortest_of_list(list)));
        let whole = nested(levels, &[]);
        let open = 2 * levels - 1;
        put(&whole);
        put(&whole[..open]);
        put(&nested(levels, &[VALUE]));
        put(&[&whole[..open - 1], &[CLOSE_START], &whole[open..]].concat());
        put(&[&whole[..open - 1], &[ANNOUNCING], &whole[open..]].concat());
        put(&[&whole[..open - 1], &[ANNOUNCING, CLOSE_START, OPEN]].concat());
        put(&[&whole[..open], &[ATTRIBUTE], &whole[open..]].concat());
        put(&[&whole[..open - 1], &[ANNOUNCING, ATTRIBUTE], &whole[open..]].concat());
        // A pair opens no level.
        put(&[&[PI_TARGET, PI_DATA], &whole[..open]].concat());
        put(&[&[PI_TARGET, PI_DATA], &whole[..], &[PI_TARGET, PI_DATA]].concat());
    }
    // Level 64 is opened twice.
    let twice = nested(63, &[OPEN, CLOSE_EMPTY, OPEN, CLOSE_EMPTY]);
    cases.push(owners(&shortest_of_list(&twice)));
    let tokens = nested(64, &[]).len();
    cases.extend(all_modes(0, &shortest_of_list(&nested(64, &[])), tokens));
    cases.extend(all_modes(0, &shortest_of_list(&nested(65, &[])), tokens));
    cases
}

/// Words lent: none, one too few, as many as are needed, one more, as many as the other needs, and more; and every kind of token with
/// all that the sheet shows of it.
fn rooms() -> Vec<Case> {
    let mut cases = Vec::new();
    for list in [
        &[][..],
        &[INSTANCE],
        &[OPEN, CLOSE_EMPTY],
        &[OPEN],
        &[OPEN, ATTRIBUTE, CLOSE_EMPTY],
        &[ANNOUNCING, CLOSE_EMPTY],
        &[ANNOUNCING, ATTRIBUTE, VALUE, CLOSE_EMPTY],
        &[VALUE, VALUE, VALUE],
        &[PI_TARGET, PI_DATA],
        &[PI_TARGET, PI_DATA, INSTANCE],
        &[INSTANCE, PI_TARGET, PI_DATA],
        &[PI_TARGET, PI_DATA, OPEN, CLOSE_EMPTY, PI_TARGET, PI_DATA],
        &EVERY_TOKEN,
    ] {
        cases.extend(calls(list));
    }
    let list = [OPEN, CLOSE_START, CDATA, CLOSE_ELEMENT];
    cases.extend(all_modes(0xfc, &shortest_of_list(&list), 9));
    cases.extend(ALL.map(|kind| shown(&[kind])));
    cases.push(shown(&EVERY_TOKEN));
    cases
}

/// A stream of two bodies from every place on, with lengths that end in a token, at the end and far
/// off.
fn windows() -> Vec<Case> {
    let list = [OPEN, CLOSE_START, CDATA, CLOSE_ELEMENT, OPEN, CLOSE_EMPTY];
    let stream = shortest_of_list(&list);
    let size = stream.len() as u32;
    let mut cases = Vec::new();
    for start in 0..=size + 1 {
        for length in [0, 1, size.saturating_sub(start), u32::MAX] {
            cases.push(case(b'O', 0, start, length, &stream));
        }
        cases.push(sheet(0, 6, start, 14, &stream));
    }
    for length in 0..=size + 1 {
        cases.push(case(b'O', 0, 0, length, &stream));
        cases.push(joined(0, needed(4), 0, length, &stream));
    }
    for start in [65536, 1 << 31, u32::MAX] {
        cases.push(case(b'O', 0, start, u32::MAX, &stream));
        cases.push(sheet(0, 4, start, u32::MAX, &stream));
        cases.push(joined(0, [4, 4], start, u32::MAX, &stream));
    }
    cases
}
