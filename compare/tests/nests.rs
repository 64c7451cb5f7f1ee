//! Mode N, bodies inside values (document 02, P9): the samples, the order of refusals, levels and windows, by the second reading and
//! over the printed Rust's tokens.

mod common;

use common::{hex, lending};
use compare::cases;
use compare::document::{nests, streams};
use compare::oracle::bodies::by_definition;
use compare::oracle::kinds::{INSTANCE, ONE_ITEM};
use compare::oracle::nests::by_machine;
use compare::oracle::owners::MOST_LEVELS;
use compare::oracle::refusal::Refusal;
use compare::oracle::tokens::Asked;
use std::cell::RefCell;
use std::collections::HashMap;

const ELEMENT: &str = "01 00000000 00020000 03";

/// The answer's word, the sheet and the table.
#[derive(Debug, PartialEq, Eq)]
struct Answer {
    word: u64,
    sheet: Vec<u64>,
    table: Vec<u64>,
}

/// The answer of a mode on a whole stream that meets no difference.
fn answered(mode: u8, flags: u8, rooms: [u32; 2], stream: &[u8]) -> Answer {
    let text = common::answers(&lending(mode, flags, &rooms, stream));
    let mut lines = text.lines().map(|line| {
        let words = line.split(' ').skip(1);
        words
            .map(|word| u64::from_str_radix(word, 16).expect("a word"))
            .collect::<Vec<u64>>()
    });
    let mut next = || lines.next().expect("a line");
    Answer {
        word: next()[0],
        sheet: next(),
        table: next(),
    }
}

/// The same with words for every token.
fn nested(text: &str) -> Answer {
    let stream = hex(text);
    let tokens = stream.len() as u32;
    let mut answer = answered(b'N', 0, [2 * tokens, tokens], &stream);
    if answer.word >> 63 == 0 {
        answer.sheet.truncate(2 * answer.word as usize);
        answer.table.truncate(answer.word as usize);
    }
    answer
}

/// The number and place of a refusal, which leaves all lent words as they were.
fn refused(text: &str) -> (u64, u64) {
    let answer = nested(text);
    assert_eq!(answer.word >> 63, 1, "{answer:?}");
    assert!(answer.sheet.iter().all(|word| *word == u64::MAX));
    assert!(answer.table.iter().all(|word| *word == u32::MAX.into()));
    (answer.word >> 56 & 0x7f, answer.word & 0xff_ffff_ffff)
}

/// The owner table of what is accepted.
fn owners(text: &str) -> Vec<u64> {
    let answer = nested(text);
    assert_eq!(answer.word, answer.table.len() as u64);
    answer.table
}

/// The levels of the tokens of what is accepted.
fn levels(text: &str) -> Vec<u64> {
    let sheet = nested(text).sheet;
    let first = sheet.chunks(2).map(|words| words[0]);
    first.map(|word| word >> 4 & 0xf).collect()
}

/// An instance with values of these types, sizes and bytes.
fn of_values(values: &[(u8, usize, &str)]) -> String {
    let mut text = format!(
        "0C 01 07000000 00020000 {:08X}",
        (values.len() as u32).swap_bytes()
    );
    for (code, size, _) in values {
        text += &format!(" {:04X} {code:02X} 00", (*size as u16).swap_bytes());
    }
    for (_, _, bytes) in values {
        text += &format!(" {bytes}");
    }
    text
}

/// An instance with one value of type 21 of this size.
fn sized(size: usize, body: &str) -> String {
    of_values(&[(0x21, size, body)])
}

/// An instance with one value of type 21, as long as it is.
fn inside(body: &str) -> String {
    sized(hex(body).len(), body)
}

/// So many instances, each the value of the one before, and this body in the last.
fn deep(instances: usize, body: &str) -> String {
    (0..instances).fold(body.to_owned(), |body, _| inside(&body))
}

#[test]
fn samples() {
    let sample = |size| sized(size, &format!("{ELEMENT} 00"));
    assert_eq!(
        hex(&sample(11)),
        hex("0C 01 07000000 00020000 01000000 0B00 21 00 01 00000000 00020000 03 00")
    );
    let mut whole = Answer {
        word: 3,
        sheet: vec![
            0x1000_0000_7400_0000,
            0,
            0x2000_9000_2400_0010,
            0x0000_0200_0000_0000,
            0x4000_d800_0400_0010,
            0,
        ],
        table: vec![0, 0, 2],
    };
    assert_eq!(nested(&sample(11)), whole);
    whole.sheet[0] = 0x1000_0000_7000_0000;
    assert_eq!(nested(&sample(10)), whole);
    assert_eq!(refused(&sample(9)), (15, 2));
    assert_eq!(refused(&sample(8)), (29, 18));
    assert_eq!(refused(&sample(0)), (15, 1));
    assert_eq!(refused(&format!("{} 05 00", sample(11))), (13, 3));
    let pair = "0A 00020000 0B 0000";
    let around = format!("{pair} {} {pair}", sample(11));
    assert_eq!(owners(&around), [0, 0, 0, 0, 4, 0, 0]);
    let three = of_values(&[
        (0x21, 10, ELEMENT),
        (0x08, 4, "2A000000"),
        (0x21, 10, ELEMENT),
    ]);
    assert_eq!(owners(&three), [0, 0, 2, 0, 4]);
    assert_eq!(levels(&three), [0, 1, 1, 1, 1]);
    let short = |rooms| answered(b'N', 0, rooms, &hex(&three)).word;
    assert_eq!(short([9, 5]), 0x9000_0000_0000_000a);
    assert_eq!(short([9, 4]), 0x9000_0000_0000_000a);
    assert_eq!(short([10, 4]), 0x9000_0000_0000_0005);
    assert_eq!(short([10, 5]), 5);
}

/// "21, a ninth level": an instance at level 8 may hold no body, whatever is in the value.
#[test]
fn ninth_level() {
    for instances in 0..=8 {
        let body = deep(instances, ELEMENT);
        let mut owners_of = vec![0; instances + 1];
        owners_of.push(instances as u64 + 1);
        assert_eq!(owners(&body), owners_of);
        let mut levels_of: Vec<u64> = (0..=instances as u64).collect();
        levels_of.push(instances as u64);
        assert_eq!(levels(&body), levels_of);
    }
    // Nine instances, each 18 bytes long before its value: whatever the ninth's value holds, size 0 too.
    for body in [
        ELEMENT, "", "10", "00", "0F", "01", "02", "05 00", "0F000000",
    ] {
        assert_eq!(refused(&deep(9, body)), (21, 9 * 18), "{body}");
        assert_eq!(refused(&deep(10, body)), (21, 9 * 18), "{body}");
    }
    // Its own read comes first.
    assert_eq!(refused(&deep(8, &sized(3, "0000"))), (3, 9 * 18));
    let descriptor = deep(8, &of_values(&[(0x20, 0, ""), (0x21, 0, "")]));
    assert_eq!(refused(&descriptor), (8, 8 * 18 + 22));
    // Nine instances beside each other are no levels; an instance at level 8 with other values is read.
    assert_eq!(
        owners(&deep(8, &of_values(&[(0x08, 4, "2A000000")]))),
        [0; 9]
    );
}

/// "29, an inner walk ending past its value (before its grammar)": equal is within.
#[test]
fn past_its_value() {
    // A fragment header that runs over, and one that does not.
    assert_eq!(refused(&format!("{} 010100", sized(1, "0F"))), (29, 18));
    assert_eq!(refused(&format!("{} 00", sized(3, "0F0101"))), (29, 18));
    assert_eq!(refused(&sized(4, "0F010100")), (15, 1));
    assert_eq!(refused(&sized(3, "0F0101")), (3, 21));
    // Before its grammar.
    assert_eq!(refused(&format!("{} 00", sized(2, "0500 05"))), (13, 1));
    assert_eq!(refused(&format!("{} 00", sized(3, "0500 05"))), (29, 18));
    // An end byte does not run over, and what follows it in the value is not looked at.
    assert_eq!(owners(&inside(&format!("{ELEMENT} 00 10 10"))), [0, 0, 2]);
    assert_eq!(refused(&inside("00 10")), (15, 1));
    // The walk goes on at the value's end all the same.
    let next = format!("{} 05", inside(&format!("{ELEMENT} 00 10 10")));
    assert_eq!(refused(&next), (3, 32));
    // Into the next value, or past the outer walk's end.
    let eats = of_values(&[(0x21, 8, &ELEMENT[..18]), (0x08, 4, "00030000")]);
    assert_eq!(refused(&eats), (29, 22));
}

/// "An inner instance's inner body is judged before its own window's 29."
#[test]
fn inner_grammar_before_29() {
    let inner = inside("05 00");
    // The outer value ends within its instance's value.
    let short = sized(hex(&inner).len() - 1, &inner);
    assert_eq!(refused(&short), (13, 2));
    let sound = inside(ELEMENT);
    assert_eq!(refused(&sized(hex(&sound).len() - 1, &sound)), (29, 18));
    // With nothing inside, its own 29 comes first.
    assert_eq!(refused(&sized(18, &sized(0, ""))), (15, 2));
    assert_eq!(refused(&sized(17, &sized(0, ""))), (15, 2));
    assert_eq!(refused(&format!("{} 00", sized(1, "0500"))), (29, 18));
}

/// "Order. As the bytes are met": a value's body is judged before the next value's own read.
#[test]
fn order() {
    let both = of_values(&[(0x21, 1, "10"), (0x20, 0, "")]);
    assert_eq!(refused(&both), (9, 23));
    let stream = hex(&both);
    assert_eq!(
        answered(b'B', 0, [9, 9], &stream).word,
        0x8800_0000_0000_0017
    );
    // The other way round, and with a table that is refused.
    let both = of_values(&[(0x20, 0, ""), (0x21, 1, "10")]);
    assert_eq!(refused(&both), (8, 22));
    let table = of_values(&[(0x21, 1, "10"), (0x16, 0, "")]);
    assert_eq!(refused(&table), (7, 21));
    // Each refusal of the first value before one of the second.
    for (body, expected) in [
        ("", (15, 1)),
        ("05 00", (13, 1)),
        ("41 00000000 00020000 00000000 03", (20, 2)),
        ("01 00000000 00020000 06 00020000 03", (20, 2)),
        ("01 00000000 00020000", (15, 2)),
        ("0F", (29, 22)),
    ] {
        let size = hex(body).len();
        let text = of_values(&[(0x21, size, body), (0x20, 0, "000000")]);
        assert_eq!(refused(&text), expected, "{body}");
    }
    // Two values, both refused by their grammar: the first counts; then the outer body's.
    let two = of_values(&[(0x21, 2, "05 00"), (0x21, 3, "07 0000")]);
    assert_eq!(refused(&two), (13, 1));
    let second = of_values(&[(0x21, 10, ELEMENT), (0x21, 3, "07 0000")]);
    assert_eq!(refused(&second), (13, 3));
    assert_eq!(refused(&format!("05 00 {second}")), (13, 4));
    let outer = of_values(&[(0x21, 10, ELEMENT), (0x21, 10, ELEMENT)]);
    assert_eq!(refused(&format!("05 00 {outer}")), (13, 0));
    assert_eq!(refused(&format!("{outer} {outer}")), (13, 5));
    assert_eq!(refused(&format!("0A 00020000 {outer}")), (13, 1));
    // 15 counts all tokens that have their number.
    let open = "01 00000000 00020000 02";
    assert_eq!(refused(&format!("{outer} 0A 00020000")), (15, 6));
    assert_eq!(refused(&inside(open)), (15, 3));
    assert_eq!(
        refused(&inside(&format!("{} 0A 00020000", inside(ELEMENT)))),
        (15, 5)
    );
    // The walk's own refusal of a later token comes after the values' of an earlier one, and before all outer grammar.
    assert_eq!(refused(&format!("{} 10", inside("05 00"))), (13, 1));
    assert_eq!(refused(&format!("05 00 {} 10", inside(ELEMENT))), (9, 31));
}

/// What holds no body: a value token of type 21, which the Rust reads, a substitution that names 21, and a skipped definition.
#[test]
fn no_values() {
    for (text, word, rust) in [
        (
            "05 21 0000".to_owned(),
            "8800000000000002",
            "8d00000000000000",
        ),
        (inside("05 21 0000"), "8800000000000014", "8d00000000000001"),
    ] {
        let case = lending(b'N', 0, &[0, 0], &hex(&text));
        let (said, held) = common::both(&case);
        let lines = |word| format!("answer {word}\nsheet\ntable\n");
        assert_eq!(said, lines(rust) + ".\n");
        assert_eq!(held, lines(word) + "meets 5\ndiffers 5\n.\n");
    }
    let substitution = "01 00000000 00020000 02 0D 0000 21 04";
    assert_eq!(owners(substitution), [0, 1, 1, 1]);
    let definition = "0C 00 07000000 0A000000 00000000 00112233445566778899AABBCCDDEEFF 12000000 \
                      0C 01 07000000 00020000 01000000 0100 21 00 00000000";
    assert_eq!(owners(definition), [0]);
}

/// Grammar of document 02's P4 and P5 inside a value, and levels of elements from 1 again.
#[test]
fn each_on_its_own() {
    let pair = "0A 00020000 0B 0000";
    let inner = format!("{pair} {ELEMENT} {pair}");
    let text = format!("{pair} {} {pair}", inside(&inner));
    assert_eq!(owners(&text), [0, 0, 0, 0, 0, 0, 6, 0, 0, 0, 0]);
    assert_eq!(levels(&text), [0, 0, 0, 1, 1, 1, 1, 1, 1, 0, 0]);
    assert_eq!(refused(&inside(pair)), (15, 3));
    assert_eq!(
        refused(&inside(&format!("{pair} {pair} {ELEMENT}"))),
        (13, 3)
    );
    let nested = |levels: usize| "01 00000000 00020000 02".repeat(levels) + &"04".repeat(levels);
    assert_eq!(owners(&inside(&nested(64))).len(), 1 + 3 * 64);
    assert_eq!(refused(&inside(&nested(65))), (14, 129));
    // Attributes, whose items belong to them by the numbers that go through.
    let attributes = "41 00000000 00020000 00000000 06 00020000 05 00 03";
    let two = of_values(&[(0x21, 21, attributes), (0x21, 21, attributes)]);
    assert_eq!(owners(&two), [0, 0, 2, 3, 2, 0, 6, 7, 6]);
}

/// "Without dependencies and with the outer stream's kind of names"; offsets count from the stream's first byte.
#[test]
fn windows() {
    let with = |flags, text: &str| answered(b'N', flags, [8, 4], &hex(text)).word;
    // Dependencies carried outside, not inside.
    let text = format!("01 FFFF 00000000 00020000 03 {}", inside(ELEMENT));
    assert_eq!(with(1, &text), 0x8d00_0000_0000_0002);
    assert_eq!(with(1, &inside(ELEMENT)), 3);
    let dependency = inside("01 FFFF 00000000 00020000 03");
    assert_eq!(with(1, &dependency), 0x8f00_0000_0000_0002);
    // Inline names, inside too.
    let inline = "01 00000000 0000 0000 0000 03";
    assert_eq!(with(2, &inside(inline)), 3);
    assert_eq!(with(3, &inside(inline)), 3);
    let sheet = answered(b'N', 2, [6, 3], &hex(&inside(inline))).sheet;
    assert_eq!(sheet[3], 23 << 32);
    assert_eq!(with(2, &inside(ELEMENT)), 0x8300_0000_0000_001b);
    // A name in place: the position after its offset is 27.
    let in_place = "01 00000000 1B000000 00000000 0000 0000 0000 03";
    assert_eq!(owners(&inside(in_place)), [0, 0, 2]);
    // Of nine bytes counted from the value's start it is elsewhere.
    let elsewhere = "01 00000000 09000000 03";
    assert_eq!(owners(&inside(elsewhere)), [0, 0, 2]);
    // A definition in place, within an inner instance: the position after its offset is 28.
    let defined =
        "0C 00 00000000 1C000000 00000000 00112233445566778899AABBCCDDEEFF 01000000 AA 00000000";
    assert_eq!(owners(&inside(defined)), [0, 0]);
}

/// "1 and 2 before all", "nothing new without 21", "a refusal leaves both as they were".
#[test]
fn as_the_joined_call() {
    let long = [&hex(&inside("10"))[..], &[0; 65536]].concat();
    assert_eq!(answered(b'N', 0, [1, 1], &long).word, 0x8100_0000_0000_0000);
    for text in [
        "",
        "10",
        "03",
        ELEMENT,
        "0A 00020000 0B 0000",
        "0C 01 07000000 00020000 01000000 0200 0800 2A000000",
        "0C 01 07000000 00020000 01000000 0300 8600 2A000000",
        "01 00000000 00020000 02 05 01 0200 4100 4200 04",
    ] {
        for rooms in [[0, 0], [1, 1], [4, 2], [7, 9], [8, 3], [40, 20]] {
            let stream = hex(text);
            let joined = answered(b'B', 0, rooms, &stream);
            assert_eq!(answered(b'N', 0, rooms, &stream), joined, "{text}");
        }
    }
    for short in [&[0; 7][..], &[]] {
        assert_eq!(
            common::answers(&common::case(b'N', 0, 0, 0, short)),
            "bad case\n"
        );
    }
}

/// A made case of mode N: its stream and walk, whatever room it lends.
fn made(kind: &str, seed: u64, count: usize) -> impl Iterator<Item = (Vec<u8>, Asked)> {
    let cases = cases::make(kind, seed, count).expect("a kind");
    cases.filter(|case| case.mode == b'N').map(|case| {
        let asked = Asked {
            start: case.start as usize,
            length: case.length as usize,
            dependencies: case.flags & 1 != 0,
            inline_names: case.flags & 2 != 0,
        };
        (case.data[8..].to_vec(), asked)
    })
}

/// Sheet and table of a stream by the joined call on it and on each window, where all of them accept and no ninth level is met: the windows' words
/// after those of their instance, with their level, and each table with the numbers that go through.
fn window_by_window(
    data: &[u8],
    asked: Asked,
    level: u64,
    first: usize,
) -> Option<(Vec<u64>, Vec<u32>)> {
    // An inner walk ends within its value if it is the same where the stream ends with the value.
    let stream = match level {
        0 => data,
        1..=8 => &data[..asked.start + asked.length],
        _ => return None,
    };
    let (own_sheet, own_table) = joined(stream, asked)?;
    let (mut sheet, mut table, mut numbers) = (Vec::new(), Vec::new(), Vec::new());
    for (token, words) in streams::walk(stream, asked)
        .tokens
        .iter()
        .zip(own_sheet.chunks(2))
    {
        numbers.push(first + table.len());
        sheet.extend([words[0] | level << 4, words[1]]);
        table.push(own_table[numbers.len() - 1]);
        assert_eq!(
            token.instance().is_some(),
            words[0] >> 60 == u64::from(INSTANCE)
        );
        let values = token
            .instance()
            .into_iter()
            .flat_map(|instance| &instance.values);
        for value in values.filter(|value| value.code == 0x21) {
            let window = Asked {
                start: value.start,
                length: value.size.map_or(0, usize::from),
                dependencies: false,
                ..asked
            };
            let inner = window_by_window(data, window, level + 1, first + table.len())?;
            sheet.extend(inner.0);
            table.extend(inner.1);
        }
    }
    // Only now all numbers are known.
    for (&number, &word) in numbers.iter().zip(&own_table) {
        let owner = word
            .checked_sub(1)
            .map(|owner| numbers[owner as usize] as u32 + 1);
        table[number - first] = owner.unwrap_or(0);
    }
    Some((sheet, table))
}

/// What the joined call leaves, if it accepts.
fn joined(stream: &[u8], asked: Asked) -> Option<(Vec<u64>, Vec<u32>)> {
    let tokens = stream.len() as u32;
    let mut data = [2 * tokens, tokens].map(u32::to_le_bytes).concat();
    data.extend(stream);
    let flags = u8::from(asked.dependencies) | u8::from(asked.inline_names) << 1;
    let (start, length) = (asked.start as u32, asked.length as u32);
    let (_, held) = common::both(&common::case(b'B', flags, start, length, &data));
    let mut lines = held.lines().map(|line| {
        let words = line.split(' ').skip(1);
        words.map(|word| u64::from_str_radix(word, 16).expect("a word"))
    });
    let count = lines.next()?.next()?;
    if count >> 63 == 1 {
        return None;
    }
    let sheet = lines.next()?.take(2 * count as usize).collect();
    let table = lines.next()?.take(count as usize).map(|word| word as u32);
    Some((sheet, table.collect()))
}

/// "Places rise strictly" in the list that is numbered through.
fn places_rise<'a>(sheet: impl Iterator<Item = &'a u64>) {
    let places: Vec<u64> = sheet.step_by(2).map(|word| word >> 43 & 0x1ffff).collect();
    assert!(places.is_sorted_by(|before, after| before < after));
}

/// "Nothing new without 21", on made streams that have no such byte.
#[test]
fn nothing_new() {
    let mut held = 0;
    for case in cases::make("body", 9, 40_000).expect("a kind") {
        if case.mode == b'B' && !case.data.contains(&0x21) {
            held += 1;
            let mut bytes = case.bytes();
            let joined = common::both(&bytes).1;
            bytes[0] = b'N';
            assert_eq!(common::both(&bytes).1, joined);
        }
    }
    assert!(held > 4000, "{held}");
}

/// "Each on its own" and "exactly when", on made streams: the call accepts where the joined call accepts the stream and every window, and leaves
/// their words.
#[test]
fn the_joined_call_window_by_window() {
    let mut accepted = [0; 9];
    let made = made("nest", 5, 5000).chain(made("nests", 0, 14_000).step_by(3));
    for (data, asked) in made {
        let read = nests::read(&data, asked, by_machine);
        let expected = window_by_window(&data, asked, 0, 0);
        if let Ok(read) = &read {
            let deepest = read.sheet.iter().step_by(2).map(|word| word >> 4 & 0xf);
            accepted[deepest.max().unwrap_or(0) as usize] += 1;
        }
        let read = read.ok().map(|read| (read.sheet, read.table));
        places_rise(read.iter().flat_map(|(sheet, _)| sheet));
        assert_eq!(read, expected, "{data:02x?}");
    }
    assert!(accepted.iter().all(|count| *count > 10), "{accepted:?}");
}

/// An owner table, or its refusal.
type Judged = Result<Vec<u32>, Refusal>;

/// Demand 3 by its definition, for short lists.
fn by_continuations(kinds: &[u8]) -> Judged {
    thread_local! {
        static SEEN: RefCell<HashMap<Vec<u8>, Judged>> = RefCell::default();
    }
    if kinds.len() > 2 {
        return by_machine(kinds);
    }
    let decide = || {
        let tables = by_definition(kinds, MOST_LEVELS, &ONE_ITEM)?;
        assert_eq!(tables.len(), 1);
        Ok(tables.into_iter().flatten().collect())
    };
    SEEN.with_borrow_mut(|seen| seen.entry(kinds.to_vec()).or_insert_with(decide).clone())
}

/// The short bodies in values, each judged by trying all continuations.
#[test]
fn judged_by_definition() {
    for (data, asked) in made("nests", 0, 14_000) {
        let read = nests::read(&data, asked, by_continuations);
        assert_eq!(read, nests::read(&data, asked, by_machine), "{data:02x?}");
    }
}
