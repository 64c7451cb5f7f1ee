//! An event and a name (docs/EVENT.md) by the second reading and over the printed Rust's walks: samples with every word, the order of refusals,
//! rooms, and exchanges of two values or two names, each of which must change the rows that it should and no other.

mod common;

use common::hex;
use compare::cases::random::Random;
use compare::cases::{self, event_streams, exchanges, exchanges::What};
use compare::document::event::{self, Own, Row};
use compare::oracle::batch::{EVENT, NAME};
use std::collections::BTreeMap;

/// A definition: its GUID's first word, and its tokens.
fn definition(id: u32, tokens: &str) -> String {
    let length = hex(tokens).len() as u32;
    format!(
        "00000000 {:08X} 0A0B0C0D 01020304 05060708 {:08X} {tokens}",
        id.swap_bytes(),
        length.swap_bytes()
    )
}

/// An instance of the definition at an offset, with values of these types and bytes.
fn instance(id: u32, definition: usize, values: &[(u8, &str)]) -> String {
    let word = |number: u32| format!("{:08X}", number.swap_bytes());
    let mut text = format!("0C 01 {} {}", word(id), word(definition as u32));
    text += &word(values.len() as u32);
    for (code, bytes) in values {
        let size = hex(bytes).len() as u16;
        text += &format!(" {:04X} {code:02X} 00", size.swap_bytes());
    }
    values.iter().for_each(|(_, bytes)| text += bytes);
    text
}

/// The answer's word and the words that are left, which both sides give.
fn answered(flags: u8, room: u32, start: usize, length: usize, stream: &[u8]) -> (u64, Vec<u64>) {
    asked(EVENT, flags, room, start, length, stream)
}

fn asked(
    mode: u8,
    flags: u8,
    room: u32,
    start: usize,
    length: usize,
    stream: &[u8],
) -> (u64, Vec<u64>) {
    let data = [&room.to_le_bytes(), stream].concat();
    let text = common::answers(&common::case(
        mode,
        flags,
        start as u32,
        length as u32,
        &data,
    ));
    let lines: Vec<&str> = text.lines().collect();
    let [answer, words, "."] = lines[..] else {
        panic!("{text}");
    };
    let hex = |word: &str| u64::from_str_radix(word, 16).expect("a word");
    let answer = hex(answer.strip_prefix("answer ").expect("an answer"));
    let words = words.split(' ').skip(1).map(hex).collect();
    (answer, words)
}

/// The rows of a payload that stands behind its definitions.
fn rows(definitions: &str, payload: &str) -> Vec<Row> {
    let (before, payload) = (hex(definitions), hex(payload));
    let stream = [&before[..], &payload].concat();
    let (answer, words) = answered(0, 6000, before.len(), payload.len(), &stream);
    assert_eq!(answer >> 63, 0, "{answer:x}");
    let (rows, rest) = words.split_at(6 * answer as usize);
    assert!(rest.iter().all(|word| *word == u64::MAX));
    rows.as_chunks().0.to_vec()
}

/// The refusal of a payload, which writes nothing.
fn refused(definitions: &str, payload: &str) -> (u64, u64) {
    let (before, payload) = (hex(definitions), hex(payload));
    let stream = [&before[..], &payload].concat();
    let (answer, words) = answered(0, 60, before.len(), payload.len(), &stream);
    assert_eq!(answer >> 63, 1, "{answer:x}");
    assert_eq!(words, [u64::MAX; 60]);
    (answer >> 56 & 0x7f, answer & 0xff_ffff_ffff)
}

const OPEN: &str = "01 FFFF 00000000";
/// An element named 512 with one substitution.
const ONE: &str = "01 FFFF 00000000 00020000 02 0D 0000 08 04";

fn both(high: u64, low: u64) -> u64 {
    high << 32 | low
}

/// Every word of an attribute with several items, and of items in elements; the payload stands behind the definition.
#[test]
fn every_word() {
    let tokens = [
        "41 FFFF 00000000 00020000 00000000", // 0: at 24
        "06 10020000",                        // 1: at 39
        "0D 0100 01",                         // 2: at 44
        "05 01 0200 41004200",                // 3: at 48
        "08 2A00",                            // 4: at 56
        "09 20020000",                        // 5: at 59
        "06 30020000",                        // 6: at 64
        "0E 0200 01",                         // 7: at 69
        "02",                                 // 8: at 73
        "07 0300 410000004200",               // 9: at 74
        "01 FFFF 00000000 40020000",          // 10: at 83
        "02",                                 // 11: at 94
        "0D 0000 08",                         // 12: at 95
        "04",                                 // 13
        "45 0B 0100A07F",                     // 14: at 100
        "04",                                 // 15
    ]
    .join(" ");
    let definition = definition(7, &tokens);
    let start = hex(&definition).len() as u64;
    let values = [(0x07, "FEFFFFFF"), (0x01, "610062000000"), (0x00, "0000")];
    // Behind 14 bytes of the instance's head and three descriptors.
    let first = start + 14 + 12;
    let root = 0x200;
    assert_eq!(
        rows(&definition, &instance(7, 0, &values)),
        [
            [
                2,
                both(0, 2),
                both(root, 0x210),
                0xd_0001_0001,
                both(first + 4, 4),
                0
            ],
            [
                3,
                both(0, 2),
                both(root, 0x210),
                0x6_0001_0000,
                both(52, 4),
                0
            ],
            [4, both(0, 2), both(root, 0x210), 0xc_0000_002a, 0, 0],
            [
                5,
                both(0, 2),
                both(root, 0x210),
                0x8_0000_0000,
                both(0x220, 0),
                0
            ],
            [7, both(0, 7), both(root, 0x230), 0xd_0100_0002, 0, 0],
            [9, both(0, 0), both(root, 0), 0xb_0001_0000, both(77, 2), 0],
            [
                12,
                both(10, 0),
                both(0x240, 0),
                0xd_0007_0000,
                both(first, 4),
                -2_i64 as u64
            ],
            [
                14,
                both(0, 0),
                both(root, 0),
                0x6_000b_0000,
                both(102, 4),
                0x7fa0_0001
            ],
        ]
    );
}

/// Each type's content and bits, and a size that is not its width's.
#[test]
fn contents() {
    let of = |code: u8, bytes: &str| {
        let definition = definition(7, ONE);
        let start = hex(&definition).len() as u64 + 18;
        let row = rows(&definition, &instance(7, 0, &[(code, bytes)]))[0];
        assert_eq!(row[3], 0xd_0000_0000 | u64::from(code) << 16);
        let content = row[4].checked_sub(both(start, 0));
        (content, row[5])
    };
    for (code, bytes, length, bits) in [
        (0x01, "", 0, 0),
        (0x01, "00004100", 0, 0),
        (0x02, "414200", 3, 0),
        (0x03, "FF", 1, u64::MAX),
        (0x04, "FF", 1, 255),
        (0x05, "0080", 2, -0x8000_i64 as u64),
        (0x06, "0080", 2, 0x8000),
        (0x07, "00000080", 4, i32::MIN as i64 as u64),
        (0x08, "00000080", 4, 0x8000_0000),
        (0x08, "010000000000", 4, 1),
        (0x09, "FFFFFFFFFFFFFFFF", 8, u64::MAX),
        (0x0a, "FFFFFFFFFFFFFFFF", 8, u64::MAX),
        (0x0b, "0100A07F", 4, 0x7fa0_0001),
        (0x0c, "010000000000F07F", 8, 0x7ff0_0000_0000_0001),
        (0x0d, "FFFFFFFF", 4, 0xffff_ffff),
        (0x0e, "", 0, 0),
        (0x0e, "010203", 3, 0),
        (0x0f, "00112233445566778899AABBCCDDEEFF", 16, 0),
        (0x10, "01000000", 4, 1),
        (0x10, "0100000000000080", 8, 1 << 63 | 1),
        (0x11, "0200000000000000", 8, 2),
        (0x12, "00112233445566778899AABBCCDDEEFF", 16, 0),
        (0x13, "0101000000000005 12000000 AAAA", 12, 0),
        (0x14, "10000000", 4, 16),
        (0x15, "1000000000000000", 8, 16),
        (0x86, "01000200", 4, 0),
        (0x81, "41000000", 4, 0),
    ] {
        assert_eq!(of(code, bytes), (Some(length), bits), "{code:02x} {bytes}");
    }
    // What has no content.
    let row = rows(&definition(7, ONE), &instance(7, 0, &[(0x00, "AABB")]))[0];
    assert_eq!(row[3..], [0xd_0000_0000, 0, 0]);
}

/// Bodies are numbered as they begin: a body before those in its values, a later value's after all of an earlier one's.
#[test]
fn bodies_in_their_order() {
    let definition = definition(7, ONE);
    let element = |name: &str| format!("01 00000000 {name} 02 0D 0500 08 05 04 09 04");
    let inner = |text: &str| instance(7, 0, &[(0x21, text)]);
    let payload = instance(
        7,
        0,
        &[
            (0x04, "01"),
            (0x21, &inner(&element("00030000"))),
            (0x04, "02"),
            (0x21, &element("00040000")),
        ],
    );
    let rows = rows(&definition, &payload);
    let numbers: Vec<u64> = rows.iter().map(|row| row[0]).collect();
    assert_eq!(
        numbers,
        [
            both(0, 2),
            both(1, 2),
            both(2, 2),
            both(2, 3),
            both(3, 2),
            both(3, 3)
        ]
    );
    let names: Vec<u64> = rows.iter().map(|row| row[2] >> 32).collect();
    assert_eq!(names, [0x200, 0x200, 0x300, 0x300, 0x400, 0x400]);
    // In an element body a substitution stands for nothing.
    assert_eq!(rows[2][3..], [0xd_0000_0005, 0, 0]);
    // The inner instance's value is its body, which stands where body 2 does.
    assert_eq!(rows[1][3], 0xd_0021_0000);
}

/// "P9's all; then body by body: 2 or 3 at the definition, 30, the walk's own, 31, 32 at the first such item".
#[test]
fn order() {
    let one = definition(7, ONE);
    let end = hex(&one).len();
    let value = [(0x04, "01")];
    let size = hex(&instance(7, 0, &value)).len();
    // 2 and 3 at the definition.
    assert_eq!(
        refused(&one, &instance(7, end + size + 1, &value)),
        (2, (end + size + 1) as u64)
    );
    assert_eq!(
        refused(&one, &instance(7, end + size, &value)),
        (3, (end + size) as u64)
    );
    assert_eq!(
        refused(&one, &instance(7, end + size - 4, &value)),
        (3, (end + size) as u64)
    );
    assert_eq!(
        refused(&one, &instance(7, end + size - 23, &value)),
        (3, (end + size - 3) as u64)
    );
    // 30 before what the tokens are; the whole word counts.
    for tokens in [ONE, "10", "", "05 00"] {
        assert_eq!(
            refused(&definition(7, tokens), &instance(6, 0, &value)),
            (30, 0)
        );
        assert_eq!(
            refused(&definition(7, tokens), &instance(7 << 8, 0, &value)),
            (30, 0)
        );
    }
    // The walk's own, then 31, then 32.
    let of = |tokens: &str| refused(&definition(7, tokens), &instance(7, 0, &value));
    assert_eq!(of("05 00 10"), (9, 27));
    assert_eq!(of(&format!("{ONE} 10")), (9, 42));
    assert_eq!(of(""), (31, 0));
    assert_eq!(of("00 10"), (31, 0));
    assert_eq!(of("05 00"), (31, 0));
    assert_eq!(of(&format!("{ONE} {ONE}")), (31, 0));
    assert_eq!(of("0C 01 00000000 00000000 00000000"), (31, 0));
    assert_eq!(of(&format!("{OPEN} 00020000 02")), (31, 0));
    assert_eq!(of(&format!("{OPEN} 00020000 02 0D 0900 08")), (31, 0));
    assert_eq!(of("41 FFFF 00000000 00020000 00000000 03"), (31, 0));
    assert_eq!(
        of(&format!(
            "{OPEN} 00020000 02 0D 0000 08 0D 0200 08 0D 0100 08 04"
        )),
        (32, 40)
    );
    let nested =
        |levels: usize| format!("{OPEN} 00020000 02").repeat(levels) + &"04".repeat(levels);
    assert_eq!(
        rows(&definition(7, &nested(64)), &instance(7, 0, &value)),
        [[0; 6]; 0]
    );
    assert_eq!(of(&nested(65)), (31, 0));
    // Instructions round the element are no part of it, and no items.
    let pair = "0A 00050000 0B 0000";
    let around = format!("{pair} {ONE} {pair}");
    assert_eq!(
        rows(&definition(7, &around), &instance(7, 0, &value))[0][..2],
        [4, both(2, 0)]
    );
    assert_eq!(of(&format!("{pair} {pair} {ONE}")), (31, 0));
    // Body by body: the outer one's 32 before an inner one's 30, and the first inner one's before the second's.
    let two = |outer: &str, first: u32, second: u32| {
        let inner = [first, second].map(|id| instance(id, 0, &value));
        instance(7, 0, &[(0x21, &inner[0]), (0x21, &inner[1]), (0x08, outer)])
    };
    let last = definition(7, &ONE.replace("0D 0000", "0D 0300"));
    assert_eq!(refused(&last, &two("01000000", 6, 6)), (32, 36));
    let second = definition(8, "10");
    let both = format!("{one} {second}");
    let inner = |id: u32, at: usize| instance(id, at, &value);
    let [bad, other] = [inner(8, end), inner(6, 0)];
    assert_eq!(
        refused(&both, &instance(7, 0, &[(0x21, &bad), (0x21, &other)])).0,
        9
    );
    assert_eq!(
        refused(&both, &instance(7, 0, &[(0x21, &other), (0x21, &bad)])),
        (30, 0)
    );
    // P9's before all: a later value that is refused.
    let payload = instance(6, 0, &[(0x21, &bad), (0x20, "")]);
    assert_eq!(refused(&both, &payload).0, 8);
    let payload = instance(6, 0, &[(0x21, "05 00")]);
    assert_eq!(refused(&both, &payload), (13, 1));
    assert_eq!(refused(&one, ""), (15, 0));
}

/// The room: 16 with the words needed, after all else, and nothing is written; words past the last row stay.
#[test]
fn rooms() {
    let definition = hex(&definition(
        7,
        &format!("{OPEN} 00020000 02 05 00 0D 0000 08 04"),
    ));
    let payload = hex(&instance(7, 0, &[(0x04, "01")]));
    let stream = [&definition[..], &payload].concat();
    let of = |room| answered(0, room, definition.len(), payload.len(), &stream);
    let (count, words) = of(12);
    assert_eq!((count, words.len()), (2, 12));
    for room in 0..12 {
        assert_eq!(
            of(room),
            (0x9000_0000_0000_000c, vec![u64::MAX; room as usize])
        );
    }
    let more = of(15);
    assert_eq!(
        (more.0, &more.1[..12], &more.1[12..]),
        (2, &words[..], &[u64::MAX; 3][..])
    );
    // More than 65,536 words count as that.
    assert_eq!(of(u32::MAX).1.len(), 65536);
    // Flags that the mode does not name.
    assert_eq!(
        answered(0xfd, 12, definition.len(), payload.len(), &stream),
        (2, words)
    );
    for short in [&[][..], &[0; 3]] {
        for mode in [EVENT, NAME] {
            assert_eq!(
                common::answers(&common::case(mode, 0, 0, 0, short)),
                "bad case\n"
            );
        }
    }
    let long = vec![0; 65537];
    assert_eq!(answered(0, 1, 0, 1, &long).0, 0x8100_0000_0000_0000);
    assert_eq!(asked(NAME, 0, 1, 0, 0, &long).0, 0x8100_0000_0000_0000);
}

/// "units' start × 2^32 + count × 2^8 + sound × 2 + (hash is theirs)".
#[test]
fn names() {
    let of = |flags, room, start: usize, text: &str| asked(NAME, flags, room, start, 0, &hex(text));
    // The document's hash of 'A' and 'B'.
    let name = "00000000 4110 0200 4100 4200";
    assert_eq!(of(0, 1, 0, name), (2, vec![both(8, 0x203)]));
    assert_eq!(of(0, 2, 0, name), (2, vec![both(8, 0x203), u64::MAX]));
    assert_eq!(of(0, 0, 0, name), (0x9000_0000_0000_0001, vec![]));
    assert_eq!(
        of(0, 1, 0, &name.replace("4110", "4111")),
        (2, vec![both(8, 0x202)])
    );
    let unsound = "FFFFFFFF 00D8 0100 00D8";
    assert_eq!(of(0, 1, 0, unsound), (1, vec![both(8, 0x101)]));
    // All counted units, zeros too; no zero unit is needed after them.
    assert_eq!(
        of(0, 1, 0, "00000000 0000 0200 0000 0000"),
        (2, vec![both(8, 0x203)])
    );
    assert_eq!(
        of(0, 1, 2, "AAAA 00000000 0000 0000"),
        (0, vec![both(10, 3)])
    );
    // Cuts, each at the read that fails.
    let refused = |number: u64, place: u64| (1 << 63 | number << 56 | place, vec![u64::MAX]);
    for (length, place) in [
        (0, 0),
        (3, 0),
        (4, 4),
        (5, 4),
        (6, 6),
        (7, 6),
        (8, 8),
        (11, 8),
    ] {
        let stream = &hex(name)[..length];
        assert_eq!(asked(NAME, 0, 1, 0, 0, stream), refused(3, place));
    }
    assert_eq!(of(0, 1, 13, name), refused(2, 13));
    // Inline: hash, count, units, zero unit.
    let inline = "AA 4110 0200 4100 4200 0000";
    assert_eq!(of(2, 1, 1, inline), (2, vec![both(5, 0x203)]));
    assert_eq!(of(2, 1, 1, &inline.replace("4110", "4111")), refused(12, 1));
    assert_eq!(of(2, 1, 1, "AA 4111 0200 4100 4200 0100"), refused(11, 1));
    assert_eq!(of(2, 1, 1, "AA 4110 0200 4100 4200"), refused(3, 9));
    assert_eq!(
        of(2, 1, 0, "00D8 0100 00D8 0000"),
        (1, vec![both(4, 0x101)])
    );
}

/// Every exchange in made payloads changes the rows that it should, as it should, and no other one; an exchange of two names' units
/// changes none, and the names are exchanged.
#[test]
fn exchanged() {
    let mut random = Random::new(3);
    let mut met: BTreeMap<&str, [usize; 2]> = BTreeMap::new();
    for _ in 0..2000 {
        let levels = random.one_of(&[0, 1, 1, 2, 3]);
        let scene = event_streams::make(&mut random, levels, 0);
        let asked = scene.asked();
        let Ok(texts) = event::texts(&mut Own(&scene.bytes), asked) else {
            continue;
        };
        let rows = event::rows(&texts);
        let all = exchanges::all(&scene.bytes, asked, &scene.names);
        for one in all.iter().step_by(all.len().div_ceil(60).max(1)) {
            let after = event::read(&mut Own(&one.bytes), asked);
            let expected = exchanges::expected(&texts, &rows, one.what);
            assert_eq!(
                after.as_ref(),
                Ok(&expected),
                "{:?} {:02x?}",
                one.what,
                scene.bytes
            );
            let kind = match one.what {
                What::Values { .. } => "values",
                What::Numbers { .. } => "numbers",
                What::Names { .. } => "names",
                What::Units { a, b } => {
                    let of = |bytes, name| {
                        event::name(bytes, name, scene.inline).map(|(_, word)| word & 0xffff_ffff)
                    };
                    assert_eq!(of(&one.bytes, a), of(&scene.bytes, b));
                    assert_eq!(of(&one.bytes, b), of(&scene.bytes, a));
                    "units"
                }
            };
            met.entry(kind).or_default()[usize::from(expected != rows)] += 1;
        }
    }
    // All kinds are met; the first three mostly change something, the last never.
    for kind in ["values", "numbers", "names"] {
        assert!(met[kind][1] > 500, "{met:?}");
    }
    assert!(met["units"][0] > 500 && met["units"][1] == 0, "{met:?}");
}

/// What the made cases reach: every refusal that the call has, read payloads of many bodies, and rooms.
#[test]
fn reached() {
    let mut answers: BTreeMap<u64, usize> = BTreeMap::new();
    let mut rows = 0;
    for case in cases::make("event", 1, 12_000).expect("a kind") {
        let (_, held) = common::both(&case.bytes());
        let word = held.split(['\n', ' ']).nth(1).expect("a word");
        let word = u64::from_str_radix(word, 16).expect("a word");
        *answers.entry(word >> 56).or_default() += 1;
        if case.mode == EVENT && word >> 63 == 0 {
            rows += word;
        }
        // A refusal writes nothing.
        let left = held.lines().nth(1).expect("words");
        if word >> 63 == 1 {
            assert!(
                left.split(' ')
                    .skip(1)
                    .all(|word| word == "ffffffffffffffff")
            );
        }
        assert!(!held.contains("apart"), "{held}");
    }
    for number in [2, 3, 7, 8, 9, 10, 11, 12, 13, 15, 16, 29, 30, 31, 32] {
        assert!(
            answers.contains_key(&(0x80 | number)),
            "{number}: {answers:?}"
        );
    }
    assert!(answers[&0] > 3000 && rows > 10_000, "{answers:?} {rows}");
}
