//! Modes O, C, B and K through the oracle: document 01's samples, with the sheet's words as document 02's request P2 has them, the order of
//! refusals, the packed words, and the lent words.

mod common;

use common::{case, hex};

fn answers(batch: &[u8]) -> String {
    let text = common::answers(batch);
    text.strip_suffix(".\n").expect("one case").to_owned()
}

/// The owner table of a whole stream, offset names, no dependencies.
fn owners(text: &str) -> String {
    let data = hex(text);
    answers(&case(b'O', 0, 0, data.len() as u32, &data))
}

/// A call on a whole stream that is lent so many words of each kind.
fn lending(mode: u8, flags: u8, rooms: &[u32], text: &str) -> String {
    answers(&common::lending(mode, flags, rooms, &hex(text)))
}

/// The sheet alone of a whole stream.
fn alone(flags: u8, room: u32, text: &str) -> String {
    lending(b'C', flags, &[room], text)
}

/// The joined call on a whole stream.
fn joined(rooms: [u32; 2], text: &str) -> String {
    lending(b'B', 0, &rooms, text)
}

/// What the joined call answers where it refuses: so many words are lent, and all are kept.
fn kept(number: u64, place: u64, rooms: [u32; 2]) -> String {
    let word = 1 << 63 | number << 56 | place;
    let [sheet, table] = rooms.map(|room| room as usize);
    let sheet = " ffffffffffffffff".repeat(sheet);
    let table = " ffffffff".repeat(table);
    format!("answer {word:016x}\nsheet{sheet}\ntable{table}\n")
}

const ELEMENT: &str = "01 00000000 00020000 03 00";
const INSTANCE: &str = "0C 01 07000000 00020000 01000000 0200 0800 2A000000";

#[test]
fn empty_streams() {
    assert_eq!(owners(""), "refused 15 0\n");
    assert_eq!(answers(&case(b'O', 0, 0, 1, &[])), "refused 3 0\n");
    assert_eq!(answers(&case(b'O', 0, 1, 0, &[])), "refused 2 1\n");
    // The sheet alone skips the grammar.
    assert_eq!(alone(0, 0, ""), "count 0\nwords\n");
    assert_eq!(joined([0, 0], ""), kept(15, 0, [0, 0]));
}

#[test]
fn samples_as_bodies() {
    assert_eq!(owners(ELEMENT), "owners 0 1\n");
    assert_eq!(owners("05 01 0200 4100 4200"), "refused 13 0\n");
    assert_eq!(owners("10"), "refused 9 1\n");
    assert_eq!(owners(INSTANCE), "owners 0\n");
    assert_eq!(owners(&format!("0F 01 01 00 {INSTANCE}")), "owners 0\n");
    assert_eq!(owners("00 10"), "refused 15 0\n");
}

#[test]
fn refused_bodies() {
    let open = "01 00000000 00020000";
    // In content a PI target without data, with data after something else, and after a fragment header.
    let targets = |text: &str| owners(&format!("{open} 02 0A 00020000 {text} 04"));
    assert_eq!(targets(""), "refused 13 3\n");
    assert_eq!(targets("05 00 0B 0000"), "refused 13 3\n");
    assert_eq!(targets("0B 0000"), "owners 0 1 1 1 1\n");
    assert_eq!(targets("0F 01 01 00 0B 0000"), "owners 0 1 1 1 1\n");
    assert_eq!(owners(&format!("{open} 02 0A 00020000")), "refused 15 3\n");
    // An instance in an element, and something after an instance or an element.
    assert_eq!(owners(&format!("{open} 02 {INSTANCE}")), "refused 13 2\n");
    assert_eq!(owners(&format!("{INSTANCE} 03")), "refused 13 1\n");
    assert_eq!(owners(&format!("{open} 03 03")), "refused 13 2\n");
    assert_eq!(owners(&format!("{open} 03 {INSTANCE}")), "refused 13 2\n");
    // CDATA is no item of an attribute.
    let attribute = "41 00000000 00020000 00000000 06 00020000";
    assert_eq!(owners(&format!("{attribute} 05 00 03")), "owners 0 1 2 1\n");
    assert_eq!(owners(&format!("{attribute} 07 0000 03")), "refused 13 2\n");
    assert_eq!(owners(&format!("{open} 05 00")), "refused 13 1\n");
}

/// Document 02's request P4: a pair before and after the root.
#[test]
fn pairs_around_the_root() {
    let (target, pair) = ("0A 00020000", "0A 00020000 0B 0000");
    let element = "01 00000000 00020000 03";
    assert_eq!(owners(target), "refused 15 1\n");
    assert_eq!(owners(pair), "refused 15 2\n");
    assert_eq!(owners("0B 0000"), "refused 13 0\n");
    assert_eq!(
        owners(&format!("{pair} {pair} {element}")),
        "refused 13 2\n"
    );
    assert_eq!(owners(&format!("{target} {element}")), "refused 13 1\n");
    assert_eq!(owners(&format!("{pair} {element}")), "owners 0 0 0 3\n");
    assert_eq!(owners(&format!("{element} {pair}")), "owners 0 1 0 0\n");
    assert_eq!(owners(&format!("{element} {target}")), "refused 15 3\n");
    let both = format!("{pair} {element} {pair}");
    assert_eq!(owners(&both), "owners 0 0 0 3 0 0\n");
    assert_eq!(owners(&format!("{both} {target}")), "refused 13 6\n");
    let instance = format!("{pair} 0F 01 01 00 {INSTANCE} {pair} 00");
    assert_eq!(owners(&instance), "owners 0 0 0 0 0\n");
    // The joined call: 16 after the grammar's refusals.
    assert_eq!(joined([0, 0], pair), kept(15, 2, [0, 0]));
    assert_eq!(joined([12, 1], &both), kept(16, 6, [12, 1]));
    let table = "table 00000000 00000000 00000000 00000003 00000000 00000000 ffffffff\n";
    assert!(joined([13, 7], &both).ends_with(table));
}

#[test]
fn order_of_refusals() {
    // 1 before all, the walk's before the grammar's, and 16 last.
    let long = vec![0x10; 65537];
    assert_eq!(answers(&case(b'O', 0, 0, 65537, &long)), "refused 1 0\n");
    assert_eq!(owners("04 10"), "refused 9 2\n");
    assert_eq!(owners("04 00 10"), "refused 13 0\n");
    assert_eq!(joined([0, 0], "04 10"), kept(9, 2, [0, 0]));
    assert_eq!(joined([0, 0], "04"), kept(13, 0, [0, 0]));
    assert_eq!(alone(0, 0, "04"), "refused 16 2\nwords\n");
    let data = [&[9_u32, 9].map(u32::to_le_bytes).concat()[..], &long].concat();
    let refused = answers(&case(b'B', 0, u32::MAX, 0, &data));
    assert_eq!(refused, kept(1, 0, [9, 9]));
    let refused = answers(&case(b'C', 0, u32::MAX, 0, &data));
    assert!(refused.starts_with("refused 1 0\nwords ffffffffffffffff "));
    let far = answers(&case(b'B', 0, u32::MAX, 0, &[0; 8]));
    assert_eq!(far, kept(2, 0xffff_ffff, [0, 0]));
}

#[test]
fn levels() {
    let open = "01 00000000 00020000";
    let nested = |levels: usize| {
        let (opens, closes) = (format!("{open} 02"), "04".repeat(levels));
        owners(&(opens.repeat(levels) + &closes))
    };
    for levels in [65, 66, 100] {
        assert_eq!(nested(levels), "refused 14 128\n");
    }
    assert!(nested(64).starts_with("owners 0 1 1 3 3 5 5 "));
}

#[test]
fn sheets() {
    let words = "2000000024000000 0000020000000000 4000480004000000 0000000000000000";
    let enough = format!("count 2\nwords {words}\n");
    assert_eq!(alone(0, 4, ELEMENT), enough);
    // A flag that the mode does not name is passed over.
    assert_eq!(alone(4, 4, ELEMENT), enough);
    let more = format!("count 2\nwords {words} ffffffffffffffff\n");
    assert_eq!(alone(0, 5, ELEMENT), more);
    // 16 counts two words a token, and is answered for every room below that.
    for room in 0..4 {
        let ones = " ffffffffffffffff".repeat(room);
        let fewer = format!("refused 16 4\nwords{ones}\n");
        assert_eq!(alone(0, room as u32, ELEMENT), fewer);
    }
    // With a dependency: 11 bytes, none, 0 and 7.
    let element = |dependency| alone(1, 4, &format!("01 {dependency} 00000000 00020000 03 00"));
    for (dependency, word) in [
        ("FFFF", "200000002c000000"),
        ("0000", "200000002c000200"),
        ("0700", "200000002c001e00"),
    ] {
        let words = format!("{word} 0000020000000000 4000580004000000 0000000000000000");
        let sheet = format!("count 2\nwords {words}\n");
        assert_eq!(element(dependency), sheet);
    }
}

/// The sheet of a stream, in words.
fn sheet(flags: u8, text: &str, words: &[u64]) {
    let count = words.len() / 2;
    let lines: String = words.iter().map(|word| format!(" {word:016x}")).collect();
    let answer = format!("count {count}\nwords{lines}\n");
    assert_eq!(alone(flags, words.len() as u32, text), answer);
}

#[test]
fn every_field_of_a_sheet() {
    // A char ref, both substitutions, and a value that runs over: no grammar, and no name.
    let text = "08 FFFF 0D 0100 01 0E 0080 95 05 01 0200 4100 4200";
    let words = [
        0xc << 60 | 3 << 26 | 0xffff << 10,
        0,
        0xd << 60 | 3 << 43 | 4 << 26 | 1 << 10,
        0,
        0xd << 60 | 7 << 43 | 4 << 26 | 0x8000 << 10 | 1 << 9,
        0,
        6_u64 << 60 | 11 << 43 | 8 << 26,
        0,
    ];
    sheet(0, text, &words);
    // Announced is the bit below the flag, and stands beside number and flag.
    let open = 2 << 60;
    let text = "41 00000000 01000000 00000000";
    sheet(0, text, &[open | 13 << 26 | 1 << 8, 1 << 32]);
    let text = "41 FEFF 00000000 FFFFFFFF 00000000";
    let first = open | 15 << 26 | 0xfffe << 10 | 1 << 9 | 1 << 8;
    sheet(1, text, &[first, 0xffff_ffff << 32]);
    // A 01 whose attribute follows is not announced. The other names: attribute, entity ref and PI target.
    let text = "01 00000000 00000000 46 02000000 49 00000080 0A FFFF0000";
    let words = [
        open | 9 << 26,
        0,
        7 << 60 | 9 << 43 | 5 << 26,
        2 << 32,
        8 << 60 | 14 << 43 | 5 << 26,
        0x8000_0000 << 32,
        9 << 60 | 19 << 43 | 5 << 26,
        0xffff << 32,
    ];
    sheet(0, text, &words);
    // An inline name stands where it starts.
    let text = "41 00000000 4110 0200 4100 4200 0000 00000000 06 0000 0000 0000";
    let words = [
        open | 19 << 26 | 1 << 8,
        5 << 32,
        7 << 60 | 19 << 43 | 7 << 26,
        20 << 32,
    ];
    sheet(2, text, &words);
    let text = "01 0000 00000000 0000 0000 0000";
    sheet(3, text, &[open | 13 << 26 | 1 << 9, 7 << 32]);
}

/// Document 02's request P8: "16 for the sheet, then 16 for the table, after the grammar's".
#[test]
fn joined_calls() {
    let sheet = "2000000024000000 0000020000000000 4000480004000000 0000000000000000";
    let enough = format!("answer 0000000000000002\nsheet {sheet}\ntable 00000000 00000001\n");
    assert_eq!(joined([4, 2], ELEMENT), enough);
    let ones = "ffffffffffffffff";
    let more = format!(
        "answer 0000000000000002\nsheet {sheet} {ones}\ntable 00000000 00000001 ffffffff\n"
    );
    assert_eq!(joined([5, 3], ELEMENT), more);
    for of_sheet in 0..6 {
        for of_table in 0..4 {
            let (rooms, short_sheet) = ([of_sheet, of_table], of_sheet < 4);
            if short_sheet || of_table < 2 {
                let needed = if short_sheet { 4 } else { 2 };
                assert_eq!(joined(rooms, ELEMENT), kept(16, needed, rooms));
            } else {
                let answer = joined(rooms, ELEMENT);
                assert!(answer.starts_with("answer 0000000000000002\nsheet 2000000024000000 "));
            }
            assert_eq!(joined(rooms, "03"), kept(13, 0, rooms));
            assert_eq!(joined(rooms, "10"), kept(9, 1, rooms));
        }
    }
    // Dependencies and inline names, and a flag that the mode does not name.
    let words = "sheet 200000002c001e00 0000020000000000 4000580004000000 0000000000000000";
    let text = "01 0700 00000000 00020000 03 00";
    let table = "table 00000000 00000001";
    let answer = format!("answer 0000000000000002\n{words}\n{table}\n");
    assert_eq!(lending(b'B', 1, &[4, 2], text), answer);
    assert_eq!(lending(b'B', 0xfd, &[4, 2], text), answer);
    let inline = lending(b'B', 2, &[4, 2], "01 00000000 0000 0000 0000 03");
    assert!(
        inline.starts_with("answer 0000000000000002\nsheet 200000002c000000 0000000500000000 ")
    );
}

/// More words than 65,536 are never lent: they hold the sheet of 32,768 tokens, and the longest stream has twice as many.
#[test]
fn most_words() {
    let text = "03".repeat(32768);
    for room in [65536, 65537, u32::MAX] {
        let sheet = alone(0, room, &text);
        assert!(sheet.starts_with("count 32768\nwords 4000000004000000 0000"));
        assert!(sheet.ends_with(" 43fff80004000000 0000000000000000\n"));
        assert_eq!(sheet.split_ascii_whitespace().count(), 3 + 65536);
        let joined = joined([room, room], ELEMENT);
        assert_eq!(joined.split_ascii_whitespace().count(), 4 + 2 * 65536);
    }
    let fewer = alone(0, 65535, &text);
    assert!(fewer.starts_with("refused 16 65536\nwords ffffffffffffffff "));
    let more = alone(0, u32::MAX, &"03".repeat(32769));
    assert!(more.starts_with("refused 16 65538\nwords ffffffffffffffff "));
    let text = "03".repeat(65536);
    let most = alone(0, u32::MAX, &text);
    assert!(most.starts_with("refused 16 131072\nwords ffffffffffffffff "));
    assert_eq!(owners(&text), "refused 13 0\n");
}

/// A kept sheet of a whole stream; flag 4: the old one is made from the new.
fn moved(flags: u8, room: u32, given: &[u64], text: &str) -> String {
    let stream = hex(text);
    let mut data = [room, given.len() as u32].map(u32::to_le_bytes).concat();
    data.extend(given.iter().flat_map(|word| word.to_le_bytes()));
    data.extend(&stream);
    answers(&case(b'K', flags, 0, stream.len() as u32, &data))
}

#[test]
fn kept_sheets() {
    let old = [0x2000000024000000, 0x4000480004000000];
    let new = [old[0], 0x0000020000000000, old[1], 0];
    let lines =
        |words: &[u64]| -> String { words.iter().map(|word| format!(" {word:016x}")).collect() };
    let made = |words: &[u64]| format!("answer 0000000000000002\nwords{}\n", lines(words));
    assert_eq!(moved(0, 4, &old, ELEMENT), made(&new));
    assert_eq!(moved(4, 2, &new, ELEMENT), made(&old));
    assert_eq!(
        moved(4, 3, &new, ELEMENT),
        made(&[old[0], old[1], u64::MAX])
    );
    let refused = |number: u64, place: u64, room: usize| {
        let word = 1 << 63 | number << 56 | place;
        format!(
            "answer {word:016x}\nwords{}\n",
            lines(&vec![u64::MAX; room])
        )
    };
    // 16 comes last, and counts the words of the sheet that is made.
    assert_eq!(moved(0, 3, &old, ELEMENT), refused(16, 4, 3));
    assert_eq!(moved(4, 1, &new, ELEMENT), refused(16, 2, 1));
    // "at the first word wrong, missing or extra"
    assert_eq!(
        moved(0, 4, &[old[0], old[1] ^ 1], ELEMENT),
        refused(19, 1, 4)
    );
    assert_eq!(
        moved(0, 0, &[old[0] | 1 << 8, 0], ELEMENT),
        refused(19, 0, 0)
    );
    assert_eq!(moved(0, 4, &old[..1], ELEMENT), refused(19, 1, 4));
    assert_eq!(moved(0, 4, &[], ELEMENT), refused(19, 0, 4));
    assert_eq!(moved(0, 4, &new[..3], ELEMENT), refused(19, 1, 4));
    let more = [old[0], old[1], 0];
    assert_eq!(moved(0, 4, &more, ELEMENT), refused(19, 2, 4));
    assert_eq!(moved(4, 2, &new[..3], ELEMENT), refused(19, 3, 2));
    assert_eq!(
        moved(4, 2, &[new[0], 0, new[2], 0], ELEMENT),
        refused(19, 1, 2)
    );
    let more = [new[0], new[1], new[2], new[3], 0];
    assert_eq!(moved(4, 2, &more, ELEMENT), refused(19, 4, 2));
    // The walk's own comes first.
    assert_eq!(moved(0, 1, &[7], "10"), refused(9, 1, 1));
    // An open byte 41: the bit that the old sheet does not have.
    let text = "41 11223344 00020000 55667788 02 04 00";
    let old = [0x2000000034000000, 0x3000680004000000, 0x5000700004000000];
    let new = [old[0] | 1 << 8, 0x0000020000000000, old[1], 0, old[2], 0];
    let made = |words: &[u64]| format!("answer 0000000000000003\nwords{}\n", lines(words));
    assert_eq!(moved(0, 6, &old, text), made(&new));
    assert_eq!(moved(4, 3, &new, text), made(&old));
    assert_eq!(
        moved(0, 0, &[old[0] | 1 << 8, old[1], old[2]], text),
        refused(19, 0, 0)
    );
    let plain = [old[0], new[1], new[2], new[3], new[4], new[5]];
    assert_eq!(moved(4, 0, &plain, text), refused(19, 0, 0));
    // No tokens, and no words.
    let none = "answer 0000000000000000\nwords\n";
    assert_eq!(moved(0, 0, &[], "00"), none);
    assert_eq!(moved(4, 0, &[], "00"), none);
    assert_eq!(moved(4, 0, &[0], "00"), refused(19, 0, 0));
}

#[test]
fn bad_cases() {
    let bad = [
        case(b'C', 0, 0, 0, &[0; 3]),
        case(b'B', 0, 0, 0, &[0; 7]),
        case(b'K', 0, 0, 0, &[0; 7]),
        // One word is said to be given, and its last byte is missing.
        case(b'K', 0, 0, 0, &hex("00000000 01000000 11223344556677")),
        case(b'K', 0, 0, 0, &hex("00000000 FFFFFFFF 1122334455667788")),
    ];
    for short in bad {
        assert_eq!(common::answers(&short), "bad case\n");
    }
}
