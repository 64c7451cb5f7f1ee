//! Document 01's samples, as far as the printed Rust has a call for them, through the oracle.

mod common;

use common::{case, hex};
use compare::oracle::batch::EVENTS;
use compare::oracle::leaves;
use compare::oracle::refusal::Refusal;

fn answers(batch: &[u8]) -> String {
    common::answers(batch)
}

/// The walk over a whole stream, offset names, no dependencies.
fn walk(text: &str) -> String {
    let data = hex(text);
    answers(&case(b'T', 0, 0, data.len() as u32, &data))
}

#[test]
fn empty_streams() {
    assert_eq!(answers(&case(b'T', 0, 0, 0, &[])), "ok 0\n.\n");
    assert_eq!(answers(&case(b'T', 0, 0, 1, &[])), "refused 3 0\n.\n");
    assert_eq!(answers(&case(b'T', 0, 1, 0, &[])), "refused 2 1\n.\n");
}

#[test]
fn unknown_token() {
    assert_eq!(walk("10"), "refused 9 1\n.\n");
}

#[test]
fn element_and_its_dependency() {
    let plain = "0 9 2 512 - 0 -\n9 1 4\nok 2\n.\n";
    assert_eq!(walk("01 00000000 00020000 03 00"), plain);
    let with_dependency = |text: &str| {
        let data = hex(text);
        answers(&case(b'T', 1, 0, data.len() as u32, &data))
    };
    let none = "0 11 2 512 - 0 -\n11 1 4\nok 2\n.\n";
    let zero = "0 11 2 512 0 0 -\n11 1 4\nok 2\n.\n";
    assert_eq!(with_dependency("01 FFFF 00000000 00020000 03 00"), none);
    assert_eq!(with_dependency("01 0000 00000000 00020000 03 00"), zero);
}

/// Document 02, P2: "if an open byte was 41 or 01, and where its name stands".
#[test]
fn announced_and_name() {
    let announced = "0 13 2 512 - 1 -\n13 1 4\nok 2\n.\n";
    assert_eq!(walk("41 00000000 00020000 00000000 03 00"), announced);
    // The byte decides, whatever follows.
    let attribute = "0 9 2 0 - 0 -\n9 5 7 4294967295 -\n14 1 4\nok 3\n.\n";
    assert_eq!(walk("01 00000000 00000000 06 FFFFFFFF 03"), attribute);
    // A name in place: its offset is where it stands.
    let in_place = "0 23 2 9 - 1 -\n23 1 4\nok 2\n.\n";
    let text = "41 00000000 09000000 00000000 0000 0000 0000 00000000 03";
    assert_eq!(walk(text), in_place);
    // An inline name's is its start, counted from the stream's byte 0.
    let inline = hex("AA 41 0000 00000000 0000 0000 0000 00000000 0A 0000 0000 0000");
    let lines = "1 17 2 8 0 1 1\n18 7 9 19 1\nok 2\n.\n";
    assert_eq!(answers(&case(b'T', 3, 1, 24, &inline)), lines);
    // Cut in the length that only 41 has.
    assert_eq!(walk("41 00000000 00020000 000000"), "refused 3 9\n.\n");
}

/// Document 02, P7: "each high surrogate followed by a low one, no low one alone".
#[test]
fn soundness() {
    // A pair, a high one alone, a low one alone, and the two in the wrong order.
    assert_eq!(walk("07 0200 00D8 00DC"), "0 7 11 00d800dc 1\nok 1\n.\n");
    assert_eq!(walk("07 0100 FFDB"), "0 5 11 ffdb 0\nok 1\n.\n");
    assert_eq!(walk("0B 0100 FFDF"), "0 5 10 ffdf 0\nok 1\n.\n");
    assert_eq!(walk("0B 0200 00DC 00D8"), "0 7 10 00dc00d8 0\nok 1\n.\n");
    // Their neighbours are no surrogates, and a text without units is sound.
    assert_eq!(walk("07 0200 FFD7 00E0"), "0 7 11 ffd700e0 1\nok 1\n.\n");
    assert_eq!(walk("07 0000"), "0 3 11 - 1\nok 1\n.\n");
    // A text is judged on its view, which a zero unit cuts.
    assert_eq!(walk("07 0300 4100 0000 00D8"), "0 9 11 4100 1\nok 1\n.\n");
    assert_eq!(walk("07 0300 00D8 0000 00DC"), "0 9 11 00d8 0\nok 1\n.\n");
    // Strings with a size and without.
    let string = "0 6 6 01:-:2:6:x00dc\nok 1\n.\n";
    assert_eq!(walk("05 01 0100 00DC"), string);
    let sized = "0 20 1 7 512 - 1 01:2:18:20:x00d8\nok 1\n.\n";
    assert_eq!(instance(2, 0x01, "00D8"), sized);
    // No array and no bytes are text.
    let array = "0 20 1 7 512 - 1 81:2:18:20:b0000\nok 1\n.\n";
    assert_eq!(instance(2, 0x81, "0000"), array);
}

/// "An inline name is judged on all its counted units"; "offset names aren't judged".
#[test]
fn soundness_of_names() {
    let inline = |text: &str| {
        let data = hex(text);
        answers(&case(b'T', 2, 0, data.len() as u32, &data))
    };
    let sound = "0 11 7 1 1\nok 1\n.\n";
    assert_eq!(inline("06 4110 0200 4100 4200 0000"), sound);
    // The high surrogate stands behind a zero unit: the hash is D800.
    let unsound = "0 11 8 1 0\nok 1\n.\n";
    assert_eq!(inline("09 00D8 0200 0000 00D8 0000"), unsound);
    // In place, with half a pair: no word about it.
    let offset = "0 17 9 5 -\nok 1\n.\n";
    assert_eq!(walk("0A 05000000 00000000 0000 0100 00D8 0000"), offset);
}

#[test]
fn value_alone() {
    let read = "0 8 6 01:-:2:8:t41004200\nok 1\n.\n";
    assert_eq!(walk("05 01 0200 4100 4200"), read);
}

#[test]
fn inline_name_hash() {
    let name = |hash| leaves::name(&hex(&format!("{hash} 0200 4100 4200 0000")), 0, true);
    assert_eq!(name("4110"), Ok((0, 10)));
    assert_eq!(name("4210"), Err(Refusal::new(12, 0)));
}

/// The instance sample with one value of this size and type, and `value` as its bytes.
fn instance(size: u8, code: u8, value: &str) -> String {
    walk(&format!(
        "0C 01 07000000 00020000 01000000 {size:02X}00 {code:02X}00 {value}"
    ))
}

#[test]
fn instance_values() {
    // The sample's size is 2: the read of four bytes goes past it, and the walk stays there.
    let past = "0 22 1 7 512 - 1 08:2:18:22:u42\nok 1\n.\n";
    assert_eq!(instance(2, 0x08, "2A000000"), past);
    let exact = "0 22 1 7 512 - 1 08:4:18:22:u42\nok 1\n.\n";
    assert_eq!(instance(4, 0x08, "2A000000"), exact);
    let short = "0 24 1 7 512 - 1 08:6:18:24:u42\nok 1\n.\n";
    assert_eq!(instance(6, 0x08, "2A0000000000"), short);
    assert_eq!(instance(6, 0x08, "2A00000000"), "refused 2 24\n.\n");
    assert_eq!(instance(3, 0x86, "2A000000"), "refused 10 18\n.\n");
}

#[test]
fn single_instance() {
    let single = |text: &str| answers(&case(b'S', 0, 0, 0, &hex(text)));
    assert_eq!(single("0F0101000C"), "single none\nends no\n.\n");
    assert_eq!(single("0F0101000C00"), "single 5\nends no\n.\n");
    assert_eq!(single("0C"), "single 1\nends no\n.\n");
    let ends = |at| answers(&case(b'S', 0, at, 0, &hex("0C 00")));
    assert_eq!(ends(1), "single 1\nends yes\n.\n");
    assert_eq!(ends(2), "single 1\nends yes\n.\n");
    assert_eq!(ends(3), "single 1\nends none\n.\n");
}

/// The chunk of document 01's listing sample.
fn listing_chunk() -> Vec<u8> {
    let mut chunk = vec![0; 65536];
    chunk[..8].copy_from_slice(b"ElfChnk\0");
    for (at, id) in [(24, 7_u64), (32, 7)] {
        chunk[at..at + 8].copy_from_slice(&id.to_le_bytes());
    }
    chunk[44..48].copy_from_slice(&512_u32.to_le_bytes());
    chunk[48..52].copy_from_slice(&540_u32.to_le_bytes());
    for (at, id) in [(512, 7_u64), (600, 3)] {
        chunk[at..at + 2].copy_from_slice(b"**");
        chunk[at + 4] = 28;
        chunk[at + 8..at + 16].copy_from_slice(&id.to_le_bytes());
        chunk[at + 24] = 28;
    }
    chunk
}

#[test]
fn listing_sample() {
    let chunk = listing_chunk();
    let live = "live 512 28 7 0 536 0\n";
    let carved = "carved 600 28 3 0 624 0\n";
    let with = answers(&case(b'W', 1, 0, 0, &chunk));
    assert_eq!(with, format!("{live}{carved}done\n.\n"));
    let without = answers(&case(b'W', 0, 0, 0, &chunk));
    assert_eq!(without, format!("{live}done\n.\n"));
}

#[test]
fn listing_sample_step_by_step() {
    let chunk = listing_chunk();
    let step = |state: [u64; 5]| {
        let mut data: Vec<u8> = state.iter().flat_map(|word| word.to_le_bytes()).collect();
        data.extend(&chunk);
        answers(&case(b'P', 0, 0, 0, &data))
    };
    let start = step([1, 512, 0, 0, 1]);
    assert_eq!(start, "live 512 28 7 0 536 0\nstate 0 0 540 65536 1\n.\n");
    let carved = step([0, 0, 540, 65536, 1]);
    assert_eq!(
        carved,
        "carved 600 28 3 0 624 0\nstate 0 0 628 65536 1\n.\n"
    );
    let done = step([0, 0, 628, 65536, 1]);
    assert_eq!(done, "done\nstate 0 0 65536 65536 1\n.\n");
}

#[test]
fn record_reads() {
    let chunk = listing_chunk();
    let read = |at, strict| answers(&case(b'R', strict, at, 0, &chunk));
    assert_eq!(read(512, 1), "record 28 7 0 536 0\nresync none\n.\n");
    assert_eq!(read(511, 0), "refused 4 511\nresync 512\n.\n");
    assert_eq!(read(65520, 0), "refused 3 65520\nresync none\n.\n");

    let mut late = chunk.clone();
    let highest = 2_650_466_808_009_999_999_u64;
    late[528..536].copy_from_slice(&highest.to_le_bytes());
    let taken = answers(&case(b'R', 0, 512, 0, &late));
    assert_eq!(
        taken,
        format!("record 28 7 {highest} 536 0\nresync none\n.\n")
    );
    late[528..536].copy_from_slice(&(highest + 1).to_le_bytes());
    let refused = answers(&case(b'R', 0, 512, 0, &late));
    assert_eq!(refused, "refused 6 512\nresync none\n.\n");
}

#[test]
fn refused_chunks() {
    let chunk = listing_chunk();
    for mode in [b'H', EVENTS, b'W'] {
        assert_eq!(
            answers(&case(mode, 0, 0, 0, &chunk[1..])),
            "refused 1 0\n.\n"
        );
        let mut other = chunk.clone();
        other[0] = b'F';
        assert_eq!(answers(&case(mode, 0, 0, 0, &other)), "refused 4 0\n.\n");
    }
    assert_eq!(
        answers(&case(b'T', 0, 0, 0, &[0; 65537])),
        "refused 1 0\n.\n"
    );
}

#[test]
fn header_checksum() {
    let mut chunk = listing_chunk();
    assert!(answers(&case(b'H', 0, 0, 0, &chunk)).contains("\nchecksum no\n"));
    // CRC-32 of "123456789", the usual check value.
    assert_eq!(compare::checksum_ieee(b"123456789"), 0xcbf4_3926);
    let sum = compare::checksum_ieee(&[&chunk[..120], &chunk[128..512]].concat());
    chunk[124..128].copy_from_slice(&sum.to_le_bytes());
    let answer = answers(&case(b'H', 0, 0, 0, &chunk));
    assert!(answer.starts_with(&format!(
        "header 0 0 7 7 0 512 540 0 0 {sum}\nchecksum yes\n"
    )));
}

#[test]
fn events_checksum() {
    let mut chunk = listing_chunk();
    assert_eq!(answers(&case(EVENTS, 0, 0, 0, &chunk)), "events no\n.\n");
    let sum = compare::checksum_ieee(&chunk[512..540]);
    chunk[52..56].copy_from_slice(&sum.to_le_bytes());
    assert_eq!(answers(&case(EVENTS, 0, 0, 0, &chunk)), "events yes\n.\n");
    // A free space offset of 512 leaves no bytes, and their CRC is 0; below it and past the chunk there are none to look at.
    chunk[52..56].fill(0);
    for (free, said) in [(512, "yes"), (511, "no"), (65537, "no"), (u32::MAX, "no")] {
        chunk[48..52].copy_from_slice(&free.to_le_bytes());
        assert_eq!(
            answers(&case(EVENTS, 0, 0, 0, &chunk)),
            format!("events {said}\n.\n")
        );
    }
}

#[test]
fn bad_cases() {
    assert_eq!(answers(&case(b'X', 0, 0, 0, &[])), "bad case\n");
    assert_eq!(answers(&case(b'P', 0, 0, 0, &[0; 39])), "bad case\n");
    assert_eq!(answers(&case(b'T', 0, 0, 0, &[0; 331_777])), "bad case\n");
    assert_eq!(answers(&case(b'S', 0, 0, 0, &[0; 2])[..15]), "bad case\n");
    assert_eq!(answers(&case(b'S', 0, 0, 0, &[])[..13]), "bad case\n");
    assert_eq!(answers(&[]), "");
}
