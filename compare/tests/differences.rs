//! The list of differences: each row with its smallest input, what document 01 says by its second reading, and what the printed Rust says.

mod common;

use common::{both, case, hex, lending};
use compare::oracle::batch::EVENTS;
use compare::oracle::tokens::Asked;
use compare::{EvtxChunkData, ParserSettings, timed};
use std::sync::Arc;

/// Holds both answers to a case that meets this row.
fn differs(row: u8, case: &[u8], document: &str, rust: &str) {
    let (said, held) = both(case);
    assert_eq!(said, format!("{rust}.\n"));
    assert_eq!(held, format!("{document}meets {row}\ndiffers {row}\n.\n"));
}

/// Holds both to one answer, on a case that meets no row.
fn same(case: &[u8], answer: &str) {
    let (said, held) = both(case);
    assert_eq!(said, format!("{answer}.\n"));
    assert_eq!(held, said);
}

/// The case of a mode on a whole stream, offset names, no dependencies.
fn stream(mode: u8, text: &str) -> Vec<u8> {
    let data = hex(text);
    case(mode, 0, 0, data.len() as u32, &data)
}

/// The walk over a whole stream.
fn walk(text: &str) -> Vec<u8> {
    stream(b'T', text)
}

/// An instance with one value, its size and type, a byte, and its bytes.
fn instance(value: &str) -> String {
    format!("0C 00 00000000 00000000 01000000 {value}")
}

/// A chunk of zeros but for the magic and these bytes.
fn chunk(parts: &[(usize, &str)]) -> Vec<u8> {
    let mut chunk = vec![0; 65536];
    chunk[..8].copy_from_slice(b"ElfChnk\0");
    for (at, text) in parts {
        let bytes = hex(text);
        chunk[*at..*at + bytes.len()].copy_from_slice(&bytes);
    }
    chunk
}

#[test]
fn row_1_odd_string() {
    let cut = walk(&instance("0100 01 00"));
    differs(1, &cut, "refused 2 19\n", "refused 0 18\n");
    let empty = "0 19 1 0 0 - 1 01:1:18:19:t-\nok 1\n";
    let whole = walk(&instance("0100 01 00 00"));
    differs(1, &whole, empty, "refused 0 18\n");
}

#[test]
fn row_2_code_8e() {
    differs(2, &walk("05 8E"), "refused 7 2\n", "refused 8 2\n");
    let token = "0 4 13 0 0\nok 1\n";
    differs(2, &walk("0D 0000 8E"), "refused 7 4\n", token);
    let value = walk(&instance("0000 8E 00"));
    differs(2, &value, "refused 7 17\n", "refused 8 18\n");
}

#[test]
fn row_3_string_array() {
    let one_byte = "0 19 1 0 0 - 1 81:1:18:19:b00\nok 1\n";
    let odd = walk(&instance("0100 81 00 00"));
    differs(3, &odd, one_byte, "refused 3 18\n");
    // By the document the value ends at 20, and 00 ends the walk there.
    let by_size = "0 20 1 0 0 - 1 81:2:18:20:b4100\nok 1\n";
    let past = "0 22 1 0 0 - 1 81:2:18:22:b41000000\nok 1\n";
    differs(3, &walk(&instance("0200 81 00 4100 0000")), by_size, past);
    let cut = walk(&instance("0400 81 00 4100 41"));
    differs(3, &cut, "refused 3 18\n", "refused 3 20\n");
    // One that ends where its size says is no difference in what is read.
    let exact = "0 22 1 0 0 - 1 81:4:18:22:b41000000\nok 1\n";
    same(&walk(&instance("0400 81 00 4100 0000")), exact);
}

#[test]
fn row_4_sid_array() {
    let none = "0 18 1 0 0 - 1 93:0:18:18:b-\nok 1\n";
    differs(4, &walk(&instance("0000 93 00")), "refused 8 18\n", none);
    let one = "0 26 1 0 0 - 1 93:8:18:26:b0100000000000000\nok 1\n";
    let sid = walk(&instance("0800 93 00 0100000000000000"));
    differs(4, &sid, "refused 8 18\n", one);
}

#[test]
fn row_5_unsized_body() {
    differs(5, &walk("05 21"), "refused 8 2\n", "refused 3 2\n");
    let token = "0 4 6 21:-:2:4:b-\nok 1\n";
    differs(5, &walk("05 21 0000"), "refused 8 2\n", token);
}

/// The owner table and the sheet of these rows, where the token has no line of its own.
#[test]
fn unlisted_rows() {
    let owners =
        |row, text: &str, document, rust| differs(row, &stream(b'O', text), document, rust);
    owners(
        1,
        &instance("0100 01 00 00"),
        "owners 0\n",
        "refused 0 18\n",
    );
    owners(2, "0D 0000 8E", "refused 7 4\n", "refused 13 0\n");
    owners(
        3,
        &instance("0100 81 00 00"),
        "owners 0\n",
        "refused 3 18\n",
    );
    owners(4, &instance("0000 93 00"), "refused 8 18\n", "owners 0\n");
    owners(5, "05 21 0000", "refused 8 2\n", "refused 13 0\n");
    let unsized_body = hex("05 21 0000");
    let sheet = lending(b'C', 0, &[0], &unsized_body);
    differs(5, &sheet, "refused 8 2\nwords\n", "refused 16 2\nwords\n");
    let joined = lending(b'B', 0, &[0, 0], &unsized_body);
    let refused = |word: &str| format!("answer {word}\nsheet\ntable\n");
    let [document, rust] = ["8800000000000002", "8d00000000000000"].map(refused);
    differs(5, &joined, &document, &rust);
}

#[test]
fn row_6_end_outside() {
    let read = chunk(&[(65512, "2A2A0000 1C000000")]);
    let refused = "refused 3 65512\nresync none\n";
    let plain = "record 28 0 0 65536 0\nresync none\n";
    differs(6, &case(b'R', 0, 65512, 0, &read), refused, plain);
    let strict = "refused 17 65512\nresync none\n";
    differs(6, &case(b'R', 1, 65512, 0, &read), refused, strict);
    let walk = chunk(&[(48, "01020000"), (512, "2A2A0000 01FE0000")]);
    let live = "live 512 65025 0 0 536 64997\ndone\n";
    differs(
        6,
        &case(b'W', 0, 0, 0, &walk),
        "refused 3 512\ndone\n",
        live,
    );
}

/// Inside such a record a strict one: to the document it is live, or carved; the Rust never comes to it.
#[test]
fn row_6_strict_record_inside() {
    let parts = [
        (512, "2A2A0000 01FE0000"),
        (600, "2A2A0000 1C000000"),
        (624, "1C000000"),
    ];
    let swallowed = "live 512 65025 0 0 536 64997\ndone\n";
    let last_at_600 = [&parts[..], &[(44, "58020000"), (48, "00000100")]].concat();
    let live = "refused 3 512\nlive 600 28 0 0 624 0\ndone\n";
    let walk = case(b'W', 1, 0, 0, &chunk(&last_at_600));
    differs(6, &walk, live, swallowed);
    let none_live = [&parts[..], &[(48, "01020000")]].concat();
    let carved = "refused 3 512\ncarved 600 28 0 0 624 0\ndone\n";
    let walk = case(b'W', 1, 0, 0, &chunk(&none_live));
    differs(6, &walk, carved, swallowed);
}

#[test]
fn row_7_cut_header() {
    // A record up to 65513, not the last one, and one byte more said to be live.
    let walk = chunk(&[(32, "01"), (48, "EAFF"), (512, "2A2A0000 E9FD0000")]);
    let live = "live 512 65001 0 0 536 64973\n";
    let said = format!("{live}refused 3 65513\ndone\n");
    let silent = format!("{live}done\n");
    differs(7, &case(b'W', 0, 0, 0, &walk), &said, &silent);

    let mut step: Vec<u8> = [1_u64, 65535, 0, 0, 0]
        .iter()
        .flat_map(|word| word.to_le_bytes())
        .collect();
    step.extend(chunk(&[(48, "00000100")]));
    let said = "refused 3 65535\nstate 0 0 0 0 0\n";
    let silent = "done\nstate 0 0 0 0 0\n";
    differs(7, &case(b'P', 0, 0, 0, &step), said, silent);
}

#[test]
fn row_8_no_checksum() {
    let (rust, held) = both(&case(b'H', 0, 0, 0, &chunk(&[(120, "04")])));
    assert!(rust.contains("\nchecksum yes\n") && held.contains("\nchecksum no\n"));
    assert!(held.ends_with("\nmeets 8\ndiffers 8\n.\n"));
    // One byte of records, whose checksum is not the 0 that is stored.
    let no_events = chunk(&[(48, "01020000"), (120, "04")]);
    differs(
        8,
        &case(EVENTS, 0, 0, 0, &no_events),
        "events no\n",
        "events yes\n",
    );
}

#[test]
fn row_9_chunk_length() {
    // The batch puts the document's rule before the Rust, so the Rust is asked directly.
    assert!(EvtxChunkData::new(chunk(&[])[..512].to_vec(), false).is_ok());
    same(&case(b'H', 0, 0, 0, &chunk(&[])[..512]), "refused 1 0\n");
}

#[test]
fn row_11_string_table() {
    // Document: only length and magic are refused. The oracle leaves the string table out.
    let wild = chunk(&[(128, "00000100")]);
    let settings = Arc::new(ParserSettings::default());
    let mut data = EvtxChunkData::new(wild.clone(), false).expect("a header with its magic");
    assert!(data.parse(settings).is_err());
    same(&case(b'W', 0, 0, 0, &wild), "done\n");
}

#[test]
fn row_14_tokens_before_a_refusal() {
    // The Rust hands the close start on; of the sheet document 01 says that a refusal writes nothing.
    same(&walk("02 10"), "0 1 3\nrefused 9 2\n");
    let sheet = lending(b'C', 0, &[1], &hex("02 10"));
    same(&sheet, "refused 9 2\nwords ffffffffffffffff\n");
    let joined = lending(b'B', 0, &[1, 1], &hex("02 10"));
    let kept = "answer 8900000000000002\nsheet ffffffffffffffff\ntable ffffffff\n";
    same(&joined, kept);
}

#[test]
fn row_15_events_checksum() {
    // One byte of records, whose checksum is not the 0 that is stored.
    let one_byte = chunk(&[(48, "01020000")]);
    let data = EvtxChunkData::new(one_byte.clone(), false).expect("a header with its magic");
    assert!(!data.validate_data_checksum());
    // Where the header's checksum is right, and checksums are asked for, it refuses the chunk.
    let right = chunk(&[(48, "01020000"), (124, "29A037F1")]);
    let data = EvtxChunkData::new(right.clone(), false).expect("a header with its magic");
    assert!(data.validate_header_checksum());
    assert!(EvtxChunkData::new(right.clone(), true).is_err());
    let (rust, held) = both(&case(b'H', 0, 0, 0, &right));
    assert!(rust == held && rust.contains("\nchecksum yes\n"));
    same(&case(EVENTS, 0, 0, 0, &right), "events no\n");
}

#[test]
fn row_18_nan() {
    same(&walk("05 0B 0100A07F"), "0 6 6 0b:-:2:6:f7fa00001\nok 1\n");
}

#[test]
fn row_19_announced() {
    // What the Rust's walk tells its sink, in the words that the benchmark's sink makes of it: kind and name, no bit.
    let told = |text: &str| {
        let stream = hex(text);
        let asked = Asked {
            start: 0,
            length: stream.len(),
            dependencies: false,
            inline_names: false,
        };
        let mut words = [0; 2];
        assert_eq!(timed::sheet(&stream, asked)(&mut words), 1);
        words
    };
    let (plain, announced) = ("01 00000000 00020000", "41 00000000 00020000 00000000");
    assert_eq!(told(plain), [2 << 60, 512 << 32]);
    assert_eq!(told(announced), told(plain));
    // The oracle has the bit from where the walk read on.
    same(&walk(plain), "0 9 2 512 - 0 -\nok 1\n");
    same(&walk(announced), "0 13 2 512 - 1 -\nok 1\n");
}

#[test]
fn row_20_soundness() {
    // The Rust's walk hands out the view as it is; the standard library's decoder, which the oracle asks, does not take it.
    same(&walk("07 0100 00D8"), "0 5 11 00d8 0\nok 1\n");
    assert!(char::decode_utf16([0xd800]).any(|char| char.is_err()));
}
