//! Where the printed Rust takes a value of type 21 for something else than document 02's request P9: each row of the list of differences with its
//! smallest input, by the second reading of mode N and by what the Rust builds (binxml/ir.rs).

mod common;

use common::{both, case, hex};
use compare::oracle::content::{Built, of_record};

/// Where the definition that all instances name stands in the chunk, and the record's stream.
const DEFINITION: usize = 1024;
const STREAM: usize = 4096;
/// The name of all elements, which has no units.
const NAME: &str = "00080000";

/// A chunk with a definition of one empty element, and a stream.
fn chunk(stream: &[u8]) -> Vec<u8> {
    let body = hex(&format!("01 FFFF 00000000 {NAME} 03 00"));
    let mut chunk = vec![0; 65536];
    chunk[..8].copy_from_slice(b"ElfChnk\0");
    chunk[DEFINITION + 20] = body.len() as u8;
    chunk[DEFINITION + 24..][..body.len()].copy_from_slice(&body);
    chunk[STREAM..STREAM + stream.len()].copy_from_slice(stream);
    chunk
}

/// An instance of that definition with values of these types, sizes and bytes.
fn instance(values: &[(u8, usize, &[u8])]) -> Vec<u8> {
    let mut bytes = hex("0C 00 00000000 00040000");
    bytes.extend((values.len() as u32).to_le_bytes());
    for (code, size, _) in values {
        bytes.extend((*size as u16).to_le_bytes());
        bytes.extend([*code, 0]);
    }
    bytes.extend(values.iter().flat_map(|(_, _, bytes)| *bytes));
    bytes
}

/// An instance with one value of type 21.
fn inside(body: &[u8]) -> Vec<u8> {
    instance(&[(0x21, body.len(), body)])
}

fn element() -> Vec<u8> {
    hex(&format!("01 00000000 {NAME} 03"))
}

/// The word that the call answers on a stream in its chunk by the second reading, a place in it counted from the stream's start, and what
/// the Rust builds of it.
fn asked(stream: &[u8]) -> (Answer, Result<Built, String>) {
    let chunk = chunk(stream);
    let (start, length) = (STREAM as u32, stream.len() as u32);
    let data = [&[0; 8], &chunk[..]].concat();
    let (_, held) = both(&case(b'N', 0, start, length, &data));
    let word = held.split(['\n', ' ']).nth(1).expect("a word");
    let word = u64::from_str_radix(word, 16).expect("a word");
    let (number, place) = (word >> 56 & 0x7f, word & 0xff_ffff_ffff);
    let answer = match number {
        // No words are lent: the need says that the body is accepted.
        16 => Answer::Tokens(place / 2),
        13..=15 | 20 => Answer::Refused(number, place),
        _ => Answer::Refused(number, place - STREAM as u64),
    };
    (answer, of_record(&chunk, STREAM, stream.len()))
}

#[derive(Debug, PartialEq, Eq)]
enum Answer {
    Tokens(u64),
    Refused(u64, u64),
}
use Answer::{Refused, Tokens};

/// Both answers to a stream that is one instance with one value.
fn same_value(stream: &[u8], answer: Answer, value: Built) {
    assert_eq!(asked(stream), (answer, Ok(Built::Instance(vec![value]))));
}

/// What the Rust says against a stream.
fn against(stream: &[u8], answer: Answer, what: &str) {
    let (said, rust) = asked(stream);
    assert_eq!(said, answer);
    assert!(rust.is_err_and(|err| err.contains(what)));
}

/// So many instances, each in the value of the one before, and this body in the last.
fn deep(instances: usize, body: &[u8]) -> Vec<u8> {
    (0..instances).fold(body.to_vec(), |body, _| inside(&body))
}

#[test]
fn both_read() {
    same_value(&inside(&element()), Tokens(3), Built::Elements(1));
    let inner = Built::Instance(vec![Built::Elements(1)]);
    same_value(&inside(&inside(&element())), Tokens(4), inner);
}

#[test]
fn row_v1_empty() {
    same_value(&inside(&[]), Refused(15, 1), Built::Nothing);
}

#[test]
fn row_v2_no_element() {
    same_value(&inside(&[0]), Refused(15, 1), Built::Elements(0));
    let fragment = inside(&[0x0f, 1, 1, 0]);
    same_value(&fragment, Refused(15, 1), Built::Elements(0));
}

#[test]
fn row_v3_several_roots() {
    let two = inside(&[element(), element()].concat());
    same_value(&two, Refused(13, 3), Built::Elements(2));
    let two = inside(&[instance(&[]), instance(&[])].concat());
    same_value(&two, Refused(13, 2), Built::Elements(2));
}

#[test]
fn row_v4_levels() {
    assert_eq!(asked(&deep(8, &element())).0, Tokens(10));
    for instances in [9, 64] {
        let (answer, rust) = asked(&deep(instances, &element()));
        assert_eq!(answer, Refused(21, 9 * 18));
        assert!(rust.is_ok());
    }
    let more = deep(65, &element());
    against(
        &more,
        Refused(21, 9 * 18),
        "BinXML fragments nested too deeply",
    );
}

#[test]
fn row_v5_past_its_value() {
    let cut = instance(&[(0x21, 13, &instance(&[]))]);
    same_value(&cut, Refused(29, 18), Built::Instance(Vec::new()));
    let fragment = instance(&[(0x21, 1, &[0x0f, 0, 0, 0])]);
    same_value(&fragment, Refused(29, 18), Built::Elements(0));
}

#[test]
fn row_v6_without_a_size() {
    let value = |inner: &str| hex(&format!("01 00000000 {NAME} 02 05 21 {inner} 04"));
    let (answer, rust) = asked(&value("0000"));
    assert_eq!((answer, rust), (Refused(8, 12), Ok(Built::Elements(1))));
    let inner = format!("0A00 01 00000000 {NAME} 03");
    let (answer, rust) = asked(&value(&inner));
    assert_eq!((answer, rust), (Refused(8, 12), Ok(Built::Elements(2))));
}

#[test]
fn row_v7_order() {
    let values = instance(&[(0x21, 1, &[0x10]), (0x20, 0, &[])]);
    against(&values, Refused(9, 23), "EvtHandle");
}

#[test]
fn row_v8_attributes() {
    let none = inside(&hex(&format!("41 00000000 {NAME} 00000000 03")));
    same_value(&none, Refused(20, 2), Built::Elements(1));
    let one = inside(&hex(&format!("01 00000000 {NAME} 06 {NAME} 03")));
    same_value(&one, Refused(20, 2), Built::Elements(1));
}

#[test]
fn row_v9_instructions() {
    let pair = hex(&format!("0A {NAME} 0B 0000"));
    let led = inside(&[pair, element()].concat());
    against(&led, Tokens(5), "value outside of element");
}
