//! Every type code, as a value token and as a descriptor with each size up to 40, over data cut at every place.

use super::Case;
use super::streams::KNOWN;
use super::token_cases::case;

const MOST_SIZE: u16 = 40;
/// How much data a value is read from.
const DATA: u8 = 48;
/// Known to the Rust and not to the document.
const BINARY_ARRAY: u8 = 0x8e;

pub fn cases() -> impl Iterator<Item = Case> {
    (0..=255).flat_map(|code| value_tokens(code).chain(descriptors(code)))
}

fn value_tokens(code: u8) -> impl Iterator<Item = Case> {
    data(code).map(move |data| walk([vec![0x05, code], data].concat()))
}

fn descriptors(code: u8) -> impl Iterator<Item = Case> {
    (0..=MOST_SIZE).flat_map(move |size| {
        let [low, high] = size.to_le_bytes();
        let head = vec![
            0x0c, 1, 7, 0, 0, 0, 0, 2, 0, 0, 1, 0, 0, 0, low, high, code, 0,
        ];
        data(code).map(move |data| walk([head.clone(), data].concat()))
    })
}

/// Data in three forms, each cut at every place: numbers below zero, units with zeros between them, and a string's count before its units.
/// No data decides about an unknown code.
fn data(code: u8) -> impl Iterator<Item = Vec<u8>> {
    let below_zero: Vec<u8> = (0..DATA).map(|place| 255 - place).collect();
    let zeros: Vec<u8> = (0..DATA)
        .map(|place| if place % 8 < 6 { place } else { 0 })
        .collect();
    let counted = [vec![5, 0], (2..DATA).collect()].concat();
    let known = KNOWN.contains(&code) || code == BINARY_ARRAY;
    let ends = if known { 0..=usize::from(DATA) } else { 0..=0 };
    [below_zero, zeros, counted]
        .into_iter()
        .flat_map(move |data| ends.clone().map(move |end| data[..end].to_vec()))
}

fn walk(stream: Vec<u8>) -> Case {
    case(b'T', 0, 0, stream.len() as u32, &stream)
}
