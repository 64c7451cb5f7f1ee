//! Texts of few units, all of them over units around the surrogates: in every token and value that holds a text or a name
//! (document 02, P7).

use super::Case;
use super::streams::hash;
use super::token_cases::case;

/// A letter, zero, and the first and the last of high and low surrogates with their neighbours.
const UNITS: [u16; 8] = [
    0x0041, 0x0000, 0xd7ff, 0xd800, 0xdbff, 0xdc00, 0xdfff, 0xe000,
];

/// The most units of the exhaustive cases.
pub const MOST: u32 = 3;

/// Every list of up to so many units, with inline names and with offset names in place.
pub fn cases(most: u32) -> impl Iterator<Item = Case> {
    let lists = (0..=most).flat_map(every);
    lists.flat_map(|units| [true, false].map(|inline| stream(&units, inline)))
}

/// Every list of so many units.
fn every(length: u32) -> impl Iterator<Item = Vec<u16>> {
    let choices = UNITS.len();
    (0..choices.pow(length)).map(move |number| {
        let places = (0..length).map(|place| number / choices.pow(place) % choices);
        places.map(|choice| UNITS[choice]).collect()
    })
}

/// The walk over tokens that hold these units, one after the other.
fn stream(units: &[u16], inline: bool) -> Case {
    let text: Vec<u8> = units.iter().flat_map(|unit| unit.to_le_bytes()).collect();
    let count = (units.len() as u16).to_le_bytes();
    let counted = [&count[..], &text].concat();
    let mut bytes = Vec::new();
    for front in [&[0x07][..], &[0x0b], &[0x05, 0x01]] {
        bytes.extend(front);
        bytes.extend(&counted);
    }
    // Strings of a size: of the units, and of one zero unit more.
    bytes.extend([0x0c, 1, 7, 0, 0, 0, 0, 0, 0, 0, 2, 0, 0, 0]);
    let size = text.len() as u16;
    for size in [size, size + 2] {
        bytes.extend(size.to_le_bytes());
        bytes.extend([0x01, 0]);
    }
    bytes.extend(&text);
    bytes.extend(&text);
    bytes.extend([0, 0]);
    for front in [
        &[0x01, 0, 0, 0, 0][..],
        &[0x41, 0, 0, 0, 0],
        &[0x06],
        &[0x09],
        &[0x0a],
    ] {
        bytes.extend(front);
        if inline {
            bytes.extend(hash(units).to_le_bytes());
        } else {
            bytes.extend((bytes.len() as u32 + 4).to_le_bytes());
            bytes.extend([0; 6]);
        }
        bytes.extend(&counted);
        bytes.extend([0, 0]);
        if front[0] == 0x41 {
            bytes.extend([0; 4]);
        }
    }
    let flags = if inline { 2 } else { 0 };
    case(b'T', flags, 0, bytes.len() as u32, &bytes)
}
