//! Short streams, all of them: every stream of up to two bytes, every one of up to four over the bytes that mean something
//! to the walk, and every one of three bytes, by its first.

use super::Case;
use super::token_cases::case;

/// Token bytes, type codes and sizes: each ends, begins or turns a token somewhere.
const ALPHABET: [u8; 21] = [
    0x00, 0x01, 0x02, 0x03, 0x04, 0x05, 0x06, 0x07, 0x08, 0x09, 0x0a, 0x0b, 0x0c, 0x0d, 0x0e, 0x0f,
    0x10, 0x13, 0x41, 0x86, 0xff,
];

/// Dependencies or none, names inline or not.
const SETTINGS: [u8; 4] = [0, 1, 2, 3];

/// Every stream of up to two bytes, and of three and four over the alphabet, in all four settings.
pub fn cases() -> impl Iterator<Item = Case> {
    streams().flat_map(in_all_settings)
}

/// Every stream of up to two bytes, and of three and four over the alphabet.
pub fn streams() -> impl Iterator<Item = Vec<u8>> {
    let bytes: Vec<u8> = (0..=255).collect();
    let short = (0..=2).flat_map(move |length| every(bytes.clone(), length));
    let meant = (3..=4).flat_map(|length| every(ALPHABET.to_vec(), length));
    short.chain(meant)
}

/// Every stream of three bytes that begins with this one.
pub fn of_three(first: u8) -> impl Iterator<Item = Case> {
    (0..=u16::MAX).map(move |rest| {
        let [low, high] = rest.to_le_bytes();
        walk(0, &[first, low, high])
    })
}

fn in_all_settings(stream: Vec<u8>) -> impl Iterator<Item = Case> {
    SETTINGS.into_iter().map(move |flags| walk(flags, &stream))
}

/// Every stream of this length over these bytes.
fn every(bytes: Vec<u8>, length: u32) -> impl Iterator<Item = Vec<u8>> {
    let count = bytes.len().pow(length);
    (0..count).map(move |number| {
        let mut rest = number;
        (0..length)
            .map(|_| {
                let byte = bytes[rest % bytes.len()];
                rest /= bytes.len();
                byte
            })
            .collect()
    })
}

fn walk(flags: u8, stream: &[u8]) -> Case {
    case(b'T', flags, 0, stream.len() as u32, stream)
}
