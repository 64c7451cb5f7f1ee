//! 'Values', sentence by sentence.

use super::reader::{Read, Reader, number};
use crate::oracle::hex;

/// A value: where it starts, where the walk reads on, and its content as the batch format writes it.
pub struct Value {
    pub code: u8,
    pub size: Option<u16>,
    pub start: usize,
    next: usize,
    content: String,
}

impl Value {
    pub(super) fn field(&self) -> String {
        let Value {
            code,
            start,
            next,
            content,
            ..
        } = self;
        let size = self.size.map_or("-".to_owned(), |size| size.to_string());
        format!("{code:02x}:{size}:{start}:{next}:{content}")
    }
}

/// "the known codes: 00 to 15, 20, 21, 23, 81 to 8D, 8F to 95 (hex)."
fn known(code: u8) -> bool {
    matches!(code, 0x00..=0x15 | 0x20 | 0x21 | 0x23 | 0x81..=0x8d | 0x8f..=0x95)
}

/// "Widths: 03, 04: 1; 05, 06: 2; 07, 08, 0B, 0D, 14: 4; 09, 0A, 0C, 11, 15: 8; 0F, 12: 16."
pub(super) fn width(code: u8) -> Option<usize> {
    match code {
        0x03 | 0x04 => Some(1),
        0x05 | 0x06 => Some(2),
        0x07 | 0x08 | 0x0b | 0x0d | 0x14 => Some(4),
        0x09 | 0x0a | 0x0c | 0x11 | 0x15 => Some(8),
        0x0f | 0x12 => Some(16),
        _ => None,
    }
}

/// "type code unknown", "after the code".
pub(super) fn read_code(reader: &mut Reader<'_>) -> Read<u8> {
    let code = reader.byte()?;
    if known(code) {
        Ok(code)
    } else {
        Reader::refuse(7, reader.at)
    }
}

/// "the view stops before the first zero unit."
pub(super) fn view(bytes: &[u8]) -> &[u8] {
    let units = bytes.as_chunks::<2>().0;
    let count = units.iter().take_while(|unit| **unit != [0, 0]).count();
    &bytes[..2 * count]
}

/// "well-formed UTF-16 (each high surrogate followed by a low one, no low one alone)" (document 02, P7).
pub(super) fn sound(bytes: &[u8]) -> bool {
    let units: Vec<u16> = bytes
        .chunks_exact(2)
        .map(|unit| number(unit) as u16)
        .collect();
    let high = |at: usize| matches!(units.get(at), Some(0xd800..=0xdbff));
    let low = |at: usize| matches!(units.get(at), Some(0xdc00..=0xdfff));
    let followed = (0..units.len()).all(|at| !high(at) || low(at + 1));
    let alone = (0..units.len()).any(|at| low(at) && (at == 0 || !high(at - 1)));
    followed && !alone
}

/// "With a size s: .. Short read: on to start plus s. Read past s: the position stays."
pub(super) fn read_sized(reader: &mut Reader<'_>, code: u8, size: u16) -> Read<Value> {
    let (start, s) = (reader.at, usize::from(size));
    let content = match code {
        // "00 reads nothing and s bytes are skipped"
        0x00 => content(code, &[]),
        // "01 reads the even part of s, view before the first zero unit"
        0x01 => content(code, view(reader.take(s - s % 2)?)),
        // "02, 0E, 21, 81, 82 read s"
        0x02 | 0x0e | 0x21 | 0x81 | 0x82 => content(code, reader.take(s)?),
        // "10 reads 4 or 8 if s is that, else refusal 8"
        0x10 if s == 4 || s == 8 => content(code, reader.take(s)?),
        0x13 => content(code, read_sid(reader)?),
        // "20, 23, 90, 93: refusal 8"
        0x10 | 0x20 | 0x23 | 0x90 | 0x93 => return Reader::refuse(8, start),
        // "other arrays need the element width to divide s (checked before the bytes) and read s"
        0x83.. => match width(code - 0x80) {
            Some(element) if s % element == 0 => content(code, reader.take(s)?),
            _ => return Reader::refuse(10, start),
        },
        _ => content(
            code,
            reader.take(width(code).expect("a code with a width"))?,
        ),
    };
    if reader.at < start + s {
        reader.set(start + s)?;
    }
    Ok(Value {
        code,
        size: Some(size),
        start,
        next: reader.at,
        content,
    })
}

/// "Without a size (value token): type byte, then as above for 00, 13 and the widths; 01 takes u16 n and n units; the rest:
/// 8, after the type byte."
pub(super) fn read_unsized(reader: &mut Reader<'_>) -> Read<Value> {
    let code = read_code(reader)?;
    let start = reader.at;
    let content = match (code, width(code)) {
        (0x00, _) => content(code, &[]),
        (0x01, _) => {
            let units = usize::from(reader.half()?);
            content(code, view(reader.take(2 * units)?))
        }
        (0x13, _) => content(code, read_sid(reader)?),
        (_, Some(width)) => content(code, reader.take(width)?),
        (_, None) => return Reader::refuse(8, start),
    };
    Ok(Value {
        code,
        size: None,
        start,
        next: reader.at,
        content,
    })
}

/// "13 reads 8 + 4 × its byte 1": one read, so too few bytes stand at its start.
fn read_sid<'a>(reader: &mut Reader<'a>) -> Read<&'a [u8]> {
    let head = reader.clone().take(8)?;
    reader.take(8 + 4 * usize::from(head[1]))
}

/// "A number decodes to signed (03, 05, 07, 09), unsigned (04, 06, 08, 0A, 0D, 10, 11, 14, 15), or a real whose bits are the
/// stored bytes (0B, 0C)."
fn content(code: u8, bytes: &[u8]) -> String {
    match code {
        0x00 => "n".to_owned(),
        // "Strings .. pass this on", "Unsound text is still handed out" (document 02, P7).
        0x01 if sound(bytes) => format!("t{}", hex(bytes)),
        0x01 => format!("x{}", hex(bytes)),
        0x03 | 0x05 | 0x07 | 0x09 => {
            let unused = 64 - 8 * bytes.len();
            format!("i{}", (number(bytes) << unused) as i64 >> unused)
        }
        0x04 | 0x06 | 0x08 | 0x0a | 0x0d | 0x10 | 0x11 | 0x14 | 0x15 => {
            format!("u{}", number(bytes))
        }
        0x0b | 0x0c => format!("f{:0digits$x}", number(bytes), digits = 2 * bytes.len()),
        _ => format!("b{}", hex(bytes)),
    }
}
