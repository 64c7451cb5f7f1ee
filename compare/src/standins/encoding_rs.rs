//! encoding_rs: one code page.
//!
//! Windows-1252 takes every byte, and that is all that the comparison needs of it: ANSI text is
//! compared as the bytes that were read. The characters given here are those of Latin-1.

use std::borrow::Cow;

#[derive(Debug)]
pub struct Encoding;

pub static WINDOWS_1252: &Encoding = &Encoding;

impl Encoding {
    pub fn name(&self) -> &'static str {
        "windows-1252"
    }

    pub fn decode_without_bom_handling_and_without_replacement<'a>(
        &self,
        bytes: &'a [u8],
    ) -> Option<Cow<'a, str>> {
        Some(match std::str::from_utf8(bytes) {
            Ok(text) if text.is_ascii() => Cow::Borrowed(text),
            _ => Cow::Owned(bytes.iter().map(|&byte| char::from(byte)).collect()),
        })
    }
}
