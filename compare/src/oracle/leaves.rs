//! The printed readers one by one: a position goes in, and what was read and the position after
//! it come out, or a refusal.
//!
//! A position past the buffer's end is refused 2 before any read, as by the printed cursor.

use crate::Bump;
use crate::binxml::name::read_name_ref;
use crate::err::DeserializationResult;
use crate::oracle::refusal::Refusal;
use crate::utils::{ByteCursor, Utf16LeSlice};

pub type Answer<T> = Result<T, Refusal>;

/// Text units: where the view starts, its length in bytes, and the position after all that was
/// read.
#[derive(Debug, Clone, Copy, PartialEq, Eq)]
pub struct View {
    pub start: usize,
    pub length: usize,
    pub next: usize,
}

/// Runs `read` at `pos` and gives what it read with the position after it.
fn at<'a, T>(
    buf: &'a [u8],
    pos: usize,
    read: impl FnOnce(&mut ByteCursor<'a>) -> DeserializationResult<T>,
) -> Answer<(T, usize)> {
    let run = || {
        let mut cursor = ByteCursor::with_pos(buf, pos)?;
        let value = read(&mut cursor)?;
        Ok((value, cursor.pos()))
    };
    run().map_err(|err| Refusal::of_read(&err))
}

pub fn u8_at(buf: &[u8], pos: usize) -> Answer<(u64, usize)> {
    at(buf, pos, |cursor| Ok(u64::from(cursor.u8()?)))
}

pub fn u16_at(buf: &[u8], pos: usize) -> Answer<(u64, usize)> {
    at(buf, pos, |cursor| Ok(u64::from(cursor.u16()?)))
}

pub fn u32_at(buf: &[u8], pos: usize) -> Answer<(u64, usize)> {
    at(buf, pos, |cursor| Ok(u64::from(cursor.u32()?)))
}

pub fn u64_at(buf: &[u8], pos: usize) -> Answer<(u64, usize)> {
    at(buf, pos, |cursor| cursor.u64())
}

/// Sets the position to `to`; the answer is the position.
pub fn set(buf: &[u8], pos: usize, to: u64) -> Answer<usize> {
    at(buf, pos, |cursor| cursor.set_pos_u64(to, "set")).map(|((), next)| next)
}

/// `n` bytes.
pub fn take(buf: &[u8], pos: usize, n: usize) -> Answer<(&[u8], usize)> {
    at(buf, pos, |cursor| cursor.take_bytes(n, "take"))
}

/// A security identifier's bytes.
pub fn sid(buf: &[u8], pos: usize) -> Answer<(&[u8], usize)> {
    at(buf, pos, |cursor| Ok(cursor.read_sid_ref()?.as_bytes()))
}

/// The offset of each element of an array of `size` bytes. The printed reader takes the width as
/// a constant, so there is one for each width that is asked for: 0, 1, 2, 4, 8 and 16.
pub fn array(buf: &[u8], pos: usize, width: usize, size: u16) -> Answer<(Vec<u64>, usize)> {
    match width {
        0 => array_of::<0>(buf, pos, size),
        1 => array_of::<1>(buf, pos, size),
        2 => array_of::<2>(buf, pos, size),
        4 => array_of::<4>(buf, pos, size),
        8 => array_of::<8>(buf, pos, size),
        16 => array_of::<16>(buf, pos, size),
        _ => panic!("no array has elements of {width} bytes"),
    }
}

fn array_of<const WIDTH: usize>(buf: &[u8], pos: usize, size: u16) -> Answer<(Vec<u64>, usize)> {
    let bump = Bump::new();
    let run = || {
        let mut cursor = ByteCursor::with_pos(buf, pos)?;
        let offsets = cursor.read_sized_slice_aligned_in::<WIDTH, u64>(
            size,
            "array",
            &bump,
            |offset, element| {
                let from = offset as usize;
                assert_eq!(&buf[from..from + WIDTH], element);
                Ok(offset)
            },
        )?;
        Ok((offsets.to_vec(), cursor.pos()))
    };
    run().map_err(|err| Refusal::of_read(&err))
}

/// `n` text units.
pub fn counted(buf: &[u8], pos: usize, n: usize) -> Answer<View> {
    let read = at(buf, pos, |cursor| cursor.utf16_by_char_count(n, "counted"));
    read.map(|(text, next)| view(buf, text, pos, next))
}

/// A u16 count of text units, then the units and, if `terminated`, one unit more.
pub fn prefixed(buf: &[u8], pos: usize, terminated: bool) -> Answer<View> {
    let read = at(buf, pos, |cursor| {
        cursor.len_prefixed_utf16_string(terminated, "prefixed")
    });
    read.map(|(text, next)| view(buf, text, pos + 2, next))
}

/// Text units up to the first zero unit.
pub fn zero_ended(buf: &[u8], pos: usize) -> Answer<View> {
    let read = at(buf, pos, |cursor| {
        cursor.null_terminated_utf16_string("zero_ended")
    });
    read.map(|(text, next)| view(buf, Some(text), pos, next))
}

/// The offset that a name is known by.
pub fn name(buf: &[u8], pos: usize, inline: bool) -> Answer<(u32, usize)> {
    at(buf, pos, |cursor| read_name_ref(cursor, inline))
}

/// Where the text stands in `buf`. No text was read where the count is zero: the view is then
/// empty, and starts at `start`, where its units would.
fn view(buf: &[u8], text: Option<Utf16LeSlice<'_>>, start: usize, next: usize) -> View {
    let Some(text) = text else {
        return View {
            start,
            length: 0,
            next,
        };
    };
    let bytes = text.as_bytes();
    View {
        start: bytes.as_ptr().addr() - buf.as_ptr().addr(),
        length: bytes.len(),
        next,
    }
}
