//! The port's calls (include/doortumble.h), and those of crates/checksum_call and crates/sheet_call.

use crate::cases::ROOM;
use compare::oracle::tokens::Asked;
use compare::timed::Call;

unsafe extern "C" {
    fn doortumble_list(
        chunk: *const u8,
        chunk_len: usize,
        recovery: u32,
        rows: *mut u64,
        rows_len: usize,
    ) -> u64;
    fn doortumble_list_file(
        file: *const u8,
        file_len: usize,
        recovery: u32,
        rows: *mut u64,
        rows_len: usize,
    ) -> u64;
    fn doortumble_event(
        stream: *const u8,
        stream_len: usize,
        start: u32,
        length: u32,
        inline_names: u32,
        rows: *mut u64,
        rows_len: usize,
    ) -> u64;
    fn doortumble_bench_checksum(chunk: *const u8, chunk_len: usize) -> u32;
    fn doortumble_merge(
        primary: *const u64,
        primary_len: usize,
        other: *const u64,
        other_len: usize,
        newest: u32,
        result: *mut u64,
        result_len: usize,
    ) -> u64;
}

/// Calls on a stream, and the words that they are given and lent.
macro_rules! calls_on_stream {
    ($(fn $call:ident($($words:ident: $type:ty),+);)+) => {
        unsafe extern "C" {
            $(fn $call(
                stream: *const u8,
                stream_len: usize,
                start: u32,
                length: u32,
                dependencies: u32,
                inline_names: u32,
                $($words: $type),+
            ) -> u64;)+
        }
    };
}

calls_on_stream! {
    fn doortumble_bench_sheet(sheet: *mut u64, sheet_len: usize);
    fn doortumble_widen(old: *const u64, old_len: usize, sheet: *mut u64, sheet_len: usize);
    fn doortumble_body(sheet: *mut u64, sheet_len: usize, table: *mut u32, table_len: usize);
    fn doortumble_bodies(sheet: *mut u64, sheet_len: usize, table: *mut u32, table_len: usize);
}

pub fn merge<'a>(primary: &'a [u64], other: &'a [u64], rule_two: bool) -> Call<'a> {
    Box::new(move |rows| {
        // SAFETY: the words are good for their lengths.
        unsafe {
            doortumble_merge(
                primary.as_ptr(),
                primary.len(),
                other.as_ptr(),
                other.len(),
                u32::from(rule_two),
                rows.as_mut_ptr(),
                rows.len(),
            )
        }
    })
}

pub fn list(chunk: &[u8], recovery: bool) -> Call<'_> {
    listed(doortumble_list, chunk, recovery)
}

pub fn list_file(file: &[u8], recovery: bool) -> Call<'_> {
    listed(doortumble_list_file, file, recovery)
}

/// A call that lists a chunk or a file into rows that it is lent.
type Lists = unsafe extern "C" fn(*const u8, usize, u32, *mut u64, usize) -> u64;

fn listed(call: Lists, bytes: &[u8], recovery: bool) -> Call<'_> {
    Box::new(move |rows| {
        let (start, words) = (bytes.as_ptr(), rows.as_mut_ptr());
        // SAFETY: bytes and words are good for their lengths.
        unsafe { call(start, bytes.len(), u32::from(recovery), words, rows.len()) }
    })
}

pub fn checksum(chunk: &[u8]) -> Call<'_> {
    // SAFETY: the bytes are good for their length.
    Box::new(move |_| unsafe { doortumble_bench_checksum(chunk.as_ptr(), chunk.len()).into() })
}

/// A call on a stream, with the words that it is given and lent.
macro_rules! on_stream {
    ($call:ident, $stream:ident, $asked:ident, $($words:expr),+) => {
        // SAFETY: bytes and words are good for their lengths.
        unsafe {
            $call(
                $stream.as_ptr(),
                $stream.len(),
                $asked.start as u32,
                $asked.length as u32,
                u32::from($asked.dependencies),
                u32::from($asked.inline_names),
                $($words),+
            )
        }
    };
}

/// The library's sheet: the count of tokens, or all ones where it is refused.
pub fn sheet(stream: &[u8], asked: Asked) -> Call<'_> {
    Box::new(move |sheet| {
        let (words, room) = (sheet.as_mut_ptr(), sheet.len());
        on_stream!(doortumble_bench_sheet, stream, asked, words, room)
    })
}

/// The sheet from the old one: the first words of the sheet, without the bit that is new.
pub fn widen(stream: &[u8], asked: Asked) -> Call<'_> {
    let mut words = vec![0; 2 * stream.len()];
    let count = sheet(stream, asked)(&mut words) as usize;
    let first = words.chunks(2).map(|words| words[0] & !(1 << 8));
    let old: Vec<u64> = first.take(count).collect();
    Box::new(move |sheet| {
        let (given, count) = (old.as_ptr(), old.len());
        let (words, room) = (sheet.as_mut_ptr(), sheet.len());
        on_stream!(doortumble_widen, stream, asked, given, count, words, room)
    })
}

/// Sheet and table by one call. Behind the sheet's words stands the table, two of its words of 32 bits in each of the lent ones.
macro_rules! joined {
    ($call:ident, $stream:ident, $asked:ident) => {
        Box::new(move |words| {
            let (sheet, table) = words.split_at_mut(ROOM);
            let (words, room) = (sheet.as_mut_ptr(), sheet.len());
            let (owners, count) = (table.as_mut_ptr().cast(), 2 * table.len());
            on_stream!($call, $stream, $asked, words, room, owners, count)
        })
    };
}

pub fn body(stream: &[u8], asked: Asked) -> Call<'_> {
    joined!(doortumble_body, stream, asked)
}

pub fn bodies(stream: &[u8], asked: Asked) -> Call<'_> {
    joined!(doortumble_bodies, stream, asked)
}

/// The rows of an event.
pub fn event(stream: &[u8], asked: Asked) -> Call<'_> {
    Box::new(move |rows| {
        // SAFETY: bytes and words are good for their lengths.
        unsafe {
            doortumble_event(
                stream.as_ptr(),
                stream.len(),
                asked.start as u32,
                asked.length as u32,
                u32::from(asked.inline_names),
                rows.as_mut_ptr(),
                rows.len(),
            )
        }
    })
}
