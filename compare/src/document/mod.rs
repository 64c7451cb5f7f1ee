//! Document 01, read a second time: its answer to every case of a batch.
//!
//! Written from the document's sentences, with nothing of the printed Rust and nothing of the port. It shares with the oracle
//! only how answers are written, how document 02 cuts a file, and the machine of mode O, which the checks hold to the grammar.

pub mod chunks;
pub mod event;
pub mod merges;
pub mod nests;
mod reader;
pub mod streams;
mod values;

use crate::oracle::batch::{self, Case, push_rows};
use crate::oracle::calls::push_joined;
use crate::oracle::chunk::{Answer, State, refused, words};
use crate::oracle::event::{push as push_event, push_name};
use crate::oracle::file;
use crate::oracle::nests::by_machine;
use crate::oracle::refusal::Refusal;
use crate::oracle::tokens::{Asked, Row, push_single};
use chunks::Chunk;
use std::fmt::Write;

/// The answer lines of a case.
pub fn answer(case: &Case, out: &mut String) {
    let data = case.input();
    match case.mode {
        b'H' => header(data, out),
        batch::EVENTS => events(data, out),
        b'R' => record(data, u64::from(case.start), case.flag(1), out),
        b'W' => walk(data, case.flag(1), out),
        b'F' => file::answer(data, out, |chunk, out| walk(chunk, case.flag(1), out)),
        b'P' => step(data, case.state(), out),
        b'T' => tokens(data, case.walk(), out),
        b'S' => single(data, case.start as usize, out),
        b'O' | b'C' | b'B' | b'K' => push_rows(case, rows(data, case.walk()), out),
        b'N' => {
            let joined = nests::read(data, case.walk(), by_machine);
            push_joined(joined, case.rooms(), out);
        }
        b'M' => merges::push(&case.parts(), case.flag(1), out),
        batch::EVENT => {
            let rows = event::read(&mut event::Own(data), case.payload());
            push_event(rows, case.room(), out);
        }
        batch::NAME => {
            let name = event::name(data, case.start as usize, case.flag(2));
            push_name(name, case.room(), out);
        }
        mode => unreachable!("a case of mode {mode}"),
    }
}

/// Mode H.
fn header(data: &[u8], out: &mut String) {
    match Chunk::new(data) {
        Ok(chunk) => {
            let (strings, templates) = chunk.offsets();
            out.push_str(&words("header", &chunk.fields()));
            out.push_str(if chunk.checksum() {
                "checksum yes\n"
            } else {
                "checksum no\n"
            });
            out.push_str(&words("strings", &strings));
            out.push_str(&words("templates", &templates));
        }
        Err(refusal) => out.push_str(&refused(refusal)),
    }
}

/// A chunk's events checksum.
fn events(data: &[u8], out: &mut String) {
    match Chunk::new(data) {
        Ok(chunk) if chunk.events_checksum() => out.push_str("events yes\n"),
        Ok(_) => out.push_str("events no\n"),
        Err(refusal) => out.push_str(&refused(refusal)),
    }
}

/// Mode R.
fn record(data: &[u8], offset: u64, strict: bool, out: &mut String) {
    match chunks::read_at(data, offset, strict) {
        Ok(record) => writeln!(out, "record {}", record.fields()).expect("a String takes all"),
        Err(refusal) => out.push_str(&refused(refusal)),
    }
    if let Ok(chunk) = Chunk::new(data) {
        let resync = chunk.resync(offset);
        let resync = resync.map_or("none".to_owned(), |offset| offset.to_string());
        writeln!(out, "resync {resync}").expect("a String takes all");
    }
}

/// Mode W.
fn walk(data: &[u8], recovery: bool, out: &mut String) {
    match Chunk::new(data) {
        Ok(chunk) => {
            for answer in chunk.walk(recovery) {
                out.push_str(&answer.line());
            }
            out.push_str(&Answer::Done.line());
        }
        Err(refusal) => out.push_str(&refused(refusal)),
    }
}

/// Mode P. "Each call refuses 1 and 4 for the chunk first, the state kept."
fn step(data: &[u8], mut state: State, out: &mut String) {
    let answer = match Chunk::new(data) {
        Ok(chunk) => chunk.step(&mut state),
        Err(refusal) => Answer::Refused(refusal),
    };
    out.push_str(&answer.line());
    out.push_str(&words("state", &state.words()));
}

/// Mode T.
fn tokens(data: &[u8], asked: Asked, out: &mut String) {
    let walk = streams::walk(data, asked);
    for token in &walk.tokens {
        token.push_line(out).expect("a String takes all");
    }
    match walk.end {
        Ok(()) => writeln!(out, "ok {}", walk.tokens.len()).expect("a String takes all"),
        Err(refusal) => out.push_str(&refused(refusal)),
    }
}

/// The tokens of a walk, or its refusal.
fn rows(data: &[u8], asked: Asked) -> Result<Vec<Row>, Refusal> {
    let walk = streams::walk(data, asked);
    walk.end
        .map(|()| walk.tokens.iter().map(streams::Token::row).collect())
}

/// Mode S. "A stream is a single instance if it begins with 0C (offset 1), or with 0F, three bytes, 0C and one byte more (offset
/// 5)." Where it ends the document does not say: the rest is empty or begins with 00, as the Rust has it.
fn single(data: &[u8], consumed: usize, out: &mut String) {
    let offset = match data {
        [0x0c, ..] => Some(1),
        [0x0f, _, _, _, 0x0c, _, ..] => Some(5),
        _ => None,
    };
    let ends = match data.get(consumed..) {
        Some([] | [0x00, ..]) => Some(true),
        Some(_) => Some(false),
        None => None,
    };
    push_single(offset, ends, out);
}
