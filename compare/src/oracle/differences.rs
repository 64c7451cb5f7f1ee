//! Where the printed Rust does something else than document 01, which cases meet it, and what it explains.
//!
//! The document decides. A case that meets none of these must have equal answers in both; one that
//! meets a row may differ, from a line on that the row explains.

use crate::oracle::batch::EVENT;
use crate::oracle::nests::BODY;
use crate::oracle::values::{STRING_ARRAY, read_table};
use crate::utils::ByteCursor;
use std::collections::BTreeSet;

/// A row of the list of differences.
#[derive(Debug, Clone, Copy, PartialEq, Eq, PartialOrd, Ord)]
pub enum Difference {
    /// A string whose size is odd is refused; the document reads the even part.
    OddString = 1,
    /// The type code 8E is known; to the document it is not.
    BinaryArrayCode = 2,
    /// An array of strings is read string by string, past its size if need be; the document reads
    /// its size.
    StringArray = 3,
    /// An array of SIDs is read; the document refuses it.
    SidArray = 4,
    /// A value token of type 21 is read by a length of its own; the document refuses it.
    UnsizedBody = 5,
    /// A record's size copy may lie outside the chunk, and a strict read calls it a wrong copy.
    EndOutside = 6,
    /// The walk is silent where the chunk's end cuts a record's header.
    CutHeader = 7,
    /// A header whose flags say that it stores no checksums has right ones.
    NoChecksum = 8,
}

/// The differences that a case meets.
pub type Met = BTreeSet<Difference>;

const BINARY_ARRAY: u8 = 0x8e;
const STRING: u8 = 0x01;
const SID_ARRAY: u8 = 0x93;

/// What the token at `place` meets, be it handed out or refused. `exact` says that each array of
/// strings in it ended where its size says.
pub(super) fn of_token(data: &[u8], place: usize, exact: bool, met: &mut Met) {
    match data.get(place) {
        Some(0x05 | 0x45) => match data.get(place + 1) {
            Some(&BINARY_ARRAY) => {
                met.insert(Difference::BinaryArrayCode);
            }
            Some(&BODY) => {
                met.insert(Difference::UnsizedBody);
            }
            _ => {}
        },
        Some(0x0d | 0x0e) if data.get(place + 3) == Some(&BINARY_ARRAY) => {
            met.insert(Difference::BinaryArrayCode);
        }
        Some(0x0c) => {
            let mut table = Vec::new();
            if let Ok(mut cursor) = ByteCursor::with_pos(data, place + 1) {
                // Where the table is cut is the walk's business.
                let _ = read_table(&mut cursor, &mut table);
            }
            for (size, code) in table {
                let difference = match code {
                    STRING if size % 2 != 0 => Difference::OddString,
                    BINARY_ARRAY => Difference::BinaryArrayCode,
                    STRING_ARRAY if size > 0 && !exact => Difference::StringArray,
                    SID_ARRAY => Difference::SidArray,
                    _ => continue,
                };
                met.insert(difference);
            }
        }
        _ => {}
    }
}

/// What is said after the document's answer: the rows that the case meets, and where the Rust's answer is another one, the rows
/// that explain it, or that none does.
pub(super) fn held(mode: u8, document: &str, rust: &str, met: &Met) -> String {
    let line = |word: &str, row: &Difference| format!("{word} {}\n", *row as u8);
    let mut said: String = met.iter().map(|row| line("meets", row)).collect();
    if document == rust {
        return said;
    }
    let mut pairs = document.lines().zip(rust.lines());
    let differing = pairs.find(|(ours, theirs)| ours != theirs);
    let explains = |row: &&Difference| {
        differing.is_some_and(|(ours, theirs)| match mode {
            b'O' | b'C' | b'B' | b'K' | b'N' | EVENT => row.explains_unlisted(ours, theirs),
            _ => row.explains(ours, theirs),
        })
    };
    let explained: String = met
        .iter()
        .filter(explains)
        .map(|row| line("differs", row))
        .collect();
    if explained.is_empty() {
        said.push_str("apart\n");
        said.extend(rust.lines().map(|line| format!("rust {line}\n")));
    }
    said + &explained
}

impl Difference {
    /// Whether it explains the first line that is not the same in both answers.
    fn explains(self, document: &str, rust: &str) -> bool {
        match self {
            // A string of an odd size, and an array of strings, are read by their size.
            Self::OddString => refused(rust) == Some(0) && reads_on(document, "01"),
            Self::StringArray => reads_on(document, "81"),
            Self::BinaryArrayCode => refused(document) == Some(7),
            Self::SidArray | Self::UnsizedBody => refused(document) == Some(8),
            // The record's end lies outside, or the chunk's end cuts its header.
            Self::EndOutside | Self::CutHeader => refused(document) == Some(3),
            Self::NoChecksum => ["checksum no", "events no"].contains(&document),
        }
    }

    /// The same in the modes O, C, B, K, N and that of an event, whose answers do not list the tokens: the token that meets the row has no line of its
    /// own there, and what comes after it may decide.
    fn explains_unlisted(self, document: &str, rust: &str) -> bool {
        match self {
            Self::OddString => refused(rust) == Some(0),
            Self::StringArray => true,
            _ => self.explains(document, rust),
        }
    }
}

/// The number that a line refuses with, if it does: in words, or in the word of a C call.
fn refused(line: &str) -> Option<u8> {
    let mut words = line.split(' ');
    match (words.next()?, words.next()?) {
        ("refused", number) => number.parse().ok(),
        ("answer", word) => {
            let word = u64::from_str_radix(word, 16).ok()?;
            (word >> 63 == 1).then_some((word >> 56) as u8 & 0x7f)
        }
        _ => None,
    }
}

/// Whether the line is an instance with a value of this type, or the refusal of a value.
fn reads_on(line: &str, code: &str) -> bool {
    let words: Vec<&str> = line.split(' ').collect();
    match words[..] {
        ["refused", number, _] => ["2", "3", "8", "10"].contains(&number),
        [_, _, "1", _, _, _, _, ref fields @ ..] => {
            fields.iter().any(|field| field.starts_with(code))
        }
        _ => false,
    }
}
