//! Modes C, B and K: what the calls answer and leave in the lent words ('Sheet and C calls'; document 02, P2, P3 and P8).
//!
//! The printed Rust has no such calls. The sheet's words are made from its walk's tokens, the owner
//! table is mode O's, and document 01's rules for lent words come on top.

use crate::oracle::chunk::refused;
use crate::oracle::owners;
use crate::oracle::refusal::Refusal;
use crate::oracle::tokens::Row;
use std::fmt::{LowerHex, Write};

/// The most words that a case lends.
const MOST_ROOM: usize = 65536;

/// How many words are lent to the joined call.
pub struct Rooms {
    pub sheet: u32,
    pub table: u32,
}

/// A kept sheet that is to be moved: its words, which way, and how many words are lent.
pub struct Move {
    pub narrow: bool,
    pub room: u32,
    pub given: Vec<u64>,
}

impl Row {
    /// The old sheet's word, document 01's: "A u64 a token, most significant first: kind 4 bits, place 17, length 17, number
    /// 16, flag 1, 9 zeros".
    pub(crate) fn old_word(&self) -> u64 {
        packed([
            (u64::from(self.kind), 4),
            (self.place as u64, 17),
            (self.length as u64, 17),
            (u64::from(self.number), 16),
            (u64::from(self.flag), 1),
            (0, 9),
        ])
    }

    /// "The sheet becomes two words a token: the first as before with that bit in the first of the nine spare places, the
    /// second the name offset in 32 bits, then 32 zeros; tokens without a name have 0 there." As before: "most significant
    /// first: kind 4 bits, place 17, length 17, number 16, flag 1, 9 zeros". "Level 0 to 8 in the next four spare places" (document 02,
    /// P9).
    pub(crate) fn words(&self) -> [u64; 2] {
        let first = [
            (u64::from(self.kind), 4),
            (self.place as u64, 17),
            (self.length as u64, 17),
            (u64::from(self.number), 16),
            (u64::from(self.flag), 1),
            (u64::from(self.announced), 1),
            (u64::from(self.level), 4),
            (0, 4),
        ];
        let second = [(u64::from(self.name), 32), (0, 32)];
        [packed(first), packed(second)]
    }
}

/// What a call answers: the count of tokens and the words that it leaves, or its refusal.
pub(crate) struct Filled {
    pub count: usize,
    pub words: Vec<u64>,
}

impl Filled {
    fn sheet(rows: &[Row]) -> Self {
        Filled {
            count: rows.len(),
            words: rows.iter().flat_map(Row::words).collect(),
        }
    }

    fn old_sheet(rows: &[Row]) -> Self {
        Filled {
            count: rows.len(),
            words: rows.iter().map(Row::old_word).collect(),
        }
    }
}

/// "Answer: refused 1 bit, number 7, 16 zeros, place or count 40."
fn answer_word(answer: Result<usize, Refusal>) -> u64 {
    let (refused, number, last) = match answer {
        Ok(count) => (0, 0, count as u64),
        Err(refusal) => (1, refusal.number, refusal.place),
    };
    packed([(refused, 1), (u64::from(number), 7), (0, 16), (last, 40)])
}

/// Fields with their widths in bits, the most significant first.
fn packed<const N: usize>(fields: [(u64, u32); N]) -> u64 {
    let widths: u32 = fields.iter().map(|(_, width)| width).sum();
    assert_eq!(widths, 64);
    fields.into_iter().fold(0, |word, (field, width)| {
        assert!(field < 1 << width, "{field} has no room in {width} bits");
        word << width | field
    })
}

/// Mode C, of a walk's tokens: "the library keeps its sheet".
pub(crate) fn push_sheet(rows: Result<Vec<Row>, Refusal>, room: u32, out: &mut String) {
    let room = self::room(room);
    let filled = rows.and_then(|rows| fitting(Filled::sheet(&rows), room));
    match &filled {
        Ok(filled) => writeln!(out, "count {}", filled.count).expect("a String takes all"),
        Err(refusal) => out.push_str(&refused(*refusal)),
    }
    push_words("words", left(filled, room), 16, out);
}

/// What the joined call makes of a stream: "one that fills both lent buffers" (document 02, P8).
#[derive(Debug, PartialEq, Eq)]
pub struct Joined {
    pub sheet: Vec<u64>,
    pub table: Vec<u32>,
}

/// Mode B, of a walk's tokens. The grammar's refusals come before those of the lent words.
pub(crate) fn push_body(rows: Result<Vec<Row>, Refusal>, rooms: Rooms, out: &mut String) {
    let joined = rows.and_then(|rows| {
        let table = owners::of_rows(&rows)?;
        let sheet = rows.iter().flat_map(Row::words).collect();
        Ok(Joined { sheet, table })
    });
    push_joined(joined, rooms, out);
}

/// The joined call's answer and both lent buffers, by what it makes: "16 for the sheet, then 16 for the table, after the grammar's".
pub(crate) fn push_joined(joined: Result<Joined, Refusal>, rooms: Rooms, out: &mut String) {
    let [sheet_room, table_room] = [rooms.sheet, rooms.table].map(room);
    let filled = joined.and_then(|Joined { sheet, table }| {
        for (needed, room) in [(sheet.len(), sheet_room), (table.len(), table_room)] {
            enough(needed, room)?;
        }
        Ok((sheet, table))
    });
    push_answer(filled.as_ref().map(|(_, table)| table.len()), out);
    let (sheet, table) = filled.unwrap_or_default();
    push_words("sheet", lent(sheet, sheet_room, u64::MAX), 16, out);
    push_words("table", lent(table, table_room, u32::MAX), 8, out);
}

/// Mode K: "Given the old sheet and its stream, make the two-word sheet; given the new one, give the old one back. The sheet
/// given, old or new, must be exactly the sheet of that stream under the stated start, length and flags."
pub(crate) fn push_moved(rows: Result<Vec<Row>, Refusal>, moved: &Move, out: &mut String) {
    // "19, not the stream's sheet, at the first word wrong, missing or extra, after the walk's own and before 16."
    let filled = rows.and_then(|rows| {
        let (old, new) = (Filled::old_sheet(&rows), Filled::sheet(&rows));
        let (right, made) = if moved.narrow { (new, old) } else { (old, new) };
        let words = right.words.len().max(moved.given.len());
        match (0..words).find(|&word| right.words.get(word) != moved.given.get(word)) {
            Some(word) => Err(Refusal::new(19, word as u64)),
            None => Ok(made),
        }
    });
    push_fitting(filled, moved.room, out);
}

/// What a call makes, on so many lent words.
pub(crate) fn push_fitting(filled: Result<Filled, Refusal>, said: u32, out: &mut String) {
    let room = room(said);
    push_left(filled.and_then(|filled| fitting(filled, room)), room, out);
}

/// What is made, if its words have room.
fn fitting(filled: Filled, room: usize) -> Result<Filled, Refusal> {
    enough(filled.words.len(), room).map(|()| filled)
}

/// 16 comes last: "lent sheet or table too short", "words needed"; "refusal 16 for a sheet counts two words a token".
fn enough(needed: usize, room: usize) -> Result<(), Refusal> {
    if needed > room {
        return Err(Refusal::new(16, needed as u64));
    }
    Ok(())
}

/// How many words a case lends.
pub(crate) fn room(said: u32) -> usize {
    MOST_ROOM.min(said as usize)
}

/// A call's answer, and the words that it leaves of `room` lent ones.
pub(crate) fn push_left(filled: Result<Filled, Refusal>, room: usize, out: &mut String) {
    push_answer(filled.as_ref().map(|filled| filled.count), out);
    push_words("words", left(filled, room), 16, out);
}

/// The words that a call leaves of `room` lent ones.
fn left(filled: Result<Filled, Refusal>, room: usize) -> Vec<u64> {
    // "A refusal writes nothing."
    let words = filled.map_or(Vec::new(), |filled| filled.words);
    lent(words, room, u64::MAX)
}

/// Lent words, each of which is all ones before the call: "words past the token count stay".
fn lent<W: Clone>(mut words: Vec<W>, room: usize, ones: W) -> Vec<W> {
    words.resize(room, ones);
    words
}

fn push_answer(answer: Result<usize, &Refusal>, out: &mut String) {
    let word = answer_word(answer.map_err(|refusal| *refusal));
    writeln!(out, "answer {word:016x}").expect("a String takes all");
}

/// A line of words in so many digits.
fn push_words<W: LowerHex>(name: &str, words: Vec<W>, digits: usize, out: &mut String) {
    out.push_str(name);
    for word in words {
        write!(out, " {word:0digits$x}").expect("a String takes all");
    }
    out.push('\n');
}
