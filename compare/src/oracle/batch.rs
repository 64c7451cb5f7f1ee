//! A batch of cases and its answers, in all modes.

use crate::document;
use crate::document::merges::Parts;
use crate::oracle::calls::{Move, Rooms};
use crate::oracle::chunk::State;
use crate::oracle::differences::{self, Met};
use crate::oracle::refusal::Refusal;
use crate::oracle::tokens::{Asked, Row};
use crate::oracle::{calls, chunk, event, file, nests, owners, tokens};
use std::io::{self, Read, Write};

/// The letters of the modes of a chunk's events checksum, of an event, and of a name.
pub const EVENTS: u8 = b'D';
pub const EVENT: u8 = b'E';
pub const NAME: u8 = b'J';

const HEAD: usize = 14;
const DATA_LIMIT: usize = 331_776;
const STATE: usize = 40;
const ROOM: usize = 4;
const ROOMS: usize = 8;
const KEPT: usize = 8;
const WORD: usize = 8;
const NUMBERS: usize = 12;

/// A case: its head's fields and its data.
pub struct Case {
    pub mode: u8,
    pub flags: u8,
    pub start: u32,
    pub length: u32,
    pub data: Vec<u8>,
}

impl Case {
    /// The case as a batch holds it.
    pub fn bytes(&self) -> Vec<u8> {
        let size = u32::try_from(self.data.len()).expect("a case is small");
        let mut bytes = vec![self.mode, self.flags];
        for word in [self.start, self.length, size] {
            bytes.extend(word.to_le_bytes());
        }
        bytes.extend(&self.data);
        bytes
    }

    pub(crate) fn flag(&self, bit: u8) -> bool {
        self.flags & bit != 0
    }

    /// What a mode's data has at least, in bytes; `None` where there is no such mode.
    fn least(mode: u8) -> Option<usize> {
        match mode {
            b'H' | EVENTS | b'R' | b'W' | b'F' | b'T' | b'S' | b'O' => Some(0),
            b'P' => Some(STATE),
            b'C' | EVENT | NAME => Some(ROOM),
            b'B' | b'N' => Some(ROOMS),
            b'K' => Some(KEPT),
            b'M' => Some(NUMBERS),
            _ => None,
        }
    }

    /// What the data has before the chunk or the stream: in mode K also the words that are given.
    fn front(&self) -> usize {
        let least = Case::least(self.mode).unwrap_or(0);
        match self.mode {
            b'K' => least + WORD * self.word(ROOM) as usize,
            _ => least,
        }
    }

    /// A word of 32 bits in the data.
    fn word(&self, at: usize) -> u32 {
        let bytes = self.data[at..].first_chunk().expect("a case has it");
        u32::from_le_bytes(*bytes)
    }

    /// The chunk or the stream.
    pub(crate) fn input(&self) -> &[u8] {
        &self.data[self.front()..]
    }

    /// The walk that the modes T, O, C, B, K and N begin with.
    pub(crate) fn walk(&self) -> Asked {
        Asked {
            start: self.start as usize,
            length: self.length as usize,
            dependencies: self.flag(1),
            inline_names: self.flag(2),
        }
    }

    /// The payload that an event's mode is asked for: its walks carry no dependencies.
    pub(crate) fn payload(&self) -> Asked {
        Asked {
            dependencies: false,
            ..self.walk()
        }
    }

    /// Mode P's state.
    pub(crate) fn state(&self) -> State {
        let mut words = [0; 5];
        for (word, bytes) in words.iter_mut().zip(self.data.as_chunks::<8>().0) {
            *word = u64::from_le_bytes(*bytes);
        }
        State::from_words(words)
    }

    /// Mode M's parts.
    pub(crate) fn parts(&self) -> Parts {
        Parts::new(&self.data).expect("a case has them")
    }

    /// How many words the modes lend that lend one kind.
    pub(crate) fn room(&self) -> u32 {
        self.word(0)
    }

    /// How many words the modes B and N lend.
    pub(crate) fn rooms(&self) -> Rooms {
        Rooms {
            sheet: self.word(0),
            table: self.word(ROOM),
        }
    }

    /// Mode K's sheet.
    fn moved(&self) -> Move {
        let words = self.data[KEPT..self.front()].as_chunks::<WORD>().0;
        Move {
            narrow: self.flag(4),
            room: self.room(),
            given: words.iter().map(|word| u64::from_le_bytes(*word)).collect(),
        }
    }
}

/// What the input holds next.
enum Next {
    Case(Case),
    Bad,
    End,
}

/// Answers all cases of `input`, as the printed Rust does. A case that is no case ends the run.
pub fn run(input: &mut impl Read, output: &mut impl Write) -> io::Result<()> {
    each(input, output, |case, out| {
        answer(case, out);
    })
}

/// Answers all cases as document 01 does, and holds the printed Rust to that: a line `meets` and a number stands before the dot
/// for each row of the list of differences that a case meets; where the Rust's answer is another, `differs` and the number of
/// each row that explains it. Where none does, `apart` stands there and the lines of the Rust.
pub fn run_held(input: &mut impl Read, output: &mut impl Write) -> io::Result<()> {
    each(input, output, |case, out| {
        let mut rust = String::new();
        let met = answer(case, &mut rust);
        document::answer(case, out);
        out.push_str(&differences::held(case.mode, out, &rust, &met));
    })
}

fn each(
    input: &mut impl Read,
    output: &mut impl Write,
    mut answer: impl FnMut(&Case, &mut String),
) -> io::Result<()> {
    let mut text = String::new();
    loop {
        match next_case(input)? {
            Next::End => break,
            Next::Bad => {
                output.write_all(b"bad case\n")?;
                break;
            }
            Next::Case(case) => {
                text.clear();
                answer(&case, &mut text);
                text.push_str(".\n");
                output.write_all(text.as_bytes())?;
            }
        }
    }
    output.flush()
}

fn next_case(input: &mut impl Read) -> io::Result<Next> {
    let head = read_up_to(input, HEAD)?;
    if head.is_empty() {
        return Ok(Next::End);
    }
    if head.len() < HEAD {
        return Ok(Next::Bad);
    }
    let word = |at: usize| u32::from_le_bytes([head[at], head[at + 1], head[at + 2], head[at + 3]]);
    let mode = head[0];
    let size = word(10) as usize;
    let Some(least) = Case::least(mode) else {
        return Ok(Next::Bad);
    };
    if size > DATA_LIMIT || size < least {
        return Ok(Next::Bad);
    }
    let data = read_up_to(input, size)?;
    if data.len() < size {
        return Ok(Next::Bad);
    }
    if mode == b'M' && Parts::new(&data).is_none() {
        return Ok(Next::Bad);
    }
    let case = Case {
        mode,
        flags: head[1],
        start: word(2),
        length: word(6),
        data,
    };
    Ok(if case.data.len() < case.front() {
        Next::Bad
    } else {
        Next::Case(case)
    })
}

/// `size` bytes, or fewer where the input ends.
fn read_up_to(input: &mut impl Read, size: usize) -> io::Result<Vec<u8>> {
    let mut bytes = Vec::with_capacity(size);
    input.take(size as u64).read_to_end(&mut bytes)?;
    Ok(bytes)
}

/// The printed Rust's answer, and what the case meets.
fn answer(case: &Case, out: &mut String) -> Met {
    let data = case.input();
    match case.mode {
        b'H' => chunk::answer_header(data, out),
        EVENTS => chunk::answer_events(data, out),
        b'R' => chunk::answer_record(data, u64::from(case.start), case.flag(1), out),
        b'W' => chunk::answer_walk(data, case.flag(1), out),
        b'P' => chunk::answer_step(data, case.state(), out),
        b'F' => {
            let mut met = Met::new();
            file::answer(data, out, |chunk, out| {
                met.append(&mut chunk::answer_walk(chunk, case.flag(1), out));
            });
            met
        }
        b'T' => tokens::answer_walk(data, case.walk(), out),
        b'S' => {
            tokens::answer_single(data, case.start as usize, out);
            Met::new()
        }
        b'O' | b'C' | b'B' | b'K' => {
            let (rows, met) = tokens::rows(data, case.walk());
            push_rows(case, rows, out);
            met
        }
        b'N' => {
            let (joined, met) = nests::read(data, case.walk());
            calls::push_joined(joined, case.rooms(), out);
            met
        }
        EVENT => {
            let (rows, met) = event::read(data, case.payload());
            event::push(rows, case.room(), out);
            met
        }
        NAME => {
            let name = event::name(data, case.start as usize, case.flag(2));
            event::push_name(name, case.room(), out);
            Met::new()
        }
        // The printed Rust has no merge: the second reading answers for it.
        b'M' => {
            document::merges::push(&case.parts(), case.flag(1), out);
            Met::new()
        }
        mode => unreachable!("a case of mode {mode}"),
    }
}

/// What the modes O, C, B and K make of a walk's tokens, whoever read them.
pub(crate) fn push_rows(case: &Case, rows: Result<Vec<Row>, Refusal>, out: &mut String) {
    match case.mode {
        b'O' => owners::push(rows, out),
        b'C' => calls::push_sheet(rows, case.room(), out),
        b'B' => calls::push_body(rows, case.rooms(), out),
        b'K' => calls::push_moved(rows, &case.moved(), out),
        mode => unreachable!("a case of mode {mode}"),
    }
}
