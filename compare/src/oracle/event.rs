//! Modes E and J over the printed Rust: its walks of payload, values and definitions, and its readers of a definition's head and of names.
//!
//! How values are hung on names is written once, in document/event.rs; what the printed Rust itself joins (binxml/ir.rs) is held to it by the
//! checks.

use crate::binxml::name::{read_name_link, read_name_ref};
use crate::binxml::tokens::read_template_header;
use crate::document::event::{self, Row, Walks};
use crate::err::{DeserializationError, DeserializationResult};
use crate::oracle::calls::{self, Filled};
use crate::oracle::differences::Met;
use crate::oracle::refusal::Refusal;
use crate::oracle::tokens::{self, Asked};
use crate::oracle::{CHUNK_SIZE, nests, values};
use crate::utils::ByteCursor;
use std::collections::BTreeMap;

/// The printed walks, and what they meet. A definition that many instances share is walked once.
struct Printed<'a> {
    data: &'a [u8],
    met: Met,
    walked: BTreeMap<(usize, usize), String>,
}

impl Walks for Printed<'_> {
    fn bodies(&mut self, asked: Asked) -> Result<(), Refusal> {
        let (joined, mut met) = nests::read(self.data, asked);
        self.met.append(&mut met);
        joined.map(|_| ())
    }

    fn lines(&mut self, asked: Asked) -> String {
        let window = (asked.start, asked.length);
        if let Some(lines) = self.walked.get(&window).filter(|_| asked.dependencies) {
            return lines.clone();
        }
        let mut lines = String::new();
        let mut met = tokens::answer_walk(self.data, asked, &mut lines);
        self.met.append(&mut met);
        if asked.dependencies {
            self.walked.insert(window, lines.clone());
        }
        lines
    }

    fn head(&mut self, definition: usize) -> Result<(u32, u32), Refusal> {
        let read = || {
            let mut cursor = ByteCursor::with_pos(self.data, definition)?;
            read_template_header(&mut cursor)
        };
        let header = read().map_err(|err| Refusal::of_read(&err))?;
        let [a, b, c, d, ..] = header.guid;
        Ok((u32::from_le_bytes([a, b, c, d]), header.data_size))
    }
}

/// The call's rows over the printed walks, and what these meet.
pub(super) fn read(data: &[u8], asked: Asked) -> (Result<Vec<Row>, Refusal>, Met) {
    let mut printed = Printed {
        data,
        met: Met::new(),
        walked: BTreeMap::new(),
    };
    let rows = event::read(&mut printed, asked);
    (rows, printed.met)
}

/// Mode E: "Answer: the count of rows"; "then 16 with the words needed. A refusal writes nothing."
pub(crate) fn push(rows: Result<Vec<Row>, Refusal>, room: u32, out: &mut String) {
    let filled = rows.map(|rows| Filled {
        count: rows.len(),
        words: rows.concat(),
    });
    calls::push_fitting(filled, room, out);
}

/// Mode J: "One word", "Answer: the count".
pub(crate) fn push_name(name: Result<(usize, u64), Refusal>, room: u32, out: &mut String) {
    let filled = name.map(|(count, word)| Filled {
        count,
        words: vec![word],
    });
    calls::push_fitting(filled, room, out);
}

/// A name's count and word by the printed readers. What they do not tell is asked of others: whether the hash is the units', of the printed
/// reader of inline names on a name made of them; whether they are sound, of the standard library.
pub(super) fn name(data: &[u8], offset: usize, inline: bool) -> Result<(usize, u64), Refusal> {
    // Document 01's rule, as for every stream.
    if data.len() > CHUNK_SIZE {
        return Err(Refusal::new(1, 0));
    }
    let (start, units) = units(data, offset, inline).map_err(|err| Refusal::of_read(&err))?;
    let stored = &data[start - 4..start - 2];
    let hash = u64::from(hash_is_theirs(stored, units));
    let sound = u64::from(values::decodes(units));
    let count = units.len() / 2;
    let word = (start as u64) << 32 | (count as u64) << 8 | sound << 1 | hash;
    Ok((count, word))
}

/// Where a name's units start, and their bytes.
fn units(data: &[u8], offset: usize, inline: bool) -> DeserializationResult<(usize, &[u8])> {
    let mut cursor = ByteCursor::with_pos(data, offset)?;
    if inline {
        read_name_ref(&mut cursor, true)?;
        // A hash, a count and the units, and a zero unit after them.
        let start = offset + 4;
        return Ok((start, &data[start..cursor.pos() - 2]));
    }
    read_name_link(&mut cursor)?;
    let count = usize::from(cursor.u16()?);
    let start = cursor.pos();
    Ok((start, cursor.take_bytes(2 * count, "name")?))
}

fn hash_is_theirs(stored: &[u8], units: &[u8]) -> bool {
    let count = (units.len() / 2) as u16;
    let inline = [stored, &count.to_le_bytes(), units, &[0, 0]].concat();
    let mut cursor = ByteCursor::with_pos(&inline, 0).expect("its start");
    match read_name_ref(&mut cursor, true) {
        Ok(_) => true,
        Err(DeserializationError::WevtInlineNameHashMismatch { .. }) => false,
        Err(err) => panic!("not an error of a whole name: {err:?}"),
    }
}
