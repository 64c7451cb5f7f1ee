//! Cases on a log that Windows wrote: each chunk, each record, each stream and each template definition in it.

use super::Case;
use super::body_cases::{joined, lending, more, sheet};
use super::chunk_cases;
use super::event_cases;
use super::file_cases::MOST;
use super::nest_cases;
use super::token_cases::case;
use crate::document::chunks::Chunk;
use crate::document::streams;
use crate::oracle::CHUNK_SIZE;
use crate::oracle::batch::EVENTS;
use crate::oracle::chunk::{Answer, Record};
use crate::oracle::nests::BODY;
use crate::oracle::tokens::Asked;
use std::collections::{BTreeMap, BTreeSet};
use std::fmt;

const FILE_HEADER: usize = 4096;
/// Before a definition's tokens: the next one's offset, a GUID, and how many bytes the tokens take.
const DEFINITION_HEAD: usize = 24;
const DEFINITION_SIZE: usize = 20;
const DEPENDENCIES: u8 = 1;

/// How many of each there are. A definition is inner if only instances in values of type 21 name it.
#[derive(Default)]
pub struct Counts {
    chunks: usize,
    /// Places of chunks that document 01 refuses: mostly never used.
    unused: usize,
    live: usize,
    carved: usize,
    inner_streams: usize,
    definitions: usize,
    inner_definitions: usize,
    /// Definitions that document 01 refuses, and live records that name one, themselves or by a value.
    refused: usize,
    lost: usize,
}

impl fmt::Display for Counts {
    fn fmt(&self, f: &mut fmt::Formatter<'_>) -> fmt::Result {
        let Counts {
            chunks,
            unused,
            live,
            carved,
            inner_streams,
            definitions,
            inner_definitions,
            refused,
            lost,
        } = self;
        write!(
            f,
            "chunks {chunks} unused {unused} live {live} carved {carved} inner-streams {inner_streams} definitions {definitions} \
             inner-definitions {inner_definitions} refused-definitions {refused} records-of-these {lost}"
        )
    }
}

/// The cases on a log file, one chunk after the other, each handed to `put`.
pub fn each<E>(log: &[u8], mut put: impl FnMut(Case) -> Result<(), E>) -> Result<Counts, E> {
    let mut counts = Counts::default();
    // The file itself, as much of it as a case may have.
    for recovery in 0..2 {
        let whole = &log[..log.len().min(MOST)];
        put(chunk_cases::case(b'F', recovery, 0, &[], whole))?;
    }
    for chunk in log
        .get(FILE_HEADER..)
        .unwrap_or_default()
        .chunks(CHUNK_SIZE)
    {
        match Chunk::new(chunk) {
            Ok(_) => counts.chunks += 1,
            Err(_) => counts.unused += 1,
        }
        for case in of_chunk(chunk, &mut counts) {
            put(case)?;
        }
    }
    Ok(counts)
}

fn of_chunk(chunk: &[u8], counts: &mut Counts) -> Vec<Case> {
    let at_chunk = |mode, flags, start| chunk_cases::case(mode, flags, start, &[], chunk);
    let mut cases = vec![
        at_chunk(b'H', 0, 0),
        at_chunk(EVENTS, 0, 0),
        at_chunk(b'W', 0, 0),
        at_chunk(b'W', 1, 0),
    ];
    let mut named = Named::default();
    let mut names = BTreeSet::new();
    for record in records(chunk) {
        *(if record.carved {
            &mut counts.carved
        } else {
            &mut counts.live
        }) += 1;
        let offset = record.offset as u32;
        cases.extend([at_chunk(b'R', 0, offset), at_chunk(b'R', 1, offset)]);
        let (start, length) = (
            record.payload_start as usize,
            record.payload_length as usize,
        );
        let mut definitions = BTreeSet::new();
        let inner = named.follow(chunk, start, length, false, &mut definitions);
        counts.inner_streams += inner.len();
        for (start, length) in [(start, length)].into_iter().chain(inner) {
            cases.extend(of_stream(chunk, asked(start, length, false)));
        }
        cases.push(event_cases::enough(0, start, length, chunk));
        names.extend(event_cases::names_of(chunk, asked(start, length, false)));
        if !record.carved {
            named.of_records.push(definitions);
        }
    }

    cases.extend(names.into_iter().map(|name| event_cases::of_name(0, 1, name, chunk)));
    named.follow_table(chunk);
    let mut refused = BTreeSet::new();
    for (&offset, &inner) in &named.definitions {
        let Some(walk) = definition(chunk, offset) else {
            continue;
        };
        *(if inner {
            &mut counts.inner_definitions
        } else {
            &mut counts.definitions
        }) += 1;
        if streams::walk(chunk, walk).end.is_err() {
            refused.insert(offset);
        }
        cases.extend(of_stream(chunk, walk));
    }
    counts.refused += refused.len();
    let lost = |definitions: &&BTreeSet<u32>| !definitions.is_disjoint(&refused);
    counts.lost += named.of_records.iter().filter(lost).count();
    cases
}

/// The records of a chunk, live and carved; none where it is no chunk.
fn records(chunk: &[u8]) -> Vec<Record> {
    let walk = Chunk::new(chunk)
        .into_iter()
        .flat_map(|chunk| chunk.walk(true));
    let record = |answer| match answer {
        Answer::Record(record) => Some(record),
        _ => None,
    };
    walk.filter_map(record).collect()
}

/// The records of a log, live and carved, each with its chunk.
pub fn all_records(log: &[u8]) -> impl Iterator<Item = (&[u8], Record)> {
    let chunks = log.get(FILE_HEADER..).unwrap_or_default().chunks(CHUNK_SIZE);
    chunks.flat_map(|chunk| records(chunk).into_iter().map(move |record| (chunk, record)))
}

/// The definitions that a chunk's instances name.
#[derive(Default)]
struct Named {
    /// By offset, and whether only inner instances name it.
    definitions: BTreeMap<u32, bool>,
    /// Those that each live record names.
    of_records: Vec<BTreeSet<u32>>,
}

impl Named {
    /// Notes the definitions that a stream's instances name, and those of the streams in its values. Answers where these
    /// streams stand and how long they are.
    fn follow(
        &mut self,
        chunk: &[u8],
        start: usize,
        length: usize,
        inner: bool,
        definitions: &mut BTreeSet<u32>,
    ) -> Vec<(usize, usize)> {
        let mut found = Vec::new();
        let walk = streams::walk(chunk, asked(start, length, false));
        for instance in walk.tokens.iter().filter_map(|token| token.instance()) {
            definitions.insert(instance.definition);
            *self.definitions.entry(instance.definition).or_insert(inner) &= inner;
            for value in instance.values.iter().filter(|value| value.code == BODY) {
                let (start, length) = (value.start, value.size.map_or(0, usize::from));
                found.push((start, length));
                found.extend(self.follow(chunk, start, length, true, definitions));
            }
        }
        found
    }

    /// Notes the definitions of the chunk's table, each of which names the next.
    fn follow_table(&mut self, chunk: &[u8]) {
        let table = Chunk::new(chunk).map_or(Vec::new(), |chunk| chunk.offsets().1);
        let mut seen = BTreeSet::from([0]);
        for first in table {
            let mut offset = first as u32;
            while seen.insert(offset) {
                self.definitions.entry(offset).or_insert(false);
                offset = definition_head(chunk, offset).map_or(0, |head| word(head, 0));
            }
        }
    }
}

/// A definition's head, if it lies in the chunk.
fn definition_head(chunk: &[u8], offset: u32) -> Option<&[u8]> {
    let offset = offset as usize;
    chunk.get(offset..offset + DEFINITION_HEAD)
}

fn word(bytes: &[u8], at: usize) -> u32 {
    let word = bytes[at..].first_chunk::<4>().expect("a head's word");
    u32::from_le_bytes(*word)
}

/// The walk over a definition in place, if its head lies in the chunk.
fn definition(chunk: &[u8], offset: u32) -> Option<Asked> {
    let length = word(definition_head(chunk, offset)?, DEFINITION_SIZE) as usize;
    Some(asked(offset as usize + DEFINITION_HEAD, length, true))
}

fn asked(start: usize, length: usize, dependencies: bool) -> Asked {
    Asked {
        start,
        length,
        dependencies,
        inline_names: false,
    }
}

/// Tokens, owner table, sheet alone, the joined call and that with the bodies in values, with a word more lent than they need, or a few
/// where they are refused.
fn of_stream(chunk: &[u8], walk: Asked) -> [Case; 5] {
    let (start, length) = (walk.start as u32, walk.length as u32);
    let flags = if walk.dependencies { DEPENDENCIES } else { 0 };
    let rooms = more(streams::walk(chunk, walk).tokens.len(), 1);
    let through = more(nest_cases::tokens(chunk, flags, (start, length)), 1);
    [
        case(b'T', flags, start, length, chunk),
        case(b'O', flags, start, length, chunk),
        sheet(flags, rooms[0], start, length, chunk),
        joined(flags, rooms, start, length, chunk),
        lending(b'N', flags, &through, start, length, chunk),
    ]
}
