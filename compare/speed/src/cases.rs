//! The cases: what is called on what, and what it has to answer.

use crate::inputs::{self, Lists, Stream, Tags};
use crate::port;
use compare::document::event::{self, Own};
use compare::oracle::kinds::{ANNOUNCING, ATTRIBUTE, OPEN};
use compare::oracle::owners::{self, MOST_LEVELS};
use compare::timed::{self, Call, TOLD};

/// Words that are enough for every answer on a chunk or a stream: two for each of 65,536 tokens.
pub const ROOM: usize = 2 * 65536;
/// Words of a table for as many tokens: two of its words of 32 bits stand in one.
const TABLE_ROOM: usize = 65536 / 2;
/// Words for each begun 65,536 bytes of a file: as many rows as a chunk has at most, of six words.
const FILE_ROOM: usize = 4645 * 6;

/// Who is called.
#[derive(Clone, Copy, PartialEq, Eq)]
pub enum Side {
    /// The Rust, with the true memchr where it is at hand.
    Rust,
    /// The Rust, with the stand-in.
    StandIn,
    Port,
}

impl Side {
    /// By their numbers.
    pub const ALL: [Side; 3] = [Side::Rust, Side::StandIn, Side::Port];

    pub fn name(self) -> &'static str {
        match self {
            Side::Rust => "rust",
            Side::StandIn => "stand-in",
            Side::Port => "port",
        }
    }
}

/// What is called.
#[derive(Clone, Copy, PartialEq, Eq)]
pub enum Kind {
    Checksum,
    List {
        recovery: bool,
    },
    File {
        recovery: bool,
    },
    /// The library's sheet alone.
    Sheet,
    /// Sheet and owner table by one call. The Rust has no owner table: it makes the sheet.
    Body,
    /// The same with the bodies inside values, on streams that have none: beside the port's own joined call.
    Bodies,
    /// The same on streams that have some. The Rust walks the stream and those in its values.
    Nested,
    /// The rows of an event. The Rust has none: it walks payload, values and definitions into a sheet.
    Event,
    /// The sheet from a kept one. The Rust has no such thing: it stands beside the port's own sheet.
    Widen,
    Merge,
}

/// What it is called on.
pub enum Input {
    Chunk(Vec<u8>),
    File(Vec<u8>),
    Stream(Stream),
    Lists(Lists),
}

pub struct Case {
    pub name: &'static str,
    pub kind: Kind,
    /// What the ratio is to be at most, if anybody said so.
    pub goal: Option<f64>,
    pub input: Input,
}

impl Case {
    /// Words that are enough for every answer, so that a file is walked once.
    pub fn room(&self) -> usize {
        match &self.input {
            Input::File(file) => (file.len() / 65536 + 1) * FILE_ROOM,
            _ => ROOM + TABLE_ROOM,
        }
    }

    /// The sides of the case. Only the record walk searches and only the header has a checksum, so the rest has no
    /// stand-in's figure.
    pub fn sides(&self) -> impl Iterator<Item = Side> {
        let stands_in = matches!(self.kind, Kind::List { .. } | Kind::Checksum);
        let all = Side::ALL.into_iter();
        all.filter(move |side| stands_in || *side != Side::StandIn)
    }

    /// The call of a side.
    pub fn call(&self, side: Side) -> Call<'_> {
        match (self.kind, &self.input) {
            (Kind::Checksum, Input::Chunk(chunk)) => match side {
                Side::Rust => compare_vector::timed::checksum(chunk),
                Side::StandIn => timed::checksum(chunk),
                Side::Port => port::checksum(chunk),
            },
            (Kind::List { recovery }, Input::Chunk(chunk)) => match side {
                Side::Rust => compare_vector::timed::list(chunk, recovery),
                Side::StandIn => timed::list(chunk, recovery),
                Side::Port => port::list(chunk, recovery),
            },
            (Kind::File { recovery }, Input::File(file)) => match side {
                Side::Rust => compare_vector::timed::list_file(file, recovery),
                Side::StandIn => timed::list_file(file, recovery),
                Side::Port => port::list_file(file, recovery),
            },
            (Kind::Widen, Input::Stream(Stream { bytes, asked })) => match side {
                Side::Port => port::widen(bytes, *asked),
                _ => port::sheet(bytes, *asked),
            },
            (Kind::Bodies, Input::Stream(Stream { bytes, asked })) => match side {
                Side::Port => port::bodies(bytes, *asked),
                _ => port::body(bytes, *asked),
            },
            (Kind::Nested, Input::Stream(Stream { bytes, asked })) => match side {
                Side::Port => port::bodies(bytes, *asked),
                _ => timed::nested(bytes, *asked),
            },
            (Kind::Event, Input::Stream(Stream { bytes, asked })) => match side {
                Side::Port => port::event(bytes, *asked),
                _ => timed::event(bytes, *asked),
            },
            (Kind::Merge, Input::Lists(Lists { primary, other })) => match side {
                Side::Port => port::merge(primary, other, true),
                _ => timed::merge(primary, other, true),
            },
            (kind, Input::Stream(Stream { bytes, asked })) => match side {
                Side::Port if kind == Kind::Body => port::body(bytes, *asked),
                Side::Port => port::sheet(bytes, *asked),
                _ => timed::sheet(bytes, *asked),
            },
            _ => unreachable!("chunks and files are listed, and streams are not"),
        }
    }

    /// What a side answers, and its words.
    fn answer(&self, side: Side) -> (u64, Vec<u64>) {
        let mut words = vec![0; self.room()];
        (self.call(side)(&mut words), words)
    }

    /// The answer of both sides, and a checksum over the port's words; or what they disagree in.
    pub fn check(&self) -> Result<(u64, u64), String> {
        let mut rust = self.answer(Side::Rust);
        if rust != self.answer(Side::StandIn) {
            return Err("the Rust answers otherwise with the stand-in".to_owned());
        }
        if self.kind == Kind::Body {
            rust = joined(rust.0, &rust.1);
        }
        if let (Kind::Event, Input::Stream(stream)) = (self.kind, &self.input) {
            if rust.0 >> 63 == 1 {
                return Err(format!("the Rust refuses it: {:x}", rust.0));
            }
            rust = hung(stream, self.room());
        }
        let port = self.answer(Side::Port);
        if port.0 != rust.0 {
            return Err(format!(
                "the port answers {:x}, the Rust {:x}",
                port.0, rust.0
            ));
        }
        let mut pairs = port.1.iter().zip(&rust.1).enumerate();
        if let Some((at, _)) = pairs.find(|(at, (port, rust))| *port & self.told(*at) != **rust) {
            return Err(format!("the port's word {at} is not the Rust's"));
        }
        Ok((port.0, checksum(&port.1)))
    }

    /// What of the word of this number the Rust tells: of a sheet not all.
    fn told(&self, at: usize) -> u64 {
        match self.kind {
            Kind::Sheet | Kind::Body | Kind::Nested if at < ROOM => TOLD[at % 2],
            _ => !0,
        }
    }
}

/// The answer and the words of the joined call on the tokens in a sheet, by the grammar that the comparison holds the port to: the
/// sheet, and behind its room the owner table.
fn joined(count: u64, sheet: &[u64]) -> (u64, Vec<u64>) {
    let tokens = sheet.chunks(2).take(count as usize);
    let mut kinds: Vec<u8> = tokens.map(|words| (words[0] >> 60) as u8).collect();
    // The Rust does not tell whether attributes were announced: in the streams here they are where they follow.
    for at in 1..kinds.len() {
        if kinds[at - 1..=at] == [OPEN, ATTRIBUTE] {
            kinds[at - 1] = ANNOUNCING;
        }
    }
    match owners::owners(&kinds, MOST_LEVELS) {
        Ok(table) => {
            let mut words = sheet.to_vec();
            for (word, pair) in words[ROOM..].iter_mut().zip(table.chunks(2)) {
                let low = u64::from(pair[0]);
                *word = low | u64::from(*pair.get(1).unwrap_or(&0)) << 32;
            }
            (count, words)
        }
        Err(refusal) => (timed::refused(refusal), vec![0; sheet.len()]),
    }
}

/// The answer and the words of the event's call, by the second reading that the comparison holds the port to.
fn hung(stream: &Stream, room: usize) -> (u64, Vec<u64>) {
    match event::read(&mut Own(&stream.bytes), stream.asked) {
        Ok(rows) => {
            let mut words = rows.concat();
            words.resize(room, 0);
            (rows.len() as u64, words)
        }
        Err(refusal) => (timed::refused(refusal), vec![0; room]),
    }
}

/// FNV-1a over words.
fn checksum(words: &[u64]) -> u64 {
    let mix = |sum: u64, word: &u64| (sum ^ word).wrapping_mul(0x100_0000_01b3);
    words.iter().fold(0xcbf2_9ce4_8422_2325, mix)
}

pub fn all() -> Vec<Case> {
    let chunk = |name, recovery, chunk| Case {
        name,
        kind: Kind::List { recovery },
        goal: Some(1.0),
        input: Input::Chunk(chunk),
    };
    // The goal is for 16 MB.
    let file = |name, recovery, chunks| Case {
        name,
        kind: Kind::File { recovery },
        goal: (chunks == 256).then_some(if recovery { 1.0 } else { 0.5 }),
        input: Input::File(inputs::log(chunks)),
    };
    use Kind::{Bodies, Body, Event, Nested, Sheet, Widen};
    let stream = |name, kind, stream: Stream| Case {
        name,
        kind,
        goal: Some(match kind {
            Body if stream.asked.length < 1000 => 0.8,
            Body => 1.2,
            Bodies => 1.1,
            Widen => 1.3,
            Event => 1.5,
            _ => 1.0,
        }),
        input: Input::Stream(stream),
    };
    // The goal is for 4,096 writes in each list.
    let merge = |name, tags, writes| Case {
        name,
        kind: Kind::Merge,
        goal: (writes == 4096).then_some(1.5),
        input: Input::Lists(inputs::lists(tags, writes)),
    };
    let repeated = inputs::repeated;
    let elements = inputs::elements;
    vec![
        Case {
            name: "checksum of a header",
            kind: Kind::Checksum,
            goal: None,
            input: Input::Chunk(inputs::sealed(inputs::records(512, true))),
        },
        chunk("list: 127 of 512 bytes", false, inputs::records(512, true)),
        chunk("list: 127, recovery", true, inputs::records(512, true)),
        chunk("list: 127 carved", true, inputs::records(512, false)),
        chunk("list: 2,322 of 28 bytes", false, inputs::records(28, true)),
        chunk("list: 2,322, recovery", true, inputs::records(28, true)),
        chunk("list: 2,322 carved", true, inputs::records(28, false)),
        chunk("search: zeros", true, repeated(&[0])),
        chunk("search: random bytes", true, inputs::random()),
        chunk("search: all 2A", true, repeated(&[0x2a])),
        chunk("search: 2A2A0001", true, repeated(&[0x2a, 0x2a, 0, 1])),
        chunk("search: 2A2A0000", true, repeated(&[0x2a, 0x2a, 0, 0])),
        file("file: 1 chunk", false, 1),
        file("file: 16 chunks", false, 16),
        file("file: 256 chunks", false, 256),
        file("file: 1, recovery", true, 1),
        file("file: 16, recovery", true, 16),
        file("file: 256, recovery", true, 256),
        stream("sheet: elements", Sheet, elements(false, false)),
        stream("sheet: dependencies", Sheet, elements(true, false)),
        stream("sheet: inline names", Sheet, elements(false, true)),
        stream("sheet: long strings", Sheet, inputs::long_strings()),
        stream("sheet: long CDATA", Sheet, inputs::long_cdata()),
        stream("sheet: long inline names", Sheet, inputs::long_names()),
        stream("sheet: instances", Sheet, inputs::instances()),
        stream("sheet: single", Sheet, inputs::single()),
        stream("sheet: single in chunk", Sheet, inputs::single_in_chunk()),
        stream("body: elements", Body, elements(false, false)),
        stream("body: dependencies", Body, elements(true, false)),
        stream("body: inline names", Body, elements(false, true)),
        stream("body: long strings", Body, inputs::long_strings()),
        stream("body: long CDATA", Body, inputs::long_cdata()),
        stream("body: long inline names", Body, inputs::long_names()),
        stream("body: instances", Body, inputs::instances()),
        stream("body: single", Body, inputs::single()),
        stream("body: single in chunk", Body, inputs::single_in_chunk()),
        stream("bodies: elements", Bodies, elements(false, false)),
        stream("bodies: dependencies", Bodies, elements(true, false)),
        stream("bodies: inline names", Bodies, elements(false, true)),
        stream("bodies: instances", Bodies, inputs::instances()),
        stream("bodies: single", Bodies, inputs::single()),
        stream("bodies: single in chunk", Bodies, inputs::single_in_chunk()),
        stream("bodies: record", Nested, inputs::record()),
        stream("bodies: record in chunk", Nested, inputs::record_in_chunk()),
        stream("event: record", Event, inputs::event()),
        stream("event: record in chunk", Event, inputs::event_in_chunk()),
        stream("widen: elements", Widen, elements(false, false)),
        merge("merge: tags rise", Tags::Rising, 4096),
        merge("merge: one tag", Tags::One, 4096),
        merge("merge: random tags", Tags::Random, 4096),
        merge("merge: all different", Tags::Different, 4096),
        merge("merge: different, 1,024", Tags::Different, 1024),
        merge("merge: different, 256", Tags::Different, 256),
        merge("merge: different, 64", Tags::Different, 64),
    ]
}
