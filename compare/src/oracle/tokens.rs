//! The token side: the walk with each token's place and length, for modes T, O, C, B and K, and the single instance.
//!
//! The printed walk hands a token to its sink and says nothing of where it stood. Both ends are
//! got from the printed walk all the same:
//! - A walk of length 1 is one round of its loop, since each round takes at least one byte. So
//!   rounds can be run one by one, each from where the one before ended.
//! - Where a round ends: the cursor never stands past the end of its data, and a round that reads
//!   on does not look at how much data there is. So a round that ends at q succeeds on the data
//!   cut off at q, and on no shorter data. The least such cut is searched for.
//!
//! A round that hands out nothing is a fragment header, or the end of the walk where it is one
//! byte long. The rounds are held against the whole walk: same kinds of tokens, same end.
//!
//! A name's offset is what the sink is told. Whether an open token announces attributes the sink is
//! not told; only the printed reader of open tokens is, and it reads four bytes more then. So that
//! reader is run again after the token byte, with both answers: the walk gave it the one with which
//! it ends where the round did.
//!
//! Whether a text or a name is sound the printed walk tells nobody either. The standard library's decoder of UTF-16 is asked: for a
//! text on the view that the sink is told, for an inline name on its counted units.

use crate::binxml::BinXmlTemplateValues;
use crate::binxml::tokens::{
    Stream, TokenSink, ends_stream, read_open_start_element_cursor, single_instance_offset,
    walk_tokens,
};
use crate::binxml::value_variant::BinXmlValue;
use crate::err::Result as EvtxResult;
use crate::evtx_chunk::raw_walk;
use crate::oracle::differences::{Met, of_token};
use crate::oracle::refusal::Refusal;
use crate::oracle::values::{Body, Fields};
use crate::oracle::{CHUNK_SIZE, hex, kinds, values};
use crate::utils::{ByteCursor, Utf16LeSlice};
use crate::{Bump, ChunkOffset, EvtxChunk, WINDOWS_1252};
use std::fmt::Write;

/// A token as the printed walk hands it out.
#[derive(Debug, Clone)]
enum Token<'a> {
    Instance(BinXmlTemplateValues<'a>),
    Open(ChunkOffset, Option<u16>),
    CloseStart,
    CloseEmpty,
    CloseElement,
    Value(BinXmlValue<'a>),
    Attribute(ChunkOffset),
    EntityRef(ChunkOffset),
    PiTarget(ChunkOffset),
    PiData(Utf16LeSlice<'a>),
    Cdata(Utf16LeSlice<'a>),
    CharRef(u16),
    Substitution(u16, bool),
}

impl Token<'_> {
    /// Document 01's number of the kind.
    fn kind(&self) -> u8 {
        match self {
            Token::Instance(_) => kinds::INSTANCE,
            Token::Open(..) => kinds::OPEN,
            Token::CloseStart => kinds::CLOSE_START,
            Token::CloseEmpty => kinds::CLOSE_EMPTY,
            Token::CloseElement => kinds::CLOSE_ELEMENT,
            Token::Value(_) => kinds::VALUE,
            Token::Attribute(_) => kinds::ATTRIBUTE,
            Token::EntityRef(_) => kinds::ENTITY_REF,
            Token::PiTarget(_) => kinds::PI_TARGET,
            Token::PiData(_) => kinds::PI_DATA,
            Token::Cdata(_) => kinds::CDATA,
            Token::CharRef(_) => kinds::CHAR_REF,
            Token::Substitution(..) => kinds::SUBSTITUTION,
        }
    }
}

/// A sink that keeps all tokens.
struct Kept<'a>(Vec<Token<'a>>);

impl<'a> Kept<'a> {
    fn keep(&mut self, token: Token<'a>) -> EvtxResult<()> {
        self.0.push(token);
        Ok(())
    }
}

impl<'a> TokenSink<'a> for Kept<'a> {
    fn template_instance(&mut self, template: BinXmlTemplateValues<'a>) -> EvtxResult<()> {
        self.keep(Token::Instance(template))
    }
    fn open_start(&mut self, name: ChunkOffset, dependency: Option<u16>) -> EvtxResult<()> {
        self.keep(Token::Open(name, dependency))
    }
    fn close_start(&mut self) -> EvtxResult<()> {
        self.keep(Token::CloseStart)
    }
    fn close_empty(&mut self) -> EvtxResult<()> {
        self.keep(Token::CloseEmpty)
    }
    fn close_element(&mut self) -> EvtxResult<()> {
        self.keep(Token::CloseElement)
    }
    fn value(&mut self, value: BinXmlValue<'a>) -> EvtxResult<()> {
        self.keep(Token::Value(value))
    }
    fn attribute(&mut self, name: ChunkOffset) -> EvtxResult<()> {
        self.keep(Token::Attribute(name))
    }
    fn entity_ref(&mut self, name: ChunkOffset) -> EvtxResult<()> {
        self.keep(Token::EntityRef(name))
    }
    fn pi_target(&mut self, name: ChunkOffset) -> EvtxResult<()> {
        self.keep(Token::PiTarget(name))
    }
    fn pi_data(&mut self, data: Utf16LeSlice<'a>) -> EvtxResult<()> {
        self.keep(Token::PiData(data))
    }
    fn cdata(&mut self, text: Utf16LeSlice<'a>) -> EvtxResult<()> {
        self.keep(Token::Cdata(text))
    }
    fn char_ref(&mut self, ch: u16) -> EvtxResult<()> {
        self.keep(Token::CharRef(ch))
    }
    fn substitution(&mut self, id: u16, optional: bool) -> EvtxResult<()> {
        self.keep(Token::Substitution(id, optional))
    }
}

/// How a stream is walked.
#[derive(Clone, Copy)]
struct Walker<'a> {
    /// The printed walk takes names for inline ones exactly where it is given no chunk; it looks
    /// at nothing in it.
    chunk: Option<&'a EvtxChunk<'a>>,
    dependencies: bool,
}

impl<'a> Walker<'a> {
    /// The printed walk over `data`, with the tokens before a refusal.
    fn walk(
        self,
        data: &'a [u8],
        start: usize,
        length: usize,
        bump: &'a Bump,
    ) -> (Vec<Token<'a>>, Result<(), Refusal>) {
        let stream = Stream {
            data,
            chunk: self.chunk,
            ansi_codec: WINDOWS_1252,
            bump,
        };
        let mut kept = Kept(Vec::new());
        let end = walk_tokens(stream, start, length, self.dependencies, &mut kept);
        (kept.0, end.map_err(|err| Refusal::of_walk(&err)))
    }

    /// The kind of the token that one round from `at` hands out, if it hands out one.
    fn round(self, data: &[u8], at: usize) -> Result<Option<u8>, Refusal> {
        let bump = Bump::new();
        let (tokens, end) = self.walk(data, at, 1, &bump);
        end.map(|()| tokens.first().map(Token::kind))
    }

    /// Where the round from `at`, which succeeds on all of `data`, ends.
    fn round_end(self, data: &[u8], at: usize) -> usize {
        let fits = |cut: usize| self.round(&data[..cut], at).is_ok();
        // No cut up to `short` suffices, the cut `long` does.
        let (mut short, mut long) = (at, data.len());
        let mut reach = 1;
        while at + reach < long {
            if fits(at + reach) {
                long = at + reach;
            } else {
                short = at + reach;
                reach *= 2;
            }
        }
        while long - short > 1 {
            let middle = short + (long - short) / 2;
            if fits(middle) {
                long = middle;
            } else {
                short = middle;
            }
        }
        long
    }

    /// Place and end of each of the tokens that the whole walk handed out, by rounds, and where
    /// the last round started.
    fn places(
        self,
        data: &[u8],
        start: usize,
        length: usize,
        tokens: &[Token<'_>],
        end: Result<(), Refusal>,
    ) -> (Vec<(usize, usize)>, usize) {
        let mut places = Vec::with_capacity(tokens.len());
        let mut at = start;
        let rounds_end = loop {
            if at >= start + length {
                break Ok(());
            }
            let handed = match self.round(data, at) {
                Ok(handed) => handed,
                Err(refusal) => break Err(refusal),
            };
            let next = self.round_end(data, at);
            match handed {
                Some(kind) => {
                    assert_eq!(tokens.get(places.len()).map(Token::kind), Some(kind));
                    places.push((at, next));
                }
                None if next == at + 1 => break Ok(()),
                None => {}
            }
            at = next;
        };
        assert_eq!((places.len(), rounds_end), (tokens.len(), end));
        (places, at)
    }

    /// Whether the walk took the open token at `place`, after which it read on at `next`, for one that
    /// announces attributes.
    fn announced(self, data: &[u8], place: usize, next: usize) -> bool {
        let ends_with = |announced| {
            let mut cursor = ByteCursor::with_pos(data, place + 1).expect("a token is in the data");
            let inline = self.chunk.is_none();
            read_open_start_element_cursor(&mut cursor, announced, self.dependencies, inline)
                .is_ok_and(|_| cursor.pos() == next)
        };
        let announced = ends_with(true);
        assert_ne!(announced, ends_with(false), "an open token at {place}");
        announced
    }
}

/// What a walk is asked for.
#[derive(Clone, Copy)]
pub struct Asked {
    pub start: usize,
    pub length: usize,
    pub dependencies: bool,
    pub inline_names: bool,
}

/// A token, where it stands, and where the walk reads on.
struct Placed<'a> {
    token: Token<'a>,
    place: usize,
    next: usize,
    /// It is an open token that announces attributes.
    announced: bool,
    /// Its name is inline.
    inline: bool,
    /// The values, if it is an instance.
    values: Option<Fields>,
}

impl Placed<'_> {
    /// Whether the units of its name, which stands there, decode, if it is inline: a hash and a count stand before them.
    fn name_decodes(&self, data: &[u8], name: ChunkOffset) -> Option<bool> {
        let head = name as usize;
        self.inline.then(|| {
            let count = u16::from_le_bytes([data[head + 2], data[head + 3]]);
            values::decodes(&data[head + 4..][..2 * usize::from(count)])
        })
    }
}

/// A walk: the tokens before its end, how it ended, and what it meets.
struct Walked<'a> {
    tokens: Vec<Placed<'a>>,
    end: Result<(), Refusal>,
    /// Where the walk stood at its end, or what was refused begins, if it came to that.
    last: Option<usize>,
    met: Met,
}

/// Hands the walk over `data` to `then`.
fn walked<R>(data: &[u8], asked: Asked, then: impl FnOnce(Walked<'_>) -> R) -> R {
    // Document 01's rule: the printed walk knows no such limit.
    if data.len() > CHUNK_SIZE {
        return then(Walked {
            tokens: Vec::new(),
            end: Err(Refusal::new(1, 0)),
            last: None,
            met: Met::new(),
        });
    }
    let bump = Bump::new();
    let header = raw_walk::blank_header();
    let chunk = raw_walk::bare_chunk(data, &header, false);
    let walker = Walker {
        chunk: (!asked.inline_names).then_some(&chunk),
        dependencies: asked.dependencies,
    };
    let (tokens, end) = walker.walk(data, asked.start, asked.length, &bump);
    let (places, last) = if asked.start > data.len() {
        // No round can be run.
        (Vec::new(), asked.start)
    } else {
        walker.places(data, asked.start, asked.length, &tokens, end)
    };

    let mut met = Met::new();
    let placed = |(token, (place, next))| {
        let values = match &token {
            Token::Instance(instance) => Some(values::of_instance(data, instance, place, next)),
            _ => None,
        };
        let exact = values.as_ref().is_none_or(|values| values.exact);
        of_token(data, place, exact, &mut met);
        let announced = matches!(token, Token::Open(..)) && walker.announced(data, place, next);
        Placed {
            token,
            place,
            next,
            announced,
            inline: asked.inline_names,
            values,
        }
    };
    let tokens = tokens.into_iter().zip(places).map(placed).collect();
    if end.is_err() {
        of_token(data, last, false, &mut met);
    }
    let last = Some(last);
    then(Walked {
        tokens,
        end,
        last,
        met,
    })
}

/// What the sheet says of a token.
pub(crate) struct Row {
    pub(crate) kind: u8,
    pub(crate) place: usize,
    pub(crate) length: usize,
    /// Dependency, char or substitution, else 0.
    pub(crate) number: u16,
    /// Dependency present, or optional.
    pub(crate) flag: bool,
    /// An open token that announces attributes.
    pub(crate) announced: bool,
    /// The name's offset; 0 where there is no name.
    pub(crate) name: u32,
    /// How many bodies it lies in, as document 02's request P9 counts them.
    pub(crate) level: u8,
}

impl Row {
    fn of(placed: &Placed<'_>) -> Self {
        let (number, flag) = match placed.token {
            Token::Open(_, dependency) => (dependency.unwrap_or(0), dependency.is_some()),
            Token::CharRef(number) => (number, false),
            Token::Substitution(number, optional) => (number, optional),
            _ => (0, false),
        };
        let name = match placed.token {
            Token::Open(name, _)
            | Token::Attribute(name)
            | Token::EntityRef(name)
            | Token::PiTarget(name) => name,
            _ => 0,
        };
        Row {
            kind: placed.token.kind(),
            place: placed.place,
            length: placed.next - placed.place,
            number,
            flag,
            announced: placed.announced,
            name,
            level: 0,
        }
    }
}

/// The tokens of a walk, or its refusal, and what it meets.
pub(super) fn rows(data: &[u8], asked: Asked) -> (Result<Vec<Row>, Refusal>, Met) {
    walked(data, asked, |walked| {
        let rows = walked.tokens.iter().map(Row::of).collect();
        (walked.end.map(|()| rows), walked.met)
    })
}

/// A token of a window, with the bodies in its values: where they start, and their sizes.
pub(super) struct Windowed {
    pub(super) place: usize,
    /// `None` for what was refused, which comes last.
    pub(super) row: Option<Row>,
    /// Whether every array of strings ended where its size says.
    pub(super) exact: bool,
    pub(super) bodies: Vec<Body>,
}

/// A window's tokens, and where its walk ended or how it was refused.
pub(super) struct Windows {
    pub(super) tokens: Vec<Windowed>,
    pub(super) end: Result<usize, Refusal>,
}

/// The walk over a window.
pub(super) fn windowed(data: &[u8], asked: Asked) -> Windows {
    walked(data, asked, |walked| {
        let read = walked.tokens.into_iter().map(|placed| Windowed {
            place: placed.place,
            row: Some(Row::of(&placed)),
            exact: placed.values.as_ref().is_none_or(|values| values.exact),
            bodies: placed.values.map_or(Vec::new(), |values| values.bodies),
        });
        let mut tokens: Vec<Windowed> = read.collect();
        let end = walked.end.map(|()| walked.last.unwrap_or(asked.start));
        if let (Err(_), Some(place)) = (end, walked.last) {
            tokens.push(Windowed {
                place,
                row: None,
                exact: false,
                bodies: values::bodies_before_refusal(data, place),
            });
        }
        Windows { tokens, end }
    })
}

/// Mode T.
pub fn answer_walk(data: &[u8], asked: Asked, out: &mut String) -> Met {
    walked(data, asked, |walked| {
        for placed in &walked.tokens {
            push_line(data, placed, out).expect("a String takes all");
        }
        match walked.end {
            Ok(()) => writeln!(out, "ok {}", walked.tokens.len()),
            Err(Refusal { number, place }) => writeln!(out, "refused {number} {place}"),
        }
        .expect("a String takes all");
        walked.met
    })
}

/// Adds a token's line.
fn push_line(data: &[u8], placed: &Placed<'_>, out: &mut String) -> std::fmt::Result {
    let (place, next) = (placed.place, placed.next);
    write!(out, "{place} {} {}", next - place, placed.token.kind())?;
    match &placed.token {
        Token::CloseStart | Token::CloseEmpty | Token::CloseElement => Ok(()),
        Token::Open(name, dependency) => {
            push_open(out, *name, *dependency, placed.announced)?;
            push_soundness(out, placed.name_decodes(data, *name))
        }
        Token::Attribute(name) | Token::EntityRef(name) | Token::PiTarget(name) => {
            write!(out, " {name}")?;
            push_soundness(out, placed.name_decodes(data, *name))
        }
        Token::PiData(text) | Token::Cdata(text) => {
            write!(out, " {}", hex(text.as_bytes()))?;
            push_soundness(out, Some(values::decodes(text.as_bytes())))
        }
        Token::CharRef(number) => write!(out, " {number}"),
        Token::Substitution(number, optional) => write!(out, " {number} {}", u8::from(*optional)),
        Token::Value(value) => {
            let (start, code) = (place + 2, data[place + 1]);
            let content = values::content(code, value, &data[start..next]);
            write!(out, " {code:02x}:-:{start}:{next}:{content}")
        }
        Token::Instance(instance) => {
            let fields = placed.values.iter().flat_map(|values| &values.fields);
            let guid = instance.template_guid.as_ref();
            let guid = guid.map_or("-".to_owned(), |guid| hex(guid.as_bytes()));
            let (id, definition) = (instance.template_id, instance.template_def_offset);
            write!(out, " {id} {definition} {guid} {}", instance.values.len())?;
            fields
                .into_iter()
                .try_for_each(|field| write!(out, " {field}"))
        }
    }?;
    out.push('\n');
    Ok(())
}

/// What mode T says of an open token: its name's offset, its dependency or `-`, and whether it announces attributes.
pub(crate) fn push_open(
    out: &mut String,
    name: u32,
    dependency: Option<u16>,
    announced: bool,
) -> std::fmt::Result {
    let dependency = dependency.map_or("-".to_owned(), |dependency| dependency.to_string());
    write!(out, " {name} {dependency} {}", u8::from(announced))
}

/// What mode T says of a text or a name last: 1 where it is sound, 0 where not, `-` where it is not judged.
pub(crate) fn push_soundness(out: &mut String, sound: Option<bool>) -> std::fmt::Result {
    let sound = sound.map_or("-".to_owned(), |sound| u8::from(sound).to_string());
    write!(out, " {sound}")
}

/// Mode S.
pub fn answer_single(stream: &[u8], consumed: usize, out: &mut String) {
    push_single(
        single_instance_offset(stream),
        ends_stream(stream, consumed),
        out,
    );
}

/// The lines of mode S.
pub(crate) fn push_single(offset: Option<usize>, ends: Option<bool>, out: &mut String) {
    match offset {
        Some(offset) => writeln!(out, "single {offset}"),
        None => writeln!(out, "single none"),
    }
    .expect("a String takes all");
    out.push_str(match ends {
        Some(true) => "ends yes\n",
        Some(false) => "ends no\n",
        None => "ends none\n",
    });
}
