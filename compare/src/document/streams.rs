//! 'Token walk', sentence by sentence.

use super::reader::{Read, Reader, number};
use super::values::{self, Value};
use crate::oracle::refusal::Refusal;
use crate::oracle::tokens::{Asked, Row, push_open, push_soundness};
use crate::oracle::{CHUNK_SIZE, hex, kinds};
use std::fmt::Write;

/// "an instance": its definition's offset and its values.
pub struct Instance {
    pub id: u32,
    pub definition: u32,
    guid: Option<Vec<u8>>,
    pub values: Vec<Value>,
}

/// A name: its offset, and of an inline one whether it is well-formed UTF-16. "An inline name is judged on all its counted
/// units"; "offset names aren't judged" (document 02, P7).
#[derive(Clone, Copy)]
pub(super) struct Name {
    offset: u32,
    sound: Option<bool>,
}

/// An open token. "The token record gains both": "if an open byte was 41 or 01, and where its name stands" (document 02, P2).
pub(super) struct Open {
    name: Name,
    dependency: Option<u16>,
    announced: bool,
}

/// What a token holds.
pub(super) enum Held<'a> {
    Nothing,
    Instance(Instance),
    Open(Open),
    Name(Name),
    /// A view's bytes.
    Text(&'a [u8]),
    CharRef(u16),
    Substitution(u16, bool),
    Value(Value),
}

/// A token from its byte's place to where the walk reads on.
pub struct Token<'a> {
    kind: u8,
    place: usize,
    next: usize,
    held: Held<'a>,
}

/// The tokens of a walk and how it ends.
pub struct Walk<'a> {
    pub tokens: Vec<Token<'a>>,
    pub end: Result<(), Refusal>,
}

/// The whole walk.
pub fn walk(data: &[u8], asked: Asked) -> Walk<'_> {
    let mut tokens = Vec::new();
    let end = read_tokens(data, asked, &mut tokens);
    Walk { tokens, end }
}

fn read_tokens<'a>(data: &'a [u8], asked: Asked, tokens: &mut Vec<Token<'a>>) -> Read<()> {
    if data.len() > CHUNK_SIZE {
        return Reader::refuse(1, 0);
    }
    let mut reader = Reader::new(data, asked.start)?;
    while let Some((place, byte)) = next_token(&mut reader, asked)? {
        let (kind, held) = read_token(byte, &mut reader, asked, &mut |_| Ok(()))?;
        tokens.push(Token::new(kind, place, reader.at, held));
    }
    Ok(())
}

/// The next token's place and byte: "Tokens are read while the position is below start plus length; the last may run over."
pub(super) fn next_token(reader: &mut Reader<'_>, asked: Asked) -> Read<Option<(usize, u8)>> {
    while reader.at < asked.start + asked.length {
        let place = reader.at;
        match reader.byte()? {
            // "Byte 00 ends the walk; 0F takes three bytes, each a read of its own; neither is handed on."
            0x00 => return Ok(None),
            0x0f => {
                for _ in 0..3 {
                    reader.byte()?;
                }
            }
            byte => return Ok(Some((place, byte))),
        }
    }
    Ok(None)
}

/// Is handed each value of an instance when it has been read, and may refuse it.
pub(super) type EachValue<'v> = &'v mut dyn FnMut(&Value) -> Read<()>;

/// "Tokens: .."
pub(super) fn read_token<'a>(
    byte: u8,
    reader: &mut Reader<'a>,
    asked: Asked,
    each_value: EachValue<'_>,
) -> Read<(u8, Held<'a>)> {
    let inline = asked.inline_names;
    Ok(match byte {
        0x0c => (
            kinds::INSTANCE,
            Held::Instance(instance(reader, each_value)?),
        ),
        0x01 | 0x41 => {
            let open = open(reader, byte == 0x41, asked)?;
            (kinds::OPEN, Held::Open(open))
        }
        0x02 => (kinds::CLOSE_START, Held::Nothing),
        0x03 => (kinds::CLOSE_EMPTY, Held::Nothing),
        0x04 => (kinds::CLOSE_ELEMENT, Held::Nothing),
        0x05 | 0x45 => (kinds::VALUE, Held::Value(values::read_unsized(reader)?)),
        0x06 | 0x46 => (kinds::ATTRIBUTE, Held::Name(name(reader, inline)?)),
        0x07 | 0x47 => (kinds::CDATA, Held::Text(text(reader)?)),
        0x08 | 0x48 => (kinds::CHAR_REF, Held::CharRef(reader.half()?)),
        0x09 | 0x49 => (kinds::ENTITY_REF, Held::Name(name(reader, inline)?)),
        0x0a => (kinds::PI_TARGET, Held::Name(name(reader, inline)?)),
        0x0b => (kinds::PI_DATA, Held::Text(text(reader)?)),
        0x0d | 0x0e => {
            let number = reader.half()?;
            values::read_code(reader)?;
            (
                kinds::SUBSTITUTION,
                Held::Substitution(number, byte == 0x0e),
            )
        }
        _ => return Reader::refuse(9, reader.at),
    })
}

/// "Open: dependency u16 if carried (0xFFFF means none), u32, name, and u32 for 41."
fn open(reader: &mut Reader<'_>, announced: bool, asked: Asked) -> Read<Open> {
    let dependency = if asked.dependencies {
        Some(reader.half()?).filter(|&dependency| dependency != 0xffff)
    } else {
        None
    };
    reader.word()?;
    let name = name(reader, asked.inline_names)?;
    if announced {
        reader.word()?;
    }
    Ok(Open {
        name,
        dependency,
        announced,
    })
}

/// A name; an inline one's offset is its start.
fn name(reader: &mut Reader<'_>, inline: bool) -> Read<Name> {
    let start = reader.at;
    if inline {
        let units = inline_name(reader)?;
        return Ok(Name {
            offset: start as u32,
            sound: Some(values::sound(units)),
        });
    }
    // "Offset name: u32; if it equals the position after it, a u32, a u16 and a u16 n follow, and the position is set 10
    // + 2n past that point."
    let offset = reader.word()?;
    let after = reader.at;
    if after == offset as usize {
        reader.word()?;
        reader.half()?;
        let units = usize::from(reader.half()?);
        reader.set(after + 10 + 2 * units)?;
    }
    Ok(Name {
        offset,
        sound: None,
    })
}

/// "Inline name: hash u16, count u16, units, zero unit; hash is h·65599 + unit modulo 2^32 from 0, low 16 bits. 11 comes
/// before 12." What is handed back are the bytes of its units.
pub(super) fn inline_name<'a>(reader: &mut Reader<'a>) -> Read<&'a [u8]> {
    let start = reader.at;
    let stored = reader.half()?;
    let count = reader.half()?;
    let mut units = *reader;
    let mut hash: u32 = 0;
    for _ in 0..count {
        hash = hash
            .wrapping_mul(65599)
            .wrapping_add(u32::from(reader.half()?));
    }
    if reader.half()? != 0 {
        return Reader::refuse(11, start);
    }
    if hash as u16 != stored {
        return Reader::refuse(12, start);
    }
    units.take(2 * usize::from(count))
}

/// "hash is h·65599 + unit modulo 2^32 from 0, low 16 bits", of these bytes' units.
pub(super) fn hash(units: &[u8]) -> u16 {
    let units = units.as_chunks::<2>().0.iter();
    let step = |hash: u32, unit: &[u8; 2]| hash.wrapping_mul(65599).wrapping_add(number(unit) as u32);
    units.fold(0, step) as u16
}

/// "CDATA and PI data: u16 n, then n units; the view stops before the first zero unit."
fn text<'a>(reader: &mut Reader<'a>) -> Read<&'a [u8]> {
    let units = usize::from(reader.half()?);
    Ok(values::view(reader.take(2 * units)?))
}

/// "Instance: a byte, id u32, offset u32. If the position equals the offset: u32, 16 byte GUID, u32 n, then n bytes
/// skipped. Count u32, then descriptors of size u16, type, a byte. The whole table is read before any value."
fn instance(reader: &mut Reader<'_>, each_value: EachValue<'_>) -> Read<Instance> {
    reader.byte()?;
    let id = reader.word()?;
    let definition = reader.word()?;
    let mut guid = None;
    if reader.at == definition as usize {
        reader.word()?;
        guid = Some(reader.take(16)?.to_vec());
        let skipped = reader.word()? as usize;
        reader.set(reader.at + skipped)?;
    }
    let mut table = Vec::new();
    for _ in 0..reader.word()? {
        let size = reader.half()?;
        table.push((size, values::read_code(reader)?));
        reader.byte()?;
    }
    let mut values = Vec::with_capacity(table.len());
    for (size, code) in table {
        let value = values::read_sized(reader, code, size)?;
        each_value(&value)?;
        values.push(value);
    }
    Ok(Instance {
        id,
        definition,
        guid,
        values,
    })
}

impl<'a> Token<'a> {
    pub(super) fn new(kind: u8, place: usize, next: usize, held: Held<'a>) -> Self {
        Token {
            kind,
            place,
            next,
            held,
        }
    }

    pub fn instance(&self) -> Option<&Instance> {
        match &self.held {
            Held::Instance(instance) => Some(instance),
            _ => None,
        }
    }

    /// What the sheet says of it.
    pub(crate) fn row(&self) -> Row {
        let (number, flag) = match self.held {
            Held::Open(Open { dependency, .. }) => (dependency.unwrap_or(0), dependency.is_some()),
            Held::CharRef(number) => (number, false),
            Held::Substitution(number, optional) => (number, optional),
            _ => (0, false),
        };
        // "Tokens without a name have 0 there."
        let (announced, name) = match self.held {
            Held::Open(Open {
                announced, name, ..
            }) => (announced, name.offset),
            Held::Name(name) => (false, name.offset),
            _ => (false, 0),
        };
        Row {
            kind: self.kind,
            place: self.place,
            length: self.next - self.place,
            number,
            flag,
            announced,
            name,
            level: 0,
        }
    }

    /// Its line in mode T.
    pub(super) fn push_line(&self, out: &mut String) -> std::fmt::Result {
        let (place, kind) = (self.place, self.kind);
        write!(out, "{place} {} {kind}", self.next - place)?;
        match &self.held {
            Held::Nothing => Ok(()),
            Held::Open(Open {
                name,
                dependency,
                announced,
            }) => {
                push_open(out, name.offset, *dependency, *announced)?;
                push_soundness(out, name.sound)
            }
            Held::Name(name) => {
                write!(out, " {}", name.offset)?;
                push_soundness(out, name.sound)
            }
            Held::Text(view) => {
                write!(out, " {}", hex(view))?;
                push_soundness(out, Some(values::sound(view)))
            }
            Held::CharRef(number) => write!(out, " {number}"),
            Held::Substitution(number, optional) => {
                write!(out, " {number} {}", u8::from(*optional))
            }
            Held::Value(value) => write!(out, " {}", value.field()),
            Held::Instance(Instance {
                id,
                definition,
                guid,
                values,
            }) => {
                let guid = guid.as_deref().map_or("-".to_owned(), hex);
                write!(out, " {id} {definition} {guid} {}", values.len())?;
                let mut values = values.iter();
                values.try_for_each(|value| write!(out, " {}", value.field()))
            }
        }?;
        out.push('\n');
        Ok(())
    }
}
