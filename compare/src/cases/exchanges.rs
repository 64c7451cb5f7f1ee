//! Exchanges of two values or two names in a stream whose event is read, each with what it must do to the rows: the sentence that no value
//! hangs on another's name.

use crate::document::event::{self, Own, Row, Text, Told};
use crate::oracle::kinds::{ATTRIBUTE, ENTITY_REF, OPEN, SUBSTITUTION};
use crate::oracle::nests::BODY;
use crate::oracle::tokens::Asked;

/// A definition's head, and its count's place in an instance without one in place.
const HEAD: usize = 24;
const COUNT: usize = 10;

/// What is exchanged.
#[derive(Debug, Clone, Copy)]
pub enum What {
    /// Two values of the instance of this body, of equal spans.
    Values { body: usize, a: usize, b: usize },
    /// The numbers of two substitutions, by their places.
    Numbers { a: usize, b: usize },
    /// The name offsets of two tokens, by their places.
    Names { a: usize, b: usize },
    /// The units of two names of equal length, by their offsets.
    Units { a: usize, b: usize },
}

/// A stream with an exchange in it.
pub struct Exchanged {
    pub what: What,
    pub bytes: Vec<u8>,
}

/// Every exchange of a stream whose event is read; of names those at these offsets too.
pub fn all(bytes: &[u8], asked: Asked, names: &[usize]) -> Vec<Exchanged> {
    let Ok(texts) = event::texts(&mut Own(bytes), asked) else {
        return Vec::new();
    };
    let mut all = Vec::new();
    for (body, text) in texts.iter().enumerate() {
        all.extend(values(bytes, body, text));
        all.extend(numbers(bytes, text));
        if !asked.inline_names {
            all.extend(offsets(bytes, text));
        }
    }
    let mut inline: Vec<usize> = Vec::new();
    if asked.inline_names {
        let tokens = texts.iter().flat_map(|text| &text.tokens);
        inline.extend(
            tokens
                .map(|token| token.name as usize)
                .filter(|name| *name > 0),
        );
        inline.sort();
        inline.dedup();
    }
    all.extend(units(bytes, asked.inline_names, names));
    all.extend(units(bytes, asked.inline_names, &inline));
    all
}

/// The pairs of a list.
fn pairs<T: Copy>(list: &[T]) -> impl Iterator<Item = (T, T)> {
    let from = move |i: usize| list[i + 1..].iter().map(move |&b| (list[i], b));
    (0..list.len()).flat_map(from)
}

/// Swaps as many bytes in two places that do not overlap.
fn swapped(bytes: &[u8], a: usize, b: usize, count: usize) -> Option<Vec<u8>> {
    if a.abs_diff(b) < count {
        return None;
    }
    let mut swapped = bytes.to_vec();
    for at in 0..count {
        swapped.swap(a + at, b + at);
    }
    Some(swapped)
}

/// Two values with descriptor and bytes. Those that hold a body are left where they are: positions count from the stream's first byte.
fn values(bytes: &[u8], body: usize, text: &Text) -> Vec<Exchanged> {
    let Some(given) = &text.given else {
        return Vec::new();
    };
    let mut table = given.place + COUNT;
    if given.definition == table {
        let length = bytes[table + HEAD - 4..].first_chunk().expect("a length");
        table += HEAD + u32::from_le_bytes(*length) as usize;
    }
    table += 4;
    let plain = |number: &usize| given.values[*number].code != BODY;
    let numbers: Vec<usize> = (0..given.values.len()).filter(plain).collect();
    let exchange = |(a, b): (usize, usize)| {
        let ((from, to), (other, end)) = (given.spans[a], given.spans[b]);
        if to - from != end - other {
            return None;
        }
        let bytes = swapped(bytes, from, other, to - from)?;
        let bytes = swapped(&bytes, table + 4 * a, table + 4 * b, 4)?;
        let what = What::Values { body, a, b };
        Some(Exchanged { what, bytes })
    };
    pairs(&numbers).filter_map(exchange).collect()
}

fn numbers(bytes: &[u8], text: &Text) -> Vec<Exchanged> {
    let of = |token: &&Told| token.kind == SUBSTITUTION;
    let tokens: Vec<&Told> = text.tokens.iter().filter(of).collect();
    let exchange = |(a, b): (&Told, &Told)| {
        let bytes = swapped(bytes, a.place + 1, b.place + 1, 2)?;
        let (a, b) = (a.place, b.place);
        let what = What::Numbers { a, b };
        Some(Exchanged { what, bytes })
    };
    pairs(&tokens).filter_map(exchange).collect()
}

/// Two name offsets, neither of which is a name in place or becomes one.
fn offsets(bytes: &[u8], text: &Text) -> Vec<Exchanged> {
    let at = |token: &Told| match (token.kind, &text.given) {
        (OPEN, Some(_)) => token.place + 7,
        (OPEN, None) => token.place + 5,
        _ => token.place + 1,
    };
    let named = |token: &&Told| [OPEN, ATTRIBUTE, ENTITY_REF].contains(&token.kind);
    let tokens: Vec<&Told> = text.tokens.iter().filter(named).collect();
    let exchange = |(a, b): (&Told, &Told)| {
        let names = [a.name, b.name].map(|name| name as usize);
        let after = [a, b].map(|token| at(token) + 4);
        if names.iter().any(|name| after.contains(name)) {
            return None;
        }
        let bytes = swapped(bytes, at(a), at(b), 4)?;
        let (a, b) = (a.place, b.place);
        let what = What::Names { a, b };
        Some(Exchanged { what, bytes })
    };
    pairs(&tokens).filter_map(exchange).collect()
}

/// The hashes, counts and units of two names of equal length.
fn units(bytes: &[u8], inline: bool, names: &[usize]) -> Vec<Exchanged> {
    let link = if inline { 0 } else { 4 };
    let count = |name| {
        event::name(bytes, name, inline)
            .ok()
            .map(|(count, _)| count)
    };
    let exchange = |(a, b): (usize, usize)| {
        let units = count(a).filter(|units| count(b) == Some(*units))?;
        let bytes = swapped(bytes, a + link, b + link, 4 + 2 * units)?;
        let what = What::Units { a, b };
        Some(Exchanged { what, bytes })
    };
    pairs(names).filter_map(exchange).collect()
}

/// The rows that must come after an exchange, by those before it: the exchanged ones with what is now theirs, and every other one as it was.
pub fn expected(texts: &[Text], rows: &[Row], what: What) -> Vec<Row> {
    let mut expected = rows.to_vec();
    for row in &mut expected {
        let (body, item) = ((row[0] >> 32) as usize, row[0] as u32 as usize);
        let text = &texts[body];
        match what {
            What::Values { body: of, a, b } if of == body => {
                let number = row[3] as u16 as usize;
                if row[3] >> 32 == u64::from(SUBSTITUTION) && [a, b].contains(&number) {
                    let other = if number == a { b } else { a };
                    moved_value(text, row, number, other);
                }
            }
            What::Numbers { a, b } => {
                if let Some(other) = other_of(text, item, a, b) {
                    row[3] = row[3] & !0xffff | u64::from(other.number);
                    stands_for(text, row, other.number.into());
                }
            }
            What::Names { a, b } => renamed(text, row, item, a, b),
            What::Values { .. } | What::Units { .. } => {}
        }
    }
    expected
}

/// The token at the other place, if the one of this number stands at one of the two.
fn other_of(text: &Text, token: usize, a: usize, b: usize) -> Option<&Told> {
    let at = |place: usize| text.tokens.iter().find(|token| token.place == place);
    match text.tokens[token].place {
        place if place == a => at(b),
        place if place == b => at(a),
        _ => None,
    }
}

/// The row's value becomes that of another number of its instance; in an element body it stands for nothing as before.
fn stands_for(text: &Text, row: &mut Row, number: usize) {
    let Some(given) = &text.given else {
        return;
    };
    let value = given.values[number];
    row[3] = row[3] & !0xff_0000 | u64::from(value.code) << 16;
    row[4] = (value.start as u64) << 32 | value.bytes as u64;
    row[5] = value.bits;
}

/// The row's value becomes that of another number, which now stands where its own stood.
fn moved_value(text: &Text, row: &mut Row, number: usize, other: usize) {
    stands_for(text, row, other);
    let Some(given) = &text.given else {
        return;
    };
    if given.values[other].code != 0 {
        let (from, to) = (given.spans[other].0 as u64, given.spans[number].0 as u64);
        row[4] = row[4] - (from << 32) + (to << 32);
    }
}

/// The names in a row, where its element, its attribute or the entity that it is has the other's.
fn renamed(text: &Text, row: &mut Row, item: usize, a: usize, b: usize) {
    let name = |token: usize| other_of(text, token, a, b).map(|other| u64::from(other.name));
    let (element, attribute) = text.hung_on(item);
    if let Some(name) = name(element) {
        row[2] = name << 32 | row[2] & 0xffff_ffff;
    }
    if let Some(name) = attribute.and_then(name) {
        row[2] = row[2] & !0xffff_ffff | name;
    }
    if let Some(name) = name(item) {
        row[4] = name << 32;
    }
}
