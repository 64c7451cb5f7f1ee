//! The rows of an event beside the tree that the printed Rust joins of the same record (binxml/ir.rs): the same value under the same element
//! and attribute, in the same order, on made payloads and on logs that Windows wrote. Where the Rust does something else, the row of the list of
//! differences with its smallest input.

mod common;

use common::{hex, logs};
use compare::cases::event_streams;
use compare::cases::random::Random;
use compare::cases::real;
use compare::document::event::{self, Own, Row, Text};
use compare::oracle::content::{Hung, Opened};
use compare::oracle::kinds::{CDATA, CHAR_REF, ENTITY_REF, OPEN, SUBSTITUTION};
use compare::oracle::tokens::Asked;
use std::collections::BTreeMap;

const BODY: u8 = 0x21;

/// What hangs on what by the rows, put together as the Rust puts its tree together: a body in a value stands where its substitution does.
struct Hanging<'a> {
    data: &'a [u8],
    texts: &'a [Text],
    rows: BTreeMap<(usize, usize), Row>,
    elements: usize,
    hung: Vec<Hung>,
}

impl<'a> Hanging<'a> {
    fn of(data: &'a [u8], texts: &'a [Text]) -> Vec<Hung> {
        let place = |row: &Row| ((row[0] >> 32) as usize, row[0] as u32 as usize);
        let rows = event::rows(texts);
        let mut hanging = Hanging {
            data,
            texts,
            rows: rows.into_iter().map(|row| (place(&row), row)).collect(),
            elements: 0,
            hung: Vec::new(),
        };
        hanging.body(0);
        hanging.hung
    }

    fn body(&mut self, body: usize) {
        let text = &self.texts[body];
        let mut numbers = BTreeMap::new();
        for (number, token) in text.tokens.iter().enumerate() {
            if left_out(text, number) {
                continue;
            }
            if token.kind == OPEN {
                numbers.insert(number, self.elements);
                self.elements += 1;
            }
            if let Some(&row) = self.rows.get(&(body, number)) {
                self.item(&numbers, row);
            }
        }
    }

    fn item(&mut self, numbers: &BTreeMap<usize, usize>, row: Row) {
        let (kind, code) = ((row[3] >> 32) as u8, (row[3] >> 16) as u8);
        let start = (row[4] >> 32) as usize;
        if kind == SUBSTITUTION && code == BODY {
            let within = |text: &Text| text.start == start && text.length == row[4] as u32 as usize;
            let inner = (1..self.texts.len()).find(|&body| within(&self.texts[body]));
            return self.body(inner.expect("a value's body"));
        }
        if row[3] >> 24 & 1 == 1 && self.empty(code, row) {
            return;
        }
        let name = |offset: u64| self.name(offset as usize);
        let attribute = row[1] as u32 > 0;
        self.hung.push(Hung {
            element: numbers[&((row[1] >> 32) as usize)],
            name: name(row[2] >> 32),
            attribute: attribute.then(|| name(row[2] & 0xffff_ffff)),
            what: match kind {
                CDATA => format!("d{}", self.digits(row)),
                CHAR_REF => format!("c{}", row[3] as u16),
                ENTITY_REF => format!("e{}", name(row[4] >> 32)),
                _ => self.value(code, row),
            },
        });
    }

    fn bytes(&self, row: Row) -> &[u8] {
        &self.data[(row[4] >> 32) as usize..][..row[4] as u32 as usize]
    }

    fn digits(&self, row: Row) -> String {
        match self.bytes(row) {
            [] => "-".to_owned(),
            bytes => bytes.iter().map(|byte| format!("{byte:02x}")).collect(),
        }
    }

    /// ANSI text without its zeros, by Latin-1, as the stand-in decodes it.
    fn ansi(&self, row: Row) -> String {
        let bytes = self.bytes(row).iter().filter(|byte| **byte != 0);
        bytes.map(|&byte| char::from(byte)).collect()
    }

    fn value(&self, code: u8, row: Row) -> String {
        let bits = row[5];
        match code {
            0x00 => "n".to_owned(),
            0x01 => format!("t{}", self.digits(row)),
            0x02 => format!("a{}", self.ansi(row)),
            0x82 => "ansi".to_owned(),
            // The Rust's boolean is true, false, or a signed number.
            0x0d if bits > 1 => format!("i{}", bits as u32 as i32),
            0x03 | 0x05 | 0x07 | 0x09 => format!("i{}", bits as i64),
            0x0b => format!("f{bits:08x}"),
            0x0c => format!("f{bits:016x}"),
            0x04 | 0x06 | 0x08 | 0x0a | 0x0d | 0x10 | 0x11 | 0x14 | 0x15 => format!("u{bits}"),
            _ => format!("b{}", self.digits(row)),
        }
    }

    /// What the Rust leaves out where it is optional.
    fn empty(&self, code: u8, row: Row) -> bool {
        match code {
            0x00 => true,
            0x02 => self.ansi(row).is_empty(),
            0x01 | 0x0e | 0x81.. => self.bytes(row).is_empty(),
            _ => false,
        }
    }

    /// A name's units up to a zero, decoded.
    fn name(&self, offset: usize) -> String {
        let Ok((_, word)) = event::name(self.data, offset, false) else {
            return "no name".to_owned();
        };
        let (start, count) = ((word >> 32) as usize, (word >> 8) as u16 as usize);
        let units = self.data[start..][..2 * count].as_chunks::<2>().0;
        let units = units.iter().map(|unit| u16::from_le_bytes(*unit));
        let units: Vec<u16> = units.take_while(|unit| *unit != 0).collect();
        String::from_utf16_lossy(&units)
    }
}

/// Whether the token lies in an element whose dependency is a value that is not there: the Rust leaves such an element out, unless it is the root.
fn left_out(text: &Text, token: usize) -> bool {
    let Some(given) = &text.given else {
        return false;
    };
    let told = &text.tokens[token];
    let null = told
        .dependency
        .and_then(|dependency| given.values.get(usize::from(dependency)))
        .is_some_and(|value| value.code == 0);
    match text.owners[token] {
        0 => false,
        owner => told.kind == OPEN && null || left_out(text, owner as usize - 1),
    }
}

/// What both say of a record.
struct Said {
    rows: Result<Vec<Hung>, (u8, u64)>,
    rust: Result<Vec<Hung>, String>,
}

fn said(opened: &Opened, data: &[u8], asked: Asked) -> Said {
    let texts = event::texts(&mut Own(data), asked);
    Said {
        rows: texts
            .map(|texts| Hanging::of(data, &texts))
            .map_err(|refusal| (refusal.number, refusal.place)),
        rust: opened.hung(asked.start, asked.length),
    }
}

/// How both stand to each other: what they read is equal.
fn held(said: &Said, data: &[u8]) -> String {
    match (&said.rows, &said.rust) {
        (Ok(rows), Ok(rust)) => {
            assert_eq!(rows, rust, "{data:02x?}");
            "both".to_owned()
        }
        (Ok(_), Err(err)) => {
            let reason = AGAINST.iter().find(|(part, _)| err.contains(part));
            let (_, row) = reason.unwrap_or_else(|| panic!("{err}: {data:02x?}"));
            format!("rust refuses, {row}")
        }
        (Err((number, _)), Ok(_)) => format!("refused {number}"),
        (Err(_), Err(_)) => "neither".to_owned(),
    }
}

/// What the Rust says where the event is read, and the row of the list of differences.
const AGAINST: [(&str, &str); 7] = [
    ("value outside of element", "E4"),
    ("substitution outside template definition", "E5"),
    ("template data out of bounds", "E6"),
    // A name that is not there, is cut, or is not sound.
    ("cursor.position", "E9"),
    ("\"name\"", "E9"),
    ("\"name at offset", "E9"),
    ("sized utf-16 string", "1"),
];

/// What is refused and the Rust reads: of the token walk and of bodies in values by the rows for these, of definitions by E1, E2 and E3.
const REFUSED: [&str; 10] = ["2", "7", "8", "9", "15", "20", "29", "30", "31", "32"];

#[test]
fn made_payloads() {
    let mut random = Random::new(11);
    let mut counts: BTreeMap<String, usize> = BTreeMap::new();
    for round in 0..6000 {
        let levels = random.one_of(&[0, 1, 1, 2]);
        let slips = if round % 2 == 0 { 0 } else { 40 };
        let scene = event_streams::make(&mut random, levels, slips);
        if !scene.inline {
            let said = said(&Opened::new(&scene.bytes), &scene.bytes, scene.asked());
            *counts.entry(held(&said, &scene.bytes)).or_default() += 1;
        }
    }
    for kind in counts.keys() {
        let refused = kind.strip_prefix("refused ");
        assert!(
            refused.is_none_or(|number| REFUSED.contains(&number)),
            "{counts:?}"
        );
    }
    let enough = [
        "both",
        "rust refuses, E4",
        "rust refuses, E5",
        "rust refuses, E9",
        "refused 30",
        "refused 32",
    ];
    assert!(enough.iter().all(|kind| counts[*kind] > 20), "{counts:?}");
    assert!(counts["both"] > 2000, "{counts:?}");
}

/// Every live record that is read is joined by the Rust to the same. A carved one that is read may have lost names, which the rows do not look
/// at and the Rust does; what is refused 30 the Rust reads where another definition stands there.
#[test]
fn real_records() {
    for (name, log) in logs() {
        let mut counts: BTreeMap<(bool, String), usize> = BTreeMap::new();
        let mut opened: Option<(*const u8, Opened)> = None;
        for (chunk, record) in real::all_records(&log) {
            let asked = Asked {
                start: record.payload_start as usize,
                length: record.payload_length as usize,
                dependencies: false,
                inline_names: false,
            };
            let (_, opened) = match opened.take_if(|(at, _)| *at == chunk.as_ptr()) {
                Some(same) => opened.insert(same),
                None => opened.insert((chunk.as_ptr(), Opened::new(chunk))),
            };
            let kind = held(&said(opened, chunk, asked), &[]);
            *counts.entry((record.carved, kind)).or_default() += 1;
        }
        for (carved, kind) in counts.keys() {
            let known: &[&str] = match carved {
                false => &["both", "refused 7"],
                true => &["both", "neither", "rust refuses, E9", "refused 30"],
            };
            assert!(known.contains(&kind.as_str()), "{name}: {counts:?}");
        }
        let of = |carved, kind: &str| counts.get(&(carved, kind.to_owned())).copied().unwrap_or(0);
        let live = [of(false, "both"), of(false, "refused 7")];
        let carved =
            ["both", "rust refuses, E9", "refused 30", "neither"].map(|kind| of(true, kind));
        match name.as_str() {
            "System.evtx" => assert_eq!((live, carved), ([1596, 5], [0; 4])),
            "issue_38.evtx" => assert_eq!((live, carved), ([1, 0], [0, 7, 3, 28])),
            _ => {}
        }
    }
}

/// Where the name without units and the payload of the smallest inputs stand; their definition stands at 0.
const NAME: usize = 128;
const PAYLOAD: usize = 160;

/// A stream with a definition of the id 7 at 0, a name, and a payload.
fn stream(tokens: &str, payload: &str) -> Vec<u8> {
    let mut tokens = hex(tokens);
    let mut bytes = hex("00000000 07000000 00000000 00000000 00000000");
    bytes.extend((tokens.len() as u32).to_le_bytes());
    bytes.append(&mut tokens);
    bytes.resize(PAYLOAD, 0);
    bytes.extend(hex(payload));
    bytes
}

/// What both say of a payload.
fn of(tokens: &str, payload: &str) -> Said {
    of_stream(&stream(tokens, payload))
}

fn of_stream(bytes: &[u8]) -> Said {
    let asked = Asked {
        start: PAYLOAD,
        length: bytes.len() - PAYLOAD,
        dependencies: false,
        inline_names: false,
    };
    said(&Opened::new(bytes), bytes, asked)
}

/// What hangs where, in short.
fn whats(hung: Result<Vec<Hung>, impl std::fmt::Debug>) -> Vec<String> {
    let short = |hung: Hung| format!("{} {}", hung.element, hung.what);
    hung.expect("it is read").into_iter().map(short).collect()
}

const OPEN_TOKEN: &str = "01 FFFF 00000000 80000000";
/// An instance with one value, the number 5.
const ONE: &str = "0C 00 07000000 00000000 01000000 0100 04 00 05";

#[test]
fn both_read() {
    let said = of(&format!("{OPEN_TOKEN} 02 0D 0000 04 04"), ONE);
    assert_eq!(whats(said.rows), ["0 u5"]);
    assert_eq!(whats(said.rust), ["0 u5"]);
}

#[test]
fn row_e1_whose_definition() {
    let other = ONE.replace("07000000", "08000000");
    let said = of(&format!("{OPEN_TOKEN} 02 0D 0000 04 04"), &other);
    assert_eq!(said.rows, Err((30, 0)));
    assert_eq!(whats(said.rust), ["0 u5"]);
}

#[test]
fn row_e2_past_the_count() {
    let said = of(&format!("{OPEN_TOKEN} 02 0D 0100 04 04"), ONE);
    assert_eq!(said.rows, Err((32, 24 + 12)));
    assert_eq!(whats(said.rust), [""; 0]);
}

#[test]
fn row_e3_grammar() {
    let said = of("41 FFFF 00000000 80000000 00000000 03", ONE);
    assert_eq!(said.rows, Err((31, 0)));
    assert_eq!(said.rust, Ok(Vec::new()));
}

#[test]
fn row_e4_instructions() {
    let pair = "0A 80000000 0B 0000";
    let element = format!("{OPEN_TOKEN} 02 0D 0000 04 04");
    let around = of(&format!("{pair} {element}"), ONE);
    let before = of(&element, &format!("{pair} {ONE}"));
    for said in [around, before] {
        assert_eq!(whats(said.rows), ["0 u5"]);
        assert!(
            said.rust
                .is_err_and(|err| err.contains("value outside of element"))
        );
    }
}

#[test]
fn row_e5_element_body() {
    let said = of("", "01 00000000 80000000 02 0D 0000 04 04");
    assert_eq!(whats(said.rows), ["0 n"]);
    assert!(
        said.rust
            .is_err_and(|err| err.contains("substitution outside"))
    );
}

#[test]
fn row_e6_length() {
    let mut bytes = stream(&format!("{OPEN_TOKEN} 02 0D 0000 04 04"), ONE);
    bytes[20..24].copy_from_slice(&u32::MAX.to_le_bytes());
    let said = of_stream(&bytes);
    assert_eq!(whats(said.rows), ["0 u5"]);
    assert!(said.rust.is_err_and(|err| err.contains("out of bounds")));
}

/// The rows of a payload, six words each.
fn rows(bytes: &[u8]) -> Vec<Row> {
    let asked = Asked {
        start: PAYLOAD,
        length: bytes.len() - PAYLOAD,
        dependencies: false,
        inline_names: false,
    };
    event::read(&mut Own(bytes), asked).expect("it is read")
}

#[test]
fn row_e7_optional() {
    let empty = "0C 00 07000000 00000000 01000000 0000 01 00";
    let bytes = stream(&format!("{OPEN_TOKEN} 02 0E 0000 01 04"), empty);
    let content = (bytes.len() as u64) << 32;
    assert_eq!(rows(&bytes)[0][3..], [0xd_0101_0000, content, 0]);
    assert_eq!(of_stream(&bytes).rust, Ok(Vec::new()));
    // One that is not optional stays.
    let bytes = stream(&format!("{OPEN_TOKEN} 02 0D 0000 01 04"), empty);
    assert_eq!(whats(of_stream(&bytes).rust), ["0 t-"]);
}

#[test]
fn row_e8_dependency() {
    let null = "0C 00 07000000 00000000 01000000 0000 00 00";
    let child = "01 0000 00000000 80000000 02 05 04 09 04";
    let bytes = stream(&format!("{OPEN_TOKEN} 02 {child} 04"), null);
    assert_eq!(
        rows(&bytes)[0][3..],
        [0x6_0004_0000, (24 + 12 + 14) << 32 | 1, 9]
    );
    assert_eq!(of_stream(&bytes).rust, Ok(Vec::new()));
}

#[test]
fn row_e9_names() {
    // Unsound units, and a name without room for its zero unit.
    let mut bytes = stream(&format!("{OPEN_TOKEN} 02 0D 0000 04 04"), ONE);
    bytes[NAME + 6] = 1;
    bytes[NAME + 9] = 0xd8;
    assert_eq!(rows(&bytes)[0][2], (NAME as u64) << 32);
    assert!(
        of_stream(&bytes)
            .rust
            .is_err_and(|err| err.contains("name"))
    );
    let end = bytes.len();
    bytes[24 + 7..][..4].copy_from_slice(&(end as u32 - 8).to_le_bytes());
    bytes[end - 2..].copy_from_slice(&[0, 0]);
    assert_eq!(
        event::name(&bytes, end - 8, false),
        Ok((0, (end as u64) << 32 | 2))
    );
    assert_eq!(rows(&bytes).len(), 1);
    assert!(
        of_stream(&bytes)
            .rust
            .is_err_and(|err| err.contains("name"))
    );
}
