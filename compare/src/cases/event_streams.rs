//! Payloads with the definitions and names that they name: sound ones, and ones with slips in them.

use super::lists;
use super::random::Random;
use super::streams::{KNOWN, Stream, hash, width};
use crate::oracle::kinds::{
    ANNOUNCING, ATTRIBUTE, CDATA, CHAR_REF, CLOSE_ELEMENT, CLOSE_EMPTY, CLOSE_START, ENTITY_REF,
    INSTANCE, OPEN, PI_DATA, PI_TARGET, SUBSTITUTION, VALUE,
};
use crate::oracle::nests::BODY;
use crate::oracle::tokens::Asked;

/// Types of values that are read, a few of each kind.
const SIZED: [u8; 40] = [
    0x00, 0x00, 0x01, 0x01, 0x01, 0x02, 0x03, 0x04, 0x05, 0x06, 0x07, 0x08, 0x08, 0x09, 0x0a, 0x0b,
    0x0c, 0x0d, 0x0e, 0x0f, 0x10, 0x11, 0x12, 0x13, 0x14, 0x15, 0x81, 0x83, 0x84, 0x85, 0x86, 0x87,
    0x88, 0x8a, 0x8b, 0x8d, 0x8f, 0x91, 0x92, 0x95,
];
const UNSIZED: [u8; 12] = [
    0x00, 0x01, 0x01, 0x03, 0x05, 0x07, 0x08, 0x0a, 0x0c, 0x0d, 0x0f, 0x13,
];
/// Before a definition's tokens: the next one's offset, a GUID, and how many bytes the tokens take.
pub const HEAD: usize = 24;

/// A stream, its payload, and where its definitions and the names of the pool stand.
pub struct Scene {
    pub bytes: Vec<u8>,
    pub inline: bool,
    pub start: usize,
    pub length: usize,
    pub definitions: Vec<Known>,
    pub names: Vec<usize>,
}

impl Scene {
    pub fn asked(&self) -> Asked {
        Asked {
            start: self.start,
            length: self.length,
            dependencies: false,
            inline_names: self.inline,
        }
    }

    /// The same for a change of its bytes.
    pub fn stream(&self) -> Stream {
        let mut places = vec![self.start, self.start + 6];
        places.extend(self.definitions.iter().flat_map(|known| {
            let at = known.offset;
            [at, at + 4, at + 20, at + HEAD]
        }));
        Stream {
            bytes: self.bytes.clone(),
            dependencies: false,
            inline: self.inline,
            start: self.start,
            places,
        }
    }
}

/// A definition that stands in the stream: its id, its bytes, and so many values are needed for it.
#[derive(Clone, Copy)]
pub struct Known {
    pub offset: usize,
    pub length: usize,
    id: u32,
    needs: usize,
}

/// A definition that is to stand behind the payload: where its offset is written.
struct Later {
    at: usize,
    id: u32,
    count: usize,
}

/// A payload of an instance, mostly, or an element, with bodies in its values down to so many levels; once in `slips` times something is
/// wrong, never if it is 0.
pub fn make(random: &mut Random, levels: usize, slips: usize) -> Scene {
    let inline = random.once_in(3);
    let before = random.one_of(&[0, 0, 1, 7, 40]);
    let [pairs, nothing] = [4, 3].map(|n| random.once_in(n));
    let mut maker = Maker {
        bytes: (0..before).map(|_| random.byte()).collect(),
        random,
        inline,
        slips,
        names: Vec::new(),
        known: Vec::new(),
        later: Vec::new(),
        needs: 0,
        pairs,
        nothing,
    };
    maker.pool();
    let start = maker.bytes.len();
    maker.body(levels);
    if maker.random.once_in(2) {
        maker.put(&[0]);
    }
    let length = maker.bytes.len() - start;
    maker.behind();
    for _ in 0..maker.random.one_of(&[0, 0, 3, 30]) {
        let byte = maker.random.byte();
        maker.put(&[byte]);
    }
    Scene {
        bytes: maker.bytes,
        inline,
        start,
        length,
        definitions: maker.known,
        names: maker.names,
    }
}

struct Maker<'a> {
    random: &'a mut Random,
    bytes: Vec<u8>,
    inline: bool,
    slips: usize,
    names: Vec<usize>,
    known: Vec<Known>,
    later: Vec<Later>,
    /// How many values the substitutions written last need.
    needs: usize,
    /// Whether there are instructions round roots, and substitutions in element bodies: the Rust refuses both.
    pairs: bool,
    nothing: bool,
}

impl Maker<'_> {
    fn slip(&mut self) -> bool {
        self.slips > 0 && self.random.once_in(self.slips)
    }

    fn put(&mut self, bytes: &[u8]) {
        self.bytes.extend(bytes);
    }

    fn put16(&mut self, number: u16) {
        self.put(&number.to_le_bytes());
    }

    fn put32(&mut self, number: u32) {
        self.put(&number.to_le_bytes());
    }

    fn set32(&mut self, at: usize, number: u32) {
        self.bytes[at..at + 4].copy_from_slice(&number.to_le_bytes());
    }

    /// Names and definitions before the payload.
    fn pool(&mut self) {
        if !self.inline {
            for _ in 0..self.random.between(2, 5) {
                let units = self.units();
                self.names.push(self.bytes.len());
                self.linked_name(&units);
            }
        }
        for _ in 0..self.random.below(4) {
            let id = self.id();
            let count = self.random.below(7);
            self.definition(id, count);
        }
    }

    /// The definitions behind the payload.
    fn behind(&mut self) {
        for Later { at, id, count } in std::mem::take(&mut self.later) {
            let offset = self.bytes.len() as u32;
            self.set32(at, offset);
            self.definition(id, count);
        }
    }

    fn id(&mut self) -> u32 {
        let any = self.random.word() as u32;
        self.random.one_of(&[0, 1, 2, 7, any, any, any])
    }

    /// An instance, mostly, or an element whose substitutions stand for nothing; a pair before and after it now and then.
    fn body(&mut self, levels: usize) {
        if self.random.once_in(6) {
            self.put(&[0x0f, 1, 1, 0]);
        }
        self.pair();
        if self.random.once_in(7) {
            let mut list = Vec::new();
            lists::element(self.random, 2, &mut list);
            let count = if self.nothing { 9 } else { 0 };
            self.list(&list, false, count);
        } else {
            self.instance(levels);
        }
        self.pair();
    }

    fn pair(&mut self) {
        if self.pairs && self.random.once_in(4) {
            self.list(&[PI_TARGET, PI_DATA], false, 0);
        }
    }

    /// An instance of a definition that stands already, in place, or behind the payload.
    fn instance(&mut self, levels: usize) {
        let byte = self.random.byte();
        self.put(&[0x0c, byte]);
        let count = if !self.known.is_empty() && self.random.once_in(2) {
            let known = self.known[self.random.below(self.known.len())];
            self.put32(known.id);
            self.put32(known.offset as u32);
            known.needs + self.random.one_of(&[0, 0, 1, 2])
        } else {
            let (id, count) = (self.id(), self.random.one_of(&[0, 1, 2, 3, 4, 5, 9]));
            self.put32(id);
            let at = self.bytes.len();
            self.put32(at as u32 + 4);
            if self.random.once_in(2) {
                self.definition(id, count);
            } else {
                self.later.push(Later { at, id, count });
                let elsewhere = self.random.one_of(&[0, 3, 1 << 16, u32::MAX]);
                self.set32(at, elsewhere);
            }
            count
        };
        let less = count.saturating_sub(1);
        let count = if self.slip() { less } else { count };
        self.values(count, levels);
    }

    /// A definition: its head, and an element whose substitutions are below `count`.
    fn definition(&mut self, id: u32, count: usize) {
        let offset = self.bytes.len();
        let next = self.random.word() as u32;
        self.put32(next);
        let first = if self.slip() { id ^ 1 } else { id };
        self.put32(first);
        for _ in 0..12 {
            let byte = self.random.byte();
            self.put(&[byte]);
        }
        self.put32(0);
        self.needs = 0;
        let mut list = Vec::new();
        self.pair();
        let levels = self.random.between(1, 4);
        lists::element(self.random, levels, &mut list);
        if self.random.once_in(2) {
            // More items, so that there is something to exchange.
            let at = list
                .iter()
                .rposition(|kind| *kind == CLOSE_ELEMENT)
                .unwrap_or(0);
            let more = [OPEN, CLOSE_START, SUBSTITUTION, CLOSE_ELEMENT, SUBSTITUTION];
            if at > 0 {
                list.splice(at..at, more);
            }
        }
        if self.slip() {
            match self.random.below(3) {
                0 => lists::change(self.random, &mut list),
                1 => list = vec![INSTANCE],
                _ => list.extend([OPEN, CLOSE_EMPTY]),
            }
        }
        self.list(&list, true, count);
        self.pair();
        if self.random.once_in(2) {
            self.put(&[0]);
        }
        let right = (self.bytes.len() - offset - HEAD) as u32;
        let wrong = [right + 1, right / 2, right.saturating_sub(1), u32::MAX, 0];
        let wrong = self.random.one_of(&wrong);
        let length = if self.slip() { wrong } else { right };
        self.set32(offset + HEAD - 4, length);
        self.known.push(Known {
            offset,
            length: HEAD + right as usize,
            id,
            needs: self.needs,
        });
    }

    /// Tokens of these kinds.
    fn list(&mut self, list: &[u8], dependencies: bool, count: usize) {
        for &kind in list {
            match kind {
                INSTANCE => self.put(&[0x0c, 0, 0, 0, 0, 0, 0, 0, 0, 0, 0, 0, 0, 0]),
                OPEN => self.open(0x01, dependencies, count),
                ANNOUNCING => self.open(0x41, dependencies, count),
                CLOSE_START => self.put(&[0x02]),
                CLOSE_EMPTY => self.put(&[0x03]),
                CLOSE_ELEMENT => self.put(&[0x04]),
                VALUE => self.value(count),
                SUBSTITUTION => self.substitution(count),
                ATTRIBUTE => self.named(0x06),
                ENTITY_REF => self.named(0x09),
                PI_TARGET => self.named(0x0a),
                CDATA => self.text(0x07),
                PI_DATA => self.text(0x0b),
                CHAR_REF => {
                    let unit = self.unit();
                    self.put(&[0x08]);
                    self.put16(unit);
                }
                kind => panic!("no kind {kind}"),
            }
        }
    }

    fn open(&mut self, byte: u8, dependencies: bool, count: usize) {
        self.put(&[byte]);
        if dependencies {
            let one = self.random.below(count + 2) as u16;
            let dependency = self.random.one_of(&[0xffff, 0xffff, 0xffff, one]);
            self.put16(dependency);
        }
        self.put32(0);
        self.name();
        if byte == 0x41 {
            self.put32(0);
        }
    }

    fn named(&mut self, byte: u8) {
        self.put(&[byte]);
        self.name();
    }

    /// A name: inline, in place, or mostly one of the pool.
    fn name(&mut self) {
        if self.inline {
            let units = self.units();
            let right = hash(&units);
            let stored = if self.slip() { right ^ 1 } else { right };
            self.put16(stored);
            self.put16(units.len() as u16);
            units.iter().for_each(|&unit| self.put16(unit));
            return self.put16(0);
        }
        let here = self.bytes.len() as u32 + 4;
        match self.random.below(8) {
            0 => {
                self.put32(here);
                let units = self.units();
                self.names.push(self.bytes.len());
                self.linked_name(&units);
            }
            1 if self.slip() => {
                let any = self.random.word() as u32;
                let offset = self.random.one_of(&[0, here + 1, any]);
                self.put32(offset);
            }
            _ => {
                let offset = self.random.one_of(&self.names) as u32;
                self.put32(offset);
            }
        }
    }

    fn linked_name(&mut self, units: &[u16]) {
        let right = hash(units);
        let stored = self.random.one_of(&[right, right, right, right ^ 0x100, 0]);
        self.put32(0);
        self.put16(stored);
        self.put16(units.len() as u16);
        units.iter().for_each(|&unit| self.put16(unit));
        self.put16(0);
    }

    /// A name's units: letters, mostly.
    fn units(&mut self) -> Vec<u16> {
        let length = self.random.one_of(&[0, 1, 1, 2, 2, 2, 3, 5]);
        (0..length)
            .map(|_| match self.random.below(60) {
                0 => self.unit(),
                letter => 0x41 + letter as u16 % 26,
            })
            .collect()
    }

    fn unit(&mut self) -> u16 {
        let any = self.random.word() as u16;
        self.random
            .one_of(&[0, 0x41, 0x42, 0x4100, 0xd800, 0xdc00, any])
    }

    fn text(&mut self, byte: u8) {
        self.put(&[byte]);
        self.counted();
    }

    fn counted(&mut self) {
        let length = self.random.below(5);
        self.put16(length as u16);
        for _ in 0..length {
            let unit = self.unit();
            self.put16(unit);
        }
    }

    fn value(&mut self, count: usize) {
        // A substitution more, where there is a value for it.
        if count > 0 && self.random.once_in(2) {
            return self.substitution(count);
        }
        let code = self.random.one_of(&UNSIZED);
        self.put(&[0x05, code]);
        match code {
            0x00 => {}
            0x01 => self.counted(),
            0x13 => self.sid(),
            _ => self.number(width(code)),
        }
    }

    /// A substitution below the count: the type that it names need not be its value's.
    fn substitution(&mut self, count: usize) {
        if count == 0 && !self.slip() {
            return self.put(&[0x05, 0x00]);
        }
        let number = if self.slip() {
            count
        } else {
            self.random.below(count.max(1))
        };
        self.needs = self.needs.max(number + 1);
        let code = self.random.one_of(&KNOWN);
        let code = if self.slip() { 0x8e } else { code };
        let byte = self.random.one_of(&[0x0d, 0x0e]);
        self.put(&[byte]);
        self.put16(number as u16);
        self.put(&[code]);
    }

    fn number(&mut self, width: usize) {
        let any = self.random.word();
        let number =
            self.random
                .one_of(&[0, 1, u64::MAX, 0x8080_8080_8080_8080, 1 << 63, any, any]);
        let bytes = [number.to_le_bytes(), any.to_le_bytes()].concat();
        self.put(&bytes[..width]);
    }

    fn sid(&mut self) {
        let count = self.random.below(3);
        self.put(&[1, count as u8]);
        for _ in 0..6 + 4 * count {
            let byte = self.random.byte();
            self.put(&[byte]);
        }
    }

    /// A table, and its values; some hold a body.
    fn values(&mut self, count: usize, levels: usize) {
        self.put32(count as u32);
        let table = self.bytes.len();
        for _ in 0..count {
            let mut code = self.random.one_of(&SIZED);
            if levels > 0 && self.random.once_in(3) {
                code = BODY;
            }
            if self.slip() {
                code = self.random.one_of(&KNOWN);
            }
            self.put(&[0, 0, code, 0]);
        }
        for at in (table..).step_by(4).take(count) {
            let begin = self.bytes.len();
            let code = self.bytes[at + 2];
            if code == BODY && levels > 0 {
                self.inner(levels - 1);
            } else {
                self.sized(code);
            }
            let size = (self.bytes.len() - begin) as u16;
            let size = if self.slip() {
                size.wrapping_sub(1)
            } else {
                size
            };
            self.bytes[at..at + 2].copy_from_slice(&size.to_le_bytes());
        }
    }

    fn inner(&mut self, levels: usize) {
        self.body(levels);
        if self.random.once_in(4) {
            self.put(&[0]);
        }
    }

    fn sized(&mut self, code: u8) {
        match code {
            // What has no content may have bytes all the same.
            0x00 => {
                let bytes = self.random.one_of(&[0, 0, 0, 2, 4]);
                self.number(bytes);
            }
            0x01 => {
                for _ in 0..self.random.below(6) {
                    let unit = self.unit();
                    self.put16(unit);
                }
            }
            0x10 => {
                let bytes = self.random.one_of(&[4, 8]);
                self.number(bytes);
            }
            0x13 => self.sid(),
            0x81 => {
                for _ in 0..self.random.below(3) {
                    self.put(&[0x41, 0]);
                    self.put16(0);
                }
            }
            0x8d => {
                for _ in 0..self.random.below(3) {
                    let set = self.random.one_of(&[0, 1, 2]);
                    self.put32(set);
                }
            }
            0x80.. => {
                for _ in 0..self.random.below(3) {
                    self.number(width(code));
                }
            }
            _ if width(code) > 1 || matches!(code, 0x03 | 0x04) => {
                self.number(width(code));
                // More bytes than it reads, now and then.
                let more = self.random.one_of(&[0, 0, 0, 0, 0, 3]);
                self.put(&[0x2a; 3][..more]);
            }
            _ => {
                for _ in 0..self.random.below(9) {
                    let byte = self.random.byte();
                    self.put(&[byte]);
                }
            }
        }
    }
}
