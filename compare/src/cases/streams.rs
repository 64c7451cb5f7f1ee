//! Token streams: sound ones, ones with slips in them, and noise of token bytes.

use super::lists;
use super::random::Random;
use crate::oracle::kinds;

/// A fragment header.
pub const FRAGMENT: [u8; 4] = [0x0f, 1, 1, 0];

/// The type codes that document 01 knows.
pub const KNOWN: [u8; 45] = [
    0x00, 0x01, 0x02, 0x03, 0x04, 0x05, 0x06, 0x07, 0x08, 0x09, 0x0a, 0x0b, 0x0c, 0x0d, 0x0e, 0x0f,
    0x10, 0x11, 0x12, 0x13, 0x14, 0x15, 0x20, 0x21, 0x23, 0x81, 0x82, 0x83, 0x84, 0x85, 0x86, 0x87,
    0x88, 0x89, 0x8a, 0x8b, 0x8c, 0x8d, 0x8f, 0x90, 0x91, 0x92, 0x93, 0x94, 0x95,
];
/// Those of them that a value with a size is never read by.
const UNREAD: [u8; 4] = [0x20, 0x23, 0x90, 0x93];
/// Those that a value token is read by.
const UNSIZED: [u8; 19] = [
    0x00, 0x01, 0x03, 0x04, 0x05, 0x06, 0x07, 0x08, 0x09, 0x0a, 0x0b, 0x0c, 0x0d, 0x0f, 0x11, 0x12,
    0x13, 0x14, 0x15,
];
/// Bytes that mean something to the walk.
const ALPHABET: [u8; 50] = [
    0x00, 0x00, 0x00, 0x01, 0x02, 0x03, 0x04, 0x05, 0x06, 0x07, 0x08, 0x09, 0x0a, 0x0b, 0x0c, 0x0d,
    0x0e, 0x0f, 0x41, 0x45, 0x46, 0x47, 0x48, 0x49, 0x10, 0x11, 0x12, 0x13, 0x14, 0x15, 0x16, 0x20,
    0x21, 0x22, 0x23, 0x40, 0x42, 0x4a, 0x4f, 0x80, 0x81, 0x83, 0x86, 0x8d, 0x8e, 0x8f, 0x93, 0x95,
    0x96, 0xff,
];

/// The hash of an inline name.
pub fn hash(units: &[u16]) -> u16 {
    let step = |hash: u32, &unit: &u16| hash.wrapping_mul(65599).wrapping_add(u32::from(unit));
    units.iter().fold(0, step) as u16
}

/// How many bytes a type's value or its array's element has; 1 for those of any size.
pub fn width(code: u8) -> usize {
    match code & 0x7f {
        0x05 | 0x06 => 2,
        0x07 | 0x08 | 0x0b | 0x0d | 0x14 => 4,
        0x09 | 0x0a | 0x0c | 0x11 | 0x15 => 8,
        0x0f | 0x12 => 16,
        _ => 1,
    }
}

/// A stream, and how it is meant to be walked.
pub struct Stream {
    pub bytes: Vec<u8>,
    pub dependencies: bool,
    pub inline: bool,
    /// Where its first token stands.
    pub start: usize,
    /// Where something in it begins or ends.
    pub places: Vec<usize>,
}

/// A stream of a few tokens, in an order that a body has or in any.
pub fn make(random: &mut Random) -> Stream {
    let slips = random.one_of(&[0, 4, 8, 15, 40]);
    let mut maker = Maker::new(random, slips);
    match maker.random.below(6) {
        0 | 1 => {
            let levels = maker.random.between(1, 4);
            maker.body(levels);
        }
        2 => maker.instance(2),
        _ => {
            for _ in 0..maker.random.one_of(&[1, 1, 2, 4, 8, 20]) {
                maker.token(2);
            }
        }
    }
    if maker.random.once_in(2) {
        maker.put(&[0]);
    }
    maker.stream
}

/// A stream without slips that holds tokens of these kinds.
pub fn of_list(random: &mut Random, list: &[u8]) -> Stream {
    let mut maker = Maker::new(random, 0);
    maker.list(list, 2);
    if maker.random.once_in(2) {
        maker.put(&[0]);
    }
    maker.stream
}

/// A stream of a body with bodies in its values, so many in each other at most; with slips, not all are sound, and not all values end
/// where their body does.
pub fn nested(random: &mut Random, levels: usize) -> Stream {
    let often = random.one_of(&[40, 15, 8]);
    // In many levels there is much that may go wrong.
    let slips = random.one_of(&[0, 0, often * levels.div_ceil(3)]);
    let mut maker = Maker::new(random, slips);
    maker.nest = levels;
    maker.instance_body(2);
    if maker.random.once_in(2) {
        maker.put(&[0]);
    }
    maker.stream
}

/// The shortest token of a kind: names elsewhere, no dependency.
pub fn shortest(kind: u8) -> &'static [u8] {
    match kind {
        kinds::INSTANCE => &[0x0c, 0, 0, 0, 0, 0, 0, 0, 0, 0, 0, 0, 0, 0],
        kinds::OPEN => &[0x01, 0, 0, 0, 0, 0, 0, 0, 0],
        kinds::ANNOUNCING => &[0x41, 0, 0, 0, 0, 0, 0, 0, 0, 0, 0, 0, 0],
        kinds::CLOSE_START => &[0x02],
        kinds::CLOSE_EMPTY => &[0x03],
        kinds::CLOSE_ELEMENT => &[0x04],
        kinds::VALUE => &[0x05, 0],
        kinds::ATTRIBUTE => &[0x06, 0, 0, 0, 0],
        kinds::CDATA => &[0x07, 0, 0],
        kinds::CHAR_REF => &[0x08, 0, 0],
        kinds::ENTITY_REF => &[0x09, 0, 0, 0, 0],
        kinds::PI_TARGET => &[0x0a, 0, 0, 0, 0],
        kinds::PI_DATA => &[0x0b, 0, 0],
        kinds::SUBSTITUTION => &[0x0d, 0, 0, 0],
        kind => panic!("no kind {kind}"),
    }
}

/// A short token of a kind, in which a name has this offset.
pub fn shown(kind: u8, name: u32) -> Vec<u8> {
    let mut token = shortest(kind).to_vec();
    let at = match kind {
        kinds::OPEN | kinds::ANNOUNCING => 5,
        kinds::ATTRIBUTE | kinds::ENTITY_REF | kinds::PI_TARGET => 1,
        _ => return token,
    };
    token[at..at + 4].copy_from_slice(&name.to_le_bytes());
    token
}

/// The shortest stream that holds tokens of these kinds.
pub fn shortest_of_list(list: &[u8]) -> Vec<u8> {
    let tokens: Vec<&[u8]> = list.iter().map(|&kind| shortest(kind)).collect();
    tokens.concat()
}

/// A stream of exactly `size` bytes, up to which its tokens reach.
pub fn long(random: &mut Random, size: usize) -> Stream {
    let mut maker = Maker::new(random, 0);
    match maker.random.below(5) {
        // Many tokens.
        0 | 1 => {
            while maker.stream.bytes.len() < size {
                maker.token(2);
            }
        }
        // One text.
        2 => {
            let code = maker.random.one_of(&[0x07, 0x0b]);
            maker.put(&[code]);
            let units = (size - maker.stream.bytes.len() - 2) / 2;
            maker.put16(units as u16);
            let zero = maker.random.below(units);
            for at in 0..units {
                let unit = maker.unit();
                maker.put16(if at == zero { 0 } else { unit.max(1) });
            }
        }
        // One instance of empty values.
        3 => {
            maker.put(&[0x0c, 0]);
            maker.put32(7);
            maker.put32(0);
            let count = (size - maker.stream.bytes.len() - 4) / 4;
            maker.put32(count as u32);
            for _ in 0..count {
                let code = maker.random.one_of(&[0x00, 0x01, 0x02, 0x86]);
                maker.put(&[0, 0, code, 0]);
            }
        }
        // A name in place that is skipped, or an inline one.
        _ => {
            maker.put(&[0x06]);
            let at = maker.stream.bytes.len();
            let head = if maker.stream.inline { 6 } else { 14 };
            let units = vec![b'n'.into(); (size - at - head) / 2];
            if maker.stream.inline {
                maker.inline_name(&units);
            } else {
                maker.put32(at as u32 + 4);
                maker.link_and_name(&units);
            }
        }
    }
    let mut stream = maker.stream;
    stream.bytes.resize(size, 0x02);
    stream
}

/// Few bytes, each of which means something.
pub fn noise(random: &mut Random) -> Vec<u8> {
    let length = random.below(13);
    (0..length).map(|_| random.one_of(&ALPHABET)).collect()
}

impl Stream {
    /// One change to its bytes.
    pub fn change(&mut self, random: &mut Random) {
        let bytes = &mut self.bytes;
        let length = bytes.len();
        let at = match random.below(3) {
            0 => self.places[random.below(self.places.len())].min(length),
            _ => random.below(length + 1),
        };
        self.places.push(at);
        match random.below(10) {
            0..=3 if at < length => bytes[at] = random.one_of(&ALPHABET),
            4 if at < length => bytes[at] ^= 1 << random.below(8),
            5 | 6 => bytes.truncate(at),
            7 => {
                for _ in 0..random.between(1, 9) {
                    bytes.push(random.one_of(&ALPHABET));
                }
            }
            8 => bytes.insert(at, random.one_of(&ALPHABET)),
            9 if at < length => {
                bytes.remove(at);
            }
            _ => bytes.push(0),
        }
    }
}

/// Writes a stream token by token.
struct Maker<'a> {
    random: &'a mut Random,
    stream: Stream,
    /// Something is wrong once in so many times; never if 0.
    slips: usize,
    /// So many levels of bodies may lie in values yet; where it is 0, a value of type 21 holds any bytes.
    nest: usize,
}

impl<'a> Maker<'a> {
    /// Nothing yet, or some bytes before the first token.
    fn new(random: &'a mut Random, slips: usize) -> Self {
        let before = random.one_of(&[0, 0, 0, 0, 1, 5, 60]);
        let stream = Stream {
            bytes: (0..before).map(|_| random.byte()).collect(),
            dependencies: random.once_in(2),
            inline: random.once_in(2),
            start: before,
            places: vec![before],
        };
        Maker {
            random,
            stream,
            slips,
            nest: 0,
        }
    }

    fn slip(&mut self) -> bool {
        self.slips > 0 && self.random.once_in(self.slips)
    }

    fn put(&mut self, bytes: &[u8]) {
        self.stream.bytes.extend(bytes);
    }

    fn put16(&mut self, number: u16) {
        self.put(&number.to_le_bytes());
    }

    fn put32(&mut self, number: u32) {
        self.put(&number.to_le_bytes());
    }

    fn position(&self) -> usize {
        self.stream.bytes.len()
    }

    /// The position is worth asking about.
    fn mark(&mut self) {
        let at = self.position();
        self.stream.places.push(at);
    }

    /// A token of any kind, an item or an instance above all, or a fragment header.
    fn token(&mut self, levels: usize) {
        match self.random.below(16) {
            0 => self.token_of(kinds::INSTANCE, levels),
            1 => {
                self.mark();
                self.fragment();
            }
            2 if self.slip() => {
                self.mark();
                let any = self.random.byte();
                self.put(&[any]);
            }
            2 => {
                let kind = self.random.one_of(&kinds::ITEMS);
                self.token_of(kind, levels);
            }
            _ => {
                let kind = self.random.one_of(&kinds::ALL);
                self.token_of(kind, levels);
            }
        }
    }

    /// A body: an instance or an element, perhaps in a fragment.
    fn body(&mut self, levels: usize) {
        if self.random.once_in(2) {
            self.fragment();
        }
        let list = lists::body(self.random, levels);
        self.list(&list, levels);
    }

    /// A body whose root is an instance, mostly; with slips, its tokens are changed now and then.
    fn instance_body(&mut self, levels: usize) {
        let mut list = lists::body(self.random, levels);
        if self.goes_deep() || !self.random.once_in(6) {
            list = lists::around(self.random, &[kinds::INSTANCE]);
        }
        if self.slip() {
            lists::change(self.random, &mut list);
        }
        self.list(&list, levels);
    }

    /// A body in a value: without dependencies; its end byte, if there is one, may have any bytes behind it.
    fn inner_body(&mut self) {
        let (dependencies, nest) = (self.stream.dependencies, self.nest);
        self.stream.dependencies = false;
        self.nest -= 1;
        if self.random.once_in(8) {
            self.fragment();
        }
        match self.nest {
            0 if self.random.once_in(200) => {
                let levels = self.random.between(63, 66);
                let list = lists::deep(self.random, levels);
                self.list(&list, 1);
            }
            0 => self.body(2),
            _ => self.instance_body(2),
        }
        (self.stream.dependencies, self.nest) = (dependencies, nest);
        if self.random.once_in(3) {
            self.put(&[0]);
            for _ in 0..self.random.one_of(&[0, 0, 1, 3]) {
                let byte = self.random.byte();
                self.put(&[byte]);
            }
        }
    }

    /// Tokens of these kinds, and a fragment header between some.
    fn list(&mut self, list: &[u8], levels: usize) {
        for &kind in list {
            if self.random.once_in(16) {
                self.fragment();
            }
            self.token_of(kind, levels);
        }
    }

    /// A token of a kind.
    fn token_of(&mut self, kind: u8, levels: usize) {
        self.mark();
        match kind {
            kinds::INSTANCE => self.instance(levels),
            kinds::OPEN => self.open(0x01),
            kinds::ANNOUNCING => self.open(0x41),
            kinds::CLOSE_START => self.put(&[0x02]),
            kinds::CLOSE_EMPTY => self.put(&[0x03]),
            kinds::CLOSE_ELEMENT => self.put(&[0x04]),
            kinds::VALUE => self.value(),
            kinds::ATTRIBUTE => self.named(&[0x06, 0x46]),
            kinds::CDATA => self.text(&[0x07, 0x47]),
            kinds::CHAR_REF => self.char_ref(),
            kinds::ENTITY_REF => self.named(&[0x09, 0x49]),
            kinds::PI_TARGET => self.named(&[0x0a]),
            kinds::PI_DATA => self.text(&[0x0b]),
            kinds::SUBSTITUTION => self.substitution(),
            kind => panic!("no kind {kind}"),
        }
    }

    fn fragment(&mut self) {
        let flags = self.random.byte();
        self.put(&[0x0f, 1, 1, flags]);
    }

    fn open(&mut self, token: u8) {
        self.put(&[token]);
        if self.stream.dependencies != self.slip() {
            let any = self.random.word() as u16;
            let dependency = self.random.one_of(&[0, 0xffff, 1, 0xfffe, any]);
            self.put16(dependency);
        }
        let size = self.random.word() as u32;
        self.put32(size);
        self.name();
        if (token == 0x41) != self.slip() {
            self.put32(size);
        }
    }

    /// A token that holds a name.
    fn named(&mut self, tokens: &[u8]) {
        let token = self.random.one_of(tokens);
        self.put(&[token]);
        self.name();
    }

    fn name(&mut self) {
        let length = self.random.below(6);
        let units: Vec<u16> = (0..length).map(|_| self.unit()).collect();
        if self.stream.inline {
            self.inline_name(&units);
            return;
        }
        let here = self.position() as u32 + 4;
        if self.random.once_in(2) {
            self.put32(here);
            self.link_and_name(&units);
        } else {
            let any = self.random.word() as u32;
            let elsewhere = [0, here + 1, here - 1, here - 4, 512, here + 0x10000, any];
            let offset = self.random.one_of(&elsewhere);
            self.put32(offset);
        }
    }

    /// Hash, count, units and zero unit of an inline name.
    fn inline_name(&mut self, units: &[u16]) {
        let right = hash(units);
        let wrong = self.random.one_of(&[0, right ^ 1, right.swap_bytes()]);
        let stored = if self.slip() { wrong } else { right };
        self.put16(stored);
        self.count(units.len());
        for &unit in units {
            self.put16(unit);
        }
        let last = if self.slip() { self.unit() } else { 0 };
        self.put16(last);
    }

    /// Link, hash, count, units and zero unit of a name in place.
    fn link_and_name(&mut self, units: &[u16]) {
        self.put32(0);
        let any = self.random.word() as u16;
        self.put16(any);
        self.count(units.len());
        for &unit in units {
            self.put16(unit);
        }
        self.put16(0);
    }

    /// A count of units.
    fn count(&mut self, length: usize) {
        let right = length as u16;
        let wrong = [
            right.wrapping_sub(1),
            right + 1,
            right + 9,
            0,
            0x7fff,
            0x8000,
            0xffff,
        ];
        let wrong = self.random.one_of(&wrong);
        let count = if self.slip() { wrong } else { right };
        self.put16(count);
    }

    /// A unit of a text: some are zero, some hold one zero byte, and some are surrogates.
    fn unit(&mut self) -> u16 {
        let any = self.random.word() as u16;
        self.random
            .one_of(&[0, 0x41, 0x42, 0x4100, 0xd800, 0xdc00, 0xffff, any, any])
    }

    /// A token that holds a text.
    fn text(&mut self, tokens: &[u8]) {
        let token = self.random.one_of(tokens);
        self.put(&[token]);
        self.counted_text();
    }

    fn counted_text(&mut self) {
        let length = self.random.below(7);
        self.count(length);
        for _ in 0..length {
            let unit = self.unit();
            self.put16(unit);
        }
    }

    fn char_ref(&mut self) {
        let token = self.random.one_of(&[0x08, 0x48]);
        let number = self.unit();
        self.put(&[token]);
        self.put16(number);
    }

    fn substitution(&mut self) {
        let token = self.random.one_of(&[0x0d, 0x0e]);
        let number = self.unit();
        self.put(&[token]);
        self.put16(number);
        let code = self.code(&KNOWN);
        self.put(&[code]);
    }

    /// A type code of these, or any.
    fn code(&mut self, codes: &[u8]) -> u8 {
        if !self.slip() {
            return self.random.one_of(codes);
        }
        let any = self.random.byte();
        match self.random.below(3) {
            0 => self.random.one_of(&[0x16, 0x22, 0x80, 0x8e, 0x96, any]),
            1 => self.random.one_of(&UNREAD),
            _ => self.random.one_of(&KNOWN),
        }
    }

    fn value(&mut self) {
        let token = self.random.one_of(&[0x05, 0x45]);
        self.put(&[token]);
        let code = self.code(&UNSIZED);
        self.put(&[code]);
        match code {
            0x00 => {}
            0x01 => self.counted_text(),
            0x13 => self.sid(),
            _ => self.number(width(code)),
        }
    }

    /// A number of so many bytes: the ends of the ranges, reals that are none, and any.
    fn number(&mut self, width: usize) {
        let any = self.random.word();
        let number = self.random.one_of(&[
            0,
            1,
            u64::MAX,
            0x8080_8080_8080_8080,
            1 << 63,
            i64::MAX as u64,
            0x7f80_0001_7f80_0001,
            0x7ff0_0000_0000_0001,
            0x8000_0000,
            any,
            any,
        ]);
        let bytes = [number.to_le_bytes(), any.to_le_bytes()].concat();
        self.put(&bytes[..width.min(16)]);
    }

    fn sid(&mut self) {
        let most = if self.slip() { 255 } else { 5 };
        let count = self.random.one_of(&[0, 1, 2, most]);
        self.put(&[1, count as u8]);
        for _ in 0..6 + 4 * count.min(5) {
            let byte = self.random.byte();
            self.put(&[byte]);
        }
    }

    fn instance(&mut self, levels: usize) {
        self.mark();
        let [byte, id] = [self.random.byte().into(), self.random.word() as u32];
        self.put(&[0x0c, byte as u8]);
        self.put32(id);
        let here = self.position() as u32 + 4;
        if self.random.once_in(3) {
            self.put32(here);
            self.definition(levels);
        } else {
            let any = self.random.word() as u32;
            let elsewhere = self.random.one_of(&[0, here + 1, here - 1, 512, any]);
            self.put32(elsewhere);
        }
        self.mark();
        self.values();
    }

    /// A definition in place: its head, and a body that is skipped.
    fn definition(&mut self, levels: usize) {
        let next = self.random.word() as u32;
        self.put32(next);
        for _ in 0..2 {
            self.number(8);
        }
        let at = self.position();
        self.put32(0);
        if levels > 0 && self.random.once_in(2) {
            let mut list = Vec::new();
            lists::element(self.random, levels - 1, &mut list);
            self.list(&list, levels - 1);
        } else {
            for _ in 0..self.random.below(12) {
                let byte = self.random.byte();
                self.put(&[byte]);
            }
        }
        let right = (self.position() - at - 4) as u32;
        let wrong = [right + 1, right / 2, right + 40, 1 << 16, u32::MAX];
        let wrong = self.random.one_of(&wrong);
        let size = if self.slip() { wrong } else { right };
        self.stream.bytes[at..at + 4].copy_from_slice(&size.to_le_bytes());
    }

    /// The table of an instance, and its values.
    fn values(&mut self) {
        let mut count = self.random.one_of(&[0, 1, 1, 1, 2, 3, 6]);
        if self.goes_deep() {
            count = count.max(1);
        }
        let deeper = self.random.below(count as usize + 1).saturating_sub(1) as u32;
        let wrong = [count + 1, count / 2, 100, 1 << 30, u32::MAX];
        let wrong = self.random.one_of(&wrong);
        let said = if self.slip() { wrong } else { count };
        self.put32(said);

        let first = self.position();
        let mut codes = Vec::new();
        for number in 0..count {
            self.mark();
            let mut code = self.code(&KNOWN);
            if UNREAD.contains(&code) && !self.slip() {
                code = self.random.one_of(&[0x01, 0x08, 0x0f, 0x86, 0x8f]);
            }
            let holds_body = match self.nest {
                0 => false,
                1..=3 => self.random.once_in(2),
                _ => number == deeper,
            };
            if holds_body {
                code = 0x21;
            }
            let pad = self.random.one_of(&[0, 0, 1, 0xff]);
            self.put(&[0, 0, code, pad]);
            codes.push(code);
        }
        for (code, at) in codes.into_iter().zip((first..).step_by(4)) {
            self.mark();
            let size = self.sized_value(code);
            self.stream.bytes[at..at + 2].copy_from_slice(&size.to_le_bytes());
        }
    }

    /// Where many levels are to come, each goes on, and by one value.
    fn goes_deep(&self) -> bool {
        self.nest > 3
    }

    /// Writes a value with a size, and says the size.
    fn sized_value(&mut self, code: u8) -> u16 {
        let begin = self.position();
        match code {
            0x01 => {
                for _ in 0..self.random.below(8) {
                    let unit = self.unit();
                    self.put16(unit);
                }
            }
            0x10 => {
                let width = self.random.one_of(&[4, 8]);
                self.number(width);
            }
            0x13 => self.sid(),
            0x21 if self.nest > 0 && !self.slip() => self.inner_body(),
            0x81 => {
                for _ in 0..self.random.below(3) {
                    for _ in 0..self.random.below(4) {
                        let unit = self.unit().max(1);
                        self.put16(unit);
                    }
                    self.put16(0);
                }
            }
            0x8d => {
                for _ in 0..self.random.below(4) {
                    let set = self.random.one_of(&[0, 1, 1, 2, u32::MAX]);
                    self.put32(set);
                }
            }
            0x80.. => {
                for _ in 0..self.random.below(4) {
                    self.number(width(code));
                }
            }
            _ if width(code) > 1 || matches!(code, 0x03 | 0x04) => self.number(width(code)),
            _ => {
                for _ in 0..self.random.below(20) {
                    let byte = self.random.byte();
                    self.put(&[byte]);
                }
            }
        }
        let length = self.position() - begin;
        let fixed = matches!(code, 0x03..=0x0d | 0x0f | 0x11..=0x15);
        if fixed && self.random.once_in(3) {
            return self.other_size(length);
        }
        if self.slip() {
            let any = self.random.below(41);
            let size = self
                .random
                .one_of(&[any, any, length + 1, length / 2, 0xffff]);
            return size as u16;
        }
        length as u16
    }

    /// Another size for a value whose read does not look at it: less, or more with bytes for it.
    fn other_size(&mut self, length: usize) -> u16 {
        let size = self.random.below(41);
        if !self.slip() {
            let begin = self.position() - length;
            self.stream.bytes.resize(begin + length.max(size), 0x2a);
        }
        size as u16
    }
}
