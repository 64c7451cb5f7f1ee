//! Cases on events and names (docs/EVENT.md): sound payloads with definitions in place and elsewhere, exchanged, overwritten and changed ones,
//! every short definition and every cut, and rooms around the need.

use super::Case;
use super::body_cases::lending;
use super::event_streams::{self, HEAD, Scene};
use super::exchanges;
use super::lists;
use super::random::Random;
use super::streams::shortest;
use crate::document::event::{self, Own};
use crate::oracle::batch::{EVENT, NAME};
use crate::oracle::kinds::{
    ALL, ANNOUNCING, ATTRIBUTE, CDATA, CHAR_REF, CLOSE_ELEMENT, CLOSE_EMPTY, CLOSE_START,
    ENTITY_REF, INSTANCE, OPEN, PI_DATA, PI_TARGET, SUBSTITUTION, VALUE,
};
use crate::oracle::nests::BODY;
use crate::oracle::tokens::Asked;

const INLINE: u8 = 2;
/// A row's words.
const ROW: usize = 6;

/// The cases that one payload is asked for.
pub fn of_one_event(random: &mut Random) -> Vec<Case> {
    if random.once_in(400) {
        return shared_by_many(random);
    }
    let levels = random.one_of(&[0, 1, 1, 1, 2, 3, 8]);
    let slips = random.one_of(&[0, 0, 0, 25, 60]);
    let scene = event_streams::make(random, levels, slips);
    if scene.bytes.len() > 3000 {
        return Vec::new();
    }
    let meant = if scene.inline { INLINE } else { 0 };
    let mut cases = vec![lent(random, &scene, meant), lent(random, &scene, meant)];
    // Flags that the mode does not name are passed over.
    let other = meant ^ random.one_of(&[0, 0, INLINE]) | random.one_of(&[1, 4, 0xfd]);
    cases.push(lent(random, &scene, other));
    cases.extend(names(random, &scene, meant));
    let exchanged = exchanges::all(&scene.bytes, scene.asked(), &scene.names);
    for _ in 0..exchanged.len().min(3) {
        let one = &exchanged[random.below(exchanged.len())];
        cases.push(enough(meant, scene.start, scene.length, &one.bytes));
    }
    cases.extend(overwritten(random, &scene, meant));
    for _ in 0..random.between(1, 4) {
        let mut stream = scene.stream();
        for _ in 0..random.one_of(&[1, 1, 2]) {
            stream.change(random);
        }
        cases.push(enough(meant, scene.start, scene.length, &stream.bytes));
    }
    let start = scene.start + random.below(3);
    let length = random.one_of(&[0, scene.length / 2, scene.length + 9, u32::MAX as usize]);
    cases.push(enough(meant, start, length, &scene.bytes));
    cases
}

/// A case on a payload, with words for the rows that there are.
pub fn enough(flags: u8, start: usize, length: usize, stream: &[u8]) -> Case {
    of_room(flags, start, length, stream, |need| need)
}

/// The same with other words than needed.
fn of_room(
    flags: u8,
    start: usize,
    length: usize,
    stream: &[u8],
    room: impl FnOnce(u32) -> u32,
) -> Case {
    let asked = Asked {
        start,
        length,
        dependencies: false,
        inline_names: flags & INLINE != 0,
    };
    let rows = event::read(&mut Own(stream), asked).map_or(1, |rows| rows.len());
    let room = room((ROW * rows) as u32);
    lending(EVENT, flags, &[room], start as u32, length as u32, stream)
}

/// Words around the need.
fn lent(random: &mut Random, scene: &Scene, flags: u8) -> Case {
    of_room(flags, scene.start, scene.length, &scene.bytes, |need| {
        let less = need.saturating_sub(1);
        let any = random.below(need as usize + 8) as u32;
        random.one_of(&[need, need, less, need + 1, need + 7, 0, any])
    })
}

/// Names of the payload, and places that need be none.
fn names(random: &mut Random, scene: &Scene, flags: u8) -> Vec<Case> {
    let length = scene.bytes.len();
    let mut offsets = vec![
        random.below(length + 3),
        length.saturating_sub(random.below(9)),
    ];
    offsets.extend(scene.names.iter().copied());
    if let Ok(texts) = event::texts(&mut Own(&scene.bytes), scene.asked()) {
        let tokens = texts.iter().flat_map(|text| &text.tokens);
        offsets.extend(tokens.map(|token| token.name as usize).take(3));
    }
    let offset = random.one_of(&offsets);
    let mut case = |offset: usize, flags: u8| {
        let room = random.one_of(&[0, 1, 1, 1, 2]);
        of_name(flags, room, offset as u32, &scene.bytes)
    };
    vec![
        case(offset, flags),
        case(offset, flags ^ INLINE),
        case(offsets[0], flags | 0xfd),
    ]
}

/// The names that the rows of a payload name.
pub fn names_of(stream: &[u8], asked: Asked) -> Vec<u32> {
    let rows = event::read(&mut Own(stream), asked).unwrap_or_default();
    let names = rows
        .iter()
        .flat_map(|row| [(row[2] >> 32) as u32, row[2] as u32]);
    names.filter(|name| *name > 0).collect()
}

/// A case on the name at an offset.
pub fn of_name(flags: u8, room: u32, offset: u32, stream: &[u8]) -> Case {
    lending(NAME, flags, &[room], offset, 0, stream)
}

/// A definition whose bytes another one now stands over: with its own GUID, as in a carved record, and with the GUID of the one that it
/// stands over; a definition with another GUID; and a stream that ends in it.
fn overwritten(random: &mut Random, scene: &Scene, flags: u8) -> Vec<Case> {
    let definitions = &scene.definitions;
    if definitions.is_empty() {
        return Vec::new();
    }
    let asked = |bytes: &[u8]| enough(flags, scene.start, scene.length, bytes);
    let one = definitions[random.below(definitions.len())];
    let other = definitions[random.below(definitions.len())];
    let guid = one.offset + 4..one.offset + 8;
    let mut over = scene.bytes.clone();
    let end = (one.offset + other.length).min(over.len());
    let part = scene.bytes[other.offset..][..end - one.offset].to_vec();
    over[one.offset..end].copy_from_slice(&part);
    let mut mine = over.clone();
    mine[guid.clone()].copy_from_slice(&scene.bytes[guid.clone()]);
    let mut id = scene.bytes.clone();
    id[guid.start + random.below(4)] ^= 1 << random.below(8);
    let cut = one.offset + random.below(one.length + 1);
    let mut cases = vec![asked(&over), asked(&mine), asked(&id)];
    if cut > scene.start + scene.length {
        cases.push(asked(&scene.bytes[..cut]));
    }
    cases
}

/// A long definition that many instances share.
fn shared_by_many(random: &mut Random) -> Vec<Case> {
    let (instances, items) = random.one_of(&[(3, 4), (60, 10), (60, 200), (20, 500)]);
    let stream = many(instances, items);
    let length = stream.payload;
    let start = stream.bytes.len() - length;
    let asked = |room: fn(u32) -> u32| of_room(0, start, length, &stream.bytes, room);
    vec![
        asked(|need| need),
        asked(|need| need - 1),
        asked(|_| 65536),
        asked(|_| 0),
    ]
}

/// A stream whose payload stands last.
struct Ended {
    bytes: Vec<u8>,
    payload: usize,
}

/// An instance with so many values that hold an instance each, all of one definition with so many items.
fn many(instances: usize, items: usize) -> Ended {
    let mut place = Place::new();
    let empty = place.definition(1, &[OPEN, CLOSE_START, SUBSTITUTION, CLOSE_ELEMENT]);
    let list = [
        &[OPEN, CLOSE_START],
        &[VALUE].repeat(items)[..],
        &[CLOSE_ELEMENT],
    ]
    .concat();
    let shared = place.definition(2, &list);
    let inner = instance(2, shared, &[]);
    let values = vec![(BODY, &inner[..]); instances];
    place.payload(&instance(1, empty, &values))
}

/// A stream that is put together piece by piece: names, definitions, then the payload.
struct Place {
    bytes: Vec<u8>,
    /// The name of the next token.
    turn: usize,
    /// The number of the next substitution.
    number: u16,
}

/// The names: each as long as its number says.
const NAMES: usize = 6;

impl Place {
    /// Six names of one to six units.
    fn new() -> Self {
        let mut bytes = Vec::new();
        for length in 1..=NAMES {
            let units: Vec<u16> = (0..length).map(|unit| 0x61 + unit as u16).collect();
            bytes.extend([0; 4]);
            bytes.extend(super::streams::hash(&units).to_le_bytes());
            bytes.extend((length as u16).to_le_bytes());
            bytes.extend(units.iter().flat_map(|unit| unit.to_le_bytes()));
            bytes.extend([0; 2]);
        }
        Place {
            bytes,
            turn: 0,
            number: 0,
        }
    }

    /// Where the name of this number stands.
    fn name(number: usize) -> u32 {
        let number = number % NAMES;
        (0..number).map(|before| 10 + 2 * (before as u32 + 1)).sum()
    }

    /// Tokens of these kinds, each with another name, each substitution with the next number.
    fn tokens(&mut self, list: &[u8], dependencies: bool) -> Vec<u8> {
        let mut bytes = Vec::new();
        for &kind in list {
            let mut token = shortest(kind).to_vec();
            let at = match kind {
                OPEN | ANNOUNCING => 5,
                ATTRIBUTE | ENTITY_REF | PI_TARGET => 1,
                _ => 0,
            };
            if at > 0 {
                token[at..at + 4].copy_from_slice(&Place::name(self.turn).to_le_bytes());
                self.turn += 1;
            }
            if kind == SUBSTITUTION {
                token[1..3].copy_from_slice(&self.number.to_le_bytes());
                self.number += 1;
            }
            if dependencies && [OPEN, ANNOUNCING].contains(&kind) {
                token.splice(1..1, [0xff, 0xff]);
            }
            bytes.extend(token);
        }
        bytes
    }

    /// A definition of an element with tokens of these kinds; its offset.
    fn definition(&mut self, id: u32, list: &[u8]) -> usize {
        self.number = 0;
        let tokens = self.tokens(list, true);
        self.defined(id, &tokens)
    }

    /// A definition with these tokens; its offset.
    fn defined(&mut self, id: u32, tokens: &[u8]) -> usize {
        let offset = self.bytes.len();
        self.bytes.extend(definition(id, tokens));
        offset
    }

    /// The whole stream.
    fn payload(mut self, payload: &[u8]) -> Ended {
        self.bytes.extend(payload);
        Ended {
            bytes: self.bytes,
            payload: payload.len(),
        }
    }
}

/// A definition's bytes.
fn definition(id: u32, tokens: &[u8]) -> Vec<u8> {
    let mut bytes = vec![0; 4];
    bytes.extend(id.to_le_bytes());
    bytes.extend([0xee; 12]);
    bytes.extend((tokens.len() as u32).to_le_bytes());
    bytes.extend(tokens);
    bytes
}

/// An instance of a definition that stands elsewhere, and its values.
fn instance(id: u32, definition: usize, values: &[(u8, &[u8])]) -> Vec<u8> {
    let mut bytes = vec![0x0c, 1];
    bytes.extend(id.to_le_bytes());
    bytes.extend((definition as u32).to_le_bytes());
    bytes.extend(table(values));
    bytes
}

fn table(values: &[(u8, &[u8])]) -> Vec<u8> {
    let mut bytes = (values.len() as u32).to_le_bytes().to_vec();
    for (code, value) in values {
        bytes.extend((value.len() as u16).to_le_bytes());
        bytes.extend([*code, 0]);
    }
    bytes.extend(values.iter().flat_map(|(_, value)| *value));
    bytes
}

impl Ended {
    fn start(&self) -> usize {
        self.bytes.len() - self.payload
    }

    fn enough(&self) -> Case {
        enough(0, self.start(), self.payload, &self.bytes)
    }

    fn asked(&self) -> Asked {
        Asked {
            start: self.start(),
            length: self.payload,
            dependencies: false,
            inline_names: false,
        }
    }

    /// Rooms around the need.
    fn rooms(&self) -> Vec<Case> {
        let room =
            |room: &dyn Fn(u32) -> u32| of_room(0, self.start(), self.payload, &self.bytes, room);
        vec![
            room(&|_| 0),
            room(&|_| 5),
            room(&|need| need.saturating_sub(6)),
            room(&|need| need.saturating_sub(1)),
            room(&|need| need),
            room(&|need| need + 1),
        ]
    }

    /// The case itself and each of its exchanges, as many as that.
    fn exchanged(&self, most: usize) -> Vec<Case> {
        let names: Vec<usize> = (0..NAMES).map(|name| Place::name(name) as usize).collect();
        let all = exchanges::all(&self.bytes, self.asked(), &names);
        let step = all.len().div_ceil(most).max(1);
        let mut cases = vec![self.enough()];
        for one in all.iter().step_by(step) {
            cases.push(enough(0, self.start(), self.payload, &one.bytes));
        }
        cases
    }
}

/// Two numbers, a text and nothing, for the substitutions of the lists below.
const VALUES: [(u8, &[u8]); 4] = [
    (0x08, &[1, 0, 0, 0]),
    (0x07, &[0xfe, 0xff, 0xff, 0xff]),
    (0x01, &[0x62, 0, 0x63, 0]),
    (0x00, &[]),
];

/// A definition with an attribute of several items, several elements, and each kind of item.
const RICH: &[u8] = &[
    ANNOUNCING,
    ATTRIBUTE,
    SUBSTITUTION,
    VALUE,
    CHAR_REF,
    ENTITY_REF,
    ATTRIBUTE,
    SUBSTITUTION,
    CLOSE_START,
    OPEN,
    CLOSE_START,
    SUBSTITUTION,
    CDATA,
    CLOSE_ELEMENT,
    PI_TARGET,
    PI_DATA,
    OPEN,
    CLOSE_EMPTY,
    SUBSTITUTION,
    ENTITY_REF,
    CLOSE_ELEMENT,
];

/// A short one: 'before' and 'after'.
const TWO: &[u8] = &[
    OPEN,
    CLOSE_START,
    OPEN,
    CLOSE_START,
    SUBSTITUTION,
    CLOSE_ELEMENT,
    OPEN,
    CLOSE_START,
    SUBSTITUTION,
    CLOSE_ELEMENT,
    CLOSE_ELEMENT,
];

/// Every definition of up to three tokens, and every payload of up to three, with a value and without one; every cut of a stream; every exchange
/// in the streams of the stored batch.
pub fn short_events() -> impl Iterator<Item = Case> {
    let lists = (0..=3).flat_map(|length| lists::every(&ALL, length));
    let short = lists.flat_map(|list| {
        let mut place = Place::new();
        let offset = place.definition(7, &list);
        let payload = instance(7, offset, &VALUES[..list.len() % 3]);
        let in_definition = place.payload(&payload).enough();
        let mut place = Place::new();
        let payload = place.tokens(&list, false);
        [in_definition, place.payload(&payload).enough()]
    });
    let cuts = scenes().into_iter().flat_map(|scene| {
        let length = scene.bytes.len();
        (0..length).map(move |cut| enough(0, scene.start(), scene.payload, &scene.bytes[..cut]))
    });
    let exchanged = scenes()
        .into_iter()
        .flat_map(|scene| scene.exchanged(usize::MAX));
    short.chain(cuts).chain(exchanged)
}

/// Streams of each kind that is read.
fn scenes() -> Vec<Ended> {
    vec![
        rich(&VALUES),
        in_place(),
        event_data(),
        same_inside(),
        twice_and_never(),
        around(),
        element_body(),
    ]
}

fn rich(values: &[(u8, &[u8])]) -> Ended {
    let mut place = Place::new();
    let offset = place.definition(7, RICH);
    place.payload(&instance(7, offset, values))
}

/// A definition in place, which a second instance in a value shares.
fn in_place() -> Ended {
    let mut place = Place::new();
    let tokens = {
        place.number = 0;
        place.tokens(TWO, true)
    };
    let at = place.bytes.len() + 10;
    let inner = instance(9, at, &[(0x04, &[5]), (0x04, &[6])]);
    let mut payload = vec![0x0c, 1];
    payload.extend(9_u32.to_le_bytes());
    payload.extend((at as u32).to_le_bytes());
    payload.extend(definition(9, &tokens));
    payload.extend(table(&[(0x04, &[7]), (BODY, &inner)]));
    place.payload(&payload)
}

/// System and EventData: two definitions, the second one's instance in a value.
fn event_data() -> Ended {
    let mut place = Place::new();
    let system = [
        OPEN,
        CLOSE_START,
        OPEN,
        CLOSE_START,
        SUBSTITUTION,
        CLOSE_ELEMENT,
        ANNOUNCING,
        ATTRIBUTE,
        SUBSTITUTION,
        CLOSE_EMPTY,
        SUBSTITUTION,
        CLOSE_ELEMENT,
    ];
    let data = [
        OPEN,
        CLOSE_START,
        ANNOUNCING,
        ATTRIBUTE,
        VALUE,
        CLOSE_START,
        SUBSTITUTION,
        CLOSE_ELEMENT,
        ANNOUNCING,
        ATTRIBUTE,
        VALUE,
        CLOSE_START,
        SUBSTITUTION,
        CLOSE_ELEMENT,
        CLOSE_ELEMENT,
    ];
    let (outer, inner) = (place.definition(7, &system), place.definition(8, &data));
    let body = instance(8, inner, &[(0x06, &[0x7c, 0x1b]), (0x06, &[0x7d, 0x1b])]);
    place.payload(&instance(7, outer, &[VALUES[0], VALUES[1], (BODY, &body)]))
}

/// The same definition inside and outside, and an element body beside it.
fn same_inside() -> Ended {
    let mut place = Place::new();
    let offset = place.definition(7, TWO);
    let element = place.tokens(&[OPEN, CLOSE_START, VALUE, CLOSE_ELEMENT], false);
    let innermost = instance(7, offset, &[(0x04, &[1]), (0x04, &[2])]);
    let inner = instance(7, offset, &[(BODY, &innermost), (0x04, &[3])]);
    place.payload(&instance(
        7,
        offset,
        &[(BODY, &inner), (BODY, &element), (0x04, &[4])],
    ))
}

/// A value that two substitutions name, one of them optional, and one that none does.
fn twice_and_never() -> Ended {
    let mut place = Place::new();
    let mut tokens = place.tokens(TWO, true);
    let subs: Vec<usize> = (0..tokens.len()).filter(|&at| tokens[at] == 0x0d).collect();
    tokens[subs[0]] = 0x0e;
    tokens[subs[1] + 1] = 0;
    let offset = place.defined(7, &tokens);
    place.payload(&instance(7, offset, &VALUES[..2]))
}

/// A definition with instructions round its element, and a payload with instructions round its instance.
fn around() -> Ended {
    let mut place = Place::new();
    let pair = [PI_TARGET, PI_DATA];
    let list = [
        &pair[..],
        &[OPEN, CLOSE_START, SUBSTITUTION, CLOSE_ELEMENT],
        &pair,
    ]
    .concat();
    let offset = place.definition(7, &list);
    let pair = place.tokens(&pair, false);
    let payload = [&pair[..], &instance(7, offset, &VALUES[..1]), &pair].concat();
    place.payload(&payload)
}

/// An element body, whose substitutions stand for nothing.
fn element_body() -> Ended {
    let mut place = Place::new();
    let payload = place.tokens(RICH, false);
    place.payload(&payload)
}

/// The cases of the stored batch: each kind with some of its exchanges, each refusal, each type, names, and rooms.
pub fn stored() -> Vec<Case> {
    let mut cases: Vec<Case> = scenes()
        .iter()
        .flat_map(|scene| scene.exchanged(6))
        .collect();
    cases.extend(event_data().rooms());
    cases.extend(element_body().rooms());
    cases.extend(refusals());
    cases.extend(overwritten_stored());
    cases.extend(types());
    cases.extend(inline());
    cases.extend(names_stored());
    cases.extend(many(4, 3).rooms());
    cases
}

/// Each refusal of a definition, the first before the later ones.
fn refusals() -> Vec<Case> {
    let one = || {
        let mut place = Place::new();
        let offset = place.definition(7, TWO);
        (place, offset)
    };
    let mut cases = Vec::new();
    // 2 and 3 at the definition, 30, and its bytes overwritten by another one.
    let (place, offset) = one();
    let end = place.bytes.len();
    for at in [
        0,
        offset - 1,
        offset + 1,
        end,
        end + 32,
        end + 33,
        end + 34,
        1 << 20,
    ] {
        let (place, _) = one();
        cases.push(place.payload(&instance(7, at, &VALUES[..2])).enough());
    }
    for id in [0, 6, 7 << 24] {
        let (place, offset) = one();
        cases.push(place.payload(&instance(id, offset, &VALUES[..2])).enough());
    }
    // 32: past the count by one and by two, at the first such item.
    for count in [0, 1] {
        let (place, offset) = one();
        cases.push(
            place
                .payload(&instance(7, offset, &VALUES[..count]))
                .enough(),
        );
    }
    // The walk's own, 31, and in which order they come.
    let lists: [&[u8]; 12] = [
        &[],
        &[INSTANCE],
        &[VALUE],
        &[OPEN],
        &[OPEN, CLOSE_EMPTY, OPEN, CLOSE_EMPTY],
        &[OPEN, CLOSE_START, INSTANCE, CLOSE_ELEMENT],
        &[ANNOUNCING, CLOSE_EMPTY],
        &[OPEN, ATTRIBUTE, CLOSE_EMPTY],
        &[PI_TARGET, PI_DATA, INSTANCE],
        &[PI_TARGET, PI_DATA, PI_TARGET, PI_DATA, OPEN, CLOSE_EMPTY],
        &[OPEN, CLOSE_START, SUBSTITUTION],
        &[SUBSTITUTION, OPEN, CLOSE_EMPTY],
    ];
    for list in lists {
        let mut place = Place::new();
        let offset = place.definition(7, list);
        cases.push(place.payload(&instance(7, offset, &[])).enough());
    }
    for tokens in [
        &[0x10][..],
        &[0x0d, 9, 0, 0x8e],
        &[0x0f, 1, 1],
        &[0x00, 0x10],
        &[0x05, 0x21],
    ] {
        let mut place = Place::new();
        let offset = place.defined(7, tokens);
        cases.push(place.payload(&instance(7, offset, &[])).enough());
    }
    // The definition's length: less, more, and an end byte before its end.
    let (place, offset) = one();
    let stream = place.payload(&instance(7, offset, &VALUES[..2]));
    for length in [0, 1, 10, 54, 55, 56, 57, 200, u32::MAX] {
        let mut bytes = stream.bytes.clone();
        bytes[offset + HEAD - 4..offset + HEAD].copy_from_slice(&length.to_le_bytes());
        cases.push(enough(0, stream.start(), stream.payload, &bytes));
    }
    // Body by body: the outer one's refusal first, then the inner ones' in their order; and P9's before all.
    let bodies = |outer: u32, first: u32, second: u32, last: u8| {
        let (place, offset) = one();
        let inner = [first, second].map(|id| instance(id, offset, &VALUES[..2]));
        let values: [(u8, &[u8]); 3] = [(BODY, &inner[0]), (BODY, &inner[1]), (last, &[])];
        place.payload(&instance(outer, offset, &values)).enough()
    };
    for ids in [[7, 7, 7], [6, 5, 7], [7, 5, 4], [7, 7, 4]] {
        for last in [0x01, 0x20] {
            cases.push(bodies(ids[0], ids[1], ids[2], last));
        }
    }
    for (start, length) in [(0, 0), (0, 1), (1, 0)] {
        cases.push(lending(EVENT, 0, &[1], start, length, &[]));
    }
    cases
}

/// Two definitions of equal length with other names, each named by an instance: as they are, the second one's bytes over the first one's, the same
/// with the first one's GUID, and both exchanged.
fn overwritten_stored() -> Vec<Case> {
    let mut place = Place::new();
    let (first, second) = (place.definition(7, TWO), place.definition(8, TWO));
    let length = second - first;
    let inner = instance(8, second, &VALUES[..2]);
    let stream = place.payload(&instance(7, first, &[VALUES[0], (BODY, &inner)]));
    let mut over = stream.bytes.clone();
    over.copy_within(second..second + length, first);
    let mut mine = over.clone();
    mine[first + 4..first + 8].copy_from_slice(&7_u32.to_le_bytes());
    let mut exchanged = over.clone();
    exchanged[second..second + length].copy_from_slice(&stream.bytes[first..second]);
    let all = [&stream.bytes, &over, &mine, &exchanged];
    all.map(|bytes| enough(0, stream.start(), stream.payload, bytes))
        .into()
}

/// A value of each type, with its size and some with another one.
fn types() -> Vec<Case> {
    let list = [OPEN, CLOSE_START, SUBSTITUTION, CLOSE_ELEMENT];
    let of = |code: u8, bytes: &[u8]| {
        let mut place = Place::new();
        let offset = place.definition(7, &list);
        place
            .payload(&instance(7, offset, &[(code, bytes)]))
            .enough()
    };
    let bytes: Vec<u8> = (0x81..0xa1).collect();
    let mut cases = Vec::new();
    for code in (0..=0x15).chain([0x20, 0x21, 0x23]).chain(0x81..=0x95) {
        let size = match code {
            0x13 => 12,
            0x10 => 8,
            0x03..=0x15 => super::streams::width(code),
            _ => 16,
        };
        let mut bytes = bytes[..size].to_vec();
        if code == 0x13 {
            bytes[1] = 1;
        }
        cases.push(of(code, &bytes));
    }
    cases.extend([0x01, 0x02, 0x0e, 0x81, 0x86].map(|code| of(code, &[])));
    cases.extend([0x08, 0x0b, 0x11].map(|code| of(code, &bytes[..11])));
    cases.push(of(0x10, &bytes[..4]));
    cases.push(of(0x01, &[0x41, 0, 0, 0, 0x42, 0]));
    cases.push(of(0x01, &[0, 0xd8, 0x42]));
    // Value tokens of each type that has no size.
    let tokens: [&[u8]; 6] = [
        &[0x05, 0x00],
        &[0x05, 0x01, 2, 0, 0x41, 0, 0, 0],
        &[0x45, 0x07, 0xfe, 0xff, 0xff, 0xff],
        &[0x05, 0x0c, 1, 2, 3, 4, 5, 6, 7, 8],
        &[0x05, 0x13, 1, 0, 1, 2, 3, 4, 5, 6],
        &[0x47, 2, 0, 0x41, 0, 0, 0],
    ];
    for token in tokens {
        let mut place = Place::new();
        let [before, after] =
            [&[OPEN, CLOSE_START][..], &[CLOSE_ELEMENT]].map(|list| place.tokens(list, true));
        let offset = place.defined(7, &[&before[..], token, &after].concat());
        cases.push(place.payload(&instance(7, offset, &[])).enough());
    }
    cases
}

/// Inline names: two elements, and the exchange of their names.
fn inline() -> Vec<Case> {
    let name = |unit: u8| [unit, 0, 1, 0, unit, 0, 0, 0];
    let of = |first: u8, second: u8| {
        let mut tokens = vec![0x41, 0xff, 0xff, 0, 0, 0, 0];
        tokens.extend(name(first));
        tokens.extend([0; 4]);
        tokens.push(0x06);
        tokens.extend(name(second));
        tokens.extend([0x0d, 0, 0, 8, 0x02, 0x0e, 1, 0, 8, 0x09]);
        tokens.extend(name(first));
        tokens.push(0x04);
        let mut bytes = definition(7, &tokens);
        let start = bytes.len();
        bytes.extend(instance(7, 0, &VALUES[..2]));
        (start, bytes)
    };
    let (start, bytes) = of(0x61, 0x62);
    let length = bytes.len() - start;
    let mut cases = vec![enough(INLINE, start, length, &bytes)];
    cases.push(enough(INLINE, start, length, &of(0x62, 0x61).1));
    cases.push(enough(0, start, length, &bytes));
    for offset in [31, 44, 30, bytes.len() as u32 - 4] {
        cases.push(of_name(INLINE, 1, offset, &bytes));
        cases.push(of_name(0, 1, offset, &bytes));
    }
    for (at, byte) in [(31, 0x62), (37, 1)] {
        let mut wrong = bytes.clone();
        wrong[at] = byte;
        cases.push(enough(INLINE, start, length, &wrong));
        cases.push(of_name(INLINE, 1, 31, &wrong));
    }
    cases
}

/// Names by offset: their lengths, soundness and hash; cuts; and rooms.
fn names_stored() -> Vec<Case> {
    let names = Place::new().bytes;
    let mut cases: Vec<Case> = (0..NAMES)
        .map(|name| of_name(0, 1, Place::name(name), &names))
        .collect();
    let end = names.len() as u32;
    for offset in [1, end - 9, end - 8, end - 2, end, end + 1, u32::MAX] {
        cases.push(of_name(0, 1, offset, &names));
        cases.push(of_name(0xfe, 1, offset, &names));
    }
    let of = |units: &[u16], hash: u16| {
        let mut bytes = vec![9; 4];
        bytes.extend(hash.to_le_bytes());
        bytes.extend((units.len() as u16).to_le_bytes());
        bytes.extend(units.iter().flat_map(|unit| unit.to_le_bytes()));
        bytes
    };
    let texts: [&[u16]; 6] = [
        &[],
        &[0x41],
        &[0],
        &[0xd800],
        &[0xd800, 0xdc00],
        &[0xdc00, 0xd800],
    ];
    for units in texts {
        let right = super::streams::hash(units);
        let bytes = of(units, right);
        cases.extend([0, 1, 2].map(|room| of_name(0, room, 0, &bytes)));
        cases.push(of_name(0, 1, 0, &of(units, right ^ 1)));
        cases.push(of_name(0, 1, 0, &bytes[..bytes.len() - 1]));
    }
    cases
}
