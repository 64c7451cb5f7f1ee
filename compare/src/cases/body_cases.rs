//! Cases on bodies: the owner table, the sheet alone and the joined call, of sound bodies, changed ones, deep and wide ones,
//! and of all short lists of tokens.

use super::Case;
use super::lists;
use super::random::Random;
use super::streams::{self, FRAGMENT, Stream, shortest_of_list};
use super::token_cases::{self, case, flags, window};
use crate::oracle::kinds::{
    ALL, ANNOUNCING, CLOSE_ELEMENT, CLOSE_EMPTY, CLOSE_START, INSTANCE, ITEMS, ONE_ITEM, OPEN,
    PI_DATA, PI_TARGET, VALUE,
};
use std::collections::BTreeSet;

const SIZE: usize = 65536;

/// The cases that one list of kinds is asked for.
pub fn of_one_body(random: &mut Random) -> Vec<Case> {
    match random.below(3000) {
        0 => wide(random),
        1..=4 => long(random),
        5..=120 => deep(random),
        121..=500 => any_tokens(random),
        _ => body(random),
    }
}

/// How many words a sheet and a table need for so many tokens: two a token, and one.
pub fn needed(tokens: usize) -> [u32; 2] {
    let tokens = tokens as u32;
    [2 * tokens, tokens]
}

/// The need of both, and so much more.
pub fn more(tokens: usize, more: u32) -> [u32; 2] {
    needed(tokens).map(|need| need + more)
}

/// A case of mode C: so many words are lent.
pub fn sheet(flags: u8, room: u32, start: u32, length: u32, stream: &[u8]) -> Case {
    lending(b'C', flags, &[room], start, length, stream)
}

/// A case of mode B: so many words are lent for the sheet and for the table.
pub fn joined(flags: u8, rooms: [u32; 2], start: u32, length: u32, stream: &[u8]) -> Case {
    lending(b'B', flags, &rooms, start, length, stream)
}

/// A case that lends so many words of each kind.
pub fn lending(mode: u8, flags: u8, rooms: &[u32], start: u32, length: u32, stream: &[u8]) -> Case {
    let mut data: Vec<u8> = rooms.iter().flat_map(|room| room.to_le_bytes()).collect();
    data.extend(stream);
    case(mode, flags, start, length, &data)
}

/// A sound body in all modes, then changed by tokens, then by bytes.
fn body(random: &mut Random) -> Vec<Case> {
    let levels = random.between(1, 6);
    let list = lists::body(random, levels);
    let mut stream = streams::of_list(random, &list);
    let mut cases = all_modes(random, &stream, list.len());
    // Flags that a mode does not name are passed over.
    let other = (flags(&stream) ^ random.one_of(&[1, 2, 3])) | random.one_of(&[0, 0, 0xfc]);
    cases.push(whole(random, &stream, other, list.len()));

    for _ in 0..random.between(2, 6) {
        let mut changed = list.clone();
        for _ in 0..random.one_of(&[1, 1, 1, 2, 4]) {
            lists::change(random, &mut changed);
        }
        let stream = streams::of_list(random, &changed);
        cases.push(whole(random, &stream, flags(&stream), changed.len()));
    }
    for _ in 0..random.between(1, 3) {
        stream.change(random);
        cases.push(whole(random, &stream, flags(&stream), list.len()));
    }
    cases
}

/// Tokens in any order, or an instance with anything after it or in an element, or a pair or an open token with anything after it.
fn any_tokens(random: &mut Random) -> Vec<Case> {
    let mut list: Vec<u8> = match random.below(8) {
        0 => vec![INSTANCE],
        1 => vec![OPEN, CLOSE_START, INSTANCE],
        2 => vec![OPEN, CLOSE_START],
        3 => vec![PI_TARGET, PI_DATA],
        4 => vec![INSTANCE, PI_TARGET, PI_DATA],
        5 => vec![OPEN],
        6 => vec![ANNOUNCING],
        _ => Vec::new(),
    };
    for _ in 0..random.below(8) {
        list.push(random.one_of(&ALL));
    }
    let stream = streams::of_list(random, &list);
    all_modes(random, &stream, list.len())
}

/// Bodies about as deep as may be, and changed ones.
fn deep(random: &mut Random) -> Vec<Case> {
    let levels = random.one_of(&[62, 63, 64, 65, 66, 67, 130]);
    let mut list = lists::deep(random, levels);
    if random.once_in(4) {
        list.splice(0..0, [PI_TARGET, PI_DATA]);
    }
    if random.once_in(2) {
        lists::change(random, &mut list);
    }
    let stream = streams::of_list(random, &list);
    let mut cases = all_modes(random, &stream, list.len());
    let more = random.between(60, 70);
    list.truncate(2 * more);
    let stream = streams::of_list(random, &list);
    cases.push(whole(random, &stream, flags(&stream), list.len()));
    cases
}

/// As many tokens as a stream can hold, about as many as the words that a case lends hold the sheet of, or as many as a body
/// can have.
fn wide(random: &mut Random) -> Vec<Case> {
    let one_byte = [CLOSE_START, CLOSE_EMPTY, CLOSE_ELEMENT];
    let half = SIZE / 2;
    let list = match random.below(3) {
        0 => {
            let tokens = random.one_of(&[half - 1, half, half, half + 1, SIZE]);
            (0..tokens).map(|_| random.one_of(&one_byte)).collect()
        }
        1 => wide_body(&[VALUE]),
        _ => {
            let item = random.one_of(&ITEMS);
            wide_body(&[OPEN, CLOSE_EMPTY, item])
        }
    };
    let stream = shortest_of_list(&list);
    let size = stream.len() as u32;
    let rooms = needed(list.len()).map(|need| random.one_of(&[0, need - 1, need, need, need + 1]));
    let most = random.one_of(&[65535, 65536, 65537, u32::MAX]);
    let alone = random.one_of(&[rooms[0], most]);
    let cut = list.len() / 2;
    let broken = [&list[..cut], &[PI_TARGET, VALUE], &list[cut + 2..]].concat();
    let broken = shortest_of_list(&broken);
    let shorter = broken.len().min(SIZE);
    vec![
        case(b'O', 0, 0, size, &stream),
        sheet(0, alone, 0, size, &stream),
        joined(0, rooms, 0, size, &stream),
        case(b'O', 0, 0, size, &broken[..shorter]),
    ]
}

/// An element whose content is these kinds again and again, up to a stream's limit.
pub fn wide_body(content: &[u8]) -> Vec<u8> {
    lists::filled(content, SIZE)
}

/// A stream at the limit of its length.
fn long(random: &mut Random) -> Vec<Case> {
    let size = random.one_of(&[65535, 65536, 65536, 65537]);
    let stream = streams::long(random, size);
    let tokens = random.below(40);
    all_modes(random, &stream, tokens)
}

/// A stream's owner table, its sheet alone and the joined call, and in a window its owner table and one of the others.
fn all_modes(random: &mut Random, stream: &Stream, tokens: usize) -> Vec<Case> {
    let meant = flags(stream);
    let Case { start, length, .. } = owner_table(stream, meant);
    let window = window(random, stream);
    let mut cases = vec![
        owner_table(stream, meant),
        lent(random, b'C', stream, meant, (start, length), tokens),
        lent(random, b'B', stream, meant, (start, length), tokens),
        case(b'O', meant, window.0, window.1, &stream.bytes),
    ];
    let mode = random.one_of(b"CB");
    cases.push(lent(random, mode, stream, meant, window, tokens));
    cases
}

/// The owner table of a whole stream, its sheet alone, or the joined call.
fn whole(random: &mut Random, stream: &Stream, flags: u8, tokens: usize) -> Case {
    let owners = owner_table(stream, flags);
    match random.below(4) {
        0 | 1 => owners,
        mode => {
            let (mode, asked) = (b"CB"[mode - 2], (owners.start, owners.length));
            lent(random, mode, stream, flags, asked, tokens)
        }
    }
}

fn owner_table(stream: &Stream, flags: u8) -> Case {
    token_cases::whole(b'O', stream, flags)
}

/// A call of a mode that lends words for so many tokens, or about as many.
pub fn lent(
    random: &mut Random,
    mode: u8,
    stream: &Stream,
    flags: u8,
    (start, length): (u32, u32),
    tokens: usize,
) -> Case {
    let rooms = rooms(random, tokens);
    let count = if mode == b'C' { 1 } else { 2 };
    lending(mode, flags, &rooms[..count], start, length, &stream.bytes)
}

/// How many words are lent for so many tokens: as many as each needs, about as many, or as many as the other needs; seldom as
/// many as can be.
fn rooms(random: &mut Random, tokens: usize) -> [u32; 2] {
    let [sheet, table] = needed(tokens);
    if random.once_in(3) {
        return [sheet, table];
    }
    [room(random, sheet, table), room(random, table, sheet)]
}

fn room(random: &mut Random, need: u32, others: u32) -> u32 {
    if random.once_in(3000) {
        return random.one_of(&[65535, 65536, 65537, u32::MAX]);
    }
    let any = random.below(need as usize + 9) as u32;
    let few = need.saturating_sub(1);
    random.one_of(&[need, need, need, need, few, need + 1, others, 0, any])
}

/// Every short list of tokens, each token as short as can be: all kinds up to four tokens, and for
/// five and six with one item for the four. The first ones also with fragment headers and lent
/// words, and with names that the sheet shows.
pub fn short_lists() -> impl Iterator<Item = Case> {
    let calls = (0..=2).flat_map(|length| lists::every(&ALL, length).flat_map(|list| calls(&list)));
    let shown = (0..=3).flat_map(|length| lists::every(&ALL, length).map(|list| shown(&list)));
    let fragments =
        (0..=3).flat_map(|length| lists::every(&ALL, length).map(|list| fragments(&list)));
    let all = (0..=4).flat_map(|length| lists::every(&ALL, length));
    let longer = (5..=6).flat_map(|length| lists::every(&ONE_ITEM, length));
    let plain = all
        .chain(longer)
        .map(|list| owners(&shortest_of_list(&list)));
    calls.chain(shown).chain(fragments).chain(plain)
}

/// The owner table of a whole stream.
pub fn owners(stream: &[u8]) -> Case {
    case(b'O', 0, 0, stream.len() as u32, stream)
}

/// The sheet alone and the joined call, with no words, one too few, as many as are needed, one more, and as many as the other needs,
/// each for both buffers.
pub fn calls(list: &[u8]) -> Vec<Case> {
    let stream = &shortest_of_list(list)[..];
    let length = stream.len() as u32;
    let [sheets, tables] = around(list.len());
    let alone = sheets.iter().map(|&room| sheet(0, room, 0, length, stream));
    let both = sheets.iter().flat_map(|&of_sheet| {
        let with = move |&of_table: &u32| joined(0, [of_sheet, of_table], 0, length, stream);
        tables.iter().map(with)
    });
    alone.chain(both).collect()
}

/// Rooms around the need of a sheet and of a table for so many tokens.
pub fn around(tokens: usize) -> [Vec<u32>; 2] {
    let [sheet, table] = needed(tokens);
    [(sheet, table), (table, sheet)].map(|(need, others)| {
        let few = need.saturating_sub(1);
        let rooms = BTreeSet::from([0, few, need, need + 1, others]);
        rooms.into_iter().collect()
    })
}

/// The sheet alone, with one word more than is needed, where each name has an offset of its own above the stream's end.
pub fn shown(list: &[u8]) -> Case {
    let mut stream = Vec::new();
    for (&kind, number) in list.iter().zip(0_u32..) {
        stream.extend(streams::shown(kind, 0xffff_ffff - number));
    }
    let [room, _] = more(list.len(), 1);
    sheet(0, room, 0, stream.len() as u32, &stream)
}

/// The owner table where a fragment header stands before and after each token.
pub fn fragments(list: &[u8]) -> Case {
    let mut stream = FRAGMENT.to_vec();
    for &kind in list {
        stream.extend(streams::shortest(kind));
        stream.extend(FRAGMENT);
    }
    owners(&stream)
}
