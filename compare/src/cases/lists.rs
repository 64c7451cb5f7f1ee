//! Lists of token kinds: bodies of document 01's grammar with document 02's requests P4 and P5, changed ones, and all short ones.

use super::random::Random;
use super::streams::shortest_of_list;
use crate::oracle::kinds::{
    ALL, ANNOUNCING, ATTRIBUTE, CDATA, CLOSE_ELEMENT, CLOSE_EMPTY, CLOSE_START, INSTANCE, ITEMS,
    OPEN, PI_DATA, PI_TARGET,
};

/// A body: an instance, or an element with so many levels at most, and now and then a pair before and after it.
pub fn body(random: &mut Random, levels: usize) -> Vec<u8> {
    let mut root = Vec::new();
    if random.once_in(8) {
        root.push(INSTANCE);
    } else {
        element(random, levels, &mut root);
    }
    around(random, &root)
}

/// A root, and now and then a pair before and after it.
pub fn around(random: &mut Random, root: &[u8]) -> Vec<u8> {
    let mut list = Vec::new();
    pair(random, &mut list);
    list.extend(root);
    pair(random, &mut list);
    list
}

/// Adds a PI target and its data, now and then.
fn pair(random: &mut Random, list: &mut Vec<u8>) {
    if random.once_in(4) {
        list.extend([PI_TARGET, PI_DATA]);
    }
}

/// The open token of an element with attributes, or of one without.
fn open(attributes: bool) -> u8 {
    if attributes { ANNOUNCING } else { OPEN }
}

/// Adds an element with so many levels at most.
pub fn element(random: &mut Random, levels: usize, list: &mut Vec<u8>) {
    let attributes = random.below(3);
    list.push(open(attributes > 0));
    for _ in 0..attributes {
        list.push(ATTRIBUTE);
        for _ in 0..random.below(3) {
            list.push(random.one_of(&ITEMS));
        }
    }
    if random.once_in(3) {
        list.push(CLOSE_EMPTY);
        return;
    }
    list.push(CLOSE_START);
    for _ in 0..random.below(5) {
        match random.below(6) {
            0 | 1 if levels > 1 => element(random, levels - 1, list),
            2 => list.push(CDATA),
            3 => list.extend([PI_TARGET, PI_DATA]),
            _ => list.push(random.one_of(&ITEMS)),
        }
    }
    list.push(CLOSE_ELEMENT);
}

/// Elements in each other, so many levels deep, with `inner` in the content of the innermost; it is
/// empty if there are none.
pub fn nested(levels: usize, inner: &[u8]) -> Vec<u8> {
    let mut list = [OPEN, CLOSE_START].repeat(levels);
    list.extend(inner);
    if inner.is_empty() && levels > 0 {
        list.pop();
        list.push(CLOSE_EMPTY);
        list.extend(vec![CLOSE_ELEMENT; levels - 1]);
    } else {
        list.extend(vec![CLOSE_ELEMENT; levels]);
    }
    list
}

/// An element whose content is these kinds again and again, as many as there are in so many bytes.
pub fn filled(content: &[u8], bytes: usize) -> Vec<u8> {
    let around = shortest_of_list(&[OPEN, CLOSE_START, CLOSE_ELEMENT]).len();
    let rounds = (bytes - around) / shortest_of_list(content).len();
    nested(1, &content.repeat(rounds))
}

/// A body that goes exactly so many levels down at one place, with other elements on the way.
pub fn deep(random: &mut Random, levels: usize) -> Vec<u8> {
    let (mut before, mut after) = (Vec::new(), Vec::new());
    for level in 1..=levels {
        let attribute = random.once_in(8);
        before.push(open(attribute));
        if attribute {
            before.extend([ATTRIBUTE, random.one_of(&ITEMS)]);
        }
        if level == levels && random.once_in(2) {
            before.push(CLOSE_EMPTY);
            break;
        }
        before.push(CLOSE_START);
        if level < levels && random.once_in(8) {
            let most = (levels - level).min(3);
            element(random, most, &mut before);
        }
        after.push(CLOSE_ELEMENT);
        if random.once_in(8) {
            after.extend([PI_DATA, PI_TARGET]);
        }
    }
    // What stands after the innermost was put down from the outside in.
    before.extend(after.iter().rev());
    before
}

/// One change: a token dropped, doubled, swapped with the next, put in or made another, an open token that announces otherwise, or the
/// list cut.
pub fn change(random: &mut Random, list: &mut Vec<u8>) {
    let any = random.one_of(&ALL);
    if list.is_empty() {
        list.push(any);
        return;
    }
    let at = random.below(list.len());
    match random.below(10) {
        0 | 1 => {
            list.remove(at);
        }
        8 | 9 => announce_otherwise(random, list),
        2 => list.insert(at, list[at]),
        3 if at + 1 < list.len() => list.swap(at, at + 1),
        4 => list.truncate(at),
        5 => list.insert(at, any),
        6 => list.push(any),
        _ => list[at] = any,
    }
}

/// An open token announces what it did not, or nothing any more.
fn announce_otherwise(random: &mut Random, list: &mut [u8]) {
    let is_open = |&at: &usize| [OPEN, ANNOUNCING].contains(&list[at]);
    let opens: Vec<usize> = (0..list.len()).filter(is_open).collect();
    if !opens.is_empty() {
        let at = random.one_of(&opens);
        list[at] = open(list[at] == OPEN);
    }
}

/// Every list of a length.
pub fn every(alphabet: &[u8], length: usize) -> impl Iterator<Item = Vec<u8>> + use<> {
    let alphabet = alphabet.to_vec();
    let count = alphabet.len().pow(length as u32);
    (0..count).map(move |number| {
        let mut rest = number;
        let mut list = vec![0; length];
        for kind in list.iter_mut().rev() {
            *kind = alphabet[rest % alphabet.len()];
            rest /= alphabet.len();
        }
        list
    })
}
