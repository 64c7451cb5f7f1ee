//! Document 01's grammar over lists of token kinds, with document 02's requests P4 and P5, and what follows from it by definition alone.
//!
//! The sentences of 'Grammar', of P4 and of P5 are written down one by one, as a reader that lists every way in which
//! the tokens from a place on can be read. Each way is a tree, and owner table and levels are read
//! off the tree. The refusals 13, 14, 15 and 20 are decided by trying all continuations, so this is for
//! short lists. The answers come from the machine in owners.rs, and the checks hold it to this.

use crate::oracle::kinds::{
    ANNOUNCING, ATTRIBUTE, CDATA, CLOSE_ELEMENT, CLOSE_EMPTY, CLOSE_START, INSTANCE, ITEMS, OPEN,
    PI_DATA, PI_TARGET,
};
use crate::oracle::refusal::Refusal;
use std::collections::BTreeSet;

/// Which grammar: the wide one, or P5's narrower one, in which "announced and present must agree".
#[derive(Debug, Clone, Copy, PartialEq, Eq)]
pub enum Rule {
    Wide,
    Narrow,
}

/// "A body is from now on at most one target and data pair, then one instance or element, then at most
/// one pair." A token in a tree is its number.
#[derive(Debug, Clone)]
pub struct Body {
    leading: Option<Pair>,
    root: Root,
    closing: Option<Pair>,
}

/// "One instance or element."
#[derive(Debug, Clone)]
enum Root {
    Instance(usize),
    Element(Element),
}

/// A "target and data pair".
#[derive(Debug, Clone)]
struct Pair {
    target: usize,
    data: usize,
}

/// "An element is an open token, any attributes, then" its end.
#[derive(Debug, Clone)]
pub struct Element {
    open: usize,
    attributes: Vec<Attribute>,
    end: End,
}

/// "Either close empty, or close start, content, close element."
#[derive(Debug, Clone)]
enum End {
    Empty(usize),
    Content {
        close_start: usize,
        content: Vec<Part>,
        close_element: usize,
    },
}

/// "An attribute is its token and any run of values, substitutions, char refs, entity refs."
#[derive(Debug, Clone)]
struct Attribute {
    token: usize,
    items: Vec<usize>,
}

/// "Content is any run of those four, CDATA, elements, and PI target directly followed by PI data."
#[derive(Debug, Clone)]
enum Part {
    Item(usize),
    Cdata(usize),
    Element(Element),
    Pi(Pair),
}

/// All ways to read something from a place on: each with the place after it.
type Ways<T> = Vec<(T, usize)>;

/// Every way in which the whole list is a body.
pub fn bodies(kinds: &[u8], rule: Rule) -> Vec<Body> {
    let mut whole = Vec::new();
    for (leading, after) in at_most_one_pair(kinds, 0) {
        for (root, after) in roots(kinds, after, rule) {
            for (closing, after) in at_most_one_pair(kinds, after) {
                if after == kinds.len() {
                    whole.push(Body {
                        leading: leading.clone(),
                        root: root.clone(),
                        closing,
                    });
                }
            }
        }
    }
    whole
}

fn roots(kinds: &[u8], at: usize, rule: Rule) -> Ways<Root> {
    let mut ways: Ways<Root> = Vec::new();
    if kinds.get(at) == Some(&INSTANCE) {
        ways.push((Root::Instance(at), at + 1));
    }
    let elements = elements(kinds, at, rule).into_iter();
    ways.extend(elements.map(|(element, end)| (Root::Element(element), end)));
    ways
}

/// None is a way, and one is a way where it stands.
fn at_most_one_pair(kinds: &[u8], at: usize) -> Ways<Option<Pair>> {
    let mut ways = vec![(None, at)];
    let pairs = pairs(kinds, at).into_iter();
    ways.extend(pairs.map(|(pair, end)| (Some(pair), end)));
    ways
}

/// "PI target directly followed by PI data."
fn pairs(kinds: &[u8], at: usize) -> Ways<Pair> {
    if kinds.get(at) != Some(&PI_TARGET) || kinds.get(at + 1) != Some(&PI_DATA) {
        return Vec::new();
    }
    let (target, data) = (at, at + 1);
    vec![(Pair { target, data }, at + 2)]
}

fn elements(kinds: &[u8], open: usize, rule: Rule) -> Ways<Element> {
    let mut ways = Vec::new();
    let announced = match kinds.get(open) {
        Some(&OPEN) => false,
        Some(&ANNOUNCING) => true,
        _ => return ways,
    };
    for (attributes, after) in runs(&|at| self::attributes(kinds, at), open + 1) {
        // "An open byte of 01 followed by an attribute", "41 followed by a close without any": not by the narrow grammar.
        if rule == Rule::Narrow && announced == attributes.is_empty() {
            continue;
        }
        for (end, after) in ends(kinds, after, rule) {
            let attributes = attributes.clone();
            let element = Element {
                open,
                attributes,
                end,
            };
            ways.push((element, after));
        }
    }
    ways
}

fn ends(kinds: &[u8], at: usize, rule: Rule) -> Ways<End> {
    let mut ways = Vec::new();
    if kinds.get(at) == Some(&CLOSE_EMPTY) {
        ways.push((End::Empty(at), at + 1));
    }
    if kinds.get(at) == Some(&CLOSE_START) {
        for (content, close_element) in runs(&|at| parts(kinds, at, rule), at + 1) {
            if kinds.get(close_element) == Some(&CLOSE_ELEMENT) {
                let end = End::Content {
                    close_start: at,
                    content,
                    close_element,
                };
                ways.push((end, close_element + 1));
            }
        }
    }
    ways
}

fn attributes(kinds: &[u8], token: usize) -> Ways<Attribute> {
    if kinds.get(token) != Some(&ATTRIBUTE) {
        return Vec::new();
    }
    let with = |(items, end)| (Attribute { token, items }, end);
    let items = runs(&|at| items(kinds, at), token + 1);
    items.into_iter().map(with).collect()
}

fn items(kinds: &[u8], at: usize) -> Ways<usize> {
    match kinds.get(at) {
        Some(kind) if ITEMS.contains(kind) => vec![(at, at + 1)],
        _ => Vec::new(),
    }
}

fn parts(kinds: &[u8], at: usize, rule: Rule) -> Ways<Part> {
    let mut ways: Ways<Part> = Vec::new();
    let items = items(kinds, at).into_iter();
    ways.extend(items.map(|(item, end)| (Part::Item(item), end)));
    if kinds.get(at) == Some(&CDATA) {
        ways.push((Part::Cdata(at), at + 1));
    }
    let elements = elements(kinds, at, rule).into_iter();
    ways.extend(elements.map(|(element, end)| (Part::Element(element), end)));
    let pairs = pairs(kinds, at).into_iter();
    ways.extend(pairs.map(|(pair, end)| (Part::Pi(pair), end)));
    ways
}

/// "Any run": none, or one and then any run. Each way to stop is a way of its own.
fn runs<T: Clone>(one: &impl Fn(usize) -> Ways<T>, at: usize) -> Ways<Vec<T>> {
    let mut ways = vec![(Vec::new(), at)];
    let mut next = 0;
    while let Some((run, end)) = ways.get(next).cloned() {
        for (more, end) in one(end) {
            let longer = [&run[..], &[more]].concat();
            ways.push((longer, end));
        }
        next += 1;
    }
    ways
}

impl Body {
    /// "The u32 owner table holds owner number plus 1, or 0."
    pub fn owners(&self, count: usize) -> Vec<u32> {
        let mut owners = vec![None; count];
        // "Those outer tokens have no owner."
        for pair in [&self.leading, &self.closing].into_iter().flatten() {
            owners[pair.target] = None;
            owners[pair.data] = None;
        }
        // "Root and instance have no owner."
        match &self.root {
            Root::Instance(instance) => owners[*instance] = None,
            Root::Element(element) => element.owners(&mut owners),
        }
        let word = |owner: Option<usize>| owner.map_or(0, |owner| owner as u32 + 1);
        owners.into_iter().map(word).collect()
    }

    /// The level of each element by its open token: "the root is level 1".
    pub fn levels(&self) -> Vec<(usize, usize)> {
        let mut levels = Vec::new();
        if let Root::Element(element) = &self.root {
            element.levels(1, &mut levels);
        }
        levels
    }

    /// How many levels it has.
    pub fn depth(&self) -> usize {
        let levels = self.levels().into_iter();
        levels.map(|(_, level)| level).max().unwrap_or(0)
    }
}

impl Element {
    /// "An attribute's items belong to its token; all else directly in an element, its close tokens
    /// and child opens too, belongs to its open token."
    fn owners(&self, owners: &mut [Option<usize>]) {
        let mut ours = Vec::new();
        for attribute in &self.attributes {
            ours.push(attribute.token);
            for &item in &attribute.items {
                owners[item] = Some(attribute.token);
            }
        }
        match &self.end {
            End::Empty(close_empty) => ours.push(*close_empty),
            End::Content {
                close_start,
                content,
                close_element,
            } => {
                ours.extend([*close_start, *close_element]);
                for part in content {
                    match part {
                        Part::Item(token) | Part::Cdata(token) => ours.push(*token),
                        Part::Pi(pair) => ours.extend([pair.target, pair.data]),
                        Part::Element(child) => {
                            ours.push(child.open);
                            child.owners(owners);
                        }
                    }
                }
            }
        }
        for token in ours {
            owners[token] = Some(self.open);
        }
    }

    fn levels(&self, level: usize, levels: &mut Vec<(usize, usize)>) {
        levels.push((self.open, level));
        if let End::Content { content, .. } = &self.end {
            for part in content {
                if let Part::Element(child) = part {
                    child.levels(level + 1, levels);
                }
            }
        }
    }
}

/// With how many more tokens `count` of them are a body, if some body begins with them: one for each
/// element that is open, and PI data after a last PI target. An open token and a close start stand
/// before each of these but the first, so it is half the tokens, rounded up. Where the root is to come, it is one for it
/// and one for the data after a leading target: two. By the narrow grammar it is one more, the attribute that a last open token announces.
pub fn enough(count: usize, rule: Rule) -> usize {
    let attribute = usize::from(rule == Rule::Narrow);
    (count.div_ceil(2) + attribute).max(2)
}

/// Hands to `each` the bodies that begin with `kinds` and have up to `more` tokens of the alphabet
/// after them, the short ones first, until it has enough: then this is true.
pub fn each_body(
    kinds: &[u8],
    rule: Rule,
    more: usize,
    alphabet: &[u8],
    each: &mut impl FnMut(&Body) -> bool,
) -> bool {
    let mut list = kinds.to_vec();
    (0..=more).any(|count| each_of_count(&mut list, rule, count, alphabet, each))
}

fn each_of_count(
    list: &mut Vec<u8>,
    rule: Rule,
    count: usize,
    alphabet: &[u8],
    each: &mut impl FnMut(&Body) -> bool,
) -> bool {
    if count == 0 {
        return bodies(list, rule).iter().any(each);
    }
    alphabet.iter().any(|&kind| {
        list.push(kind);
        let stopped = each_of_count(list, rule, count - 1, alphabet, each);
        list.pop();
        stopped
    })
}

/// Whether some body begins with the tokens: "some continuation" makes them one.
pub fn begins(kinds: &[u8], rule: Rule, alphabet: &[u8]) -> bool {
    each_body(
        kinds,
        rule,
        enough(kinds.len(), rule),
        alphabet,
        &mut |_| true,
    )
}

/// Whether some body of the narrow grammar begins with them that has so many levels at most.
fn begins_within(kinds: &[u8], most_levels: usize, alphabet: &[u8]) -> bool {
    let more = enough(kinds.len(), Rule::Narrow);
    each_body(kinds, Rule::Narrow, more, alphabet, &mut |body| {
        body.depth() <= most_levels
    })
}

/// The owner tables of a list of kinds, or its refusal, with so many levels at most and continuations
/// from the alphabet. That there is one table is for the checks to show.
pub fn by_definition(
    kinds: &[u8],
    most_levels: usize,
    alphabet: &[u8],
) -> Result<BTreeSet<Vec<u32>>, Refusal> {
    // "The first token where 13, 14 or 20 holds counts, in that order."
    for number in 0..kinds.len() {
        let through = &kinds[..=number];
        if begins_within(through, most_levels, alphabet) {
            continue;
        }
        let refused = |refusal| Err(Refusal::new(refusal, number as u64));
        // "No body begins with the tokens through this one", by the wide grammar; "bodies of any depth count".
        if !begins(through, Rule::Wide, alphabet) {
            return refused(13);
        }
        // "Opens level 65", where 64 are the most: some body of the narrow grammar goes on, but none within the limit.
        if begins(through, Rule::Narrow, alphabet) {
            assert!([OPEN, ANNOUNCING].contains(&kinds[number]), "{kinds:?}");
            return refused(14);
        }
        // "Attribute bit and attributes disagree."
        return refused(20);
    }
    let bodies = bodies(kinds, Rule::Narrow);
    if bodies.is_empty() {
        // "Body unfinished": "count of tokens".
        return Err(Refusal::new(15, kinds.len() as u64));
    }
    assert!(bodies.iter().all(|body| body.depth() <= most_levels));
    let tables = bodies.iter().map(|body| body.owners(kinds.len()));
    Ok(tables.collect())
}
