//! The machine that answers mode O, held to document 01's grammar with document 02's requests P4 and P5 as bodies.rs writes it down: on every
//! list of kinds up to a length, on made bodies, and at the real limit of levels.

use compare::cases::lists;
use compare::cases::random::Random;
use compare::oracle::bodies::{Rule, begins, bodies, by_definition, each_body, enough};
use compare::oracle::kinds::{
    ALL, ANNOUNCING, ATTRIBUTE, CLOSE_ELEMENT, CLOSE_EMPTY, CLOSE_START, INSTANCE, ONE_ITEM, OPEN,
    PI_DATA, PI_TARGET, VALUE,
};
use compare::oracle::owners::{MOST_LEVELS, owners};
use compare::oracle::refusal::Refusal;
use std::collections::BTreeSet;

/// What a check saw: lists, bodies and each refusal.
#[derive(Debug, Default, PartialEq, Eq)]
struct Seen {
    lists: usize,
    bodies: usize,
    refused_13: usize,
    refused_14: usize,
    refused_15: usize,
    refused_20: usize,
}

fn every_list(alphabet: &[u8], most: usize) -> impl Iterator<Item = Vec<u8>> {
    (0..=most).flat_map(|length| lists::every(alphabet, length))
}

/// Holds the machine to the definition on every list of the alphabet up to a length.
fn agree(alphabet: &[u8], most: usize, most_levels: usize) -> Seen {
    let mut seen = Seen::default();
    // "The first token where 13, 14 or 20 holds counts": every list that begins with the tokens through it has its refusal.
    let mut through: Option<(Vec<u8>, Refusal)> = None;
    for kinds in every_list(alphabet, most) {
        let said = match &through {
            Some((front, refusal)) if kinds.starts_with(front) => Err(*refusal),
            _ => by_definition(&kinds, most_levels, alphabet),
        };
        if let Err(
            refusal @ Refusal {
                number: 13 | 14 | 20,
                place,
            },
        ) = said
        {
            through = Some((kinds[..=place as usize].to_vec(), refusal));
        }
        seen.lists += 1;
        match &said {
            Ok(tables) => {
                assert_eq!(tables.len(), 1, "not one owner table: {kinds:?}");
                seen.bodies += 1;
            }
            Err(Refusal { number: 13, .. }) => seen.refused_13 += 1,
            Err(Refusal { number: 14, .. }) => seen.refused_14 += 1,
            Err(Refusal { number: 20, place }) => {
                seen.refused_20 += 1;
                assert!(disagrees(&kinds, *place as usize), "{kinds:?}");
            }
            Err(_) => seen.refused_15 += 1,
        }
        only_where_they_disagree(&kinds, &said);
        let answer = owners(&kinds, most_levels).map(|table| BTreeSet::from([table]));
        assert_eq!(answer, said, "{kinds:?} with {most_levels} levels");
    }
    println!(
        "{} kinds, {most} tokens, {most_levels} levels: {seen:?}",
        alphabet.len()
    );
    seen
}

/// An attribute right after an open token that announces none, or a close start or close empty right after one that announces some.
fn disagrees(kinds: &[u8], number: usize) -> bool {
    let before = number.checked_sub(1).map(|before| kinds[before]);
    match kinds[number] {
        ATTRIBUTE => before == Some(OPEN),
        CLOSE_START | CLOSE_EMPTY => before == Some(ANNOUNCING),
        _ => false,
    }
}

/// What is accepted, or refused at a place, has no such token before.
fn only_where_they_disagree(kinds: &[u8], said: &Result<BTreeSet<Vec<u32>>, Refusal>) {
    let read = match said {
        Ok(_) => kinds.len(),
        Err(refusal) => refusal.place as usize,
    };
    assert!(
        !(0..read).any(|number| disagrees(kinds, number)),
        "{kinds:?}"
    );
}

#[test]
fn all_kinds() {
    let seen = agree(&ALL, 4, MOST_LEVELS);
    assert_eq!((seen.lists, seen.bodies), (41_371, 19));
}

/// The four items of an attribute are one kind here.
#[test]
fn one_item() {
    let seen = agree(&ONE_ITEM, 6, MOST_LEVELS);
    assert_eq!(seen.lists, 1_948_717);
}

/// These take minutes: `cargo test --release -- --ignored`.
#[test]
#[ignore = "takes minutes"]
fn longer() {
    let seen = agree(&ONE_ITEM, 7, MOST_LEVELS);
    assert_eq!(seen.lists, 21_435_888);
    let seen = agree(&ALL, 5, MOST_LEVELS);
    assert_eq!((seen.lists, seen.bodies), (579_195, 86));
    let seen = agree(&ALL, 6, MOST_LEVELS);
    assert_eq!(seen.lists, 8_108_731);
}

/// Refusal 14 at low limits.
#[test]
fn few_levels() {
    for most_levels in 1..=2 {
        let seen = agree(&ONE_ITEM, 5, most_levels);
        assert!(seen.refused_14 > 0);
    }
}

/// What opens and closes elements, alone: long enough to come to the fifth level.
#[test]
fn tags() {
    let tags = [OPEN, CLOSE_START, CLOSE_EMPTY, CLOSE_ELEMENT];
    for most_levels in 1..=4 {
        let seen = agree(&tags, 9, most_levels);
        assert!(seen.bodies > 0 && seen.refused_14 > 0 && seen.refused_15 > 0);
    }
}

/// What opens and fills a tag, alone: both open tokens, attributes with and without a value, both ways to close.
#[test]
fn announced() {
    let tags = [
        OPEN,
        ANNOUNCING,
        ATTRIBUTE,
        VALUE,
        CLOSE_START,
        CLOSE_EMPTY,
        CLOSE_ELEMENT,
    ];
    for most_levels in [1, 2, MOST_LEVELS] {
        let seen = agree(&tags, 6, most_levels);
        assert!(seen.bodies > 0 && seen.refused_13 > 0 && seen.refused_15 > 0);
        assert!(seen.refused_20 > 0);
    }
}

/// What stands around the root, and the shortest roots: long enough for two pairs on either side.
#[test]
fn around() {
    let seen = agree(
        &[PI_TARGET, PI_DATA, INSTANCE, OPEN, CLOSE_EMPTY],
        7,
        MOST_LEVELS,
    );
    // An instance and an empty element, each alone, with a pair before, after, and both.
    assert_eq!(seen.bodies, 8);
}

/// A token more than `enough` makes no further list begin a body, and all bodies that begin with a
/// list agree on what its last token opens.
#[test]
fn continuations() {
    let mut begun = 0;
    for rule in [Rule::Wide, Rule::Narrow] {
        for kinds in every_list(&ONE_ITEM, 3) {
            let begins = begins(&kinds, rule, &ONE_ITEM);
            let more = enough(kinds.len(), rule) + 1;
            let mut opened = BTreeSet::new();
            each_body(&kinds, rule, more, &ONE_ITEM, &mut |body| {
                let mut levels = body.levels().into_iter();
                opened.insert(levels.find(|(open, _)| open + 1 == kinds.len()));
                false
            });
            assert_eq!(opened.len(), usize::from(begins), "{kinds:?}");
            begun += usize::from(begins);
        }
    }
    println!("{begun} lists of up to 3 tokens begin a body");
}

/// Made bodies of many tokens: each can be read in one way, and the machine gives its owner table.
/// Changed ones are bodies exactly if the machine says so.
#[test]
fn made_bodies() {
    let mut random = Random::new(1);
    let (mut longest, mut changed_bodies) = (0, 0);
    for _ in 0..20_000 {
        let levels = random.between(1, 7);
        let mut list = lists::body(&mut random, levels);
        longest = longest.max(list.len());
        let ways = bodies(&list, Rule::Narrow);
        assert_eq!(ways.len(), 1, "{list:?}");
        assert!(ways[0].depth() <= levels);
        // By the wide grammar it is a body too, with the same table.
        let wide = bodies(&list, Rule::Wide);
        assert_eq!(wide.len(), 1, "{list:?}");
        assert_eq!(wide[0].owners(list.len()), ways[0].owners(list.len()));
        assert_eq!(owners(&list, MOST_LEVELS), Ok(ways[0].owners(list.len())));

        lists::change(&mut random, &mut list);
        let changed = bodies(&list, Rule::Narrow);
        let table = changed.first().map(|body| body.owners(list.len()));
        changed_bodies += usize::from(table.is_some());
        assert_eq!(owners(&list, MOST_LEVELS).ok(), table, "{list:?}");
    }
    println!("the longest has {longest} tokens; {changed_bodies} are bodies after a change");
}

/// At the real limit no continuation has to be tried: a body shows of each list that it begins with that
/// 13 does not hold, and what level each token opens.
#[test]
fn real_limit() {
    let mut random = Random::new(2);
    for levels in 62..=67 {
        let mut whole = vec![
            lists::nested(levels, &[]),
            lists::nested(levels, &[VALUE]),
            lists::nested(levels, &[OPEN, CLOSE_EMPTY, OPEN, CLOSE_EMPTY]),
        ];
        for _ in 0..20 {
            whole.push(lists::deep(&mut random, levels));
        }
        // A leading pair opens no level.
        let led = whole.iter();
        let led: Vec<Vec<u8>> = led
            .map(|list| [&[PI_TARGET, PI_DATA], &list[..]].concat())
            .collect();
        whole.extend(led);
        for list in whole {
            let ways = bodies(&list, Rule::Narrow);
            assert_eq!(ways.len(), 1);
            let opened = ways[0].levels().into_iter();
            let too_deep = opened
                .filter(|(_, level)| *level == MOST_LEVELS + 1)
                .map(|(open, _)| open)
                .min();
            assert_eq!(too_deep.is_some(), ways[0].depth() > MOST_LEVELS);
            for count in 0..=list.len() {
                let said = match too_deep {
                    Some(open) if open < count => Err(Refusal::new(14, open as u64)),
                    _ if count == list.len() => Ok(ways[0].owners(count)),
                    _ => Err(Refusal::new(15, count as u64)),
                };
                assert_eq!(owners(&list[..count], MOST_LEVELS), said);
            }
        }
    }
    // The open token of level 65 is the last one, and one that no body has there comes before 14.
    let through = [&[OPEN, CLOSE_START].repeat(64)[..], &[OPEN]].concat();
    assert_eq!(owners(&through, 64), Err(Refusal::new(14, 128)));
    assert_eq!(owners(&through[..128], 64), Err(Refusal::new(15, 128)));
    let other = [&through[..127], &[OPEN, OPEN]].concat();
    assert_eq!(owners(&other, 64), Err(Refusal::new(13, 127)));
}

/// By hand: the owners that document 01's sentences name.
#[test]
fn owners_by_hand() {
    use compare::oracle::kinds::*;
    let body = [
        ANNOUNCING,
        ATTRIBUTE,
        VALUE,
        ENTITY_REF,
        ATTRIBUTE,
        CLOSE_START,
        CDATA,
        ANNOUNCING,
        ATTRIBUTE,
        SUBSTITUTION,
        CLOSE_EMPTY,
        CHAR_REF,
        PI_TARGET,
        PI_DATA,
        CLOSE_ELEMENT,
    ];
    let table = vec![0, 1, 2, 2, 1, 1, 1, 1, 8, 9, 8, 1, 1, 1, 1];
    assert_eq!(owners(&body, MOST_LEVELS), Ok(table.clone()));
    let ways = bodies(&body, Rule::Narrow);
    assert_eq!(ways.len(), 1);
    assert_eq!(ways[0].owners(body.len()), table);
    assert_eq!(owners(&[INSTANCE], MOST_LEVELS), Ok(vec![0]));
}

/// By hand: what document 02's request P4 says, and what follows from it.
#[test]
fn pairs_by_hand() {
    const T: u8 = PI_TARGET;
    const D: u8 = PI_DATA;
    const I: u8 = INSTANCE;
    const O: u8 = OPEN;
    const E: u8 = CLOSE_EMPTY;
    let bodies: [(&[u8], &[u32]); 6] = [
        (&[T, D, I], &[0, 0, 0]),
        (&[I, T, D], &[0, 0, 0]),
        (&[T, D, I, T, D], &[0, 0, 0, 0, 0]),
        (&[T, D, O, E], &[0, 0, 0, 3]),
        (&[O, E, T, D], &[0, 1, 0, 0]),
        (&[T, D, O, E, T, D], &[0, 0, 0, 3, 0, 0]),
    ];
    for (list, table) in bodies {
        assert_eq!(owners(list, MOST_LEVELS), Ok(table.to_vec()), "{list:?}");
    }
    let refused: [(&[u8], u8, u64); 16] = [
        (&[], 15, 0),
        (&[T], 15, 1),
        // "A lone pair is unfinished."
        (&[T, D], 15, 2),
        (&[T, D, O], 15, 3),
        (&[I, T], 15, 2),
        (&[O, E, T], 15, 3),
        // "Two leading pairs are refused 13 at the second target."
        (&[T, D, T, D, I], 13, 2),
        (&[T, D, T], 13, 2),
        (&[D], 13, 0),
        (&[T, T], 13, 1),
        (&[T, I], 13, 1),
        (&[T, D, D], 13, 2),
        (&[T, D, E], 13, 2),
        (&[I, D], 13, 1),
        (&[I, T, I], 13, 2),
        (&[I, T, D, T], 13, 3),
    ];
    for (list, number, place) in refused {
        let refusal = Err(Refusal::new(number, place));
        assert_eq!(owners(list, MOST_LEVELS), refusal, "{list:?}");
    }
}

/// By hand: what document 02's request P5 says, and the smallest list for each pair of refusals that might meet.
#[test]
fn announced_by_hand() {
    const O: u8 = OPEN;
    const N: u8 = ANNOUNCING;
    const A: u8 = ATTRIBUTE;
    const S: u8 = CLOSE_START;
    const E: u8 = CLOSE_EMPTY;
    const C: u8 = CLOSE_ELEMENT;
    let bodies: [(&[u8], &[u32]); 4] = [
        (&[O, E], &[0, 1]),
        (&[N, A, E], &[0, 1, 1]),
        (&[N, A, VALUE, A, E], &[0, 1, 2, 1, 1]),
        (&[O, S, N, A, S, C, C], &[0, 1, 1, 3, 3, 3, 1]),
    ];
    for (list, table) in bodies {
        assert_eq!(owners(list, MOST_LEVELS), Ok(table.to_vec()), "{list:?}");
    }
    // 64 levels, and a level less.
    let deepest = [O, S].repeat(64);
    let above = &deepest[..126];
    let refused: [(&[u8], u8, u64); 13] = [
        // "An open byte of 01 followed by an attribute is refused at the attribute."
        (&[O, A], 20, 1),
        (&[O, A, E], 20, 1),
        // "41 followed by a close without any is refused at that close token."
        (&[N, S], 20, 1),
        (&[N, E], 20, 1),
        // 13 and 20: no body of either grammar begins like this, and 13 comes first.
        (&[N, C], 13, 1),
        (&[N, VALUE], 13, 1),
        (&[N, O], 13, 1),
        // 15 and 20: all that is missing may come; nothing mends what disagrees.
        (&[N], 15, 1),
        (&[N, A], 15, 2),
        // 13 and 14: the 65th open token, but in the 64th tag.
        (&[above, &[O, O]].concat(), 13, 127),
        // 14 and 20: the first token counts.
        (&[&deepest[..], &[N, E]].concat(), 14, 128),
        (&[above, &[N, S, O]].concat(), 20, 127),
        // 14 and 15.
        (&[&deepest[..], &[O]].concat(), 14, 128),
    ];
    for (list, number, place) in refused {
        let refusal = Err(Refusal::new(number, place));
        assert_eq!(owners(list, MOST_LEVELS), refusal, "{list:?}");
    }
}
