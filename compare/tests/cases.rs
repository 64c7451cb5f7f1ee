//! The made token cases reach every kind of token and every refusal of a walk, those of bodies also every refusal of the
//! grammar and of lent words, those of kept sheets that of a wrong one, those of bodies inside values every level, and each is answered.

use compare::cases;
use compare::oracle::batch;
use compare::oracle::kinds::{ATTRIBUTE, ENTITY_REF, OPEN, PI_TARGET};
use std::cmp::Ordering;
use std::collections::BTreeSet;

/// The answers to the first `count` cases of a kind.
fn answers(kind: &str, seed: u64, count: usize) -> String {
    let cases = cases::make(kind, seed, count).expect("a kind");
    answers_to(cases)
}

fn answers_to(cases: impl Iterator<Item = cases::Case>) -> String {
    let bytes: Vec<u8> = cases.flat_map(|case| case.bytes()).collect();
    let mut out = Vec::new();
    batch::run(&mut &bytes[..], &mut out).expect("memory takes all");
    String::from_utf8(out).expect("answers are text")
}

/// The kinds of tokens in the answers, and the numbers of refusals.
fn reached(answers: &str) -> (BTreeSet<u8>, BTreeSet<u8>) {
    let (mut kinds, mut refusals) = (BTreeSet::new(), BTreeSet::new());
    for line in answers.lines() {
        let words: Vec<&str> = line.split(' ').collect();
        match words[..] {
            ["refused", number, _] => {
                refusals.insert(number.parse().expect("a number"));
            }
            [place, _, kind, ..] if place.parse::<u32>().is_ok() => {
                kinds.insert(kind.parse().expect("a number"));
            }
            _ => {}
        }
    }
    (kinds, refusals)
}

fn reaches_all(answers: &str) {
    let (kinds, refusals) = reached(answers);
    assert_eq!(kinds, (1..=13).collect());
    for number in [1, 2, 3, 7, 8, 9, 10, 11, 12] {
        assert!(refusals.contains(&number), "no refusal {number}");
    }
}

/// What is told of a token with a name: its kind, whether it announces attributes, and whether the name stands at 0, in a stream or
/// past the end of any.
type Told = (u8, bool, Where);

#[derive(Debug, PartialEq, Eq, PartialOrd, Ord)]
enum Where {
    AtZero,
    InStream,
    PastEnd,
}

fn told(kind: u8, announced: bool, name: u32) -> Told {
    let stands = match name {
        0 => Where::AtZero,
        1..=65535 => Where::InStream,
        _ => Where::PastEnd,
    };
    (kind, announced, stands)
}

/// The tokens with a name that mode T lists.
fn told_by_lines(answers: &str) -> BTreeSet<Told> {
    let of_line = |line: &str| {
        let words: Vec<&str> = line.split(' ').collect();
        let (kind, announced, name) = match words[..] {
            [_, _, "2", name, _, announced, _] => (OPEN, announced == "1", name),
            [_, _, kind @ ("7" | "8" | "9"), name, _] => (kind.parse().ok()?, false, name),
            _ => return None,
        };
        Some(told(kind, announced, name.parse().ok()?))
    };
    answers.lines().filter_map(of_line).collect()
}

/// Those that the sheets of the modes C and B hold.
fn told_by_sheets(answers: &str) -> BTreeSet<Told> {
    let mut all = BTreeSet::new();
    for line in answers.lines() {
        let words: Vec<&str> = line.split(' ').collect();
        if !["words", "sheet"].contains(&words[0]) {
            continue;
        }
        for pair in words[1..].as_chunks::<2>().0 {
            let [first, second] = pair.map(|word| u64::from_str_radix(word, 16).expect("a word"));
            let kind = (first >> 60) as u8;
            if [OPEN, ATTRIBUTE, ENTITY_REF, PI_TARGET].contains(&kind) {
                all.insert(told(kind, first >> 8 & 1 == 1, (second >> 32) as u32));
            }
        }
    }
    all
}

/// Both open bytes and the three other kinds, each with a name of each sort.
fn reaches_names(reached: &BTreeSet<Told>) {
    let named = [
        (OPEN, false),
        (OPEN, true),
        (ATTRIBUTE, false),
        (ENTITY_REF, false),
        (PI_TARGET, false),
    ];
    let all = named
        .into_iter()
        .flat_map(|(kind, announced)| [0, 1, 65536].map(|name| told(kind, announced, name)));
    assert_eq!(*reached, all.collect());
}

/// What is said of texts and names: a token's kind with its last word, and for a string with a size (1) and without (6) its letter.
fn soundness(answers: &str) -> BTreeSet<(&str, &str)> {
    let mut all = BTreeSet::new();
    for line in answers.lines() {
        let words: Vec<&str> = line.split(' ').collect();
        match words[..] {
            [
                place,
                _,
                kind @ ("2" | "7" | "8" | "9" | "10" | "11"),
                ..,
                last,
            ] if place.parse::<u32>().is_ok() => {
                all.insert((kind, last));
            }
            [place, _, kind @ ("1" | "6"), ref fields @ ..] if place.parse::<u32>().is_ok() => {
                let strings = fields.iter().filter(|field| field.starts_with("01:"));
                all.extend(strings.filter_map(|field| {
                    let content = field.rsplit(':').next()?;
                    Some((kind, &content[..1]))
                }));
            }
            _ => {}
        }
    }
    all
}

/// Each name sound, unsound and not judged, each text and each string sound and unsound.
fn reaches_soundness(answers: &str) {
    let names = ["2", "7", "8", "9"].map(|kind| ["0", "1", "-"].map(|last| (kind, last)));
    let texts = ["10", "11"].map(|kind| ["0", "1"].map(|last| (kind, last)));
    let strings = ["1", "6"].map(|kind| ["t", "x"].map(|letter| (kind, letter)));
    let all = names.concat().into_iter();
    let all = all.chain(texts.concat()).chain(strings.concat());
    assert_eq!(soundness(answers), all.collect());
}

/// The rooms of the sheets alone, by whether they are odd and whether 16 was refused.
fn reached_rooms(answers: &str) -> BTreeSet<(bool, bool)> {
    let lines: Vec<&str> = answers.lines().collect();
    let pairs = lines.windows(2).filter_map(|pair| {
        let refused = pair[0].starts_with("refused 16 ");
        let words = pair[1].strip_prefix("words")?;
        let odd = words.split_ascii_whitespace().count() % 2 == 1;
        (refused || pair[0].starts_with("count ")).then_some((odd, refused))
    });
    pairs.collect()
}

/// How the joined call's rooms stand to the need, sheet and table, where it comes to that: less, as many, more.
fn reached_both(answers: &str) -> BTreeSet<[Ordering; 2]> {
    let lines: Vec<&str> = answers.lines().collect();
    let of_case = lines.windows(3).filter_map(|lines| {
        let word = u64::from_str_radix(lines[0].strip_prefix("answer ")?, 16).ok()?;
        let words =
            |line: &str, name| Some(line.strip_prefix(name)?.split_ascii_whitespace().count());
        let rooms = [words(lines[1], "sheet")?, words(lines[2], "table")?];
        let place = (word & 0xff_ffff_ffff) as usize;
        let tokens = match (word >> 63, word >> 56 & 0x7f) {
            (0, _) => place,
            // The table was too short only if the sheet was not.
            (_, 16) if rooms[0] < place => place / 2,
            (_, 16) => place,
            _ => return None,
        };
        Some([rooms[0].cmp(&(2 * tokens)), rooms[1].cmp(&tokens)])
    });
    of_case.collect()
}

#[test]
fn made_token_cases() {
    const COUNT: usize = 100_000;
    let answers = answers("token", 1, COUNT);
    assert_eq!(answers.lines().filter(|line| *line == ".").count(), COUNT);
    reaches_all(&answers);
    reaches_names(&told_by_lines(&answers));
    reaches_soundness(&answers);
}

/// So many texts compare/run asks for, and all of them are read.
#[test]
fn short_texts() {
    let answers = answers("texts", 0, usize::MAX);
    assert_eq!(answers.lines().filter(|line| *line == ".").count(), 1170);
    assert_eq!(answers.lines().filter(|line| *line == "ok 9").count(), 1170);
    reaches_soundness(&answers);
}

/// The numbers of refusals in lines of their own, as in the modes O and C, and in packed words, as in the modes B and K.
fn reached_by_bodies(answers: &str) -> (BTreeSet<u8>, BTreeSet<u8>) {
    let (_, tables) = reached(answers);
    let words = answers.lines().filter_map(|line| {
        let word = u64::from_str_radix(line.strip_prefix("answer ")?, 16).expect("a word");
        (word >> 63 == 1).then_some((word >> 56) as u8 & 0x7f)
    });
    (tables, words.collect())
}

#[test]
fn made_body_cases() {
    const COUNT: usize = 100_000;
    let answers = answers("body", 1, COUNT);
    assert_eq!(answers.lines().filter(|line| *line == ".").count(), COUNT);
    let count = |word: &str| {
        answers
            .lines()
            .filter(|line| line.starts_with(word))
            .count()
    };
    assert!(count("owners ") > COUNT / 10 && count("count ") > COUNT / 10);
    assert!(count("answer 0") > COUNT / 20);
    let (tables, words) = reached_by_bodies(&answers);
    for number in [1, 2, 3, 7, 8, 9, 10, 11, 12, 13, 14, 15, 20] {
        assert!(tables.contains(&number), "no refusal {number} in mode O");
        assert!(words.contains(&number), "no refusal {number} in mode B");
    }
    assert!(words.contains(&16));
    reaches_names(&told_by_sheets(&answers));
    assert_eq!(reached_rooms(&answers).len(), 4);
    assert_eq!(reached_both(&answers).len(), 9);
}

#[test]
fn made_kept_cases() {
    const COUNT: usize = 50_000;
    let answers = answers("kept", 1, COUNT);
    assert_eq!(answers.lines().filter(|line| *line == ".").count(), COUNT);
    let count = |word: &str| {
        answers
            .lines()
            .filter(|line| line.starts_with(word))
            .count()
    };
    assert!(count("answer 0") > COUNT / 10 && count("answer 93") > COUNT / 10);
    let (_, words) = reached_by_bodies(&answers);
    for number in [2, 3, 7, 8, 9, 10, 11, 12, 16, 19] {
        assert!(words.contains(&number), "no refusal {number} in mode K");
    }
}

/// The levels that the sheets of mode N reach.
fn levels(answers: &str) -> BTreeSet<u64> {
    let sheets = answers
        .lines()
        .filter_map(|line| line.strip_prefix("sheet "));
    let first = sheets.flat_map(|words| words.split(' ').step_by(2));
    let words = first.map(|word| u64::from_str_radix(word, 16).expect("a word"));
    let tokens = words.filter(|word| *word != u64::MAX);
    tokens.map(|word| word >> 4 & 0xf).collect()
}

/// Every level, every refusal of a walk and of the grammar, those of request P9, and rooms around the need.
fn reaches_nests(answers: &str) {
    let (_, words) = reached_by_bodies(answers);
    for number in [2, 3, 7, 8, 9, 10, 11, 12, 13, 14, 15, 16, 20, 21, 29] {
        assert!(words.contains(&number), "no refusal {number} in mode N");
    }
    assert_eq!(levels(answers), (0..=8).collect());
    assert_eq!(reached_both(answers).len(), 9);
}

#[test]
fn made_nest_cases() {
    const COUNT: usize = 50_000;
    let answers = answers("nest", 1, COUNT);
    assert_eq!(answers.lines().filter(|line| *line == ".").count(), COUNT);
    let accepted = |line: &&str| line.starts_with("answer 0");
    assert!(answers.lines().filter(accepted).count() > COUNT / 5);
    reaches_nests(&answers);
}

/// So many values compare/run asks for.
#[test]
fn short_nests() {
    let cases = cases::make("nests", 0, usize::MAX).expect("a kind");
    assert_eq!(cases.count(), 284_550);
}

/// So many lists compare/run asks for: all up to four tokens, and with one item for the four of five and six; those up to three also
/// after a fragment header and with the names that a sheet shows, and those up to two with rooms around the need. The
/// first of them reach each refusal.
#[test]
fn short_lists() {
    let cases = cases::make("lists", 0, usize::MAX).expect("a kind");
    assert_eq!(cases.count(), 1_986_003);
    let (lines, words) = reached_by_bodies(&answers("lists", 0, 30_000));
    assert_eq!(lines, BTreeSet::from([13, 15, 16, 20]));
    assert_eq!(words, lines);
}

/// A log of one chunk, the C example's sample: as many records as it prints.
#[test]
fn real_cases() {
    let log = [
        &[0; 4096],
        &include_bytes!("../../examples/sample.chunk")[..],
    ]
    .concat();
    let mut batch = Vec::new();
    let put = |case: cases::Case| {
        batch.extend(case.bytes());
        Ok::<_, ()>(())
    };
    let counts = cases::real::each(&log, put).expect("memory takes all");
    let counts = counts.to_string();
    assert!(
        counts.starts_with("chunks 1 unused 0 live 7 carved 1 "),
        "{counts}"
    );
    let mut out = Vec::new();
    batch::run_held(&mut &batch[..], &mut out).expect("memory takes all");
    let held = String::from_utf8(out).expect("answers are text");
    assert!(held.contains("\nlive 512 ") && !held.contains("\napart\n"));
}

/// The refusals among the answers of mode M; at least one merge is not refused.
fn reached_by_merges(answers: &str) -> Vec<u64> {
    let words = answers
        .lines()
        .filter_map(|line| line.strip_prefix("answer "))
        .map(|word| u64::from_str_radix(word, 16).expect("sixteen digits"));
    let (refused, merged): (Vec<u64>, Vec<u64>) = words.partition(|word| word >> 63 == 1);
    assert!(!merged.is_empty(), "each merge is refused");
    // A list too long is told with whose it is.
    let mut numbers: Vec<u64> = refused
        .into_iter()
        .map(|word| match word >> 56 & 0x7f {
            27 => 270 + (word & 0xff),
            number => number,
        })
        .collect();
    numbers.sort_unstable();
    numbers.dedup();
    numbers
}

#[test]
fn made_merges() {
    assert_eq!(reached_by_merges(&answers("merge", 1, 1000)), [28, 270, 271]);
    let full = |case: &cases::Case| case.data[..4] == 12288_u32.to_le_bytes();
    assert!(cases::make("merge", 1, 1000).expect("a kind").any(|case| full(&case)));
}

#[test]
fn stored_cases() {
    let stored = cases::make("stored", 0, usize::MAX).expect("a kind");
    let (merged, stored): (Vec<_>, Vec<_>) = stored.partition(|case| case.mode == b'M');
    assert_eq!(reached_by_merges(&answers_to(merged.into_iter())), [28]);
    let (kept, others): (Vec<_>, Vec<_>) = stored.into_iter().partition(|case| case.mode == b'K');
    let (nests, others): (Vec<_>, Vec<_>) = others.into_iter().partition(|case| case.mode == b'N');
    reaches_nests(&answers_to(nests.into_iter()));
    let answers = answers_to(others.into_iter());
    assert!(answers.ends_with(".\nbad case\n"));
    reaches_all(&answers);
    let (_, words) = reached_by_bodies(&answers_to(kept.into_iter()));
    for number in [2, 3, 7, 8, 9, 10, 11, 12, 16, 19] {
        assert!(words.contains(&number), "no refusal {number} in mode K");
    }
    let size: usize = cases::make("stored", 0, usize::MAX)
        .expect("a kind")
        .map(|case| case.bytes().len())
        .sum();
    assert!(size < 3200 * 1024, "the stored batch has {size} bytes");
    reaches_names(&told_by_lines(&answers));
    reaches_soundness(&answers);
    reaches_names(&told_by_sheets(&answers));
    assert_eq!(reached_rooms(&answers).len(), 4);
    assert_eq!(reached_both(&answers).len(), 9);
    let (tables, words) = reached_by_bodies(&answers);
    for number in [2, 3, 7, 8, 9, 10, 11, 12, 13, 14, 15, 20] {
        assert!(tables.contains(&number), "no refusal {number} in mode O");
        assert!(words.contains(&number), "no refusal {number} in mode B");
    }
    assert!(words.contains(&16));
}
