//! Document 02's request P14 on pairs of chunks: the pair that the port computes in crates/promises/specs/DamagedPair.antt, and made pairs.
//! What P14 says holds of each, and two forms that ask more are false.

mod common;

use common::{answers, case};
use compare::cases;
use compare::oracle::batch;
use compare::pairs::{self, Counts, Form, Walked};

fn walked<'a>(chunk: &'a [u8], text: &'a str) -> Walked<'a> {
    let lines = text.lines().filter(|line| *line != ".").collect();
    Walked { chunk, lines }
}

#[test]
fn the_computed_pair() {
    let chunks = cases::damaged_pair();
    let texts = [0, 1].map(|i| answers(&case(b'W', 1, 0, 0, &chunks[i])));
    assert_eq!(
        texts[0],
        "live 512 28 1 0 536 0\nrefused 4 540\ncarved 564 28 99 0 588 0\nlive 596 28 3 0 620 0\ndone\n.\n"
    );
    assert_eq!(
        texts[1],
        "live 512 28 1 0 536 0\nrefused 6 540\nlive 596 28 3 0 620 0\ndone\n.\n"
    );
    let [one, other] = [0, 1].map(|i| walked(&chunks[i], &texts[i]));
    let mut counts = Counts::default();
    assert_eq!(pairs::hold(&one, &other, Form::Said, &mut counts), Ok(()));
    assert_eq!((counts.held, counts.numbers, counts.carved), (1, 1, 1));
    for form in [Form::WithRefusal, Form::WithCarved] {
        assert!(pairs::hold(&one, &other, form, &mut counts).is_err());
    }
}

/// A walk that does otherwise is told: an answer after the damage is left out, doubled or another one, or a payload is.
#[test]
fn other_walks_are_told() {
    let chunks = cases::damaged_pair();
    let texts = [0, 1].map(|i| answers(&case(b'W', 1, 0, 0, &chunks[i])));
    let [one, other] = [0, 1].map(|i| walked(&chunks[i], &texts[i]));
    let mut counts = Counts::default();
    let mut told = |lines: Vec<&str>| {
        let changed = Walked {
            chunk: other.chunk,
            lines,
        };
        pairs::hold(&one, &changed, Form::Said, &mut counts).is_err()
    };
    let lines = &other.lines;
    assert!(!told(lines.clone()));
    assert!(told([&lines[..2], &lines[3..]].concat()));
    assert!(told([&lines[..3], &lines[2..]].concat()));
    assert!(told(
        [&lines[..2], &["live 596 28 4 0 620 0", "done"]].concat()
    ));
    // A carved record that lies across the resync offset is no exception.
    assert!(told(
        [&lines[..2], &["carved 570 28 9 0 594 0"], &lines[2..]].concat()
    ));
}

/// The lines of the first `count` pairs, by the Rust.
fn made(seed: u64, count: usize) -> Vec<(Vec<u8>, String)> {
    let of = |made: cases::Case| {
        let mut out = Vec::new();
        batch::run(&mut &made.bytes()[..], &mut out).expect("memory takes all");
        (made.data, String::from_utf8(out).expect("answers are text"))
    };
    let cases = cases::make("pair", seed, 4 * count).expect("a kind");
    cases.map(of).collect()
}

#[test]
fn made_pairs() {
    const COUNT: usize = 500;
    let mut counts = Counts::default();
    let mut careless = [0, 0];
    for four in made(1, COUNT).chunks(4) {
        let walked = |i: usize| walked(&four[i].0, &four[i].1);
        let [one, other, one_off, other_off] = [0, 1, 2, 3].map(walked);
        for (one, other) in [(&one, &other), (&one_off, &other_off)] {
            assert_eq!(pairs::hold(one, other, Form::Said, &mut counts), Ok(()));
            for (form, count) in [Form::WithRefusal, Form::WithCarved]
                .into_iter()
                .zip(&mut careless)
            {
                *count +=
                    usize::from(pairs::hold(one, other, form, &mut Counts::default()).is_err());
            }
        }
        assert_eq!(pairs::only_adds(&one, &one_off), Ok(()));
        assert_eq!(pairs::only_adds(&other, &other_off), Ok(()));
    }
    assert!(
        counts.held > COUNT && counts.numbers > COUNT / 2,
        "{counts:?}"
    );
    assert!(
        counts.carved > COUNT / 20 && counts.later > COUNT / 10,
        "{counts:?}"
    );
    assert!(
        careless.iter().all(|count| *count > COUNT / 20),
        "{careless:?}"
    );
}
