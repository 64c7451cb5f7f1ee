//! Every record of logs that Windows wrote, by the second reading of an event: live ones are read, but for a type that document 01 does not
//! know; carved ones are read where their definition still stands, and else refused 30, never read by another one.

mod common;

use common::logs;
use compare::cases::event_cases::{self, names_of};
use compare::cases::real;
use compare::document::event::{self, Own};
use compare::oracle::chunk::Record;
use compare::oracle::tokens::Asked;
use std::collections::{BTreeMap, BTreeSet};

/// How many records are read, and how many have each refusal.
type Counts = BTreeMap<Option<u8>, usize>;

fn asked(record: &Record) -> Asked {
    Asked {
        start: record.payload_start as usize,
        length: record.payload_length as usize,
        dependencies: false,
        inline_names: false,
    }
}

fn counts(log: &[u8]) -> [Counts; 2] {
    let mut counts = [Counts::new(), Counts::new()];
    for (chunk, record) in real::all_records(log) {
        let read = event::read(&mut Own(chunk), asked(&record));
        let refused = read.err().map(|refusal| refusal.number);
        *counts[usize::from(record.carved)]
            .entry(refused)
            .or_default() += 1;
    }
    counts
}

/// How the names stand that the records that are read name: sound and with their own hash, or not, or refused.
fn names(log: &[u8]) -> [BTreeMap<Option<u64>, usize>; 2] {
    let mut counts = [BTreeMap::new(), BTreeMap::new()];
    for (chunk, record) in real::all_records(log) {
        let names: BTreeSet<u32> = names_of(chunk, asked(&record)).into_iter().collect();
        for name in names {
            let bits = event::name(chunk, name as usize, false);
            let bits = bits.ok().map(|(_, word)| word & 3);
            *counts[usize::from(record.carved)].entry(bits).or_default() += 1;
        }
    }
    counts
}

/// The figures of docs/EVENT.md, as far as its logs are at hand.
#[test]
fn records() {
    for (name, log) in logs() {
        let [live, carved] = counts(&log);
        let of = |counts: &Counts, kinds: &[Option<u8>]| {
            assert!(
                counts.keys().all(|kind| kinds.contains(kind)),
                "{name}: {counts:?}"
            );
            kinds
                .iter()
                .map(|kind| counts.get(kind).copied().unwrap_or(0))
                .collect::<Vec<_>>()
        };
        let live = of(&live, &[None, Some(7)]);
        let carved = of(&carved, &[None, Some(30)]);
        match name.as_str() {
            "System.evtx" => assert_eq!([live, carved], [[1596, 5], [0, 0]]),
            "issue_38.evtx" => assert_eq!([live, carved], [[1, 0], [7, 31]]),
            _ => {}
        }
    }
}

/// Every name of a live record is sound and has its own hash. Of those of the carved records that are read most were overwritten: a
/// definition that is the instance's own has no say about names that stand elsewhere.
#[test]
fn names_of_records() {
    for (name, log) in logs() {
        let [live, carved] = names(&log);
        assert!(live.keys().all(|bits| *bits == Some(3)), "{name}: {live:?}");
        if name == "issue_38.evtx" {
            let expected = [(None, 7), (Some(0), 50), (Some(2), 64), (Some(3), 36)];
            assert_eq!(carved, BTreeMap::from(expected));
        }
    }
}

/// Both sides on every record.
#[test]
fn both_sides() {
    for (_, log) in logs() {
        for (chunk, record) in real::all_records(&log) {
            let (start, length) = (
                record.payload_start as usize,
                record.payload_length as usize,
            );
            let case = event_cases::enough(0, start, length, chunk);
            let (rust, held) = common::both(&case.bytes());
            assert!(!held.contains("apart"), "{record:?}");
            assert!(held == rust || held.contains("differs 2\n"), "{record:?}");
        }
    }
}
