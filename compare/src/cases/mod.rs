//! Makes cases of a batch, from a seed: the same seed gives the same cases.

mod body_cases;
mod chunk_cases;
mod chunks;
pub mod event_cases;
pub mod event_streams;
pub mod exchanges;
pub mod file_cases;
mod kept_cases;
pub mod lists;
pub mod merge_cases;
pub mod nest_cases;
pub mod random;
pub mod real;
mod short;
mod stored;
mod stored_bodies;
mod stored_nests;
mod stored_tokens;
mod streams;
pub mod texts;
mod token_cases;
mod types;

pub use crate::oracle::batch::Case;
use random::Random;
pub use stored::damaged_pair;

/// The first `count` cases of a kind, if there is such a kind. The stored ones, those of the type
/// codes, texts, short streams, short lists, short nests and short events are the same for every seed; of `three` the seed is the first byte; the others
/// have no end.
pub fn make(kind: &str, seed: u64, count: usize) -> Option<Box<dyn Iterator<Item = Case>>> {
    let of_one_input = match kind {
        "stored" => return Some(Box::new(stored::cases().into_iter().take(count))),
        "short" => return Some(Box::new(short::cases().take(count))),
        "three" => return Some(Box::new(short::of_three(seed as u8).take(count))),
        "types" => return Some(Box::new(types::cases().take(count))),
        "texts" => return Some(Box::new(texts::cases(texts::MOST).take(count))),
        "events" => return Some(Box::new(event_cases::short_events().take(count))),
        "nests" => return Some(Box::new(nest_cases::short_nests().take(count))),
        "lists" => return Some(Box::new(body_cases::short_lists().take(count))),
        "chunk" => chunk_cases::of_one_chunk,
        "pair" => chunk_cases::of_one_pair,
        "file" => file_cases::of_one_file,
        "token" => token_cases::of_one_stream,
        "body" => body_cases::of_one_body,
        "kept" => kept_cases::of_one_sheet,
        "nest" => nest_cases::of_one_nest,
        "event" => event_cases::of_one_event,
        "merge" => merge_cases::of_two_lists,
        _ => return None,
    };
    let mut random = Random::new(seed);
    let cases = std::iter::repeat_with(move || of_one_input(&mut random)).flatten();
    Some(Box::new(cases.take(count)))
}
