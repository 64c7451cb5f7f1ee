//! The clock: the best time of each of a few calls, by rounds in which each has its turn.

use compare::timed::Call;
use std::hint::black_box;
use std::time::{Duration, Instant};

/// A turn lasts at least this long, so that the clock's own time does not count.
const TURN: Duration = Duration::from_micros(50);

/// A call with the words that are lent to it.
pub struct Timed<'a> {
    call: Call<'a>,
    words: Vec<u64>,
    /// Calls in a turn.
    calls: u32,
    /// The best turn so far, in nanoseconds a call.
    pub best: f64,
}

impl<'a> Timed<'a> {
    pub fn new(call: Call<'a>, room: usize) -> Self {
        let mut timed = Timed {
            call,
            // Written once, so that every page is there.
            words: vec![1; room],
            calls: 1,
            best: f64::INFINITY,
        };
        while timed.turn(timed.calls) < TURN {
            timed.calls *= 2;
        }
        timed
    }

    /// So many calls, and how long they took.
    pub fn turn(&mut self, calls: u32) -> Duration {
        let start = Instant::now();
        for _ in 0..calls {
            black_box((self.call)(black_box(&mut self.words)));
        }
        start.elapsed()
    }

    fn round(&mut self) {
        let time = self.turn(self.calls).as_nanos() as f64;
        self.best = self.best.min(time / f64::from(self.calls));
    }
}

/// Rounds for so long: in each, every call has its turn, and the first one is another each time.
pub fn rounds(timed: &mut [Timed<'_>], long: Duration) {
    let start = Instant::now();
    let mut first = 0;
    while start.elapsed() < long {
        timed.rotate_left(first);
        timed.iter_mut().for_each(Timed::round);
        timed.rotate_right(first);
        first = (first + 1) % timed.len();
    }
}
