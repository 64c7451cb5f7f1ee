//! The benchmark: port and printed Rust side by side in one process, on the same inputs.
//!
//! ```text
//! speed                        the table
//! speed --only TEXT            the table of the cases that have this in their name
//! speed --smoke                every case on each side: same answers, no times
//! speed --run SIDE CASE CALLS  so many calls of a side (rust, stand-in, port), for a profiler
//! ```

#[cfg(not(feature = "vector"))]
extern crate compare as compare_vector;

mod cases;
mod clock;
mod inputs;
mod port;

use cases::{Case, Input, Kind, Side};
use clock::Timed;
use compare::timed::Call;
use compare_vector::timed::{self, CRC, MEMCHR};
use std::process::ExitCode;
use std::time::Duration;

/// How often all cases are gone through, and how long a case is timed each time.
const PASSES: usize = 3;
const LONG: Duration = Duration::from_millis(600);

fn main() -> ExitCode {
    let arguments: Vec<String> = std::env::args().skip(1).collect();
    let arguments: Vec<&str> = arguments.iter().map(String::as_str).collect();
    let mut cases = cases::all();
    let done = match arguments[..] {
        [] => check(&cases) && table(&cases),
        ["--only", text] => {
            cases.retain(|case| case.name.contains(text));
            check(&cases) && table(&cases)
        }
        ["--smoke"] => check(&cases),
        ["--run", side, case, calls] => run(&cases, side, case, calls),
        _ => {
            eprintln!("usage: speed [--only TEXT | --smoke | --run SIDE CASE CALLS]");
            return ExitCode::from(2);
        }
    };
    if done {
        ExitCode::SUCCESS
    } else {
        ExitCode::FAILURE
    }
}

/// With what the Rust searches and counts.
fn say_sources() {
    for (does, source, name) in [
        ("searches", MEMCHR, "memchr is not at hand (MEMCHR_SRC)"),
        ("counts", CRC, "crc32fast is not at hand (CRC_SRC)"),
    ] {
        if source.is_empty() {
            println!("{name}: the Rust {does} with the plain stand-in");
        } else {
            println!("the Rust {does} with {source}");
        }
    }
}

/// Whether both sides answer the same in every case.
fn check(cases: &[Case]) -> bool {
    if cfg!(feature = "vector") {
        say_sources();
    }
    let mut equal = 0;
    for case in cases {
        match case.check() {
            Ok((answer, sum)) => {
                println!("{:<24} answer {answer:<16x} sum {sum:016x}", case.name);
                equal += 1;
            }
            Err(why) => println!("{:<24} FAILED: {why}", case.name),
        }
    }
    println!("{equal} of {} cases are equal in both", cases.len());
    equal == cases.len()
}

/// The passes' best times of a side.
#[derive(Clone, Copy)]
struct Times {
    best: f64,
    worst: f64,
}

impl Times {
    const NONE: Times = Times {
        best: f64::INFINITY,
        worst: 0.0,
    };

    fn take(&mut self, time: f64) {
        self.best = self.best.min(time);
        self.worst = self.worst.max(time);
    }

    /// How far apart they are, in percent.
    fn spread(self) -> f64 {
        (self.worst / self.best - 1.0) * 100.0
    }
}

/// Times all cases and prints the table.
fn table(cases: &[Case]) -> bool {
    let mut all = vec![[Times::NONE; Side::ALL.len()]; cases.len()];
    for _ in 0..PASSES {
        for (case, times) in cases.iter().zip(&mut all) {
            let sides: Vec<Side> = case.sides().collect();
            let calls = sides
                .iter()
                .map(|side| Timed::new(case.call(*side), case.room()));
            let mut calls: Vec<Timed<'_>> = calls.collect();
            clock::rounds(&mut calls, LONG);
            for (side, timed) in sides.iter().zip(&calls) {
                times[*side as usize].take(timed.best);
            }
        }
    }

    println!();
    println!("| case | Rust ns | port ns | ratio | goal | spread | stand-in ns |");
    println!("|---|--:|--:|--:|--:|--:|--:|");
    for (case, [rust, standin, port]) in cases.iter().zip(&all) {
        let ratio = port.best / rust.best;
        let spread = rust.spread().max(port.spread());
        let standin = match standin.best {
            f64::INFINITY => "-".to_owned(),
            best => format!("{best:.0}"),
        };
        let goal = case
            .goal
            .map_or("-".to_owned(), |goal| format!("{goal:.1}"));
        println!(
            "| {} | {:.0} | {:.0} | {ratio:.2} | {goal} | {spread:.0} % | {standin} |",
            case.name, rust.best, port.best
        );
    }
    let chunk = inputs::records(512, true);
    let mut open = [Timed::new(timed::open(&chunk), 0)];
    clock::rounds(&mut open, LONG);
    println!();
    println!(
        "Not in the Rust's figures: to open a chunk, {:.0} ns.",
        open[0].best
    );
    plain_passes(cases);
    true
}

/// How long it takes to look at every byte of a file, and to do nothing else: a sum of its words.
fn plain_passes(cases: &[Case]) {
    println!();
    println!("| a sum over the bytes of | ns | GB a second |");
    println!("|---|--:|--:|");
    for case in cases {
        let (Kind::File { recovery: false }, Input::File(file)) = (case.kind, &case.input) else {
            continue;
        };
        let call: Call<'_> = Box::new(|_| {
            let words = file.as_chunks().0.iter().copied();
            words.map(u64::from_le_bytes).fold(0, u64::wrapping_add)
        });
        let mut pass = [Timed::new(call, 0)];
        clock::rounds(&mut pass, LONG);
        let speed = file.len() as f64 / pass[0].best;
        println!("| {} | {:.0} | {speed:.1} |", case.name, pass[0].best);
    }
}

/// Calls one side of a case.
fn run(cases: &[Case], side: &str, name: &str, calls: &str) -> bool {
    let case = cases.iter().find(|case| case.name == name);
    let side = case.and_then(|case| case.sides().find(|known| known.name() == side));
    let (Some(case), Some(side), Ok(calls)) = (case, side, calls.parse::<u64>()) else {
        eprintln!("no such case, side or number; the cases are:");
        cases.iter().for_each(|case| eprintln!("{}", case.name));
        return false;
    };
    let mut call = case.call(side);
    let mut words = vec![1; case.room()];
    for _ in 0..calls {
        std::hint::black_box(call(&mut words));
    }
    true
}
