//! Holds answers to made pairs of chunks to document 02's request P14.
//!
//! The pairs are made again from their seed. A pair is four cases: both chunks with recovery, and both without. The first pair that is not
//! as P14 says is printed, and ends the run.

use compare::cases::{self, Case};
use compare::pairs::{self, Counts, Form, Walked};
use std::fs::File;
use std::io::{self, BufRead, BufReader};
use std::process::ExitCode;

/// The lines of the next answer, without its dot.
fn next_answer(input: &mut impl BufRead) -> io::Result<String> {
    let mut text = String::new();
    loop {
        let start = text.len();
        if input.read_line(&mut text)? == 0 {
            return Err(io::ErrorKind::UnexpectedEof.into());
        }
        if &text[start..] == ".\n" {
            text.truncate(start);
            return Ok(text);
        }
    }
}

fn hold_pair(made: &[Case; 4], texts: &[String; 4], counts: &mut Counts) -> Result<(), String> {
    let walked = |i: usize| Walked {
        chunk: &made[i].data,
        lines: texts[i].lines().collect(),
    };
    let [one, other, one_off, other_off] = [0, 1, 2, 3].map(walked);
    pairs::hold(&one, &other, Form::Said, counts)?;
    pairs::hold(&one_off, &other_off, Form::Said, counts)?;
    pairs::only_adds(&one, &one_off)?;
    pairs::only_adds(&other, &other_off)
}

fn main() -> io::Result<ExitCode> {
    let arguments: Vec<String> = std::env::args().skip(1).collect();
    let [seed, count, answers] = &arguments[..] else {
        return Ok(usage());
    };
    let (Ok(seed), Ok(count)) = (seed.parse(), count.parse::<usize>()) else {
        return Ok(usage());
    };
    let mut made = cases::make("pair", seed, 4 * count).expect("a kind");
    let mut answers = BufReader::with_capacity(1 << 20, File::open(answers)?);
    let mut counts = Counts::default();
    for number in 1..=count {
        let case = [(); 4].map(|()| made.next().expect("as many as asked for"));
        let mut texts = [const { String::new() }; 4];
        for text in &mut texts {
            *text = next_answer(&mut answers)?;
        }
        if let Err(why) = hold_pair(&case, &texts, &mut counts) {
            println!("failed {}", 4 * number - 3);
            println!("pair {number}: {why}");
            return Ok(ExitCode::FAILURE);
        }
    }
    let Counts {
        held,
        numbers,
        carved,
        later,
    } = counts;
    println!("pairs {count} held {held} numbers {numbers} carved {carved} later {later}");
    Ok(ExitCode::SUCCESS)
}

fn usage() -> ExitCode {
    eprintln!("usage: compare-pairs SEED COUNT ANSWERS");
    ExitCode::from(2)
}
