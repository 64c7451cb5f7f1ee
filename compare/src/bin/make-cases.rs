//! Writes a batch of cases to standard output, made from a seed or from a log file.
//!
//! Of a log file it also says on standard error how many of each thing there are. With `--only`, the case of that number alone,
//! counted from 1: to look at a case that failed.

use compare::cases::{self, Case, real};
use std::fs;
use std::io::{self, BufWriter, Write};
use std::process::ExitCode;

fn main() -> io::Result<ExitCode> {
    let arguments: Vec<String> = std::env::args().skip(1).collect();
    let Some((front, only)) = read_only(&arguments) else {
        return Ok(usage());
    };
    let mut output = BufWriter::with_capacity(1 << 20, io::stdout().lock());
    let mut number = 0;
    let put = |case: Case| {
        number += 1;
        if only.is_none_or(|only| only == number) {
            output.write_all(&case.bytes())?;
        }
        Ok::<_, io::Error>(())
    };
    match front {
        [kind, file] if kind == "real" => {
            let counts = real::each(&fs::read(file)?, put)?;
            eprintln!("cases {number} {counts}");
        }
        [seed, count, kind] => {
            let (Ok(seed), Ok(count)) = (seed.parse(), count.parse()) else {
                return Ok(usage());
            };
            let Some(mut cases) = cases::make(kind, seed, count) else {
                return Ok(usage());
            };
            cases.try_for_each(put)?;
        }
        _ => return Ok(usage()),
    }
    output.flush()?;
    Ok(ExitCode::SUCCESS)
}

/// The arguments before `--only`, and the one case that is wanted.
fn read_only(arguments: &[String]) -> Option<(&[String], Option<usize>)> {
    match arguments {
        [front @ .., flag, number] if flag == "--only" => Some((front, Some(number.parse().ok()?))),
        all => Some((all, None)),
    }
}

fn usage() -> ExitCode {
    let kinds = "chunk|pair|file|token|body|kept|nest|event|merge|types|texts|short|three|lists|nests|events|stored";
    eprintln!("usage: make-cases SEED COUNT {kinds} [--only NUMBER] >batch");
    eprintln!("       make-cases real FILE [--only NUMBER] >batch");
    ExitCode::from(2)
}
