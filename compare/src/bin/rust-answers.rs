//! Reads a batch of cases on standard input and writes the printed Rust's answers.
//!
//! With `--held`, document 01's answers by the second reading, each with the rows of the list of
//! differences that its case meets, and whether these explain where the Rust's answer is another.

use compare::oracle::batch;
use std::io::{self, BufReader, BufWriter};
use std::process::ExitCode;

fn main() -> io::Result<ExitCode> {
    let arguments: Vec<String> = std::env::args().skip(1).collect();
    let held = match arguments.iter().map(String::as_str).collect::<Vec<_>>()[..] {
        [] => false,
        ["--held"] => true,
        _ => {
            eprintln!("usage: rust-answers [--held] <batch >answers");
            return Ok(ExitCode::from(2));
        }
    };
    let mut input = BufReader::with_capacity(1 << 20, io::stdin().lock());
    let mut output = BufWriter::with_capacity(1 << 20, io::stdout().lock());
    if held {
        batch::run_held(&mut input, &mut output)?;
    } else {
        batch::run(&mut input, &mut output)?;
    }
    Ok(ExitCode::SUCCESS)
}
