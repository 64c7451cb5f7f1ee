//! Holds the port's answers to those of document 01's second reading, case by case.
//!
//! These come from `rust-answers --held`, which has held the Rust to them. A case is as it should be
//! if the port's answer is the document's, and the Rust's is too or a row of the list of differences
//! explains where it is not. The first other case is printed, and ends the run.

use std::collections::BTreeMap;
use std::fs::File;
use std::io::{self, BufRead, BufReader};
use std::process::ExitCode;

/// The answer to one case, or what stands after the last whole one.
#[derive(Default)]
struct Answer {
    lines: Vec<u8>,
    /// The rows that the case meets, and those that explain another answer of the Rust.
    met: Vec<u8>,
    differed: Vec<u8>,
    /// Whether the Rust's answer is another one and no row explains it.
    apart: bool,
    /// Whether the dot that ends an answer was there.
    ended: bool,
}

impl Answer {
    /// Reads the next answer into this one.
    fn next(&mut self, input: &mut impl BufRead) -> io::Result<()> {
        let Answer {
            lines,
            met,
            differed,
            ..
        } = self;
        lines.clear();
        met.clear();
        differed.clear();
        (self.apart, self.ended) = (false, false);
        loop {
            let start = self.lines.len();
            if input.read_until(b'\n', &mut self.lines)? == 0 {
                return Ok(());
            }
            let line = &self.lines[start..];
            let row = |word: &[u8]| -> Option<u8> {
                let number = line.strip_prefix(word)?;
                str::from_utf8(number).ok()?.trim_end().parse().ok()
            };
            match (row(b"meets "), row(b"differs ")) {
                (Some(row), _) => self.met.push(row),
                (_, Some(row)) => self.differed.push(row),
                _ if line == b".\n" => self.ended = true,
                _ => {
                    self.apart |= line == b"apart\n";
                    continue;
                }
            }
            self.lines.truncate(start);
            if self.ended {
                return Ok(());
            }
        }
    }
}

/// How often a row was met, and how often the two answers differed then.
#[derive(Default)]
struct Count {
    met: usize,
    differed: usize,
}

fn main() -> io::Result<ExitCode> {
    let paths: Vec<String> = std::env::args().skip(1).collect();
    let [expected, port] = &paths[..] else {
        eprintln!("usage: compare-answers EXPECTED PORT");
        return Ok(ExitCode::from(2));
    };
    let open = |path| Ok::<_, io::Error>(BufReader::with_capacity(1 << 20, File::open(path)?));
    let (mut expected, mut port) = (open(expected)?, open(port)?);
    let (mut document, mut ours) = (Answer::default(), Answer::default());
    let mut rows: BTreeMap<u8, Count> = BTreeMap::new();
    for number in 1.. {
        document.next(&mut expected)?;
        ours.next(&mut port)?;
        if document.apart || ours.lines != document.lines || ours.ended != document.ended {
            println!("failed {number}");
            show("document 01", &document, &ours);
            show("the port", &ours, &document);
            return Ok(ExitCode::FAILURE);
        }
        for row in &document.met {
            rows.entry(*row).or_default().met += 1;
        }
        for row in &document.differed {
            rows.entry(*row).or_default().differed += 1;
        }
        if !document.ended {
            println!("cases {}", number - 1);
            break;
        }
    }
    for (row, Count { met, differed }) in rows {
        println!("row {row} {met} {differed}");
    }
    Ok(ExitCode::SUCCESS)
}

/// An answer, from the first line on that the other one does not have, or its last line. Where the Rust's is apart, its lines
/// follow those of the document.
fn show(whose: &str, answer: &Answer, other: &Answer) {
    const MOST: usize = 12;
    let text = String::from_utf8_lossy(&answer.lines);
    let other = String::from_utf8_lossy(&other.lines);
    let lines: Vec<&str> = text.lines().collect();
    let pairs = lines.iter().zip(other.lines());
    let same = pairs.take_while(|(a, b)| **a == *b).count();
    let same = same.min(lines.len().saturating_sub(1));
    println!("{whose}, {} lines, from line {}:", lines.len(), same + 1);
    for line in lines.iter().skip(same).take(MOST) {
        println!("  {line}");
    }
    if !answer.ended {
        println!("  (no dot)");
    }
}
