//! Document 02's request P14 on two walks: "Take two chunks with equal headers, whose walks both meet an unreadable record at the same
//! offset and resume at the same resync offset, and whose bytes from that offset on are equal. From there all live records, with
//! their payloads, and all refusals are equal, in the same order. Carved records from the skipped range are excepted".
//!
//! The answers are lines of mode W, whoever gave them. What P14 asks of the chunks before it says anything is looked up in the chunks
//! themselves, by the second reading.

use crate::document::chunks::Chunk;

/// A chunk, and the lines of its walk.
pub struct Walked<'a> {
    pub chunk: &'a [u8],
    pub lines: Vec<&'a str>,
}

/// What is asked of the answers. The last two ask too much: each is false of some pair.
#[derive(Clone, Copy, PartialEq, Eq)]
pub enum Form {
    /// After the refusal, and without the records carved from the skipped range.
    Said,
    /// The refusal itself is counted in.
    WithRefusal,
    /// The records carved from the skipped range are counted in.
    WithCarved,
}

/// How often something was the case.
#[derive(Default, Debug)]
pub struct Counts {
    /// Damages of which P14 says something.
    pub held: usize,
    /// Those refused with two numbers.
    pub numbers: usize,
    /// Those with other records carved from the skipped range.
    pub carved: usize,
    /// Those after which another refusal or carved record comes.
    pub later: usize,
}

/// The numbers of a line after its word, if it begins with one of these words.
fn numbers(line: &str, words: &[&str]) -> Option<Vec<u64>> {
    let (word, rest) = line.split_once(' ')?;
    let number = |text: &str| text.parse().ok();
    words
        .contains(&word)
        .then(|| rest.split(' ').map(number).collect::<Option<_>>())?
}

/// The place of a refusal.
fn refused_at(line: &str) -> Option<u64> {
    numbers(line, &["refused"])?.get(1).copied()
}

impl Walked<'_> {
    /// Where the line of the refusal at `p` stands.
    fn refusal(&self, p: u64) -> Option<usize> {
        self.lines
            .iter()
            .position(|line| refused_at(line) == Some(p))
    }

    /// The resync offset after `p`.
    fn resync(&self, p: u64) -> Option<u64> {
        Chunk::new(self.chunk).ok()?.resync(p)
    }

    /// The lines after the refusal, and how many of them come first that are records carved from `p` to `q`.
    fn after(&self, p: u64, q: u64) -> Option<(&[&str], usize)> {
        let after = self.lines.get(self.refusal(p)? + 1..)?;
        let within = |line: &&&str| {
            numbers(line, &["carved"]).is_some_and(|n| p <= n[0] && n[0] + n[1] <= q)
        };
        Some((after, after.iter().take_while(within).count()))
    }

    /// The bytes of the payload that a line gives.
    fn payload(&self, line: &str) -> Option<&[u8]> {
        let numbers = numbers(line, &["live", "carved"])?;
        let start = numbers[4] as usize;
        self.chunk.get(start..start + numbers[5] as usize)
    }
}

/// The offset from which on both chunks are the same, if P14 speaks of the damage at `p`: equal header fields, and the same resync
/// offset with equal bytes from there on.
fn resumes(one: &Walked<'_>, other: &Walked<'_>, p: u64) -> Option<u64> {
    let fields = |walked: &Walked<'_>| Some(Chunk::new(walked.chunk).ok()?.fields());
    let q = one.resync(p)?;
    let same = fields(one)? == fields(other)?
        && other.resync(p) == Some(q)
        && one.chunk.get(q as usize..)? == other.chunk.get(q as usize..)?;
    same.then_some(q)
}

/// Holds each damage of which P14 says something to it, and counts. The first other one is an error.
pub fn hold(
    one: &Walked<'_>,
    other: &Walked<'_>,
    form: Form,
    counts: &mut Counts,
) -> Result<(), String> {
    for p in one.lines.iter().filter_map(|line| refused_at(line)) {
        let Some(q) = other.refusal(p).and_then(|_| resumes(one, other, p)) else {
            continue;
        };
        let (Some((ones, carved)), Some((others, also))) = (one.after(p, q), other.after(p, q))
        else {
            return Err(format!("no answer comes after the refusal at {p}"));
        };
        let at = |walked: &Walked<'_>| walked.refusal(p).map(|at| walked.lines[at].to_owned());
        let (first, second) = match form {
            Form::WithCarved => (ones, others),
            Form::Said | Form::WithRefusal => (&ones[carved..], &others[also..]),
        };
        if form == Form::WithRefusal && at(one) != at(other) {
            return Err(format!("the refusals at {p} differ"));
        }
        if first != second {
            return Err(format!(
                "after the refusal at {p}, from {q} on, the answers differ"
            ));
        }
        if first
            .iter()
            .any(|line| one.payload(line) != other.payload(line))
        {
            return Err(format!(
                "after the refusal at {p}, from {q} on, payloads differ"
            ));
        }
        counts.held += 1;
        counts.numbers += usize::from(at(one) != at(other));
        counts.carved += usize::from(ones[..carved] != others[..also]);
        let later = |line: &&str| line.starts_with("carved ") || line.starts_with("refused ");
        counts.later += usize::from(first.iter().any(later));
    }
    Ok(())
}

/// With recovery and without it a chunk has the same live records and refusals, in the same order, and without it no carved ones.
pub fn only_adds(with: &Walked<'_>, without: &Walked<'_>) -> Result<(), String> {
    let mut kept = with
        .lines
        .iter()
        .filter(|line| !line.starts_with("carved "));
    if with.chunk == without.chunk
        && without.lines.iter().all(|line| kept.next() == Some(line))
        && kept.next().is_none()
    {
        Ok(())
    } else {
        Err("without recovery the walk does not answer what it does with it, less the carved records".to_owned())
    }
}
