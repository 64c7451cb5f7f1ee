//! Mode N: sheet and table of a stream with the bodies inside its values (document 02, P9).
//!
//! The tokens are those of the printed walk over the stream and over each value of type 21, one walk a window. What is read before a
//! refusal in an instance's values is read by the printed reader of values. How tokens are numbered and judged is written once.

use crate::oracle::calls::Joined;
use crate::oracle::differences::{Met, of_token};
use crate::oracle::kinds::ANNOUNCING;
use crate::oracle::owners::{self, MOST_LEVELS};
use crate::oracle::refusal::Refusal;
use crate::oracle::tokens::{self, Asked, Row, Windowed};

/// The type whose values hold a body.
pub(crate) const BODY: u8 = 0x21;

/// "A body within a body may go eight levels down."
pub(crate) const LEVELS: u8 = 8;

/// The owner table of a list of kinds, or its refusal: demand 3.
pub type Judge = fn(&[u8]) -> Result<Vec<u32>, Refusal>;

/// Demand 3, by the machine of mode O.
pub fn by_machine(kinds: &[u8]) -> Result<Vec<u32>, Refusal> {
    owners::owners(kinds, MOST_LEVELS)
}

/// Tokens numbered through, each with its word in the owner table once its body has been judged.
pub(crate) struct Numbered {
    judge: Judge,
    rows: Vec<Option<Row>>,
    owners: Vec<u32>,
}

impl Numbered {
    pub(crate) fn new(judge: Judge) -> Self {
        Numbered {
            judge,
            rows: Vec::new(),
            owners: Vec::new(),
        }
    }

    /// The number of a token that is begun.
    pub(crate) fn begin(&mut self) -> usize {
        self.rows.push(None);
        self.owners.push(0);
        self.rows.len() - 1
    }

    /// What has been read of the token of this number.
    pub(crate) fn put(&mut self, number: usize, row: Row, level: u8) {
        self.rows[number] = Some(Row { level, ..row });
    }

    /// "Each inner body obeys demand 3 on its own": it is the list of its own tokens, here by their numbers. "Token numbers and counts in
    /// their places being those numbered through."
    pub(crate) fn judge(&mut self, own: &[usize]) -> Result<(), Refusal> {
        let kinds: Vec<u8> = own.iter().map(|&number| self.kind(number)).collect();
        let table = (self.judge)(&kinds).map_err(|refusal| match refusal.number {
            15 => Refusal::new(15, self.rows.len() as u64),
            _ => Refusal::new(refusal.number, own[refusal.place as usize] as u64),
        })?;
        for (&number, word) in own.iter().zip(table) {
            let owner = word.checked_sub(1).map(|owner| own[owner as usize] as u32);
            self.owners[number] = owner.map_or(0, |owner| owner + 1);
        }
        Ok(())
    }

    fn row(&self, number: usize) -> &Row {
        self.rows[number].as_ref().expect("a token that was read")
    }

    fn kind(&self, number: usize) -> u8 {
        let row = self.row(number);
        if row.announced { ANNOUNCING } else { row.kind }
    }

    /// Sheet and table: "numbered through".
    pub(crate) fn joined(self) -> Joined {
        let numbers = 0..self.rows.len();
        let sheet = numbers.flat_map(|number| self.row(number).words());
        Joined {
            sheet: sheet.collect(),
            table: self.owners,
        }
    }
}

/// What the call makes of the printed walk's tokens, and what it meets.
pub(super) fn read(data: &[u8], asked: Asked) -> (Result<Joined, Refusal>, Met) {
    let mut nest = Nest {
        data,
        inline_names: asked.inline_names,
        numbered: Numbered::new(by_machine),
        met: Met::new(),
    };
    let read = nest.outer(asked);
    let met = nest.met;
    (read.map(|()| nest.numbered.joined()), met)
}

/// The windows of a stream, walk by walk.
struct Nest<'a> {
    data: &'a [u8],
    inline_names: bool,
    numbered: Numbered,
    met: Met,
}

impl Nest<'_> {
    fn outer(&mut self, asked: Asked) -> Result<(), Refusal> {
        let (own, _) = self.tokens(asked, 0)?;
        self.numbered.judge(&own)
    }

    /// The numbers of a window's own tokens and where its walk ended, when the bodies in its values have been read and judged. A token that is refused
    /// comes last: what it held before that is met before it.
    fn tokens(&mut self, asked: Asked, level: u8) -> Result<(Vec<usize>, usize), Refusal> {
        let mut own = Vec::new();
        let walked = tokens::windowed(self.data, asked);
        for Windowed {
            place,
            row,
            exact,
            bodies,
        } in walked.tokens
        {
            of_token(self.data, place, exact, &mut self.met);
            let number = self.numbered.begin();
            if let Some(row) = row {
                own.push(number);
                self.numbered.put(number, row, level);
            }
            for (start, length) in bodies {
                self.body(start, length, level + 1)?;
            }
        }
        walked.end.map(|end| (own, end))
    }

    /// A value of type 21 that was read: the level, its window, where the window's walk ended, its grammar.
    fn body(&mut self, start: usize, length: usize, level: u8) -> Result<(), Refusal> {
        let refused = |number| Err(Refusal::new(number, start as u64));
        if level == LEVELS + 1 {
            return refused(21);
        }
        let asked = Asked {
            start,
            length,
            dependencies: false,
            inline_names: self.inline_names,
        };
        let (own, end) = self.tokens(asked, level)?;
        if end > start + length {
            return refused(29);
        }
        self.numbered.judge(&own)
    }
}
