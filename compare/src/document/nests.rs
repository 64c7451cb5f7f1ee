//! 'Bodies inside values' (document 02, P9), sentence by sentence.

use super::reader::{Read, Reader};
use super::streams::{Token, next_token, read_token};
use super::values::Value;
use crate::oracle::CHUNK_SIZE;
use crate::oracle::calls::Joined;
use crate::oracle::nests::{BODY, Judge, LEVELS, Numbered};
use crate::oracle::tokens::Asked;

/// What the call makes of a stream, each body judged by `judge`.
pub fn read(data: &[u8], asked: Asked, judge: Judge) -> Read<Joined> {
    if data.len() > CHUNK_SIZE {
        return Reader::refuse(1, 0);
    }
    let inline_names = asked.inline_names;
    let mut nest = Nest {
        data,
        inline_names,
        numbered: Numbered::new(judge),
    };
    // "So does the outer body where no value in it is refused, judged last."
    let outer = nest.walk(asked, 0)?;
    nest.numbered.judge(&outer.own)?;
    Ok(nest.numbered.joined())
}

/// The call on its way through a stream.
struct Nest<'a> {
    data: &'a [u8],
    inline_names: bool,
    numbered: Numbered,
}

/// A walk: the numbers of its own tokens, and where it ended.
struct Walked {
    own: Vec<usize>,
    end: usize,
}

impl Nest<'_> {
    /// "Inner tokens right after their instance, numbered through": a token has its number before its values are looked at.
    fn walk(&mut self, asked: Asked, level: u8) -> Read<Walked> {
        let mut reader = Reader::new(self.data, asked.start)?;
        let mut own = Vec::new();
        while let Some((place, byte)) = next_token(&mut reader, asked)? {
            let number = self.numbered.begin();
            own.push(number);
            let each_value = &mut |value: &Value| self.value(value, level + 1);
            let (kind, held) = read_token(byte, &mut reader, asked, each_value)?;
            let row = Token::new(kind, place, reader.at, held).row();
            self.numbered.put(number, row, level);
        }
        Ok(Walked {
            own,
            end: reader.at,
        })
    }

    /// "A new call walks such a value as a window of the same stream, without dependencies and with the outer stream's kind of
    /// names." It has been read.
    fn value(&mut self, value: &Value, level: u8) -> Read<()> {
        if value.code != BODY {
            return Ok(());
        }
        let (start, length) = (value.start, value.size.map_or(0, usize::from));
        // "Refusals, after the value's own read: 21, a ninth level .. at the value's start".
        if level > LEVELS {
            return Reader::refuse(21, start);
        }
        let window = Asked {
            start,
            length,
            dependencies: false,
            inline_names: self.inline_names,
        };
        let walked = self.walk(window, level)?;
        // "29, an inner walk ending past its value (before its grammar)".
        if walked.end > start + length {
            return Reader::refuse(29, start);
        }
        // "Each inner body obeys demand 3 on its own, judged when its value has been read."
        self.numbered.judge(&walked.own)
    }
}
