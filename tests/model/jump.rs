//! The index of a file, and asking for a record by an index.
//!
//! A walk goes by what is left of the file: each step takes a record of the grammar off its front.
//! Which of the faults 3 to 8 it meets makes no difference to the answer, so a step gives nothing
//! wherever what the grammar's record takes is not followed by a line break or the file's end.

use super::dialect::{leniency, Dialect};
use super::reader::check;
use super::{refusal, BLANK, CR, FILE_LIMIT, LF, QUOTE};

/// An index has an entry for every so many records.
pub const STEP: usize = 64;

#[derive(Clone, Copy, Debug, Default, PartialEq, Eq)]
pub struct Indexed {
    pub refusal: u32,
    pub line: u32,
    pub column: u32,
    pub byte: u32,
    pub entries: u32,
}

impl Indexed {
    pub fn numbers(&self) -> [u32; 5] {
        let Indexed {
            refusal,
            line,
            column,
            byte,
            entries,
        } = *self;
        [refusal, line, column, byte, entries]
    }
}

/// Where a record lies; the place that goes with it is always 0, 0, 0.
#[derive(Clone, Copy, Debug, Default, PartialEq, Eq)]
pub struct Jumped {
    pub refusal: u32,
    pub start: u32,
    pub length: u32,
}

impl Jumped {
    pub fn refused(number: u32) -> Jumped {
        Jumped {
            refusal: number,
            ..Jumped::default()
        }
    }

    pub fn part<'a>(&self, file: &'a [u8]) -> &'a [u8] {
        &file[self.start as usize..][..self.length as usize]
    }

    pub fn numbers(&self) -> [u32; 6] {
        [self.refusal, 0, 0, 0, self.start, self.length]
    }
}

/// The index of an accepted file, or what building it answers in any room.
pub fn index(file: &[u8], delimiter: u8, leniencies: u8) -> Result<Vec<u32>, Indexed> {
    let answer = check(file, delimiter, leniencies).0;
    if answer.refusal != refusal::ACCEPTED {
        return Err(Indexed {
            refusal: answer.refusal,
            line: answer.line,
            column: answer.column,
            byte: answer.byte,
            entries: 0,
        });
    }
    let dialect = Dialect::of(delimiter, leniencies).expect("the dialect of an accepted file");
    Ok(offsets(file, dialect))
}

/// What building an index answers with room for so many entries. It is written exactly if this
/// accepts.
pub fn fit(index: &Result<Vec<u32>, Indexed>, room: usize) -> Indexed {
    match index {
        Err(answer) => *answer,
        Ok(entries) if room < entries.len() => Indexed {
            refusal: refusal::NO_ROOM_INDEX,
            ..Indexed::default()
        },
        Ok(entries) => Indexed {
            entries: entries.len() as u32,
            ..Indexed::default()
        },
    }
}

/// Where records 0, 64, 128 and so on begin, as far as a walk from the beginning comes.
pub fn offsets(file: &[u8], dialect: Dialect) -> Vec<u32> {
    let mut offsets = Vec::new();
    let mut left = file;
    let mut number = 0;
    while !left.is_empty() {
        if number % STEP == 0 {
            offsets.push((file.len() - left.len()) as u32);
        }
        number += 1;
        left = match (Walk { dialect }).step(left) {
            Some((_, behind)) => behind,
            None => break,
        };
    }
    offsets
}

/// The record of a number, by any index.
pub fn jump(file: &[u8], delimiter: u8, leniencies: u8, index: &[u32], record: u64) -> Jumped {
    let dialect = match Dialect::of(delimiter, leniencies) {
        None => return Jumped::refused(refusal::BAD_REQUEST),
        Some(dialect) => dialect,
    };
    if file.len() > FILE_LIMIT {
        return Jumped::refused(refusal::FILE_TOO_LONG);
    }
    let (needed, passed) = (record / STEP as u64, record % STEP as u64);
    if needed >= index.len() as u64 {
        return Jumped::refused(refusal::NO_SUCH_RECORD);
    }
    let entry = index[needed as usize] as usize;
    if entry > file.len() || (entry > 0 && file[entry - 1] != LF) {
        return Jumped::refused(refusal::WRONG_INDEX);
    }
    Walk { dialect }.record(file, entry, passed)
}

#[derive(Clone, Copy)]
struct Walk {
    dialect: Dialect,
}

impl Walk {
    /// The record behind so many others, from an offset on.
    fn record(self, file: &[u8], from: usize, passed: u64) -> Jumped {
        let mut left = &file[from..];
        let mut passed = passed;
        while !left.is_empty() {
            match self.step(left) {
                None => return Jumped::refused(refusal::WRONG_INDEX),
                Some((_, behind)) if passed > 0 => left = behind,
                Some((record, _)) => {
                    return Jumped {
                        refusal: refusal::ACCEPTED,
                        start: (file.len() - left.len()) as u32,
                        length: record.len() as u32,
                    }
                }
            }
            passed -= 1;
        }
        Jumped::refused(refusal::NO_SUCH_RECORD)
    }

    /// The record at the front, without its line break, and what is left behind that; nothing if a
    /// fault comes first.
    fn step(self, left: &[u8]) -> Option<(&[u8], &[u8])> {
        let mut behind = self.field(left)?;
        while let [byte, more @ ..] = behind {
            if !self.dialect.is_delimiter(*byte) {
                break;
            }
            behind = self.field(more)?;
        }
        let record = &left[..left.len() - behind.len()];
        match behind {
            [] => Some((record, behind)),
            [CR, LF, next @ ..] => Some((record, next)),
            [LF, next @ ..] if self.dialect.allows(leniency::LF) => Some((record, next)),
            _ => None,
        }
    }

    /// What is left behind the field at the front, which may be empty.
    fn field(self, left: &[u8]) -> Option<&[u8]> {
        match self.behind_blanks(left) {
            [QUOTE, inside @ ..] => Some(self.behind_blanks(self.behind_quoted(inside)?)),
            _ => Some(behind(left, |byte| self.dialect.is_text(byte))),
        }
    }

    fn behind_blanks(self, left: &[u8]) -> &[u8] {
        let dropped = self.dialect.allows(leniency::BLANKS);
        behind(left, |byte| dropped && byte == BLANK)
    }

    /// What is left behind the closing quote, from behind the opening one on.
    fn behind_quoted(self, mut left: &[u8]) -> Option<&[u8]> {
        loop {
            left = match left {
                [QUOTE, QUOTE, more @ ..] => more,
                [QUOTE, more @ ..] => return Some(more),
                [byte, more @ ..] if !self.dialect.is_forbidden(*byte) => more,
                _ => return None,
            }
        }
    }
}

/// What is left behind the bytes at the front that are such.
fn behind(left: &[u8], is_such: impl Fn(u8) -> bool) -> &[u8] {
    let passed = left.iter().take_while(|&&byte| is_such(byte)).count();
    &left[passed..]
}
