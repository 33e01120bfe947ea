//! The strict reader, the lax reader and the check, as one function of a whole file.

use super::dialect::{leniency, Dialect};
use super::table::Table;
use super::{refusal, BLANK, CONTENT_LIMIT, CR, FILE_LIMIT, LF, QUOTE};

#[derive(Clone, Copy, Debug, Default, PartialEq, Eq)]
pub struct Answer {
    pub refusal: u32,
    pub line: u32,
    pub column: u32,
    pub byte: u32,
    pub records: u32,
    pub fields: u32,
    pub text: u32,
    pub report: u32,
}

impl Answer {
    pub fn numbers(&self) -> [u32; 8] {
        [
            self.refusal,
            self.line,
            self.column,
            self.byte,
            self.records,
            self.fields,
            self.text,
            self.report,
        ]
    }

    fn refused(number: u32) -> Answer {
        Answer {
            refusal: number,
            ..Answer::default()
        }
    }

    /// A refusal that names a place: a byte of the file, or its length.
    fn refused_at(number: u32, file: &[u8], byte: usize) -> Answer {
        let before = &file[..byte];
        let lines = before.iter().filter(|&&b| b == LF).count();
        let since_lf = before.iter().rev().take_while(|&&b| b != LF).count();
        Answer {
            refusal: number,
            line: lines as u32 + 1,
            column: since_lf as u32 + 1,
            byte: byte as u32,
            ..Answer::default()
        }
    }
}

/// The places in the three lent buffers.
#[derive(Clone, Copy, Debug, PartialEq, Eq)]
pub struct Room {
    pub text: usize,
    pub ends: usize,
    pub rows: usize,
}

/// What the reader answers; the table is there exactly if the file is accepted, and without it
/// nothing is written.
pub fn read(file: &[u8], delimiter: u8, leniencies: u8, room: Room) -> (Answer, Option<Table>) {
    match parse(file, delimiter, leniencies) {
        Err(answer) => (answer, None),
        Ok((table, report)) => fit(table, report, room),
    }
}

pub fn read_strict(file: &[u8], room: Room) -> (Answer, Option<Table>) {
    read(file, b',', 0, room)
}

/// The check's answer for all bytes fed so far, and the table that a reader with room would give.
pub fn check(file: &[u8], delimiter: u8, leniencies: u8) -> (Answer, Option<Table>) {
    match parse(file, delimiter, leniencies) {
        Err(answer) => (answer, None),
        Ok((table, report)) => (accepted(&table, report), Some(table)),
    }
}

fn fit(table: Table, report: u8, room: Room) -> (Answer, Option<Table>) {
    let lack = if room.text < table.text.len() {
        refusal::NO_ROOM_TEXT
    } else if room.ends < table.ends.len() {
        refusal::NO_ROOM_ENDS
    } else if room.rows < table.rows.len() {
        refusal::NO_ROOM_ROWS
    } else {
        return (accepted(&table, report), Some(table));
    };
    (Answer::refused(lack), None)
}

fn accepted(table: &Table, report: u8) -> Answer {
    Answer {
        refusal: refusal::ACCEPTED,
        records: table.rows.len() as u32,
        fields: table.ends.len() as u32,
        text: table.text.len() as u32,
        report: u32::from(report),
        ..Answer::default()
    }
}

/// The table and the report, or the refusal that comes first by the rules' order.
fn parse(file: &[u8], delimiter: u8, leniencies: u8) -> Result<(Table, u8), Answer> {
    let dialect = match Dialect::of(delimiter, leniencies) {
        None => return Err(Answer::refused(refusal::BAD_REQUEST)),
        Some(dialect) => dialect,
    };
    if file.len() > FILE_LIMIT {
        return Err(Answer::refused(refusal::FILE_TOO_LONG));
    }
    let parser = Parser::run(file, dialect);
    match parser.first_fault() {
        Some(fault) => Err(Answer::refused_at(fault.number, file, fault.place)),
        None => Ok((parser.table, parser.report)),
    }
}

/// Where the fault is found that refuses a file within the limit: a byte of it, or its length.
pub fn fault_found(file: &[u8], dialect: Dialect) -> Option<usize> {
    let parser = Parser::run(file, dialect);
    parser.first_fault().map(|fault| fault.found)
}

/// A refusal, where it is found, and the byte that it names.
struct Fault {
    number: u32,
    found: usize,
    place: usize,
}

/// The mark of a fault behind which nothing can be read.
struct Stuck;

struct Parser<'a> {
    file: &'a [u8],
    dialect: Dialect,
    at: usize,
    faults: Vec<Fault>,
    table: Table,
    report: u8,
}

impl<'a> Parser<'a> {
    /// The parser behind the whole file. A fault that ends the reading is among its faults, like
    /// those that do not end it.
    fn run(file: &'a [u8], dialect: Dialect) -> Parser<'a> {
        let mut parser = Parser {
            file,
            dialect,
            at: 0,
            faults: Vec::new(),
            table: Table::default(),
            report: 0,
        };
        let _ = parser.file();
        parser
    }

    fn first_fault(&self) -> Option<&Fault> {
        self.faults.iter().min_by_key(|f| (f.found, f.number))
    }

    /// One record, then any number of (break, record), then possibly one break. A record starts
    /// only where a byte is left, so that the empty file and the end after a break hold none.
    fn file(&mut self) -> Result<(), Stuck> {
        while self.peek().is_some() {
            self.record()?;
            self.line_break();
        }
        if self.file.iter().any(|&b| self.dialect.is_beyond_strict(b)) {
            self.report |= leniency::BYTES;
        }
        Ok(())
    }

    /// One field, then any number of (delimiter, field).
    fn record(&mut self) -> Result<(), Stuck> {
        self.field()?;
        while self.at_delimiter() {
            self.at += 1;
            self.field()?;
        }
        self.table.close_record();
        let last = self.table.rows.len() - 1;
        if self.table.fields_of(last).len() != self.table.fields_of(0).len() {
            if self.dialect.allows(leniency::RAGGED) {
                self.report |= leniency::RAGGED;
            } else {
                self.note(refusal::WRONG_FIELD_COUNT, self.at, self.at);
            }
        }
        Ok(())
    }

    /// A bare or a quoted field with its dropped blanks, up to the byte at which it ends.
    fn field(&mut self) -> Result<(), Stuck> {
        let start = self.at;
        self.drop_blanks();
        let content = if self.peek() == Some(QUOTE) {
            let content = self.quoted()?;
            self.drop_blanks();
            content
        } else {
            self.bare()?
        };
        self.field_end()?;
        if content.len() > CONTENT_LIMIT {
            self.note(refusal::CONTENT_TOO_LONG, self.at, start);
        }
        self.table.push_field(&content);
        Ok(())
    }

    /// A run of text bytes, without the blanks at its end if blanks are dropped.
    fn bare(&mut self) -> Result<Vec<u8>, Stuck> {
        let start = self.at;
        while matches!(self.peek(), Some(b) if self.dialect.is_text(b)) {
            self.at += 1;
        }
        if self.peek() == Some(QUOTE) {
            return self.stuck(refusal::QUOTE_IN_BARE, self.at, self.at);
        }
        let mut content = self.file[start..self.at].to_vec();
        if self.dialect.allows(leniency::BLANKS) {
            while content.last() == Some(&BLANK) {
                content.pop();
                self.report |= leniency::BLANKS;
            }
        }
        Ok(content)
    }

    /// From an opening quote to behind the closing one, which no other quote follows.
    fn quoted(&mut self) -> Result<Vec<u8>, Stuck> {
        let opening = self.at;
        let mut content = Vec::new();
        self.at += 1;
        loop {
            match self.peek() {
                None => return self.stuck(refusal::STILL_OPEN, self.at, opening),
                Some(b) if self.dialect.is_forbidden(b) => {
                    return self.stuck(refusal::FORBIDDEN_BYTE, self.at, self.at)
                }
                Some(QUOTE) if self.file.get(self.at + 1) != Some(&QUOTE) => break,
                Some(QUOTE) => {
                    content.push(QUOTE);
                    self.at += 2;
                }
                Some(b) => {
                    content.push(b);
                    self.at += 1;
                }
            }
        }
        self.at += 1;
        Ok(content)
    }

    /// Demands that the field ends here: at a delimiter, at a line break or at the file's end.
    fn field_end(&mut self) -> Result<(), Stuck> {
        let number = match self.peek() {
            None => return Ok(()),
            Some(_) if self.at_delimiter() || self.break_length() > 0 => return Ok(()),
            Some(CR) => refusal::LONE_CR,
            Some(LF) => refusal::BARE_LF,
            Some(b) if self.dialect.is_forbidden(b) => refusal::FORBIDDEN_BYTE,
            // A bare field ends before no other byte, so a quoted one stands here.
            Some(_) => refusal::AFTER_CLOSING_QUOTE,
        };
        self.stuck(number, self.at, self.at)
    }

    fn line_break(&mut self) {
        if self.peek() == Some(LF) {
            self.report |= leniency::LF;
        }
        self.at += self.break_length();
    }

    /// How many bytes the line break takes that stands here; 0 if none does.
    fn break_length(&self) -> usize {
        if self.file[self.at..].starts_with(&[CR, LF]) {
            2
        } else if self.peek() == Some(LF) && self.dialect.allows(leniency::LF) {
            1
        } else {
            0
        }
    }

    fn drop_blanks(&mut self) {
        while self.dialect.allows(leniency::BLANKS) && self.peek() == Some(BLANK) {
            self.at += 1;
            self.report |= leniency::BLANKS;
        }
    }

    fn at_delimiter(&self) -> bool {
        matches!(self.peek(), Some(b) if self.dialect.is_delimiter(b))
    }

    fn peek(&self) -> Option<u8> {
        self.file.get(self.at).copied()
    }

    fn note(&mut self, number: u32, found: usize, place: usize) {
        self.faults.push(Fault {
            number,
            found,
            place,
        });
    }

    fn stuck<T>(&mut self, number: u32, found: usize, place: usize) -> Result<T, Stuck> {
        self.note(number, found, place);
        Err(Stuck)
    }
}
