//! The grammar in words, run as it stands: every way in which a short file can be read.
//!
//! This knows no faults and no limits. It is the yardstick for the reader of this model: the
//! reader accepts a short file exactly if there is one way to read it, and gives what that way
//! gives.

use super::dialect::{leniency, Dialect};
use super::table::Table;
use super::{BLANK, CR, LF, QUOTE};

/// What one way of reading a part of the file gives, and the leniencies that it uses.
#[derive(Clone)]
struct Way<T> {
    /// The place behind the part.
    to: usize,
    gives: T,
    used: u8,
}

type Content = Vec<u8>;
type Record = Vec<Content>;

/// Every reading of the whole file, with its report.
pub fn readings(file: &[u8], dialect: Dialect) -> Vec<(Table, u8)> {
    let source = Source { file, dialect };
    let mut ways = if file.is_empty() {
        vec![(Vec::new(), 0)]
    } else {
        source.records(0)
    };
    for (records, used) in &mut ways {
        if records.iter().any(|r| r.len() != records[0].len()) {
            *used |= leniency::RAGGED;
        }
        if file.iter().any(|&b| dialect.is_beyond_strict(b)) {
            *used |= leniency::BYTES;
        }
    }
    ways.iter()
        .filter(|(_, used)| used & leniency::RAGGED == 0 || dialect.allows(leniency::RAGGED))
        .map(|(records, used)| (Table::of(records), *used))
        .collect()
}

#[derive(Clone, Copy)]
struct Source<'a> {
    file: &'a [u8],
    dialect: Dialect,
}

impl Source<'_> {
    fn is(self, at: usize, byte: u8) -> bool {
        self.file.get(at) == Some(&byte)
    }

    /// One record, then (break, record) or the last break, up to the end of the file. By the house
    /// rule, a break at the file's end closes the last record and no empty one follows it.
    fn records(self, from: usize) -> Vec<(Vec<Record>, u8)> {
        let mut ways = Vec::new();
        for record in self.record(from) {
            if record.to == self.file.len() {
                ways.push((vec![record.gives.clone()], record.used));
            }
            for line_break in self.line_break(record.to) {
                let used = record.used | line_break.used;
                let rest = if line_break.to == self.file.len() {
                    vec![(Vec::new(), 0)]
                } else {
                    self.records(line_break.to)
                };
                for (records, more) in rest {
                    let all = [vec![record.gives.clone()], records].concat();
                    ways.push((all, used | more));
                }
            }
        }
        ways
    }

    fn line_break(self, from: usize) -> Vec<Way<()>> {
        let mut ways = Vec::new();
        if self.is(from, CR) && self.is(from + 1, LF) {
            let to = from + 2;
            ways.push(way(to, (), 0));
        }
        if self.is(from, LF) && self.dialect.allows(leniency::LF) {
            ways.push(way(from + 1, (), leniency::LF));
        }
        ways
    }

    fn record(self, from: usize) -> Vec<Way<Record>> {
        let mut ways = Vec::new();
        for field in self.field(from) {
            ways.push(way(field.to, vec![field.gives.clone()], field.used));
            if matches!(self.file.get(field.to), Some(&b) if self.dialect.is_delimiter(b)) {
                for rest in self.record(field.to + 1) {
                    let all = [vec![field.gives.clone()], rest.gives].concat();
                    ways.push(way(rest.to, all, field.used | rest.used));
                }
            }
        }
        ways
    }

    fn field(self, from: usize) -> Vec<Way<Content>> {
        let mut ways = self.bare(from);
        for lead in self.blanks(from) {
            for quoted in self.quoted(lead.to) {
                for tail in self.blanks(quoted.to) {
                    let used = lead.used | tail.used;
                    ways.push(way(tail.to, quoted.gives.clone(), used));
                }
            }
        }
        ways
    }

    /// Any number of blanks that are dropped, none included.
    fn blanks(self, from: usize) -> Vec<Way<()>> {
        let mut ways = vec![way(from, (), 0)];
        let mut to = from;
        while self.dialect.allows(leniency::BLANKS) && self.is(to, BLANK) {
            to += 1;
            ways.push(way(to, (), leniency::BLANKS));
        }
        ways
    }

    /// Zero or more text bytes, without the blanks at either end if they are dropped.
    fn bare(self, from: usize) -> Vec<Way<Content>> {
        let text = |b: &&u8| self.dialect.is_text(**b);
        let longest = self.file[from..].iter().take_while(text).count();
        let ways = (from..=from + longest).map(|to| {
            let source = &self.file[from..to];
            if !self.dialect.allows(leniency::BLANKS) {
                return way(to, source.to_vec(), 0);
            }
            let content = trimmed(source);
            let dropped = content.len() < source.len();
            let used = if dropped { leniency::BLANKS } else { 0 };
            way(to, content.to_vec(), used)
        });
        ways.collect()
    }

    /// A quote, a run of what may stand in quotes with pairs for quotes, and a quote.
    fn quoted(self, from: usize) -> Vec<Way<Content>> {
        let mut ways = Vec::new();
        if !self.is(from, QUOTE) {
            return ways;
        }
        let mut to = from + 1;
        let mut content = Vec::new();
        loop {
            if self.is(to, QUOTE) {
                ways.push(way(to + 1, content.clone(), 0));
            }
            match self.file.get(to) {
                Some(&QUOTE) if self.is(to + 1, QUOTE) => to += 2,
                Some(&b) if b != QUOTE && !self.dialect.is_forbidden(b) => to += 1,
                _ => return ways,
            }
            content.push(self.file[to - 1]);
        }
    }
}

fn way<T>(to: usize, gives: T, used: u8) -> Way<T> {
    Way { to, gives, used }
}

fn trimmed(mut source: &[u8]) -> &[u8] {
    while let [BLANK, rest @ ..] = source {
        source = rest;
    }
    while let [rest @ .., BLANK] = source {
        source = rest;
    }
    source
}
