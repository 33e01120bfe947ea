//! Finding a column by its header name, and showing one field.

use super::refusal;
use super::table::Table;

#[derive(Clone, Copy, Debug, Default, PartialEq, Eq)]
pub struct Column {
    pub refusal: u32,
    pub column: u32,
}

impl Column {
    pub fn numbers(&self) -> [u32; 2] {
        [self.refusal, self.column]
    }
}

/// A part of the text; `found` is 0 where the caller's stand-in is shown.
#[derive(Clone, Copy, Debug, Default, PartialEq, Eq)]
pub struct Part {
    pub found: u32,
    pub start: u32,
    pub length: u32,
}

impl Part {
    pub fn numbers(&self) -> [u32; 3] {
        [self.found, self.start, self.length]
    }
}

pub fn find_column(table: &Table, name: &[u8]) -> Column {
    let answer = |refusal, column| Column { refusal, column };
    if !table.is_well_formed() {
        return answer(refusal::MALFORMED_TABLE, 0);
    }
    if table.rows.is_empty() {
        return answer(refusal::NO_SUCH_NAME, 0);
    }
    let names: Vec<&[u8]> = table.fields_of(0).map(|f| table.content(f)).collect();
    let repeats = |&later: &usize| names[..later].contains(&names[later]);
    if let Some(later) = (0..names.len()).find(repeats) {
        return answer(refusal::EQUAL_NAMES, later as u32);
    }
    match names.iter().position(|&n| n == name) {
        None => answer(refusal::NO_SUCH_NAME, 0),
        Some(column) => answer(refusal::ACCEPTED, column as u32),
    }
}

pub fn show(table: &Table, record: u64, column: u64) -> Part {
    if !table.is_well_formed() || record >= table.rows.len() as u64 {
        return Part::default();
    }
    let fields = table.fields_of(record as usize);
    if column >= fields.len() as u64 {
        return Part::default();
    }
    let part = table.part(fields.start + column as usize);
    Part {
        found: 1,
        start: part.start as u32,
        length: part.len() as u32,
    }
}
