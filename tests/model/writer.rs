//! The writer.

use super::table::Table;
use super::{refusal, CONTENT_LIMIT, CR, FILE_LIMIT, LF, QUOTE};

pub const PLAIN: u8 = 0;
pub const FULL: u8 = 1;

#[derive(Clone, Copy, Debug, Default, PartialEq, Eq)]
pub struct Written {
    pub refusal: u32,
    pub line: u32,
    pub column: u32,
    pub byte: u32,
    pub length: u32,
}

impl Written {
    pub fn numbers(&self) -> [u32; 5] {
        [self.refusal, self.line, self.column, self.byte, self.length]
    }
}

/// What the writer answers with this much room; the file is there exactly if it is written.
pub fn write(table: &Table, mode: u8, room: usize) -> (Written, Option<Vec<u8>>) {
    match render(table, mode) {
        Err(written) => (written, None),
        Ok(file) if file.len() > FILE_LIMIT => (refused(refusal::FILE_TOO_LONG, 0), None),
        Ok(file) if file.len() > room => (refused(refusal::NO_ROOM_OUT, 0), None),
        Ok(file) => {
            let length = file.len() as u32;
            let written = Written {
                length,
                ..Written::default()
            };
            (written, Some(file))
        }
    }
}

fn refused(number: u32, index: usize) -> Written {
    Written {
        refusal: number,
        byte: index as u32,
        ..Written::default()
    }
}

/// The strict file of a table, of whatever length, or the first refusal of 1, 14, 3, 9 and 10.
fn render(table: &Table, mode: u8) -> Result<Vec<u8>, Written> {
    if mode != PLAIN && mode != FULL {
        return Err(refused(refusal::BAD_REQUEST, 0));
    }
    if !table.is_well_formed() {
        return Err(refused(refusal::MALFORMED_TABLE, 0));
    }
    let strict = |b: &u8| (0x20..=0x7E).contains(b) || *b == CR || *b == LF;
    if let Some(index) = table.text.iter().position(|b| !strict(b)) {
        return Err(refused(refusal::FORBIDDEN_BYTE, index));
    }
    let too_long = |&field: &usize| table.content(field).len() > CONTENT_LIMIT;
    if let Some(field) = (0..table.ends.len()).find(too_long) {
        return Err(refused(refusal::CONTENT_TOO_LONG, field));
    }
    let unequal = |&record: &usize| table.fields_of(record).len() != table.fields_of(0).len();
    if let Some(record) = (0..table.rows.len()).find(unequal) {
        return Err(refused(refusal::WRONG_FIELD_COUNT, record));
    }
    let records = (0..table.rows.len()).map(|record| render_record(table, record, mode));
    Ok(records.collect::<Vec<_>>().concat())
}

fn render_record(table: &Table, record: usize, mode: u8) -> Vec<u8> {
    let fields = table
        .fields_of(record)
        .map(|field| render_field(table.content(field), mode));
    let mut line = fields.collect::<Vec<_>>().join(&b',');
    line.extend_from_slice(&[CR, LF]);
    line
}

fn render_field(content: &[u8], mode: u8) -> Vec<u8> {
    let needs_quotes = content.iter().any(|b| [b',', QUOTE, CR, LF].contains(b));
    if mode == PLAIN && !needs_quotes {
        return content.to_vec();
    }
    let mut field = vec![QUOTE];
    for &byte in content {
        if byte == QUOTE {
            field.push(QUOTE);
        }
        field.push(byte);
    }
    field.push(QUOTE);
    field
}
