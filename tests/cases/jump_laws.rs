//! What the model of the index and of the jump must keep before it is worth comparing with: by its
//! own index a file's records are the reader's, by any other a walk finds what the reader reads in
//! the beginnings of what is left, and the corners that the rules name are as they name them.

use crate::model::dialect::leniency;
use crate::model::jump::{index, jump, Jumped, STEP};
use crate::model::reader::check;
use crate::model::refusal::{ACCEPTED, NO_SUCH_RECORD, WRONG_INDEX};
use crate::model::table::Table;
use crate::model::{CR, LF};
use crate::short_files::for_each_to_hold;

/// File, leniencies, index and record; then refusal, start and length.
type Corner = (&'static [u8], u8, &'static [u32], u64, (u32, u32, u32));

const CORNERS: [Corner; 24] = [
    // The empty file, by no entry, by the only one that it can have, and by one above its length.
    (b"", 0, &[], 0, (18, 0, 0)),
    (b"", 0, &[0], 0, (18, 0, 0)),
    (b"", 0, &[1], 0, (20, 0, 0)),
    // An entry at the file's length is one like others if it follows an LF.
    (b"a\r\n", 0, &[3], 0, (18, 0, 0)),
    (b"a", 0, &[1], 0, (20, 0, 0)),
    (b"a\r\n", 0, &[4], 0, (20, 0, 0)),
    (b"a\r\n", 0, &[2], 0, (20, 0, 0)),
    // Only the entry used is judged.
    (b"a\r\nb", 0, &[0, 9], 1, (0, 3, 1)),
    (b"a\r\nb", 0, &[9, 3], 64, (0, 3, 1)),
    (b"a\r\nb", 0, &[0], 64, (18, 0, 0)),
    (b"a\r\nb", 0, &[9], 1 << 32, (18, 0, 0)),
    // An empty record stands at its own offset.
    (b"\r\n\r\n", 0, &[0], 0, (0, 0, 0)),
    (b"\r\n\r\n", 0, &[0], 1, (0, 2, 0)),
    (b"\r\n\r\n", 0, &[0], 2, (18, 0, 0)),
    // A fault before the record has ended is 20, even if there is no such record; one behind its
    // line break is not looked at, and 10 nowhere.
    (b"a\r\nb\"", 0, &[0], 0, (0, 0, 1)),
    (b"a\r\nb\"", 0, &[0], 1, (20, 0, 0)),
    (b"a\r\nb\"", 0, &[0], 2, (20, 0, 0)),
    (b"a\r\nb,c", 0, &[0], 1, (0, 3, 3)),
    // What stands where its line break should be is part of that.
    (b"a\rb", 0, &[0], 0, (20, 0, 0)),
    (b"a\r", 0, &[0], 0, (20, 0, 0)),
    (b"a\nb", 0, &[0], 0, (20, 0, 0)),
    (b"a\nb", leniency::LF, &[0], 1, (0, 2, 1)),
    // An LF between quotes is one to an entry, and the walk begins there.
    (b"\"\n\"", leniency::LF, &[2], 0, (20, 0, 0)),
    (b"\"\nb\n\"", leniency::LF, &[2], 0, (0, 2, 1)),
];

/// Ends the program if a law is broken.
pub fn hold_of_the_model() {
    for (file, leniencies, index, record, (refusal, start, length)) in CORNERS {
        let says = Jumped {
            refusal,
            start,
            length,
        };
        let jumped = jump(file, b',', leniencies, index, record);
        assert_eq!(jumped, says, "the file {:?} by {:?}", file, index);
    }
    for_each_to_hold(&mut |file, dialect| {
        hold_for_file(file, dialect);
        for entry in 0..=file.len() + 1 {
            walks_as_beginnings_read(file, dialect, entry);
        }
    });
}

/// The index is refused as the file is, or by it the records are the table's.
pub fn hold_for_file(file: &[u8], (delimiter, leniencies): (u8, u8)) {
    let (answer, table) = check(file, delimiter, leniencies);
    match (index(file, delimiter, leniencies), table) {
        (Ok(own), Some(table)) => gives_the_table(file, (delimiter, leniencies), &own, &table),
        (Err(refused), None) => {
            let place = [answer.refusal, answer.line, answer.column, answer.byte, 0];
            assert_eq!(refused.numbers(), place, "the file {:?}", file);
        }
        _ => panic!("the file {:?} has an index, or a table, alone", file),
    }
}

/// By a file's own index each record reads as the table's of that number, and 18 comes exactly from
/// the number of records on. With their line breaks the records make up the file.
fn gives_the_table(file: &[u8], (delimiter, leniencies): (u8, u8), own: &[u32], table: &Table) {
    let records = table.rows.len();
    let entries = (records + STEP - 1) / STEP;
    assert_eq!(own.len(), entries, "the file {:?}", file);
    let asked = |record: usize| jump(file, delimiter, leniencies, own, record as u64);
    let mut behind = 0;
    for record in 0..records {
        let jumped = asked(record);
        assert_eq!(jumped.refusal, ACCEPTED, "the file {:?}", file);
        assert_eq!(jumped.start as usize, behind, "the file {:?}", file);
        assert!(record % STEP != 0 || own[record / STEP] == jumped.start);
        let part = jumped.part(file);
        // Without a line break the empty part would be the file of no records.
        let read = check(&[part, b"\r\n"].concat(), delimiter, leniencies).1;
        assert_eq!(read, Some(alone(table, record)), "the file {:?}", file);
        behind += part.len();
        behind += break_at(&file[behind..]);
    }
    assert_eq!(behind, file.len(), "the file {:?}", file);
    for record in records..records + 3 {
        let none = Jumped::refused(NO_SUCH_RECORD);
        assert_eq!(asked(record), none, "the file {:?}", file);
    }
}

/// The table of one record of a table.
fn alone(table: &Table, record: usize) -> Table {
    let fields = table.fields_of(record);
    Table::of(&[fields.map(|field| table.content(field).to_vec()).collect()])
}

/// How many bytes the line break takes that an accepted record ends in.
fn break_at(rest: &[u8]) -> usize {
    match rest {
        [] => 0,
        [CR, ..] => 2,
        _ => 1,
    }
}

/// From an entry on, each record is what ends the beginning that reads as so many records, the
/// beginnings being those that end in an LF, and the whole.
fn walks_as_beginnings_read(file: &[u8], (delimiter, leniencies): (u8, u8), entry: usize) {
    let asked = |record: usize| jump(file, delimiter, leniencies, &[entry as u32], record as u64);
    if entry > file.len() || (entry > 0 && file[entry - 1] != LF) {
        let wrong = Jumped::refused(WRONG_INDEX);
        assert_eq!(asked(0), wrong, "the file {:?}", file);
        return;
    }
    let left = &file[entry..];
    let lenient = leniencies | leniency::RAGGED;
    let is_beginning = |to: &usize| *to == left.len() || *to == 0 || left[to - 1] == LF;
    let tables: Vec<_> = (0..=left.len())
        .filter(is_beginning)
        .map(|to| (to, check(&left[..to], delimiter, lenient).1))
        .collect();
    let reads_as = |table: &Option<Table>, records| match table {
        Some(table) => table.rows.len() == records,
        None => false,
    };
    let of = |records| tables.iter().find(|(_, table)| reads_as(table, records));
    let is_sound = matches!(tables.last(), Some((_, Some(_))));
    for record in 0..=file.len() + 1 {
        let expected = match (of(record), of(record + 1)) {
            (Some(&(from, _)), Some(&(to, _))) => Jumped {
                refusal: ACCEPTED,
                start: (entry + from) as u32,
                length: without_break(&left[from..to]).len() as u32,
            },
            _ if is_sound => Jumped::refused(NO_SUCH_RECORD),
            _ => Jumped::refused(WRONG_INDEX),
        };
        assert_eq!(asked(record), expected, "the file {:?} by {}", file, entry);
    }
}

fn without_break(record: &[u8]) -> &[u8] {
    match record {
        [part @ .., CR, LF] | [part @ .., LF] => part,
        part => part,
    }
}
