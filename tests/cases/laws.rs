//! What the model must keep before its answers are worth comparing with: its reader agrees with
//! the grammar and with the rule between office and auditor, and its plain form is the shortest.

use crate::model::dialect::{leniency, Dialect, DELIMITERS};
use crate::model::grammar::readings;
use crate::model::reader::{check, read_strict, Room};
use crate::model::writer::{write, PLAIN};
use crate::short_files::{for_each_file, FOUR_SUMS, SIX, TWELVE};

const AMPLE: Room = Room {
    text: 8,
    ends: 8,
    rows: 8,
};

/// Ends the program if a law is broken.
pub fn hold_of_the_model() {
    for delimiter in DELIMITERS {
        for leniencies in 0..16 {
            hold_for_files(delimiter, leniencies, TWELVE, 3);
        }
    }
    for leniencies in FOUR_SUMS {
        hold_for_files(b',', leniencies, SIX, 5);
    }
}

fn hold_for_files(delimiter: u8, leniencies: u8, alphabet: &[u8], longest: usize) {
    for_each_file(alphabet, longest, &mut |file| {
        agrees_with_the_grammar(file, delimiter, leniencies);
        if delimiter == b',' {
            keeps_the_rule_of_the_auditor(file, leniencies);
        }
        if (delimiter, leniencies) == (b',', 0) {
            is_no_shorter_than_its_plain_form(file);
        }
        Ok(())
    })
    .expect("nothing is written");
}

pub fn agrees_with_the_grammar(file: &[u8], delimiter: u8, leniencies: u8) {
    let dialect = Dialect::of(delimiter, leniencies).expect("a known dialect");
    let (answer, table) = check(file, delimiter, leniencies);
    let taken: Vec<_> = table
        .map(|t| (t, answer.report as u8))
        .into_iter()
        .collect();
    assert_eq!(readings(file, dialect), taken, "the file {:?}", file);
}

/// Accepted with comma and report 0 means that strict accepts with the same table; and what strict
/// accepts, every comma dialect accepts and reports nothing, or dropped blanks.
fn keeps_the_rule_of_the_auditor(file: &[u8], leniencies: u8) {
    let (lax, lax_table) = check(file, b',', leniencies);
    let (strict, strict_table) = read_strict(file, AMPLE);
    if lax.refusal == 0 && lax.report == 0 {
        assert_eq!(
            (lax, lax_table),
            (strict, strict_table),
            "the file {:?}",
            file
        );
    }
    if strict.refusal == 0 {
        let blanks = u32::from(leniency::BLANKS);
        assert!(
            lax.refusal == 0 && lax.report & !blanks == 0,
            "the file {:?}",
            file
        );
    }
}

/// Among the strict files of a table that end in a line break, the plain form alone is shortest.
fn is_no_shorter_than_its_plain_form(file: &[u8]) {
    let table = match read_strict(file, AMPLE).1 {
        Some(table) if file.ends_with(b"\r\n") => table,
        _ => return,
    };
    let plain = write(&table, PLAIN, usize::MAX)
        .1
        .expect("strict can hold it");
    assert_eq!(
        read_strict(&plain, AMPLE).1,
        Some(table),
        "the file {:?}",
        file
    );
    assert!(
        plain == file || plain.len() < file.len(),
        "the file {:?}",
        file
    );
}
