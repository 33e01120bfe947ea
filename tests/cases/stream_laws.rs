//! What the model of the stream must keep before it is worth comparing with: what is out is what
//! the grammar reads in the beginning that is taken, as a file of its own, and refusals and tables
//! are the check's.

use crate::model::dialect::{leniency, Dialect, DELIMITERS};
use crate::model::grammar::readings;
use crate::model::reader::{check, fault_found, Room};
use crate::model::stream::{Plan, Stream};
use crate::model::table::Table;
use crate::model::{refusal, BLANK, CONTENT_LIMIT, CR, LF, QUOTE};
use crate::sessions::in_two;
use crate::short_files::{for_each_file, FOUR_SUMS, SIX, TWELVE};

const AMPLE: Room = Room {
    text: usize::MAX,
    ends: usize::MAX,
    rows: usize::MAX,
};

/// Ends the program if a law is broken.
pub fn hold_of_the_model() {
    for delimiter in DELIMITERS {
        for leniencies in 0..16 {
            hold_for_files((delimiter, leniencies), TWELVE, 3);
        }
    }
    for leniencies in FOUR_SUMS {
        hold_for_files((b',', leniencies), SIX, 5);
    }
}

fn hold_for_files(dialect: (u8, u8), alphabet: &[u8], longest: usize) {
    for_each_file(alphabet, longest, &mut |file| {
        shows_what_stays(file, dialect);
        hold_for_file(file, dialect);
        keeps_step(file, dialect);
        Ok(())
    })
    .expect("nothing is written");
}

/// What holds of a file of any length: at the byte that shows a refusal, and at the close.
pub fn hold_for_file(file: &[u8], (delimiter, leniencies): (u8, u8)) {
    let plan = Plan::of(file, delimiter, leniencies);
    let dialect = Dialect::of(delimiter, leniencies).expect("a known dialect");
    let taken = plan.shows().map_or(file, |byte| &file[..=byte]);
    let (answer, table) = check(taken, delimiter, leniencies);
    assert_eq!(plan.answer(), answer, "the file {:?}", file);
    let out = out_before_close(&plan);
    if plan.shows().is_some() {
        assert_ne!(answer.refusal, refusal::ACCEPTED, "the file {:?}", file);
    } else {
        assert_eq!(out, settled(file, dialect), "the file {:?}", file);
    }
    match (table, fault_found(taken, dialect)) {
        (Some(table), _) => assert_eq!(plan.out, table, "the file {:?}", file),
        (None, found) => {
            let before = &taken[..found.expect("a fault")];
            assert_eq!(out, settled(before, dialect), "the file {:?}", file);
            assert_eq!(plan.out, out, "the file {:?}", file);
        }
    }
}

/// A file shows a refusal exactly if it has one that stays, whatever follows; and then it shows the
/// same one with every byte more.
fn shows_what_stays(file: &[u8], (delimiter, leniencies): (u8, u8)) {
    let answer = |more: &[u8]| check(&[file, more].concat(), delimiter, leniencies).0;
    let now = answer(b"");
    let single = [[b'a'], [b' '], [delimiter], [QUOTE], [CR], [LF]];
    let double = [[QUOTE, LF], [QUOTE, QUOTE], [CR, LF], [LF, b'a']];
    let mut follow = single
        .iter()
        .map(|m| &m[..])
        .chain(double.iter().map(|m| &m[..]));
    let stays = now.refusal != refusal::ACCEPTED && follow.all(|more| answer(more) == now);
    let plan = Plan::of(file, delimiter, leniencies);
    assert_eq!(plan.shows().is_some(), stays, "the file {:?}", file);
    if let [before @ .., _] = file {
        let earlier = Plan::of(before, delimiter, leniencies);
        if earlier.shows().is_some() {
            assert_eq!(plan.shows(), earlier.shows(), "the file {:?}", file);
            assert_eq!(plan.answer(), earlier.answer(), "the file {:?}", file);
            assert_eq!(plan.out, earlier.out, "the file {:?}", file);
        }
    }
}

/// With little room too, what is out after each call before the close is what the bytes taken put
/// out, and beyond that at most blanks among them, if the call lacked room for text.
fn keeps_step(file: &[u8], (delimiter, leniencies): (u8, u8)) {
    let plan = Plan::of(file, delimiter, leniencies);
    for places in 0..8 {
        let room = Room {
            text: places % 3,
            ends: places % 2,
            rows: places / 4,
        };
        let (mut taken, mut text, mut ends, mut rows) = (0, 0, 0, 0);
        for call in in_two(&plan, places % (file.len() + 1), room, 1) {
            taken += call.given.taken;
            text += call.given.text;
            ends += call.given.ends;
            rows += call.given.rows;
            let out = out_before_close(&Plan::of(&file[..taken], delimiter, leniencies));
            if call.offered.is_some() {
                assert_eq!((ends, rows), (out.ends.len(), out.rows.len()));
                let early = &plan.out.text[out.text.len()..text];
                let short = call.given.short_of == refusal::NO_ROOM_TEXT;
                assert!(early.is_empty() || short, "the file {:?}", file);
                assert!(early.iter().all(|&b| b == BLANK), "the file {:?}", file);
            }
        }
    }
}

/// What a stream with ample room puts out before it is closed.
fn out_before_close(plan: &Plan) -> Table {
    let given = Stream::start(plan).feed(plan.length(), AMPLE);
    Table {
        text: plan.out.text[..given.text].to_vec(),
        ends: plan.out.ends[..given.ends].to_vec(),
        rows: plan.out.rows[..given.rows].to_vec(),
    }
}

/// What must be out once this beginning of a file is taken: what it reads as by itself, an open
/// quoted field closed and a CR at its end left away, but without the last end and row end where no
/// line break has given them, and of that field no more than the limit.
fn settled(taken: &[u8], dialect: Dialect) -> Table {
    let dialect = dialect.with(leniency::RAGGED);
    let read = |file: &[u8]| readings(file, dialect).pop().map(|(table, _)| table);
    let closed = || read(&[taken, &[QUOTE]].concat());
    let mut table = match read(taken) {
        Some(table) if matches!(taken.last(), None | Some(&LF)) => return table,
        Some(table) => table,
        None => match closed() {
            Some(table) => table,
            None => {
                assert_eq!(taken.last(), Some(&CR), "the beginning {:?}", taken);
                return settled(&taken[..taken.len() - 1], dialect);
            }
        },
    };
    table.ends.pop();
    table.rows.pop();
    let start = table.ends.last().map_or(0, |&end| end as usize);
    table.text.truncate(start + CONTENT_LIMIT);
    table
}
