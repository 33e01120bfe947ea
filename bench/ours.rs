//! The library, called from Rust through its face (include/siprovault.rs), in the archive that ships
//! (tools/native-staticlib).

use crate::ordinary::Answer;
use crate::other::Counts;
use crate::siprovault::{self, Check, Indexed, Stream};

/// The three lent buffers.
pub struct Buffers {
    pub text: Vec<u8>,
    pub ends: Vec<u32>,
    pub rows: Vec<u32>,
}

impl Buffers {
    /// Buffers of zeros, each written once, so that their memory is there before anything is timed.
    pub fn cleared(text: usize, entries: usize) -> Buffers {
        let mut to = Buffers {
            text: vec![1; text],
            ends: vec![1; entries],
            rows: vec![1; entries],
        };
        to.text.fill(0);
        to.ends.fill(0);
        to.rows.fill(0);
        to
    }
}

/// What can be compared: the whole answer.
pub type Told = siprovault::Answer;

pub fn told(answer: Answer) -> Told {
    Told {
        refusal: answer.refusal,
        line: answer.line,
        column: answer.column,
        byte: answer.byte,
        records: answer.records,
        fields: answer.fields,
        text: answer.text,
        report: answer.report,
    }
}

pub fn check(file: &[u8]) -> Told {
    Check::start(siprovault::COMMA, 0).feed(file).ask()
}

/// The check in pieces of so many bytes.
pub fn check_in_pieces(file: &[u8], size: usize) -> Told {
    let start = Check::start(siprovault::COMMA, 0);
    let whole = file
        .chunks(size)
        .fold(start, |check, piece| check.feed(piece));
    whole.ask()
}

pub fn read(file: &[u8], to: &mut Buffers) -> Told {
    siprovault::read_strict(file, &mut to.text, &mut to.ends, &mut to.rows)
}

pub fn index(file: &[u8], index: &mut [u32]) -> Indexed {
    siprovault::index(file, siprovault::COMMA, 0, index)
}

/// Asks for each of these records: the sum of where they begin.
pub fn asks(file: &[u8], index: &[u32], records: &[usize]) -> usize {
    let ask = |&record: &usize| siprovault::jump(file, siprovault::COMMA, 0, index, record);
    records.iter().map(|r| ask(r).start as usize).sum()
}

/// The stream in pieces of so many bytes, each call's output over the last one's: its answer, and the
/// numbers of rows, ends and bytes of text that came.
pub fn stream(file: &[u8], size: usize, to: &mut Buffers) -> (Told, Counts) {
    let mut state = Stream::start(siprovault::COMMA, 0);
    let (mut at, mut rows, mut ends, mut text) = (0, 0, 0, 0);
    while at < file.len() {
        let piece = &file[at..file.len().min(at + size)];
        let given = state.feed(piece, &mut to.text, &mut to.ends, &mut to.rows);
        rows += given.rows as u32;
        ends += given.ends as u32;
        text += given.text as u32;
        if given.answer.refusal != siprovault::ACCEPTED {
            return (given.answer, (rows, ends, text));
        }
        state = given.state;
        at += given.taken;
    }
    let last = state.close(&mut to.ends, &mut to.rows);
    let came = (rows + last.rows as u32, ends + last.ends as u32, text);
    (last.answer, came)
}
