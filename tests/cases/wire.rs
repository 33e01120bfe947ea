//! The form in which cases travel to the driver.
//!
//! The wire carries the eight bytes `SVCASES1`, then items, each a letter and what belongs to it.
//! A number takes seven bits to a byte, the lowest first, and the top bit says that more follow.
//! An answer is a mask byte of its numbers that are not 0, then these numbers. A list is its
//! length, then its entries: up to `PLAIN_LIST` of them one by one, more than that in runs of
//! first entry, step (zigzag) and count.
//!
//! - `S`, a section begins: its name as a list.
//! - `D`, a dialect, and the walked file is empty again: delimiter and leniencies as bytes, the
//!   answer for the empty file.
//! - `W`, a walked file: how many bytes of the file before it stay and how many come, each of these
//!   with the answer so far; the outcome.
//! - `L`, a long file: delimiter and leniencies; how many parts, each a list and how often it
//!   stands; how many pieces, each its length and the answer so far; the outcome. A dialect comes
//!   before the next walked file.
//! - `T`, a table: text, ends and rows as lists; how many writes, finds and shows, and each of them.
//! - `C`, a check state put together by hand: delimiter and leniencies, the list fed first, a seed,
//!   how many places are hit (0: all), the list fed then.
//! - `N`, a check state put together number by number: its numbers in the order of the header, the
//!   list fed then, the length of the first piece where it is fed in two.
//! - `F`, a file by the stream: delimiter and leniencies; its parts, as in `L`; all that comes out,
//!   as a table's three lists; how many sessions, and for each how many calls, and each of them.
//! - `H`, a stream's state put together by hand: what belongs to `C`, then the cut and the room.
//! - `M`, a stream's state put together number by number: what belongs to `N`, with the stream's two
//!   numbers behind the check's, then the room.
//! - `R`, a session that keeps no rule: delimiter and leniencies; how many calls, each a byte, 1 for
//!   a close, the room and, if it is no close, the list fed.
//! - `J`, a file by indexes: delimiter and leniencies; its parts, as in `L`; the answer for its own
//!   index with room enough and, if that accepts, the index as a list; how many rooms, each with its
//!   answer; how many records are asked for, and their numbers; how many indexes, each a list and
//!   then the answer for each of these records.
//! - `E`, the trailer: how many sections, and for each how many items `W`, `L`, `T`, `C`, `N`, `H`,
//!   `M`, `R` and `J` and sessions of `F`.
//!
//! An outcome is the table's three lists if the last answer accepts, then trials of room: how
//! many, each with places in text, ends and rows and the answer. A write is a mode as a byte, room,
//! answer and, if it accepts, the list written. A find is name and answer, a show record, column
//! and answer. A room is its places in text, ends and rows.
//!
//! A call of a session is a byte, the sum of 1 for a close and 2 for another room than the call
//! before it had; this room; how many bytes it offers, if it is no close; then what it gives: a mask
//! byte of the numbers that are not 0 among taken, text, ends, rows, short_of and closed, with 64
//! for an answer, then these numbers, then that answer. The bytes offered are the next ones of the
//! file; those behind its end, which are offered behind the stream's end alone, are the driver's.

use crate::model::header::{find_column, show};
use crate::model::jump::{fit, index, jump};
use crate::model::reader::{check, read, Answer, Room};
use crate::model::refusal;
use crate::model::table::Table;
use crate::model::writer::write;
use crate::rooms::for_index;
use crate::sessions::{Call, Session, NONE};
use std::io::{self, Write};

/// Lists of at most this many entries are sent entry by entry.
const PLAIN_LIST: usize = 64;

/// A check's state has this many numbers, and a stream's two more.
const STATE_NUMBERS: usize = 25;
const STREAM_NUMBERS: usize = STATE_NUMBERS + 2;

/// A file as parts, each standing a number of times.
pub type Recipe = Vec<(Vec<u8>, usize)>;

/// A check state put together by hand: a real one, then bytes of it hit.
pub struct HandState<'a> {
    pub delimiter: u8,
    pub leniencies: u8,
    pub fed_first: &'a [u8],
    pub seed: u64,
    pub hits: u64,
    pub fed_then: &'a [u8],
}

pub struct Wire<W: Write> {
    out: W,
    counts: Vec<u64>,
    delimiter: u8,
    leniencies: u8,
    walked: Vec<u8>,
}

impl<W: Write> Wire<W> {
    pub fn new(mut out: W) -> io::Result<Wire<W>> {
        out.write_all(b"SVCASES1")?;
        Ok(Wire {
            out,
            counts: Vec::new(),
            delimiter: 0,
            leniencies: 0,
            walked: Vec::new(),
        })
    }

    pub fn section(&mut self, name: &str) -> io::Result<()> {
        self.counts.push(0);
        self.out.write_all(b"S")?;
        self.list(name.as_bytes())
    }

    pub fn dialect(&mut self, delimiter: u8, leniencies: u8) -> io::Result<()> {
        self.delimiter = delimiter;
        self.leniencies = leniencies;
        self.walked.clear();
        self.out.write_all(&[b'D', delimiter, leniencies])?;
        self.answer(&check(&[], delimiter, leniencies).0.numbers())
    }

    /// A file in the dialect given last. Every prefix that is not one of the file before it comes
    /// with its answer, so files in the order of a tree's walk cost one step each.
    pub fn walk(&mut self, file: &[u8], rooms: impl Fn(&Answer) -> Vec<Room>) -> io::Result<()> {
        self.item(b'W')?;
        let pairs = self.walked.iter().zip(file);
        let kept = pairs.take_while(|(old, new)| old == new).count();
        self.number(kept as u64)?;
        self.number((file.len() - kept) as u64)?;
        for length in kept + 1..=file.len() {
            let (answer, _) = check(&file[..length], self.delimiter, self.leniencies);
            self.out.write_all(&[file[length - 1]])?;
            self.answer(&answer.numbers())?;
        }
        self.walked = file.to_vec();
        self.outcome(file, (self.delimiter, self.leniencies), rooms)
    }

    pub fn long(
        &mut self,
        (delimiter, leniencies): (u8, u8),
        recipe: &Recipe,
        pieces: &[usize],
        rooms: impl Fn(&Answer) -> Vec<Room>,
    ) -> io::Result<()> {
        self.item(b'L')?;
        self.out.write_all(&[delimiter, leniencies])?;
        self.parts(recipe)?;
        let file = file_of(recipe);
        let mut fed = 0;
        self.number(pieces.len() as u64)?;
        for &length in pieces {
            fed += length;
            self.number(length as u64)?;
            self.answer(&check(&file[..fed], delimiter, leniencies).0.numbers())?;
        }
        assert_eq!(fed, file.len(), "the pieces are the whole file");
        self.outcome(&file, (delimiter, leniencies), rooms)
    }

    pub fn table(
        &mut self,
        table: &Table,
        writes: &[(u8, usize)],
        names: &[&[u8]],
        places: &[(u64, u64)],
    ) -> io::Result<()> {
        self.item(b'T')?;
        self.three_lists(table)?;
        self.number(writes.len() as u64)?;
        for &(mode, room) in writes {
            let (answer, file) = write(table, mode, room);
            self.out.write_all(&[mode])?;
            self.number(room as u64)?;
            self.answer(&answer.numbers())?;
            if let Some(file) = file {
                self.list(&file)?;
            }
        }
        self.number(names.len() as u64)?;
        for name in names {
            self.list(name)?;
            self.answer(&find_column(table, name).numbers())?;
        }
        self.number(places.len() as u64)?;
        for &(record, column) in places {
            self.number(record)?;
            self.number(column)?;
            self.answer(&show(table, record, column).numbers())?;
        }
        Ok(())
    }

    pub fn hand_state(&mut self, state: &HandState) -> io::Result<()> {
        self.item(b'C')?;
        self.hand_state_itself(state)
    }

    fn hand_state_itself(&mut self, state: &HandState) -> io::Result<()> {
        self.out.write_all(&[state.delimiter, state.leniencies])?;
        self.list(state.fed_first)?;
        self.number(state.seed)?;
        self.number(state.hits)?;
        self.list(state.fed_then)
    }

    pub fn numbered_state(&mut self, numbers: &[u32], fed: &[u8], cut: usize) -> io::Result<()> {
        assert_eq!(numbers.len(), STATE_NUMBERS, "the numbers of a state");
        self.item(b'N')?;
        self.numbered_state_itself(numbers, fed, cut)
    }

    fn numbered_state_itself(&mut self, numbers: &[u32], fed: &[u8], cut: usize) -> io::Result<()> {
        for &number in numbers {
            self.number(number.into())?;
        }
        self.list(fed)?;
        self.number(cut as u64)
    }

    /// A file by the stream, with all that comes out of it; each session is a case.
    pub fn streamed(
        &mut self,
        (delimiter, leniencies): (u8, u8),
        recipe: &Recipe,
        out: &Table,
        sessions: &[Session],
    ) -> io::Result<()> {
        self.out.write_all(&[b'F', delimiter, leniencies])?;
        self.parts(recipe)?;
        self.three_lists(out)?;
        self.number(sessions.len() as u64)?;
        for session in sessions {
            self.count();
            self.number(session.len() as u64)?;
            let mut room = NONE;
            for call in session {
                self.call(call, room)?;
                room = call.room;
            }
        }
        Ok(())
    }

    fn call(&mut self, call: &Call, before: Room) -> io::Result<()> {
        let closes = call.offered.is_none();
        let changes = call.room != before;
        self.out
            .write_all(&[u8::from(closes) | u8::from(changes) << 1])?;
        if changes {
            self.room(call.room)?;
        }
        if let Some(offered) = call.offered {
            self.number(offered as u64)?;
        }
        let given = &call.given;
        let filled = [given.taken, given.text, given.ends, given.rows].map(|n| n as u32);
        let mut numbers = filled.to_vec();
        numbers.extend([given.short_of, given.closed]);
        let answered = given.answer != Answer::default() || given.closed != 0;
        self.masked(&numbers, u8::from(answered) << 6)?;
        if answered {
            self.answer(&given.answer.numbers())?;
        }
        Ok(())
    }

    pub fn stream_hand_state(
        &mut self,
        state: &HandState,
        cut: usize,
        room: Room,
    ) -> io::Result<()> {
        self.item(b'H')?;
        self.hand_state_itself(state)?;
        self.number(cut as u64)?;
        self.room(room)
    }

    pub fn stream_numbered_state(
        &mut self,
        numbers: &[u32],
        fed: &[u8],
        cut: usize,
        room: Room,
    ) -> io::Result<()> {
        assert_eq!(numbers.len(), STREAM_NUMBERS, "the numbers of a state");
        self.item(b'M')?;
        self.numbered_state_itself(numbers, fed, cut)?;
        self.room(room)
    }

    /// Calls that keep no rule: each a piece, or none for a close, and its room.
    pub fn unruly(
        &mut self,
        (delimiter, leniencies): (u8, u8),
        calls: &[(Option<Vec<u8>>, Room)],
    ) -> io::Result<()> {
        self.item(b'R')?;
        self.out.write_all(&[delimiter, leniencies])?;
        self.number(calls.len() as u64)?;
        for (piece, room) in calls {
            self.out.write_all(&[u8::from(piece.is_none())])?;
            self.room(*room)?;
            if let Some(piece) = piece {
                self.list(piece)?;
            }
        }
        Ok(())
    }

    /// A file whose index is built in several rooms, and whose records of these numbers are asked
    /// for by each of these indexes, its own or not.
    pub fn jumps(
        &mut self,
        (delimiter, leniencies): (u8, u8),
        recipe: &Recipe,
        records: &[u64],
        indexes: &[Vec<u32>],
    ) -> io::Result<()> {
        self.item(b'J')?;
        self.out.write_all(&[delimiter, leniencies])?;
        self.parts(recipe)?;
        let file = file_of(recipe);
        self.index(&file, (delimiter, leniencies))?;
        self.number(records.len() as u64)?;
        records.iter().try_for_each(|&record| self.number(record))?;
        self.number(indexes.len() as u64)?;
        for index in indexes {
            self.list(index)?;
            for &record in records {
                let jumped = jump(&file, delimiter, leniencies, index, record);
                self.answer(&jumped.numbers())?;
            }
        }
        Ok(())
    }

    fn index(&mut self, file: &[u8], (delimiter, leniencies): (u8, u8)) -> io::Result<()> {
        let own = index(file, delimiter, leniencies);
        self.answer(&fit(&own, usize::MAX).numbers())?;
        if let Ok(entries) = &own {
            self.list(entries)?;
        }
        let rooms = for_index(&own);
        self.number(rooms.len() as u64)?;
        for room in rooms {
            self.number(room as u64)?;
            self.answer(&fit(&own, room).numbers())?;
        }
        Ok(())
    }

    /// The trailer, without which the driver takes no wire as whole.
    pub fn finish(mut self) -> io::Result<()> {
        self.out.write_all(b"E")?;
        let counts = std::mem::take(&mut self.counts);
        self.number(counts.len() as u64)?;
        for count in counts {
            self.number(count)?;
        }
        self.out.flush()
    }

    fn item(&mut self, letter: u8) -> io::Result<()> {
        self.count();
        self.out.write_all(&[letter])
    }

    fn count(&mut self) {
        *self.counts.last_mut().expect("a section has begun") += 1;
    }

    fn parts(&mut self, recipe: &Recipe) -> io::Result<()> {
        self.number(recipe.len() as u64)?;
        for (part, times) in recipe {
            self.list(part)?;
            self.number(*times as u64)?;
        }
        Ok(())
    }

    fn outcome(
        &mut self,
        file: &[u8],
        (delimiter, leniencies): (u8, u8),
        rooms: impl Fn(&Answer) -> Vec<Room>,
    ) -> io::Result<()> {
        let (answer, table) = check(file, delimiter, leniencies);
        if let Some(table) = table {
            self.three_lists(&table)?;
        }
        let rooms = rooms(&answer);
        self.number(rooms.len() as u64)?;
        for room in rooms {
            self.room(room)?;
            let (answer, table) = read(file, delimiter, leniencies, room);
            assert_eq!(table.is_some(), answer.refusal == refusal::ACCEPTED);
            self.answer(&answer.numbers())?;
        }
        Ok(())
    }

    fn room(&mut self, room: Room) -> io::Result<()> {
        let places = [room.text, room.ends, room.rows];
        places.iter().try_for_each(|&p| self.number(p as u64))
    }

    fn three_lists(&mut self, table: &Table) -> io::Result<()> {
        self.list(&table.text)?;
        self.list(&table.ends)?;
        self.list(&table.rows)
    }

    fn list<T: Copy + Into<u32>>(&mut self, list: &[T]) -> io::Result<()> {
        self.number(list.len() as u64)?;
        if list.len() <= PLAIN_LIST {
            return list.iter().try_for_each(|&e| self.number(e.into().into()));
        }
        let mut at = 0;
        while at < list.len() {
            let (step, count) = run_at(&list[at..]);
            self.number(list[at].into().into())?;
            self.number(((step << 1) ^ (step >> 63)) as u64)?;
            self.number(count as u64)?;
            at += count;
        }
        Ok(())
    }

    fn answer(&mut self, numbers: &[u32]) -> io::Result<()> {
        self.masked(numbers, 0)
    }

    fn masked(&mut self, numbers: &[u32], mut mask: u8) -> io::Result<()> {
        for (bit, &number) in numbers.iter().enumerate() {
            mask |= u8::from(number != 0) << bit;
        }
        self.out.write_all(&[mask])?;
        for &number in numbers.iter().filter(|&&n| n != 0) {
            self.number(number.into())?;
        }
        Ok(())
    }

    fn number(&mut self, mut number: u64) -> io::Result<()> {
        while number >= 0x80 {
            self.out.write_all(&[number as u8 | 0x80])?;
            number >>= 7;
        }
        self.out.write_all(&[number as u8])
    }
}

pub fn length_of(recipe: &Recipe) -> usize {
    recipe.iter().map(|(part, times)| part.len() * times).sum()
}

pub fn file_of(recipe: &Recipe) -> Vec<u8> {
    let parts = recipe.iter().map(|(part, times)| part.repeat(*times));
    parts.collect::<Vec<_>>().concat()
}

/// The step and the length of the longest run of equal steps at the front of a list.
fn run_at<T: Copy + Into<u32>>(list: &[T]) -> (i64, usize) {
    let entry = |at: usize| -> i64 { list[at].into().into() };
    if list.len() == 1 {
        return (0, 1);
    }
    let step = entry(1) - entry(0);
    let run = (2..list.len()).take_while(|&at| entry(at) - entry(at - 1) == step);
    (step, 2 + run.count())
}
