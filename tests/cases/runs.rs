//! Runs of bytes that end at every place around 8, 16, 32, 64 and 128 bytes, where a reader that
//! passes many bytes at once could pass one too many or one too few.

use crate::content_limit::with_delimiter;
use crate::jump_long;
use crate::laws::agrees_with_the_grammar;
use crate::random::Random;
use crate::random_files::all_dialects;
use crate::rooms::around;
use crate::sessions::Manner;
use crate::stream_long;
use crate::wire::Wire;
use std::io::{self, Write};

/// Dialects in which every run is tried; the others see the shorter set.
const FOUR_DIALECTS: [(u8, u8); 4] = [(b',', 0), (b';', 2), (b'\t', 5), (b'|', 15)];

const LETTERS: &[u8] = b"abcdefghijklmnopqrstuvwxyz";

/// What stands before the run; `,` is the dialect's delimiter here and below. Behind the last two
/// the width of a record is known.
const BEFORE: [&[u8]; 5] = [b"", b",", b"xy,", b"x\r\n", b"x,y\r\nz,"];
const SHORT_BEFORE: [&[u8]; 2] = [BEFORE[0], BEFORE[4]];

const SHORT_LENGTHS: [usize; 12] = [7, 8, 9, 15, 16, 17, 31, 32, 33, 63, 64, 65];

/// What a run is made of, over and over, with what opens it, what can end it, and what follows.
struct Kind {
    opens: &'static [u8],
    units: &'static [&'static [u8]],
    endings: &'static [&'static [u8]],
    closes: &'static [u8],
}

const KINDS: [Kind; 2] = [
    Kind {
        opens: b"",
        units: &[LETTERS, b" ", b"ab  c d ", b"\x80a\xFF"],
        endings: &[
            b"", b",", b"\r\n", b"\r", b"\n", b"\"", b" ", b" ,", b",\"", b"\x01", b"\x7F",
            b"\x80", b"\t",
        ],
        closes: b"\r\n",
    },
    Kind {
        opens: b"\"",
        units: &[LETTERS, b"\"", b"\n", b"ab,\r\n \"\"c;"],
        endings: &[
            b"", b"\"", b"\"\"", b"\"\"\"", b"\",", b"\"\r\n", b"\"\n", b"\"\r", b"\" ", b"\" ,",
            b"\"\x01", b"\n", b"\r", b"\x01", b"\x7F", b"\x80", b"\t", b",",
        ],
        closes: b"\"\r\n",
    },
];

/// The model is held to the grammar in one file of so many.
const HELD_TO_THE_GRAMMAR: usize = 29;

/// How the files of a set are tried: each at once, or one in so many at every cut, by the stream or by
/// indexes.
#[derive(Clone, Copy)]
enum How {
    AtOnce,
    AtEveryCut(usize),
    ByStream(usize),
    ByIndexes(usize),
}

pub fn send<W: Write>(wire: &mut Wire<W>) -> io::Result<()> {
    let lengths: Vec<usize> = lengths().collect();
    wire.section("runs that end around 8 to 128 bytes, in 4 dialects, at once")?;
    send_runs(wire, How::AtOnce, &FOUR_DIALECTS, &BEFORE, &lengths)?;
    wire.section("runs that end around 8 to 64 bytes, in 64 dialects, at once")?;
    let all: Vec<(u8, u8)> = all_dialects().collect();
    send_runs(wire, How::AtOnce, &all, &SHORT_BEFORE, &SHORT_LENGTHS)?;
    wire.section("some of these runs at every cut")?;
    let how = How::AtEveryCut(7);
    send_runs(wire, how, &FOUR_DIALECTS, &BEFORE, &lengths)?;
    let how = How::AtEveryCut(23);
    send_runs(wire, how, &all, &SHORT_BEFORE, &SHORT_LENGTHS)?;
    wire.section("130 bytes of rows with something else at every place, at once")?;
    send_rows(wire, How::AtOnce)?;
    wire.section("some of these rows at every cut")?;
    send_rows(wire, How::AtEveryCut(7))?;
    wire.section("long tails behind a fault, at every cut")?;
    send_tails(wire, FOUR_DIALECTS[0])?;
    send_tails(wire, FOUR_DIALECTS[3])?;
    Ok(())
}

/// Some of these files by the stream.
pub fn send_streams<W: Write>(wire: &mut Wire<W>) -> io::Result<()> {
    let lengths: Vec<usize> = lengths().collect();
    wire.section("streams of runs that end around 8 to 128 bytes, in 4 dialects")?;
    send_runs(wire, How::ByStream(2), &FOUR_DIALECTS, &BEFORE, &lengths)?;
    wire.section("streams of runs that end around 8 to 64 bytes, in 64 dialects")?;
    let all: Vec<(u8, u8)> = all_dialects().collect();
    let how = How::ByStream(11);
    send_runs(wire, how, &all, &SHORT_BEFORE, &SHORT_LENGTHS)?;
    wire.section("streams of 130 bytes of rows with something else at every place")?;
    send_rows(wire, How::ByStream(3))
}

/// Some of these files by indexes.
pub fn send_jumps<W: Write>(wire: &mut Wire<W>) -> io::Result<()> {
    let lengths: Vec<usize> = lengths().collect();
    wire.section("jumps over runs that end around 8 to 128 bytes, in 4 dialects")?;
    send_runs(wire, How::ByIndexes(2), &FOUR_DIALECTS, &BEFORE, &lengths)?;
    wire.section("jumps over runs that end around 8 to 64 bytes, in 64 dialects")?;
    let all: Vec<(u8, u8)> = all_dialects().collect();
    let how = How::ByIndexes(5);
    send_runs(wire, how, &all, &SHORT_BEFORE, &SHORT_LENGTHS)?;
    wire.section("jumps in 130 bytes of rows with something else at every place")?;
    send_rows(wire, How::ByIndexes(1))
}

/// A file in the dialect given last, if its turn has come.
fn send_file<W: Write>(
    wire: &mut Wire<W>,
    how: How,
    dialect: (u8, u8),
    file: Vec<u8>,
    turn: usize,
) -> io::Result<()> {
    let rooms = around(file.len(), turn);
    match how {
        How::AtOnce => {
            if turn % HELD_TO_THE_GRAMMAR == 0 {
                agrees_with_the_grammar(&file, dialect.0, dialect.1);
            }
            let whole = [file.len()];
            wire.long(dialect, &vec![(file, 1)], &whole, rooms)
        }
        How::AtEveryCut(one_in) if turn % one_in == 0 => wire.walk(&file, rooms),
        How::ByStream(one_in) if turn % one_in == 0 => {
            let mut random = Random::from_seed(turn as u64);
            let manners = [
                Manner::around_blocks(&mut random),
                Manner::random(&mut random),
            ];
            stream_long::send_file(wire, &mut random, dialect, &vec![(file, 1)], &manners)
        }
        How::ByIndexes(one_in) if turn % one_in == 0 => {
            let mut random = Random::from_seed(turn as u64);
            jump_long::send_random(wire, &mut random, dialect, &file)
        }
        How::AtEveryCut(_) | How::ByStream(_) | How::ByIndexes(_) => Ok(()),
    }
}

/// Every length around those of blocks.
fn lengths() -> impl Iterator<Item = usize> {
    let small = (0..=10).chain(14..=18).chain(30..=34);
    small.chain(62..=67).chain(126..=130)
}

/// This many bytes of a unit that stands over and over.
fn run(unit: &[u8], length: usize) -> Vec<u8> {
    unit.iter().copied().cycle().take(length).collect()
}

fn send_runs<W: Write>(
    wire: &mut Wire<W>,
    how: How,
    dialects: &[(u8, u8)],
    befores: &[&[u8]],
    lengths: &[usize],
) -> io::Result<()> {
    for (number, &dialect) in dialects.iter().enumerate() {
        wire.dialect(dialect.0, dialect.1)?;
        // Other files have their turn in each dialect.
        let mut turn = number;
        for_each_run(befores, lengths, &mut |begin, kind| {
            for ending in kind.endings {
                let file = with_delimiter(&ended(begin, ending, kind, turn), dialect.0);
                send_file(wire, how, dialect, file, turn)?;
                turn += 1;
            }
            Ok(())
        })?;
    }
    Ok(())
}

/// Visits every run with what stands before it.
fn for_each_run(
    befores: &[&[u8]],
    lengths: &[usize],
    visit: &mut impl FnMut(&[u8], &Kind) -> io::Result<()>,
) -> io::Result<()> {
    for before in befores {
        for kind in &KINDS {
            for unit in kind.units {
                for &length in lengths {
                    let run = run(unit, length);
                    visit(&[before, kind.opens, &run].concat(), kind)?;
                }
            }
        }
    }
    Ok(())
}

/// The run with its ending and as much behind it as the longest block takes, or, every fourth time,
/// with nothing behind it.
fn ended(begin: &[u8], ending: &[u8], kind: &Kind, turn: usize) -> Vec<u8> {
    let mut file = [begin, ending].concat();
    if turn % 4 != 0 {
        file.extend(run(LETTERS, 66));
        file.extend(kind.closes);
    }
    file
}

/// Rows that stand over and over: empty ones, short ones, and some of about one or two blocks.
fn rows() -> Vec<Vec<u8>> {
    let short: [&[u8]; 8] = [
        b"\r\n",
        b"\n",
        b",\r\n",
        b"a,b\n",
        b"ab,,cde\n",
        b"a,b\r\n",
        b"ab,,cde\r\n",
        b"abcdefg,hijklm\r\n",
    ];
    let mut rows: Vec<Vec<u8>> = short.iter().map(|row| row.to_vec()).collect();
    for (first, second) in [(5, 24), (29, 32), (62, 1), (0, 62)] {
        let fields = [&run(LETTERS, first), &b","[..], &run(LETTERS, second)];
        rows.push([&fields.concat(), &b"\r\n"[..]].concat());
    }
    rows
}

/// What is put among rows.
const OTHER: [&[u8]; 14] = [
    b",", b"\"", b"\"\"", b"\"q\"", b"\"q\",", b"\r", b"\n", b"\r\n", b" ", b"x", b"\x01", b"\x7F",
    b"\x80", b"\t",
];

fn send_rows<W: Write>(wire: &mut Wire<W>, how: How) -> io::Result<()> {
    for (number, dialect) in FOUR_DIALECTS.into_iter().enumerate() {
        wire.dialect(dialect.0, dialect.1)?;
        let mut turn = number;
        for row in rows() {
            for_each_change(&row, &mut |file| {
                turn += 1;
                let file = with_delimiter(file, dialect.0);
                send_file(wire, how, dialect, file, turn)
            })?;
        }
    }
    Ok(())
}

/// Visits rows with something put in at every place, some bytes changed to it, and one byte taken
/// out.
fn for_each_change(row: &[u8], visit: &mut impl FnMut(&[u8]) -> io::Result<()>) -> io::Result<()> {
    const LENGTH: usize = 130;
    let rows = row.repeat((LENGTH + row.len() - 1) / row.len());
    for place in 0..rows.len() {
        let (before, behind) = rows.split_at(place);
        for (number, other) in OTHER.iter().enumerate() {
            let replaced = usize::from((place + number) % 3 == 0);
            visit(&[before, other, &behind[replaced..]].concat())?;
        }
        visit(&[before, &behind[1..]].concat())?;
    }
    Ok(())
}

/// Beginnings that some dialect refuses, on several lines.
const FAULTS: [&[u8]; 11] = [
    b"\x01",
    b"\x80",
    b"ab\"",
    b"x,y\r\n\"\"z",
    b"\"\" \"",
    b"a\rb",
    b"a\n",
    b"x,y\r\nz\r\n",
    b"\"\n\n\r\n\x7F",
    b"x\r\n\"\n\"x",
    b"\"a\"\r\r",
];

/// Several hundred bytes behind a fault, with a line feed at every so many of them.
fn send_tails<W: Write>(wire: &mut Wire<W>, (delimiter, leniencies): (u8, u8)) -> io::Result<()> {
    const TAIL: usize = 330;
    wire.dialect(delimiter, leniencies)?;
    for fault in FAULTS {
        for gap in SHORT_LENGTHS.into_iter().chain([0, 1, 127, 128, 129]) {
            let line = [&run(LETTERS, gap), &b"\n"[..]].concat();
            let file = [fault, &run(&line, TAIL)].concat();
            let file = with_delimiter(&file, delimiter);
            wire.walk(&file, around(file.len(), gap))?;
        }
    }
    Ok(())
}
