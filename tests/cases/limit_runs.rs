//! Files whose last run crosses the size limit.

use crate::file_limit::{line, rooms, LINE};
use crate::model::FILE_LIMIT;
use crate::wire::{Recipe, Wire};
use std::io::{self, Write};

const STRICT: (u8, u8) = (b',', 0);
const LAX: (u8, u8) = (b'|', 15);

/// How far behind the limit the longer file ends.
const BEYOND: usize = 150;

pub fn send<W: Write>(wire: &mut Wire<W>) -> io::Result<()> {
    wire.section("runs across the file limit")?;
    let lines = (line(), FILE_LIMIT / LINE - 1);
    // The last bytes below the limit, as many as a line has, and those behind it are rows, text,
    // quoted text, pairs of quotes, quoted line feeds or blanks.
    send_one(wire, STRICT, &lines, b"", b"abcde\r\n")?;
    send_one(wire, STRICT, &lines, b"", b"a")?;
    send_one(wire, STRICT, &lines, b"\"", b"a")?;
    send_one(wire, STRICT, &lines, b"\"a", b"\"")?;
    send_one(wire, STRICT, &lines, b"\"", b"\n")?;
    send_one(wire, LAX, &lines, b"", b"a|b\n")?;
    send_one(wire, LAX, &lines, b"  ", b" ")?;
    send_behind_fault(wire, b"abc\r\n")?;
    send_behind_fault(wire, b"\n")
}

/// The file up to the limit, and the file beyond it at once, cut around the limit, and in pieces
/// that only begin below it.
fn send_one<W: Write>(
    wire: &mut Wire<W>,
    dialect: (u8, u8),
    front: &(Vec<u8>, usize),
    opens: &[u8],
    unit: &[u8],
) -> io::Result<()> {
    let last = [64, FILE_LIMIT - 64];
    let recipe = filled(front, opens, unit, FILE_LIMIT);
    wire.long(dialect, &recipe, &last, rooms)?;
    let recipe = filled(front, opens, unit, FILE_LIMIT + BEYOND);
    wire.long(dialect, &recipe, &[FILE_LIMIT + BEYOND], rooms)?;
    for before in [65, 64, 1, 0] {
        let pieces = [FILE_LIMIT - before, before + 1, BEYOND - 1];
        wire.long(dialect, &recipe, &pieces, rooms)?;
    }
    for behind in [1, 64, 65] {
        let pieces = [63, FILE_LIMIT + behind - 63, BEYOND - behind];
        wire.long(dialect, &recipe, &pieces, rooms)?;
    }
    Ok(())
}

/// The same unit over and over behind an early fault, at once, and in pieces of 1 to 130 bytes and
/// with many cuts around the limit: one byte that is not counted, or counted twice, shows there.
fn send_behind_fault<W: Write>(wire: &mut Wire<W>, unit: &[u8]) -> io::Result<()> {
    let fault = (b"x\r\n\"\"a".to_vec(), 1);
    let recipe = filled(&fault, b"", unit, FILE_LIMIT + BEYOND);
    wire.long(STRICT, &recipe, &[FILE_LIMIT + BEYOND], rooms)?;
    let mut pieces = vec![63];
    pieces.extend(1..=130);
    pieces.push(FILE_LIMIT - 66 - pieces.iter().sum::<usize>());
    pieces.extend([1, 63, 1, 1, 1, 64, 1]);
    pieces.push(FILE_LIMIT + BEYOND - pieces.iter().sum::<usize>());
    wire.long(STRICT, &recipe, &pieces, rooms)
}

/// The front, what opens the run, and the run, so that all have this length.
fn filled(front: &(Vec<u8>, usize), opens: &[u8], unit: &[u8], length: usize) -> Recipe {
    let run = length - front.0.len() * front.1 - opens.len();
    vec![
        front.clone(),
        (opens.to_vec(), 1),
        (unit.to_vec(), run / unit.len()),
        (unit[..run % unit.len()].to_vec(), 1),
    ]
}
