//! Files at the size limit and one byte over it.

use crate::model::reader::{Answer, Room};
use crate::model::{refusal, FILE_LIMIT};
use crate::rooms::{ample, changed, exact};
use crate::wire::{Recipe, Wire};
use std::io::{self, Write};

const STRICT: (u8, u8) = (b',', 0);
const LF: (u8, u8) = (b',', 1);
const BLANKS: (u8, u8) = (b';', 2);
const UNKNOWN: (u8, u8) = (b'a', 16);

/// Lines of this length, their breaks included, make up a file of the greatest length.
pub const LINE: usize = 8_192;

pub fn line() -> Vec<u8> {
    [vec![b'a'; LINE - 2], b"\r\n".to_vec()].concat()
}

pub fn send<W: Write>(wire: &mut Wire<W>) -> io::Result<()> {
    wire.section("files of 16,777,216 and 16,777,217 bytes")?;
    let full = FILE_LIMIT;
    // As many fields as there can be, as many records, and as much text.
    send_one(wire, STRICT, &[(b",", full)], &[1])?;
    send_one(wire, LF, &[(b"\n", full)], &[1])?;
    send_one(wire, STRICT, &[(&line(), full / LINE)], &[])?;
    // The greatest column, the greatest line, and an opening quote far behind.
    send_one(wire, STRICT, &[(b",", full - 1), (b"\x01", 1)], &[])?;
    send_one(wire, LF, &[(b"\n", full - 1), (b"\r", 1)], &[1, 3])?;
    send_one(wire, STRICT, &[(b"\"", 1), (b"a", full - 1)], &[])?;
    // Blanks that are dropped, and as many bytes that are not.
    send_one(wire, BLANKS, &[(b" ", full - 1), (b"a", 1)], &[])?;
    send_one(wire, STRICT, &[(b"a", full)], &[])?;
    // An early fault stays until the file is too long; a bad dialect comes before that.
    send_one(wire, STRICT, &[(b"\"\"a", 1), (b"a", full - 3)], &[1, 1])?;
    send_one(wire, UNKNOWN, &[(b"a", full)], &[1])
}

/// The file of these parts, and, where more bytes follow, the longer file too.
fn send_one<W: Write>(
    wire: &mut Wire<W>,
    dialect: (u8, u8),
    parts: &[(&[u8], usize)],
    more: &[usize],
) -> io::Result<()> {
    let own = |&(part, times): &(&[u8], usize)| (part.to_vec(), times);
    let mut recipe: Recipe = parts.iter().map(own).collect();
    let mut pieces = doubling_pieces();
    wire.long(dialect, &recipe, &pieces, rooms)?;
    if !more.is_empty() {
        pieces.extend(more);
        recipe.push((b"\n".to_vec(), more.iter().sum()));
        wire.long(dialect, &recipe, &pieces, rooms)?;
    }
    Ok(())
}

/// Few pieces that make up the limit, each as long as all before it, since the model reads all
/// bytes so far anew for each of them.
fn doubling_pieces() -> Vec<usize> {
    let mut pieces = vec![65_536];
    let mut fed = 65_536;
    while fed < FILE_LIMIT {
        pieces.push(fed);
        fed *= 2;
    }
    pieces
}

/// A file of this size is read once with exactly enough room and once with an end too few; or, if
/// it is refused, once with ample room.
pub fn rooms(answer: &Answer) -> Vec<Room> {
    if answer.refusal == refusal::ACCEPTED {
        vec![exact(answer), changed(answer, 2)]
    } else {
        vec![ample(FILE_LIMIT)]
    }
}
