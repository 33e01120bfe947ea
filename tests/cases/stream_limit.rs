//! Streams of files at the size limit and beyond it.

use crate::file_limit::{line, LINE};
use crate::model::reader::Room;
use crate::model::stream::Plan;
use crate::model::{CONTENT_LIMIT, FILE_LIMIT};
use crate::sessions::by_way_of;
use crate::wire::{file_of, Recipe, Wire};
use std::io::{self, Write};

const STRICT: (u8, u8) = (b',', 0);
const LF: (u8, u8) = (b',', 1);
const BLANKS: (u8, u8) = (b';', 2);
const LAX: (u8, u8) = (b'|', 15);

/// What each call is lent, so that a file takes some calls: for one of fields or of records alone,
/// and for one of lines.
const MANY: Room = Room {
    text: 0,
    ends: 6_000_000,
    rows: 5_500_000,
};
const LONG: Room = Room {
    text: 3_000_000,
    ends: 5_000,
    rows: 5_100,
};

/// Up to where it is fed, an empty piece at the limit among them.
const PLACES: [usize; 7] = [
    63,
    CONTENT_LIMIT + 64,
    9_000_000,
    FILE_LIMIT - 1,
    FILE_LIMIT,
    FILE_LIMIT,
    FILE_LIMIT + 1,
];

pub fn send<W: Write>(wire: &mut Wire<W>) -> io::Result<()> {
    wire.section("streams of 16,777,216 and 16,777,217 bytes")?;
    let full = FILE_LIMIT;
    let line = line();
    let lines = full / LINE - 1;
    // As many fields as there can be, as many records, and as much text; then a byte more.
    send_one(wire, STRICT, MANY, &[(b",", full)], 0)?;
    send_one(wire, LF, MANY, &[(b"\n", full)], 0)?;
    send_one(wire, LF, MANY, &[(b"\n", full + 1)], 2)?;
    send_one(wire, STRICT, LONG, &[(&line, lines + 1)], 0)?;
    // Whatever the byte past the limit is: what would be out, what is held, what would be refused,
    // and an LF behind a CR, whose field stays open.
    for (last, beyond) in [
        (&b"abc"[..], &b"d"[..]),
        (b"abc", b"|"),
        (b"abc", b"\x01"),
        (b"ab\r", b"\n"),
        (b"ab\r", b"a"),
        (b"a  ", b"d"),
        (b"  \"", b"\""),
    ] {
        let quotes = b"\"\"\r\n";
        let mut parts = vec![(&line[..], lines), (quotes, LINE / quotes.len() - 1)];
        parts.push((b"x", quotes.len() - last.len()));
        parts.extend([(last, 1), (beyond, 1), (b"a\r\n", 2)]);
        let is_faulty = last.ends_with(b"\"");
        send_one(wire, LAX, LONG, &parts, if is_faulty { 4 } else { 2 })?;
    }
    // A refusal that comes before that stays; one by the byte past the limit itself does not count.
    send_one(wire, STRICT, LONG, &[(b"\"\"a", 1), (b"a", full)], 5)?;
    send_one(wire, STRICT, LONG, &[(b"a", full), (b",", 1)], 2)?;
    // Blanks that are held, as many as there can be; those within the content limit come out.
    let held = [(&b"a"[..], 1), (b" ", full - 2), (b"a", 1)];
    send_one(wire, BLANKS, LONG, &held, 9)
}

/// The file in pieces that end before, at and behind the limit; this number ends it.
fn send_one<W: Write>(
    wire: &mut Wire<W>,
    dialect: (u8, u8),
    room: Room,
    parts: &[(&[u8], usize)],
    ends_it: u32,
) -> io::Result<()> {
    let own = |&(part, times): &(&[u8], usize)| (part.to_vec(), times);
    let recipe: Recipe = parts.iter().map(own).collect();
    let file = file_of(&recipe);
    let plan = Plan::of(&file, dialect.0, dialect.1);
    assert_eq!(plan.answer().refusal, ends_it);
    let session = by_way_of(&plan, &PLACES, room);
    wire.streamed(dialect, &recipe, &plan.out, &[session])
}
