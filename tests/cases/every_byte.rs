//! Every byte in every state: as a file's first, between quotes, behind what may stand before it,
//! and as a content and a name.

use crate::model::table::Table;
use crate::random_files::all_dialects;
use crate::rooms::{usual, usual_writes};
use crate::wire::Wire;
use std::io::{self, Write};

/// What stands before and behind the byte, one line for each row of the rules' table of steps (the
/// blank leads only where blanks are dropped).
pub const AROUND: [(&[u8], &[u8]); 7] = [
    (b"", b""),
    (b" ", b""),
    (b"x", b""),
    (b"\"", b"\""),
    (b"\"\"", b""),
    (b"\"\" ", b""),
    (b"\r", b""),
];

pub fn send<W: Write>(wire: &mut Wire<W>) -> io::Result<()> {
    wire.section("files of every byte in every state, in 64 dialects")?;
    for (delimiter, leniencies) in all_dialects() {
        wire.dialect(delimiter, leniencies)?;
        for byte in 0..=255 {
            for (before, behind) in AROUND {
                let file = [before, &[byte], behind].concat();
                wire.walk(&file, usual(file.len(), byte.into()))?;
            }
        }
    }
    wire.section("every byte as a content and as a name")?;
    for byte in 0..=255 {
        send_content(wire, byte)?;
    }
    send_all_names(wire)
}

/// The byte alone in a table, which is searched for it, for its neighbours and for two of it.
fn send_content<W: Write>(wire: &mut Wire<W>, byte: u8) -> io::Result<()> {
    let mut table = Table::default();
    table.push_field(&[byte]);
    table.close_record();
    let (below, above) = ([byte.wrapping_sub(1)], [byte.wrapping_add(1)]);
    let names = [&[byte][..], &below, &above, &[byte, byte], b""];
    wire.table(&table, &usual_writes(&table), &names, &[(0, 0), (0, 1)])
}

/// A header of all names of one byte, each of which is found at its own column.
fn send_all_names<W: Write>(wire: &mut Wire<W>) -> io::Result<()> {
    let bytes: Vec<u8> = (0..=255).collect();
    let mut table = Table::default();
    for name in bytes.chunks(1) {
        table.push_field(name);
    }
    table.close_record();
    let names: Vec<&[u8]> = bytes.chunks(1).collect();
    wire.table(&table, &usual_writes(&table), &names, &[])
}
