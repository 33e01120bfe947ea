//! Every pair of bytes as a dialect.

use crate::rooms::usual;
use crate::wire::Wire;
use std::io::{self, Write};

pub const FILES: [&[u8]; 3] = [b"", b"a\"", b",;\t|\n"];

pub fn send<W: Write>(wire: &mut Wire<W>) -> io::Result<()> {
    wire.section("all 65,536 pairs of dialect bytes")?;
    for delimiter in 0..=255 {
        for leniencies in 0..=255 {
            wire.dialect(delimiter, leniencies)?;
            for file in FILES {
                wire.walk(file, usual(file.len(), usize::from(leniencies)))?;
            }
        }
    }
    Ok(())
}
