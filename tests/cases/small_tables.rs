//! Every small table over the bytes that the writer treats in their own way, in both modes.

use crate::model::table::Table;
use crate::rooms::usual_writes;
use crate::short_files::for_each_file;
use crate::wire::Wire;
use std::io::{self, Write};

const SIX: &[u8] = b"a,\"\r\n ";

/// Field counts of the records, the bytes of contents, and how long contents are at most.
const SHAPES: [(&[usize], &[u8], usize); 8] = [
    (&[], SIX, 0),
    (&[1], SIX, 3),
    (&[2], SIX, 2),
    (&[1, 1], SIX, 2),
    (&[2, 2], SIX, 1),
    (&[2, 2], b"a,\"", 2),
    (&[1, 2], SIX, 1),
    (&[2, 1], SIX, 1),
];

pub fn send<W: Write>(wire: &mut Wire<W>) -> io::Result<()> {
    wire.section("every small table, written both ways")?;
    for (shape, alphabet, longest) in SHAPES {
        let contents = every_content(alphabet, longest);
        let fields: usize = shape.iter().sum();
        for number in 0..contents.len().pow(fields as u32) {
            let table = nth_table(shape, &contents, number);
            wire.table(&table, &usual_writes(&table), &[], &[])?;
        }
    }
    Ok(())
}

pub fn every_content(alphabet: &[u8], longest: usize) -> Vec<Vec<u8>> {
    let mut contents = Vec::new();
    for_each_file(alphabet, longest, &mut |content| {
        contents.push(content.to_vec());
        Ok(())
    })
    .expect("nothing is written");
    contents
}

/// The table whose contents are the digits of a number.
fn nth_table(shape: &[usize], contents: &[Vec<u8>], mut number: usize) -> Table {
    let mut table = Table::default();
    for &fields in shape {
        for _ in 0..fields {
            table.push_field(&contents[number % contents.len()]);
            number /= contents.len();
        }
        table.close_record();
    }
    table
}
