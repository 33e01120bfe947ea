//! Every header of up to four names, some of which begin others, searched for each name.

use crate::model::table::Table;
use crate::wire::Wire;
use std::io::{self, Write};

const NAMES: [&[u8]; 5] = [b"", b"a", b"b", b"aa", b"ab"];

pub fn send<W: Write>(wire: &mut Wire<W>) -> io::Result<()> {
    wire.section("every header of up to 4 columns")?;
    let mut wanted = NAMES.to_vec();
    wanted.extend([&b"aab"[..], b"ba"]);
    for columns in 1..=4 {
        for number in 0..NAMES.len().pow(columns) {
            let mut table = Table::default();
            for column in 0..columns {
                let digit = number / NAMES.len().pow(column) % NAMES.len();
                table.push_field(NAMES[digit]);
            }
            table.close_record();
            // Every second table has a record behind its header, whose fields are no names.
            if number % 2 == 1 {
                table.push_field(b"ba");
                table.push_field(b"");
                table.close_record();
            }
            wire.table(&table, &[], &wanted, &[])?;
        }
    }
    wire.table(&Table::default(), &[], &wanted, &[(0, 0)])
}
