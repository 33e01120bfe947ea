//! Random tables: written, searched and shown at every place and beyond.

use crate::model::table::Table;
use crate::random::Random;
use crate::rooms::usual_writes;
use crate::wire::Wire;
use std::io::{self, Write};

const TABLES: usize = 3_000;

pub fn send<W: Write>(wire: &mut Wire<W>) -> io::Result<()> {
    wire.section("random tables")?;
    let mut random = Random::from_seed(3);
    for _ in 0..TABLES {
        let table = random_table(&mut random);
        let names = some_names(&table);
        wire.table(&table, &usual_writes(&table), &names, &every_place(&table))?;
    }
    Ok(())
}

/// A well formed table. One in eight has unequal records, and one in eight a byte or two that the
/// writer forbids.
pub fn random_table(random: &mut Random) -> Table {
    let mut bytes = b"aabz09.-  ,;|\"\"\r\n~".to_vec();
    if random.one_in(8) {
        bytes.extend([0x09, 0x7F, 0x80]);
    }
    let ragged = random.one_in(8);
    let columns = 1 + random.below(5);
    let mut table = Table::default();
    for _ in 0..random.below(7) {
        for _ in 0..if ragged { 1 + random.below(5) } else { columns } {
            let length = random.below(9);
            table.push_field(&random.bytes(&bytes, length));
        }
        table.close_record();
    }
    table
}

/// The names of the header, a part of one, and one that is too long by a byte.
fn some_names(table: &Table) -> Vec<&[u8]> {
    let mut names: Vec<&[u8]> = vec![b"", b"a"];
    if !table.rows.is_empty() {
        names.extend(table.fields_of(0).map(|field| table.content(field)));
        let first = table.part(0);
        names.push(&table.text[..first.end.saturating_sub(1)]);
        names.push(&table.text[..table.text.len().min(first.end + 1)]);
    }
    names
}

/// Every record and column, some behind them, and numbers that are right in their low bits alone.
pub fn every_place(table: &Table) -> Vec<(u64, u64)> {
    let columns = table.rows.iter().copied().max().unwrap_or(0).min(6);
    let mut places = Vec::new();
    for record in 0..table.rows.len() as u64 + 2 {
        places.extend((0..u64::from(columns) + 2).map(|column| (record, column)));
    }
    for far in [1 << 31, 1 << 32, u64::MAX - 1, u64::MAX] {
        places.extend([(far, 0), (0, far), (far, far)]);
    }
    places
}
