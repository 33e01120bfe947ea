//! Tables whose columns, fields or records do not fit in eight or in sixteen bits.

use crate::model::table::Table;
use crate::rooms::usual_writes;
use crate::wire::Wire;
use std::io::{self, Write};

const COLUMNS: usize = 300;
const MANY: usize = 70_000;

pub fn send<W: Write>(wire: &mut Wire<W>) -> io::Result<()> {
    wire.section("a header of 300 columns")?;
    send_header(wire, None)?;
    // A later column has the name of an earlier one.
    for pair in [(0, 299), (298, 299), (255, 256), (0, 256), (1, 257)] {
        send_header(wire, Some(pair))?;
    }
    wire.section("70,000 fields in a record, and 70,000 records")?;
    send_wide(wire)?;
    send_tall(wire)
}

fn send_header<W: Write>(wire: &mut Wire<W>, equal: Option<(usize, usize)>) -> io::Result<()> {
    let mut names: Vec<Vec<u8>> = (0..COLUMNS).map(|c| format!("c{}", c).into()).collect();
    if let Some((earlier, later)) = equal {
        names[later] = names[earlier].clone();
    }
    let table = Table::of(&[names, vec![b"c".to_vec(); COLUMNS]]);
    let wanted: [&[u8]; 8] = [
        b"c0", b"c43", b"c254", b"c255", b"c256", b"c299", b"c300", b"c",
    ];
    let last = COLUMNS as u64;
    let places = [(0, 255), (0, 256), (1, 0), (1, last - 1), (1, last)];
    wire.table(&table, &usual_writes(&table), &wanted, &places)
}

/// One record; its header is not searched, since that takes time by the square of its columns.
fn send_wide<W: Write>(wire: &mut Wire<W>) -> io::Result<()> {
    let mut table = Table::default();
    for number in 0..MANY {
        table.push_field(content(number));
    }
    table.close_record();
    let places: Vec<_> = edges().map(|column| (0, column)).collect();
    wire.table(&table, &usual_writes(&table), &[], &places)
}

/// Records of one field each; then the last of them has two, and is refused by a number that is
/// more than sixteen bits hold.
fn send_tall<W: Write>(wire: &mut Wire<W>) -> io::Result<()> {
    let mut table = Table::default();
    for number in 0..MANY {
        table.push_field(content(number));
        table.close_record();
    }
    let mut places: Vec<_> = edges().map(|record| (record, 0)).collect();
    places.push((MANY as u64 - 1, 1));
    let names: [&[u8]; 2] = [content(0), content(1)];
    wire.table(&table, &usual_writes(&table), &names, &places)?;
    table.push_field(b"z");
    *table.rows.last_mut().expect("there are records") += 1;
    places.extend([(MANY as u64 - 1, 2), (MANY as u64 - 2, 1)]);
    wire.table(&table, &usual_writes(&table), &names, &places)
}

/// Contents of up to two bytes, which differ from those of fields 65,536 and 256 places before.
fn content(number: usize) -> &'static [u8] {
    [&b"ab"[..], b"", b"c"][number % 3]
}

/// Numbers at both ends, and where eight and sixteen bits end.
fn edges() -> impl Iterator<Item = u64> {
    let last = MANY as u64 - 1;
    let near = [0, 1, 255, 256, 65_535, 65_536, last - 1, last, last + 1];
    near.into_iter().chain([65_536 + (1 << 32)])
}
