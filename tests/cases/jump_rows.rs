//! Jumps in files of about 64 and 128 records, by their own index and by others.

use crate::content_limit::{with_delimiter, DIALECTS};
use crate::jump_laws;
use crate::model::dialect::Dialect;
use crate::model::jump::{index, offsets, STEP};
use crate::random_files::all_dialects;
use crate::wire::Wire;
use std::io::{self, Write};

/// Around one entry, two and three.
const COUNTS: [usize; 6] = [63, 64, 65, 127, 128, 129];

/// Records that a wrong index is asked for.
const EDGES: [u64; 14] = [0, 1, 31, 62, 63, 64, 65, 66, 126, 127, 128, 129, 130, 192];

/// What a row of a number is without its line break; `,` is the dialect's delimiter here and below.
type Shape = fn(usize) -> Vec<u8>;

const SHAPES: [Shape; 10] = [
    |_| b"a,b".to_vec(),
    |_| Vec::new(),
    |number| vec![b'a'; number % 5],
    |number| [&b"\"x\ny\",z"[..], b"\"\r\n\",\"\"\"\""][number % 2].to_vec(),
    // From behind such an LF, quotes open where they closed.
    |_| b"\"\n\"".to_vec(),
    |number| [&b"\"\n\n\",\"\n\""[..], b",\"q\r\nr\n\""][number % 2].to_vec(),
    |_| b" a , \"b\" ".to_vec(),
    |number| vec![b','; number % 3],
    |number| [&b"\x80,\t"[..], b"\"\xFF\n\",\"\t\""][number % 2].to_vec(),
    |number| format!("{},{}", number, "b".repeat(number % 70)).into_bytes(),
];

/// What ends the row of a number.
const BREAKS: [fn(usize) -> &'static [u8]; 3] = [
    |_| b"\r\n",
    |_| b"\n",
    |number| [&b"\r\n"[..], b"\n", b"\n"][number % 3],
];

/// A file as its rows, so that it is known without a walk where each begins.
pub struct Rows {
    pub rows: Vec<Vec<u8>>,
}

impl Rows {
    pub fn new(count: usize, row: impl Fn(usize) -> Vec<u8>) -> Rows {
        Rows {
            rows: (0..count).map(row).collect(),
        }
    }

    pub fn file(&self) -> Vec<u8> {
        self.rows.concat()
    }

    /// Where rows 0, 64, 128 and so on begin, of those that are not nothing at the file's end.
    pub fn index(&self) -> Vec<u32> {
        let length = self.rows.iter().map(|row| row.len()).sum::<usize>();
        let mut at = 0;
        let mut index = Vec::new();
        for (number, row) in self.rows.iter().enumerate() {
            if number % STEP == 0 && at < length {
                index.push(at as u32);
            }
            at += row.len();
        }
        index
    }
}

pub fn send<W: Write>(wire: &mut Wire<W>) -> io::Result<()> {
    wire.section("jumps to every record of 63 to 129, by the file's own index")?;
    for_each_file(&mut |dialect, rows, _| send_own(wire, dialect, rows))?;
    wire.section("jumps to every record of 65 and 129, in 64 dialects")?;
    for dialect in all_dialects() {
        for shape in 0..SHAPES.len() {
            send_own(wire, dialect, &rows_of(dialect.0, 65, shape, 2, true))?;
            send_own(wire, dialect, &rows_of(dialect.0, 129, shape, 2, false))?;
        }
    }
    wire.section("jumps among 63 to 129 records, by a wrong index")?;
    for_each_file(&mut |dialect, rows, other| send_wrong(wire, dialect, rows, other))?;
    wire.section("jumps by an entry at every place of a file")?;
    for dialect in DIALECTS {
        for shape in 0..SHAPES.len() {
            send_every_entry(wire, dialect, &rows_of(dialect.0, 9, shape, 2, true))?;
        }
    }
    Ok(())
}

/// The rows of a shape and with one of the breaks, the last with or without it.
fn rows_of(delimiter: u8, count: usize, shape: usize, ends: usize, last: bool) -> Rows {
    Rows::new(count, |number| {
        let mut row = with_delimiter(&SHAPES[shape](number), delimiter);
        if last || number + 1 < count {
            row.extend(BREAKS[ends](number));
        }
        row
    })
}

type Visit<'a> = &'a mut dyn FnMut((u8, u8), &Rows, &Rows) -> io::Result<()>;

/// Visits every file with another of equally many rows, of the next shape and with another break.
fn for_each_file(visit: Visit) -> io::Result<()> {
    for dialect in DIALECTS {
        for count in COUNTS {
            for shape in 0..SHAPES.len() {
                for ends in 0..BREAKS.len() {
                    for last in [true, false] {
                        let rows = rows_of(dialect.0, count, shape, ends, last);
                        let other = (shape + 1) % SHAPES.len();
                        let other = rows_of(dialect.0, count, other, (ends + 1) % 2, last);
                        visit(dialect, &rows, &other)?;
                    }
                }
            }
        }
    }
    Ok(())
}

/// Every record, and those up to two behind the last, by where the rows begin: that is the file's own
/// index, or, where it is not accepted, as one of unequal widths, the one that it would have.
fn send_own<W: Write>(wire: &mut Wire<W>, dialect: (u8, u8), rows: &Rows) -> io::Result<()> {
    let file = rows.file();
    jump_laws::hold_for_file(&file, dialect);
    if let Ok(own) = index(&file, dialect.0, dialect.1) {
        assert_eq!(own, rows.index(), "the file {:?}", file);
    }
    let records: Vec<u64> = (0..rows.rows.len() as u64 + 3).collect();
    wire.jumps(dialect, &vec![(file, 1)], &records, &[rows.index()])
}

fn send_wrong<W: Write>(
    wire: &mut Wire<W>,
    dialect: (u8, u8),
    rows: &Rows,
    other: &Rows,
) -> io::Result<()> {
    let file = rows.file();
    let mut indexes = damaged(&rows.index(), file.len() as u32);
    indexes.push(other.index());
    for (delimiter, leniencies) in [(b';', 0), (b',', 15)] {
        let other = Dialect::of(delimiter, leniencies).expect("a known dialect");
        indexes.push(offsets(&file, other));
    }
    wire.jumps(dialect, &vec![(file, 1)], &EDGES, &indexes)
}

/// An index with each entry moved a little or far, with entries swapped, cut short, and longer.
fn damaged(own: &[u32], length: u32) -> Vec<Vec<u32>> {
    let mut indexes = Vec::new();
    for number in 0..own.len() {
        let entry = own[number];
        let moved = [entry.wrapping_sub(1), entry + 1, entry + 2];
        let set = [0, length, length + 1, u32::MAX];
        for instead in moved.into_iter().chain(set) {
            let mut index = own.to_vec();
            index[number] = instead;
            indexes.push(index);
        }
        for with in 0..number {
            let mut index = own.to_vec();
            index.swap(number, with);
            indexes.push(index);
        }
        indexes.push(own[..number].to_vec());
    }
    let longer = [0, length, length + 1].map(|entry| [own, &[entry]].concat());
    indexes.extend(longer);
    indexes
}

/// A file of a few rows by each entry that it can have, LFs between quotes among them.
fn send_every_entry<W: Write>(
    wire: &mut Wire<W>,
    dialect: (u8, u8),
    rows: &Rows,
) -> io::Result<()> {
    let file = rows.file();
    let indexes: Vec<_> = (0..=file.len() as u32 + 1).map(|at| vec![at]).collect();
    let records: Vec<u64> = (0..=rows.rows.len() as u64).chain([62, 63, 64]).collect();
    wire.jumps(dialect, &vec![(file, 1)], &records, &indexes)
}
