//! Jumps to records before, at and behind a fault, and past what a walk does not look for.

use crate::content_limit::{fields, with_delimiter, DIALECTS};
use crate::jump_rows::Rows;
use crate::model::dialect::Dialect;
use crate::model::jump::offsets;
use crate::model::CONTENT_LIMIT;
use crate::wire::{file_of, Recipe, Wire};
use std::io::{self, Write};

const COUNT: usize = 130;

/// Which of these rows has the fault.
const PLACES: [usize; 10] = [0, 1, 31, 62, 63, 64, 65, 127, 128, COUNT - 1];

/// The other rows; behind an open quote, the second kind closes it. `,` is the dialect's delimiter
/// here and below.
const OTHERS: [&[u8]; 2] = [b"a,b\r\n", b"\"a\n\",b\r\n"];

/// Rows with a fault of 3 to 8 in some dialect at least, within it or where its line break should
/// be, and at the end two that only the building of an index refuses.
const FAULTY: [&[u8]; 24] = [
    b"a\x01,b\r\n",
    b"a,\"\x7F\"\r\n",
    b"a,b\x00\r\n",
    b"\x80,\t\r\n",
    b"\"a\"\x1F\r\n",
    b"a\",b\r\n",
    b"a,b\"\r\n",
    b"a,b \"c\"\r\n",
    b"\"a\"b,c\r\n",
    b"a,\"b\"c\r\n",
    b"\"a\" \"b\",c\r\n",
    b"\"a\" ,b\r\n",
    b"a\rb,c\r\n",
    b"a,b\r",
    b"a,b\r\r\n",
    b"a,\"b\"\r",
    b"a\nb,c\r\n",
    b"a,b\n",
    b"a,\"b\"\n",
    b"\"a,b\r\n",
    b"a,\"b\r\n",
    b"a,\"b\"\"\r\n",
    b"a,b,c\r\n",
    b"\r\n",
];

/// Last rows without a line break; behind the first four more bytes would mend the file.
const LAST: [&[u8]; 10] = [
    b"a,b\r",
    b"\r",
    b"\"",
    b"a,\"b\"\"",
    b"a,\"b\"",
    b"a,",
    b"a\x7F",
    b"a\"",
    b"\"a\"b",
    b"a,b,c",
];

pub fn send<W: Write>(wire: &mut Wire<W>) -> io::Result<()> {
    wire.section("jumps around a fault at every kind of place")?;
    for dialect in DIALECTS {
        for other in OTHERS {
            for place in PLACES {
                for faulty in FAULTY {
                    send_fault(wire, dialect, COUNT, other, (place, faulty))?;
                }
            }
            for count in [1, 64, 65, 128, 129] {
                for last in LAST {
                    send_fault(wire, dialect, count, other, (count - 1, last))?;
                }
            }
        }
    }
    wire.section("jumps past contents at their limit and a byte over it")?;
    for dialect in DIALECTS {
        for length in [CONTENT_LIMIT, CONTENT_LIMIT + 1] {
            for field in fields(length) {
                send_long_field(wire, dialect, &field)?;
            }
        }
    }
    Ok(())
}

/// Every record, by the index that has where the rows begin, and by one whose every entry is 0.
fn send_fault<W: Write>(
    wire: &mut Wire<W>,
    dialect: (u8, u8),
    count: usize,
    other: &[u8],
    (place, faulty): (usize, &[u8]),
) -> io::Result<()> {
    let rows = Rows::new(count, |number| {
        let row = if number == place { faulty } else { other };
        with_delimiter(row, dialect.0)
    });
    let records: Vec<u64> = (0..count as u64 + 3).collect();
    let indexes = [rows.index(), vec![0; 2]];
    wire.jumps(dialect, &vec![(rows.file(), 1)], &records, &indexes)
}

/// The field in the second record and in record 64, others around it. Where the walk of the whole
/// ends early, behind the entries that it gives there are two more.
fn send_long_field<W: Write>(
    wire: &mut Wire<W>,
    dialect: (u8, u8),
    field: &Recipe,
) -> io::Result<()> {
    for before in [1, 64] {
        let mut recipe = vec![(b"a\r\n".to_vec(), before)];
        recipe.extend(field.clone());
        recipe.extend([(b"\r\n".to_vec(), 1), (b"b\r\n".to_vec(), 66 - before)]);
        let file = file_of(&recipe);
        let known = Dialect::of(dialect.0, dialect.1).expect("a known dialect");
        let mut index = offsets(&file, known);
        index.extend([file.len() as u32 - 3, file.len() as u32]);
        let records = [0, 1, 2, 63, 64, 65, 66, 67, 128];
        wire.jumps(dialect, &recipe, &records, &[index])?;
    }
    Ok(())
}
