//! The writer's refusals, alone and together, for the order 1, 14, 3, 9, 10, 2, 15.

use crate::file_limit::LINE;
use crate::model::table::Table;
use crate::model::writer::{FULL, PLAIN};
use crate::model::{CONTENT_LIMIT, FILE_LIMIT};
use crate::rooms::{ample_to_write, usual_writes};
use crate::wire::Wire;
use std::io::{self, Write};

type Records = Vec<Vec<Vec<u8>>>;

/// A change to the records that the writer must refuse; each is made early or late in the table.
const FAULTS: [fn(&mut Records, bool); 3] = [forbid, lengthen, unbalance];

pub fn send<W: Write>(wire: &mut Wire<W>) -> io::Result<()> {
    wire.section("the writer's refusals in order")?;
    for faults in 0..8 {
        for late in 0..8 {
            send_combination(wire, faults, late)?;
        }
    }
    wire.section("contents at their limit and a byte over it, written both ways")?;
    for byte in *b"a,\"\r\n " {
        send_contents(wire, byte)?;
    }
    wire.section("every mode of the writer")?;
    for records in [vec![], plain_records(), vec![vec![vec![0x07]]]] {
        let table = Table::of(&records);
        let writes: Vec<_> = (0..=255).map(|mode| (mode, 64)).collect();
        wire.table(&table, &writes, &[], &[])?;
    }
    wire.section("tables at the file size limit")?;
    for table in big_tables() {
        let writes = [usual_writes(&table), bad_modes(&table)].concat();
        wire.table(&table, &writes, &[], &[])?;
    }
    Ok(())
}

/// Unknown modes, without room and with room in which they could do harm.
fn bad_modes(table: &Table) -> Vec<(u8, usize)> {
    vec![(2, 0), (255, ample_to_write(table))]
}

fn plain_records() -> Records {
    let fields = || vec![b"ab".to_vec(), b"c,\"".to_vec()];
    vec![fields(), fields(), fields()]
}

/// The faults whose bits are set, each late if its bit in `late` is, well formed and malformed.
fn send_combination<W: Write>(wire: &mut Wire<W>, faults: usize, late: usize) -> io::Result<()> {
    let mut records = plain_records();
    for (bit, fault) in FAULTS.iter().enumerate() {
        if faults >> bit & 1 != 0 {
            fault(&mut records, late >> bit & 1 != 0);
        }
    }
    let table = Table::of(&records);
    let no_room = vec![(PLAIN, 0), (FULL, 0)];
    let writes = [usual_writes(&table), no_room, bad_modes(&table)].concat();
    wire.table(&table, &writes, &[], &[])?;
    let mut malformed = table;
    malformed.rows.pop();
    let writes = [usual_writes(&malformed), bad_modes(&malformed)].concat();
    wire.table(&malformed, &writes, &[], &[])
}

/// Contents at the limit and one byte over it: alone, and in a table of two by two, from each of its
/// fields on.
fn send_contents<W: Write>(wire: &mut Wire<W>, byte: u8) -> io::Result<()> {
    for length in [CONTENT_LIMIT, CONTENT_LIMIT + 1] {
        let content = vec![byte; length];
        let alone = Table::of(&[vec![content.clone()]]);
        wire.table(&alone, &usual_writes(&alone), &[], &[])?;
        for first in 0..4 {
            let mut fields = vec![b"x".to_vec(); 4];
            fields[first..].fill(content.clone());
            let table = Table::of(&[fields[..2].to_vec(), fields[2..].to_vec()]);
            wire.table(&table, &usual_writes(&table), &[], &[])?;
        }
    }
    Ok(())
}

fn place(records: &mut Records, late: bool) -> &mut Vec<u8> {
    let record = if late { records.len() - 1 } else { 0 };
    let column = if late { records[record].len() - 1 } else { 0 };
    &mut records[record][column]
}

fn forbid(records: &mut Records, late: bool) {
    place(records, late).push(0x7F);
}

fn lengthen(records: &mut Records, late: bool) {
    place(records, late).extend([b'x'; CONTENT_LIMIT]);
}

fn unbalance(records: &mut Records, late: bool) {
    let record = if late { records.len() - 1 } else { 1 };
    records[record].push(Vec::new());
}

/// Tables whose plain form has exactly the limit's length, one byte more, or some more for the
/// doubled quotes; then too long ones with another fault beside, and a malformed one.
fn big_tables() -> Vec<Table> {
    let line = |length: usize| vec![vec![b'a'; length]];
    let exact = vec![line(LINE - 2); FILE_LIMIT / LINE];
    let mut over = exact.clone();
    over[0] = line(LINE - 1);
    let quotes = vec![vec![vec![b'"'; CONTENT_LIMIT]]; FILE_LIMIT / CONTENT_LIMIT / 2];
    let mut tables: Vec<Table> = [&exact, &over, &quotes].map(|r| Table::of(r)).into();
    for fault in FAULTS {
        let mut both = over.clone();
        fault(&mut both, true);
        tables.push(Table::of(&both));
    }
    let mut malformed = Table::of(&over);
    malformed.rows.pop();
    tables.push(malformed);
    tables
}
