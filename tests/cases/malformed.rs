//! Tables that are malformed in every way, among others that are not.

use crate::model::table::Table;
use crate::model::writer::{FULL, PLAIN};
use crate::random::Random;
use crate::random_tables::{every_place, random_table};
use crate::small_tables::every_content;
use crate::wire::Wire;
use std::io::{self, Write};

const DAMAGED: usize = 3_000;

pub fn send<W: Write>(wire: &mut Wire<W>) -> io::Result<()> {
    wire.section("every small table in memory, malformed or not")?;
    let lists = every_list();
    for text in [&b""[..], b"a", b"ab", b"aba"] {
        for ends in &lists {
            for rows in &lists {
                send_one(wire, text.to_vec(), ends.clone(), rows.clone())?;
            }
        }
    }
    wire.section("random tables, damaged")?;
    let mut random = Random::from_seed(14);
    for _ in 0..DAMAGED {
        let mut table = random_table(&mut random);
        damage(&mut random, &mut table);
        send_one(wire, table.text, table.ends, table.rows)?;
    }
    Ok(())
}

fn send_one<W: Write>(
    wire: &mut Wire<W>,
    text: Vec<u8>,
    ends: Vec<u32>,
    rows: Vec<u32>,
) -> io::Result<()> {
    let table = Table { text, ends, rows };
    let writes = [(PLAIN, 64), (FULL, 64), (FULL, 0), (2, 0)];
    wire.table(&table, &writes, &[b"a", b""], &every_place(&table))
}

/// Every list of up to three entries from 0 to 3.
fn every_list() -> Vec<Vec<u32>> {
    let contents = every_content(&[0, 1, 2, 3], 3);
    let list = |content: &Vec<u8>| content.iter().map(|&b| b.into()).collect();
    contents.iter().map(list).collect()
}

fn damage(random: &mut Random, table: &mut Table) {
    if random.one_in(6) {
        table.text.push(b'a');
        return;
    }
    let list = if random.one_in(2) {
        &mut table.ends
    } else {
        &mut table.rows
    };
    let at = random.below(list.len() + 1);
    let wrong = random.pick(&[0, 1, 2, 5, 1 << 24, 1 << 31, u32::MAX]);
    match random.below(5) {
        0 if at < list.len() => drop(list.remove(at)),
        1 => list.insert(at, wrong),
        2 if at < list.len() => list[at] = list[at].wrapping_add(1),
        3 if at < list.len() => list[at] = list[at].wrapping_sub(1),
        _ if at < list.len() => list[at] = wrong,
        _ => list.push(wrong),
    }
}
