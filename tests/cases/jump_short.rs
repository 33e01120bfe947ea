//! Jumps in short files by every short index, and in every dialect.

use crate::dialect_bytes;
use crate::every_byte::AROUND;
use crate::jump_long::walked;
use crate::model::LF;
use crate::random_files::all_dialects;
use crate::short_files::{for_each_file, FOUR_SUMS, SIX, TWELVE};
use crate::wire::Wire;
use std::io::{self, Write};

/// Records around those for which an index has an entry, and such as pass 32 bits.
const RECORDS: [u64; 14] = [
    0,
    1,
    2,
    3,
    4,
    5,
    63,
    64,
    65,
    66,
    127,
    128,
    1 << 32,
    u64::MAX,
];

/// For short files that stand so many times: records around two entries and more.
const TIMES: usize = 70;
const MANY_RECORDS: [u64; 16] = [
    0, 1, 2, 62, 63, 64, 65, 66, 127, 128, 129, 139, 140, 192, 256, 350,
];

/// For files of which many are tried: the first ones, and one that needs a second entry.
const FEW_RECORDS: [u64; 4] = [0, 1, 2, 64];

pub fn send<W: Write>(wire: &mut Wire<W>) -> io::Result<()> {
    wire.section("jumps in files of up to 4 bytes of 6, by every index, in 4 dialects")?;
    for leniencies in FOUR_SUMS {
        for_each_file(SIX, 4, &mut |file| {
            let indexes = every_index(file.len());
            send_file(wire, (b',', leniencies), file, &RECORDS, &indexes)
        })?;
    }
    wire.section("jumps in files of 5 and 6 bytes of 6, in 4 dialects")?;
    for leniencies in FOUR_SUMS {
        for_each_file(SIX, 6, &mut |file| {
            if file.len() <= 4 {
                return Ok(());
            }
            let indexes = behind_line_feeds(file);
            send_file(wire, (b',', leniencies), file, &RECORDS[..4], &indexes)
        })?;
    }
    wire.section("jumps in files of up to 4 bytes of 12, in 64 dialects")?;
    for dialect in all_dialects() {
        for_each_file(TWELVE, 4, &mut |file| {
            let indexes = behind_line_feeds(file);
            send_file(wire, dialect, file, &FEW_RECORDS, &indexes)
        })?;
    }
    wire.section("jumps in 70 times the same of up to 5 bytes of 6, in 4 dialects")?;
    for leniencies in FOUR_SUMS {
        for_each_file(SIX, 5, &mut |file| {
            let recipe = vec![(file.to_vec(), TIMES)];
            let index = walked(&file.repeat(TIMES), (b',', leniencies));
            wire.jumps((b',', leniencies), &recipe, &MANY_RECORDS, &[index])
        })?;
    }
    wire.section("jumps over every byte in every state, in 64 dialects")?;
    for dialect in all_dialects() {
        send_every_byte(wire, dialect)?;
    }
    wire.section("jumps in all 65,536 pairs of dialect bytes")?;
    send_dialects(wire)
}

fn send_file<W: Write>(
    wire: &mut Wire<W>,
    dialect: (u8, u8),
    file: &[u8],
    records: &[u64],
    indexes: &[Vec<u32>],
) -> io::Result<()> {
    wire.jumps(dialect, &vec![(file.to_vec(), 1)], records, indexes)
}

/// No entry, and each one and two of those from 0 to one above the length, and of the greatest.
fn every_index(length: usize) -> Vec<Vec<u32>> {
    let mut entries: Vec<u32> = (0..=length as u32 + 1).collect();
    entries.push(u32::MAX);
    let mut indexes = vec![Vec::new()];
    for &first in &entries {
        indexes.push(vec![first]);
        indexes.extend(entries.iter().map(|&second| vec![first, second]));
    }
    indexes
}

/// No entry, and each one that is the beginning, that follows an LF or that is above the length.
fn behind_line_feeds(file: &[u8]) -> Vec<Vec<u32>> {
    let mut indexes = vec![Vec::new(), vec![0]];
    let follows = |&at: &usize| file[at - 1] == LF;
    let entries = (1..=file.len()).filter(follows);
    indexes.extend(entries.map(|at| vec![at as u32, at as u32]));
    indexes.push(vec![file.len() as u32 + 1]);
    indexes
}

/// The byte in the first record and in the second, and a third behind them.
fn send_every_byte<W: Write>(wire: &mut Wire<W>, dialect: (u8, u8)) -> io::Result<()> {
    for byte in 0..=255 {
        for (before, behind) in AROUND {
            let around = [before, &[byte], behind].concat();
            let file = [&around, &b"\r\n"[..], &around, b"\r\nz"].concat();
            send_file(wire, dialect, &file, &FEW_RECORDS, &[vec![0]])?;
        }
    }
    Ok(())
}

/// Each pair of bytes, of which most are refused before the lack of an entry is.
fn send_dialects<W: Write>(wire: &mut Wire<W>) -> io::Result<()> {
    for delimiter in 0..=255 {
        for leniencies in 0..=255 {
            let turn = usize::from(delimiter) + usize::from(leniencies);
            let file = dialect_bytes::FILES[turn % dialect_bytes::FILES.len()];
            let indexes = [vec![], vec![0], vec![9]];
            send_file(wire, (delimiter, leniencies), file, &[0, 64], &indexes)?;
        }
    }
    Ok(())
}
