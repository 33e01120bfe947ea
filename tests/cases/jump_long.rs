//! Jumps in random files, whole and damaged, and in files at the size limit.

use crate::file_limit::{line, LINE};
use crate::jump_laws;
use crate::model::dialect::{Dialect, DELIMITERS};
use crate::model::jump::offsets;
use crate::model::{FILE_LIMIT, LF};
use crate::random::Random;
use crate::random_files::{all_dialects, damaged, whole_file};
use crate::wire::{file_of, Recipe, Wire};
use std::io::{self, Write};

/// For each dialect files of a few records, of a few long ones, and of some hundred; each gives a
/// whole file, a file read in another dialect and damaged ones.
const FEW: usize = 20;
const LONG: usize = 4;
const MANY: usize = 16;
const DAMAGED: usize = 3;

/// The model is held to its laws in one file of so many.
const HELD_TO_THE_LAWS: usize = 7;

/// Indexes of no file by which each file is asked.
const RANDOM_INDEXES: usize = 4;

const STRICT: (u8, u8) = (b',', 0);
const WITH_LF: (u8, u8) = (b',', 1);
const BLANKS: (u8, u8) = (b';', 2);
const UNKNOWN: (u8, u8) = (b'a', 16);

pub fn send<W: Write>(wire: &mut Wire<W>) -> io::Result<()> {
    let mut random = Random::from_seed(414);
    wire.section("jumps in random files, whole and damaged")?;
    for dialect in all_dialects() {
        for _ in 0..FEW {
            let file = whole_file(&mut random, dialect, 7);
            send_around(wire, &mut random, dialect, &file)?;
        }
    }
    wire.section("jumps in long random files, whole and damaged")?;
    for dialect in all_dialects() {
        for _ in 0..LONG {
            let file = whole_file(&mut random, dialect, 900);
            send_around(wire, &mut random, dialect, &file)?;
        }
    }
    wire.section("jumps in random files of many records, whole and damaged")?;
    for dialect in all_dialects() {
        for turn in 0..MANY {
            let file = many_records(&mut random, dialect, turn % 2 == 0);
            send_around(wire, &mut random, dialect, &file)?;
        }
    }
    wire.section("jumps in files of 16,777,216 and 16,777,217 bytes")?;
    send_limits(wire)?;
    wire.section("jumps by indexes longer than any file has")?;
    send_long_indexes(wire)
}

/// Some dozen files one behind the other, with up to some hundred records: the same one, or each time
/// another, and then most often of unequal widths.
fn many_records(random: &mut Random, dialect: (u8, u8), same: bool) -> Vec<u8> {
    let mut file = Vec::new();
    let mut one = closed(whole_file(random, dialect, 4));
    for _ in 0..30 + random.below(60) {
        file.extend(&one);
        if !same {
            one = closed(whole_file(random, dialect, 4));
        }
    }
    file
}

/// The file with a line break at its end.
fn closed(mut file: Vec<u8>) -> Vec<u8> {
    if file.last() != Some(&LF) {
        file.extend(b"\r\n");
    }
    file
}

fn send_around<W: Write>(
    wire: &mut Wire<W>,
    random: &mut Random,
    dialect: (u8, u8),
    file: &[u8],
) -> io::Result<()> {
    send_random(wire, random, dialect, file)?;
    for _ in 0..DAMAGED {
        let worse = damaged(random, file);
        send_random(wire, random, dialect, &worse)?;
    }
    let other = (random.pick(&DELIMITERS), random.below(16) as u8);
    send_random(wire, random, other, file)
}

/// Every record of a file by the index that a walk gives, which is its own if it is accepted.
pub fn send_every_record<W: Write>(
    wire: &mut Wire<W>,
    dialect: (u8, u8),
    recipe: &Recipe,
) -> io::Result<()> {
    let file = file_of(recipe);
    let records = file.iter().filter(|&&byte| byte == LF).count() as u64;
    let records: Vec<u64> = (0..=records + 1).collect();
    wire.jumps(dialect, recipe, &records, &[walked(&file, dialect)])
}

/// The index that a walk gives, as far as it comes.
pub fn walked(file: &[u8], (delimiter, leniencies): (u8, u8)) -> Vec<u32> {
    let dialect = Dialect::of(delimiter, leniencies).expect("a known dialect");
    offsets(file, dialect)
}

/// A file by the index that a walk gives and by others, at some records.
pub fn send_random<W: Write>(
    wire: &mut Wire<W>,
    random: &mut Random,
    dialect: (u8, u8),
    file: &[u8],
) -> io::Result<()> {
    if random.one_in(HELD_TO_THE_LAWS) {
        jump_laws::hold_for_file(file, dialect);
    }
    let mut indexes = vec![walked(file, dialect)];
    indexes.extend((0..RANDOM_INDEXES).map(|_| random_index(random, file)));
    let longest = 64 * indexes[0].len() + 3;
    let mut records = vec![0, 1, 63, 64];
    records.extend((0..8).map(|_| random.below(longest) as u64));
    wire.jumps(dialect, &vec![(file.to_vec(), 1)], &records, &indexes)
}

/// A few entries, most of them behind an LF.
fn random_index(random: &mut Random, file: &[u8]) -> Vec<u32> {
    let mut places: Vec<u32> = vec![0];
    let behind = (1..=file.len()).filter(|&at| file[at - 1] == LF);
    places.extend(behind.map(|at| at as u32));
    let any = [file.len() as u32, random.below(file.len() + 2) as u32];
    let far = random.next() as u32;
    (0..=random.below(4))
        .map(|_| match random.below(8) {
            0 => random.pick(&any),
            1 => far,
            _ => random.pick(&places),
        })
        .collect()
}

fn send_limits<W: Write>(wire: &mut Wire<W>) -> io::Result<()> {
    let full = FILE_LIMIT;
    // One record of as many bytes, as many records, and lines.
    send_limit(wire, STRICT, &[(b",", full)])?;
    send_limit(wire, WITH_LF, &[(b"\n", full)])?;
    send_limit(wire, STRICT, &[(&line(), full / LINE)])?;
    // A content that only the building of an index refuses, and faults at the very end.
    send_limit(wire, BLANKS, &[(b"a", full)])?;
    send_limit(wire, STRICT, &[(b"\"", 1), (b"\n", full - 1)])?;
    let lines = (&line()[..], full / LINE - 1);
    send_limit(wire, STRICT, &[lines, (b"b", LINE - 1), (b"\r", 1)])?;
    send_limit(wire, UNKNOWN, &[(b"\n", full)])
}

/// The file of these parts and the one with a byte more, by the index that a walk of the shorter one
/// gives, by none, and by entries at their lengths.
fn send_limit<W: Write>(
    wire: &mut Wire<W>,
    dialect: (u8, u8),
    parts: &[(&[u8], usize)],
) -> io::Result<()> {
    let own = |&(part, times): &(&[u8], usize)| (part.to_vec(), times);
    let mut recipe: Recipe = parts.iter().map(own).collect();
    let walked = match dialect {
        UNKNOWN => vec![0],
        known => walked(&file_of(&recipe), known),
    };
    let full = FILE_LIMIT as u32;
    let indexes = [walked, vec![], vec![full], vec![full + 1], vec![full + 2]];
    let last = FILE_LIMIT as u64;
    let records = [0, 1, 64, 2047, 2048, last - 1, last, 1 << 32, u64::MAX];
    wire.jumps(dialect, &recipe, &records, &indexes)?;
    recipe.push((b"\n".to_vec(), 1));
    wire.jumps(dialect, &recipe, &records, &indexes)
}

/// An entry more than a file can have records for, and than it can have bytes: asked for what needs
/// the last entries, and one behind them.
fn send_long_indexes<W: Write>(wire: &mut Wire<W>) -> io::Result<()> {
    let file = vec![(b"a\r\nb\r\n".to_vec(), 1)];
    for length in [FILE_LIMIT / 64 + 1, FILE_LIMIT + 1] {
        let behind = 64 * length as u64;
        let records = [0, 1, 2, behind - 64, behind - 63, behind - 1, behind];
        wire.jumps(STRICT, &file, &records, &[vec![3; length]])?;
    }
    Ok(())
}
