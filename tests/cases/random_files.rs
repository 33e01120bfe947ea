//! Files made from random tables under each dialect, some of them damaged.

use crate::model::dialect::{leniency, DELIMITERS};
use crate::model::reader::check;
use crate::model::table::Table;
use crate::model::{BLANK, CR, LF, QUOTE, TAB};
use crate::random::Random;
use crate::rooms::usual;
use crate::wire::Wire;
use std::io::{self, Write};

/// Tables for each dialect; each gives a whole file, a file read in another dialect and three
/// damaged ones.
const TABLES: usize = 20;
const DAMAGED: usize = 3;

/// Long files for each dialect, each whole and damaged.
const LONG_TABLES: usize = 3;

pub fn send<W: Write>(wire: &mut Wire<W>) -> io::Result<()> {
    let mut random = Random::from_seed(4180);
    wire.section("random files, whole and damaged")?;
    for dialect in all_dialects() {
        for _ in 0..TABLES {
            send_walked(wire, &mut random, dialect)?;
        }
    }
    wire.section("long random files, whole and damaged")?;
    for dialect in all_dialects() {
        for _ in 0..LONG_TABLES {
            send_long(wire, &mut random, dialect)?;
        }
    }
    Ok(())
}

pub fn all_dialects() -> impl Iterator<Item = (u8, u8)> {
    let sums = 0..=leniency::ALL;
    sums.flat_map(|leniencies| DELIMITERS.iter().map(move |&d| (d, leniencies)))
}

fn send_walked<W: Write>(
    wire: &mut Wire<W>,
    random: &mut Random,
    (delimiter, leniencies): (u8, u8),
) -> io::Result<()> {
    let file = whole_file(random, (delimiter, leniencies), 7);
    wire.dialect(delimiter, leniencies)?;
    wire.walk(&file, usual(file.len(), random.below(8)))?;
    for _ in 0..DAMAGED {
        let worse = damaged(random, &file);
        wire.walk(&worse, usual(worse.len(), random.below(8)))?;
    }
    wire.dialect(random.pick(&DELIMITERS), random.below(16) as u8)?;
    wire.walk(&file, usual(file.len(), random.below(8)))
}

fn send_long<W: Write>(
    wire: &mut Wire<W>,
    random: &mut Random,
    dialect: (u8, u8),
) -> io::Result<()> {
    let file = whole_file(random, dialect, 900);
    let worse = damaged(random, &file);
    for file in [file, worse] {
        let pieces = random_pieces(random, file.len());
        let rooms = usual(file.len(), random.below(8));
        wire.long(dialect, &vec![(file, 1)], &pieces, rooms)?;
    }
    Ok(())
}

/// A few pieces, some of them empty, that make up a length.
pub fn random_pieces(random: &mut Random, length: usize) -> Vec<usize> {
    let mut pieces = Vec::new();
    let mut left = length;
    while pieces.len() < 5 && left > 0 {
        let piece = random.below(left.min(2_000) + 1);
        pieces.push(piece);
        left -= piece;
    }
    pieces.push(left);
    pieces
}

/// A file that the dialect takes, made from a random table; the model is held to that table.
pub fn whole_file(
    random: &mut Random,
    (delimiter, leniencies): (u8, u8),
    longest: usize,
) -> Vec<u8> {
    let style = Style {
        delimiter,
        leniencies,
    };
    let records = style.random_records(random, longest);
    let file = style.render(random, &records);
    let (answer, table) = check(&file, delimiter, leniencies);
    assert_eq!(answer.refusal, 0, "the file {:?}", file);
    assert_eq!(table, Some(Table::of(&records)), "the file {:?}", file);
    file
}

pub fn damaged(random: &mut Random, file: &[u8]) -> Vec<u8> {
    const HARMFUL: &[u8] = b"a ,;\t|\"\"\r\n\n\x00\x1F\x7F\x80\xFF";
    let mut file = file.to_vec();
    for _ in 0..=random.below(2) {
        let at = random.below(file.len() + 1);
        let byte = random.pick(HARMFUL);
        match random.below(4) {
            0 if at < file.len() => file[at] = byte,
            1 if at < file.len() => drop(file.remove(at)),
            2 if random.one_in(3) => file.truncate(at),
            _ => file.insert(at, byte),
        }
    }
    file
}

/// How a dialect may spell a table.
struct Style {
    delimiter: u8,
    leniencies: u8,
}

impl Style {
    fn allows(&self, leniency: u8) -> bool {
        self.leniencies & leniency != 0
    }

    fn random_records(&self, random: &mut Random, longest: usize) -> Vec<Vec<Vec<u8>>> {
        let mut contents: Vec<u8> = b"abz09.-  ,;|\"\"\r\n".to_vec();
        contents.push(self.delimiter);
        if self.allows(leniency::BYTES) {
            contents.extend([TAB, 0x80, 0xC3, 0xFF]);
        }
        let columns = 1 + random.below(4);
        let mut records = Vec::new();
        for _ in 0..=random.below(5) {
            let ragged = self.allows(leniency::RAGGED) && random.one_in(2);
            let columns = if ragged { 1 + random.below(5) } else { columns };
            let mut record = Vec::new();
            for _ in 0..columns {
                // Most contents are short words, so that bare fields are not rare.
                let from = if random.one_in(2) {
                    &b"abz 09"[..]
                } else {
                    &contents
                };
                let length = random.below(longest);
                record.push(random.bytes(from, length));
            }
            records.push(record);
        }
        records
    }

    fn render(&self, random: &mut Random, records: &[Vec<Vec<u8>>]) -> Vec<u8> {
        let mut file = Vec::new();
        let last = records.len() - 1;
        for (number, record) in records.iter().enumerate() {
            let start = file.len();
            for (column, content) in record.iter().enumerate() {
                if column > 0 {
                    file.push(self.delimiter);
                }
                self.render_field(random, content, &mut file);
            }
            // Without its break an empty last record would not be there at all.
            let must_break = number < last || file.len() == start;
            if must_break || random.one_in(2) {
                let lf = self.allows(leniency::LF) && random.one_in(2);
                file.extend_from_slice(if lf { b"\n" } else { b"\r\n" });
            }
        }
        file
    }

    fn render_field(&self, random: &mut Random, content: &[u8], file: &mut Vec<u8>) {
        let blanks = self.allows(leniency::BLANKS);
        let pad = |random: &mut Random| vec![BLANK; if blanks { random.below(3) } else { 0 }];
        let at_edge = content.first() == Some(&BLANK) || content.last() == Some(&BLANK);
        let special = |b: &u8| [self.delimiter, QUOTE, CR, LF].contains(b);
        file.extend(pad(random));
        if content.iter().any(special) || (blanks && at_edge) || random.one_in(4) {
            file.push(QUOTE);
            for &byte in content {
                file.extend(vec![byte; if byte == QUOTE { 2 } else { 1 }]);
            }
            file.push(QUOTE);
        } else {
            file.extend_from_slice(content);
        }
        file.extend(pad(random));
    }
}
