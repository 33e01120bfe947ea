//! Many plain rows with one among them that is not like them, at every kind of place in a block of
//! 64 bytes.

use crate::content_limit::{with_delimiter, DIALECTS};
use crate::jump_long;
use crate::model::{BLANK, CONTENT_LIMIT, QUOTE};
use crate::random::Random;
use crate::random_files::{all_dialects, random_pieces};
use crate::rooms::around;
use crate::sessions::Manner;
use crate::stream_long;
use crate::wire::{length_of, Recipe, Wire};
use std::io::{self, Write};

/// Where in a block the other row begins.
const PLACES: [usize; 9] = [0, 1, 7, 8, 31, 32, 33, 62, 63];
const BLOCK: usize = 64;

/// What stands in a row's field in the place of its own content; `,` is the dialect's delimiter
/// here and below.
const FIELDS: [&[u8]; 17] = [
    b"\"ab\"",
    b"\"c\"\"d\"",
    b"\"\"\"\"",
    b"\"\"",
    b"\"e\r\nf\"",
    b"\",\n\"",
    b"\"open",
    b"g\"h",
    b"\"i\"j",
    b"k\x01",
    b"\"l\x7F\"",
    b"\x80",
    b"\t",
    b" m ",
    b" \"n\" ",
    b"o\rp",
    b"\n",
];

/// What ends the other row, in the place of what ends the plain ones.
const BREAKS: [&[u8]; 7] = [
    b"\r\n",
    b"\n",
    b"\r",
    b"\n\n",
    b"\r\r\n",
    b"\n\r\n",
    b"\r\n\r\n",
];

/// The sum that has the leniency "lf" in it.
const LF: u8 = 1;

/// Plain rows of a number of columns, what ends each, and how many of them stand before and behind
/// the other one.
struct Rows {
    fields: Vec<&'static [u8]>,
    line_break: &'static [u8],
    times: usize,
}

pub fn send<W: Write>(wire: &mut Wire<W>) -> io::Result<()> {
    let mut random = Random::from_seed(64);
    wire.section("many plain rows with another among them, in 64 dialects")?;
    for_each_other(&mut |dialect, trial| send_trial(wire, &mut random, dialect, trial))?;
    wire.section("many plain rows with a field around the content limit among them")?;
    let mut turn = 0;
    for_each_long_field(&mut |dialect, trial| {
        turn += 1;
        send_cut(wire, &mut random, dialect, trial, turn % CUTS)
    })
}

/// The same files by the stream.
pub fn send_streams<W: Write>(wire: &mut Wire<W>) -> io::Result<()> {
    let mut random = Random::from_seed(65);
    wire.section("streams of many plain rows with another among them, in 64 dialects")?;
    for_each_other(&mut |dialect, trial| send_stream(wire, &mut random, dialect, trial))?;
    wire.section("streams of many plain rows with a field around the content limit")?;
    for_each_long_field(&mut |dialect, trial| send_stream(wire, &mut random, dialect, trial))
}

/// Those without such fields by the index that a walk gives, each record of them.
pub fn send_jumps<W: Write>(wire: &mut Wire<W>) -> io::Result<()> {
    wire.section("jumps in many plain rows with another among them, in 64 dialects")?;
    for_each_other(&mut |dialect, trial| jump_long::send_every_record(wire, dialect, &trial.recipe))
}

type Visit<'a> = &'a mut dyn FnMut((u8, u8), &Trial) -> io::Result<()>;

fn for_each_other(visit: Visit) -> io::Result<()> {
    for (number, dialect) in all_dialects().enumerate() {
        let mut all: Vec<_> = shapes(b"\r\n").into();
        if dialect.1 & LF != 0 {
            all.extend(shapes(b"\n"));
        }
        for rows in all {
            for (turn, other) in rows.others().into_iter().enumerate() {
                let place = PLACES[(number + turn) % PLACES.len()];
                visit(dialect, &rows.around(place, &other, dialect.0))?;
            }
        }
    }
    Ok(())
}

fn for_each_long_field(visit: Visit) -> io::Result<()> {
    for dialect in DIALECTS {
        for place in PLACES {
            for other in long_fields() {
                let rows = &shapes(b"\r\n")[1];
                let row = rows.with_field(1, &other);
                visit(dialect, &rows.around(place, &row, dialect.0))?;
            }
        }
    }
    Ok(())
}

fn shapes(line_break: &'static [u8]) -> [Rows; 3] {
    let rows = |fields, times| Rows {
        fields,
        line_break,
        times,
    };
    [
        rows(vec![&b"a"[..]], 90),
        rows(vec![b"ab", b"", b"cde"], 30),
        rows(vec![b"a"; 70], 3),
    ]
}

/// A file, and where in it the other row begins and ends.
struct Trial {
    recipe: Recipe,
    begins: usize,
    ends: usize,
    length: usize,
}

impl Rows {
    fn join(&self, fields: &[&[u8]]) -> Vec<u8> {
        fields.join(&b","[..])
    }

    /// A row with another field in a column.
    fn with_field(&self, column: usize, field: &Recipe) -> Recipe {
        let mut row = vec![(self.join(&self.fields[..column]), 1)];
        row.push((b",".to_vec(), column.min(1)));
        row.extend(field.clone());
        let behind = &self.fields[column + 1..];
        row.push((b",".to_vec(), behind.len().min(1)));
        row.push((self.join(behind), 1));
        row.push((self.line_break.to_vec(), 1));
        row
    }

    /// Rows that are not like these: of other widths, with other breaks, and with other fields in
    /// the first, a middle and the last column.
    fn others(&self) -> Vec<Recipe> {
        let width = self.fields.len();
        let row = self.join(&self.fields);
        let whole = |parts: &[&[u8]]| vec![(parts.concat(), 1)];
        let end = self.line_break;
        let mut others = vec![
            whole(&[end]),
            whole(&[&self.join(&self.fields[1..]), end]),
            whole(&[&row, b",", end]),
            whole(&[b",", &row, end]),
            whole(&[&row, b",", &row, end]),
            whole(&[&b",".repeat(64), end]),
        ];
        let other_breaks = BREAKS.iter().filter(|other| **other != end);
        others.extend(other_breaks.map(|other| whole(&[&row, other])));
        let mut columns = vec![0, width / 2, width - 1];
        columns.dedup();
        for column in columns {
            let field = |field: &&[u8]| self.with_field(column, &vec![(field.to_vec(), 1)]);
            others.extend(FIELDS.iter().map(field));
        }
        others
    }

    /// The rows with another among them that begins at this place of a block.
    fn around(&self, place: usize, other: &Recipe, delimiter: u8) -> Trial {
        let row = [&self.join(&self.fields), self.line_break].concat();
        let first = row.len() * (self.times + 1);
        let filling = (BLOCK + place - first % BLOCK) % BLOCK;
        let mut recipe = vec![(vec![b'h'], filling), (row.clone(), self.times + 1)];
        let begins = length_of(&recipe);
        recipe.extend(other.clone());
        let ends = length_of(&recipe);
        recipe.push((row, self.times));
        let own = |(part, times): &(Vec<u8>, usize)| (with_delimiter(part, delimiter), *times);
        Trial {
            begins,
            ends,
            length: length_of(&recipe),
            recipe: recipe.iter().map(own).collect(),
        }
    }
}

/// A file at once, cut within the other row and one byte behind it, and in a few pieces.
fn send_trial<W: Write>(
    wire: &mut Wire<W>,
    random: &mut Random,
    dialect: (u8, u8),
    trial: &Trial,
) -> io::Result<()> {
    (0..CUTS).try_for_each(|cut| send_cut(wire, random, dialect, trial, cut))
}

const CUTS: usize = 3;

/// A file in the first, the second or the third of these ways.
fn send_cut<W: Write>(
    wire: &mut Wire<W>,
    random: &mut Random,
    dialect: (u8, u8),
    trial: &Trial,
    way: usize,
) -> io::Result<()> {
    let Trial {
        begins,
        ends,
        length,
        ..
    } = *trial;
    let cut = begins + random.below(ends - begins);
    let pieces = match way {
        0 => vec![length],
        1 => vec![cut, ends + 1 - cut, length - ends - 1],
        _ => random_pieces(random, length),
    };
    let rooms = around(length, random.below(70));
    wire.long(dialect, &trial.recipe, &pieces, rooms)
}

fn send_stream<W: Write>(
    wire: &mut Wire<W>,
    random: &mut Random,
    dialect: (u8, u8),
    trial: &Trial,
) -> io::Result<()> {
    let manners = [Manner::around_blocks(random)];
    stream_long::send_file(wire, random, dialect, &trial.recipe, &manners)
}

/// Fields whose contents are as long as may be, a byte shorter or a byte longer, in some dialect at
/// least.
fn long_fields() -> Vec<Recipe> {
    let some = |byte: u8, times: usize| (vec![byte], times);
    let quote = || some(QUOTE, 1);
    let mut fields = Vec::new();
    for length in CONTENT_LIMIT - 1..=CONTENT_LIMIT + 1 {
        let pairs = (b"abcdefg\"\"".to_vec(), length / 8);
        fields.extend([
            vec![some(b'a', length)],
            vec![quote(), some(b'a', length), quote()],
            vec![quote(), pairs, some(b'a', length % 8), quote()],
            vec![quote(), some(QUOTE, 2 * length), quote()],
            vec![quote(), some(b'\n', length), quote()],
            vec![some(BLANK, 70), some(b'a', length), some(BLANK, 70)],
            vec![some(b'a', length - 65), some(BLANK, 64), some(b'a', 1)],
            vec![some(b'a', length - 64), some(BLANK, 64)],
            vec![
                some(BLANK, 9),
                quote(),
                some(b'a', length),
                quote(),
                some(BLANK, 9),
            ],
            vec![some(0x80, length)],
        ]);
    }
    fields
}
