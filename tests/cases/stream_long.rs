//! Streams of longer files: random ones, whole and damaged, contents around their limit, and blanks
//! that are held over many calls.

use crate::content_limit::{between, fields, with_delimiter, BEFORE, BEHIND, DIALECTS, FAR_OVER};
use crate::model::stream::Plan;
use crate::model::{BLANK, CONTENT_LIMIT};
use crate::random::Random;
use crate::random_files::{all_dialects, damaged, whole_file};
use crate::sessions::{in_manner, Manner, BLOCK, FEW, LIMIT, ONE, TINY, WHOLE};
use crate::stream_laws::hold_for_file;
use crate::wire::{file_of, length_of, Recipe, Wire};
use std::io::{self, Write};

/// Tables for each dialect; each gives a whole file and two damaged ones.
const TABLES: usize = 20;
const LONG_TABLES: usize = 3;
const DAMAGED: usize = 2;

/// Sessions on each of these files.
const SESSIONS: usize = 4;

/// The model is held to its laws in one file of so many, and in one of so many long ones, since the
/// grammar takes time by the square of a field.
const HELD_TO_THE_LAWS: usize = 19;
const LONG_HELD_TO_THE_LAWS: usize = 397;
const LONG: usize = 10_000;

pub fn send<W: Write>(wire: &mut Wire<W>) -> io::Result<()> {
    let mut random = Random::from_seed(11);
    wire.section("streams of random files, whole and damaged")?;
    for dialect in all_dialects() {
        for _ in 0..TABLES {
            send_random(wire, &mut random, dialect, 7)?;
        }
    }
    wire.section("streams of long random files, whole and damaged")?;
    for dialect in all_dialects() {
        for _ in 0..LONG_TABLES {
            send_random(wire, &mut random, dialect, 900)?;
        }
    }
    wire.section("streams of contents around and far over their limit")?;
    for dialect in DIALECTS {
        for length in [
            CONTENT_LIMIT - 1,
            CONTENT_LIMIT,
            CONTENT_LIMIT + 1,
            FAR_OVER,
        ] {
            send_contents(wire, &mut random, dialect, length)?;
        }
    }
    wire.section("streams of contents around their limit, in 64 dialects")?;
    for dialect in all_dialects() {
        for kind in 0..fields(CONTENT_LIMIT).len() {
            let length = CONTENT_LIMIT + random.below(2);
            let turns = (random.below(6), random.below(BEHIND.len()));
            let field = &fields(length)[kind];
            send_content(wire, &mut random, dialect, (length, field), turns)?;
        }
    }
    wire.section("streams of blanks held over many calls")?;
    for dialect in [(b',', 2), (b';', 7), (b'\t', 10), (b'|', 15)] {
        send_held(wire, &mut random, dialect)?;
    }
    Ok(())
}

fn send_random<W: Write>(
    wire: &mut Wire<W>,
    random: &mut Random,
    dialect: (u8, u8),
    longest: usize,
) -> io::Result<()> {
    let whole = whole_file(random, dialect, longest);
    let mut files: Vec<_> = (0..DAMAGED).map(|_| damaged(random, &whole)).collect();
    files.push(whole);
    for file in files {
        let manners: Vec<_> = (0..SESSIONS).map(|_| Manner::random(random)).collect();
        send_file(wire, random, dialect, &vec![(file, 1)], &manners)?;
    }
    Ok(())
}

/// A file with a session for each manner.
pub fn send_file<W: Write>(
    wire: &mut Wire<W>,
    random: &mut Random,
    dialect: (u8, u8),
    recipe: &Recipe,
    manners: &[Manner],
) -> io::Result<()> {
    let manners: Vec<_> = manners.iter().map(|&manner| (0, manner)).collect();
    send_from(wire, random, dialect, recipe, &manners)
}

/// A file with a session for each manner, from a place on.
fn send_from<W: Write>(
    wire: &mut Wire<W>,
    random: &mut Random,
    (delimiter, leniencies): (u8, u8),
    recipe: &Recipe,
    manners: &[(usize, Manner)],
) -> io::Result<()> {
    let file = file_of(recipe);
    let one_in = if file.len() < LONG {
        HELD_TO_THE_LAWS
    } else {
        LONG_HELD_TO_THE_LAWS
    };
    if random.one_in(one_in) {
        hold_for_file(&file, (delimiter, leniencies));
    }
    let plan = Plan::of(&file, delimiter, leniencies);
    let session = |&(place, manner): &(usize, Manner)| in_manner(&plan, place, manner, random);
    let sessions: Vec<_> = manners.iter().map(session).collect();
    wire.streamed((delimiter, leniencies), recipe, &plan.out, &sessions)
}

/// Fields of this content length, each with one of what may stand before it and all that may stand
/// behind it.
fn send_contents<W: Write>(
    wire: &mut Wire<W>,
    random: &mut Random,
    dialect: (u8, u8),
    length: usize,
) -> io::Result<()> {
    for (number, field) in fields(length).iter().enumerate() {
        for turn in 0..BEHIND.len() {
            let turns = (number + turn, turn);
            send_content(wire, random, dialect, (length, field), turns)?;
        }
    }
    Ok(())
}

/// A field of this content length, with what stands before and behind it by their turns; at even
/// turns in long pieces, at the others in short ones where the limit is.
fn send_content<W: Write>(
    wire: &mut Wire<W>,
    random: &mut Random,
    dialect: (u8, u8),
    (length, field): (usize, &Recipe),
    turns: (usize, usize),
) -> io::Result<()> {
    let before = BEFORE[turns.0 % BEFORE.len()];
    let recipe = between(before, field, BEHIND[turns.1], dialect.0);
    let manner = if turns.0 % 2 == 0 {
        (0, long_pieces(random))
    } else {
        let ends = length_of(field);
        let beyond = ends / length * length.saturating_sub(CONTENT_LIMIT);
        let near = random.pick(&[1, 2, 3, 9, 66, 131]) + beyond;
        let place = before.len() + ends - near;
        (place, short_pieces(random, has_many_blanks(field)))
    };
    send_from(wire, random, dialect, &recipe, &[manner])
}

fn has_many_blanks(field: &Recipe) -> bool {
    let many = |(part, times): &(Vec<u8>, usize)| *part == [BLANK] && *times >= MANY;
    field.iter().any(many)
}

fn long_pieces(random: &mut Random) -> Manner {
    Manner {
        pieces: random.pick(&[WHOLE, LIMIT]),
        text: random.pick(&[LIMIT, LIMIT, WHOLE]),
        ends: random.pick(&[ONE, TINY]),
        rows: random.pick(&[ONE, TINY]),
    }
}

/// Little room for text in all calls; where many blanks may come out, not quite as little.
fn short_pieces(random: &mut Random, many_blanks: bool) -> Manner {
    Manner {
        pieces: random.pick(&[ONE, TINY, FEW, BLOCK, WHOLE]),
        text: if many_blanks {
            BLOCK
        } else {
            random.pick(&[ONE, TINY, FEW, BLOCK])
        },
        ends: random.pick(&[ONE, TINY]),
        rows: random.pick(&[ONE, TINY]),
    }
}

/// What stands before the field with the blanks, and what comes behind them; `,` is the dialect's
/// delimiter.
const BEFORE_HELD: [&[u8]; 4] = [b"", b" ", b"\"q\"\"\" ,", b"x,y\r\n"];
const BEHIND_HELD: [&[u8]; 16] = [
    b"", b"c", b"c d", b"cc,", b",", b",c", b"\r\n", b"\r\nc", b"\r", b"\rc", b"\n", b"\nc", b"\"",
    b"\x01", b"\x80", b"c\"",
];

/// So many blanks come out in blocks.
const MANY: usize = 1_000;

fn send_held<W: Write>(
    wire: &mut Wire<W>,
    random: &mut Random,
    dialect: (u8, u8),
) -> io::Result<()> {
    let own = |part: &[u8]| (with_delimiter(part, dialect.0), 1);
    let around = CONTENT_LIMIT - 2..=CONTENT_LIMIT + 1;
    let few = [1, 2, 3, 4, 9, 63, 64, 65, 130];
    for blanks in few.into_iter().chain(around).chain([FAR_OVER]) {
        for before in BEFORE_HELD {
            for behind in BEHIND_HELD {
                let held = (vec![BLANK], blanks);
                let recipe = vec![own(before), (b"a".to_vec(), 1), held, own(behind)];
                let manners = held_manners(random, before.len() + 1, blanks);
                send_from(wire, random, dialect, &recipe, &manners)?;
            }
        }
    }
    Ok(())
}

/// Manners for blanks that begin at a place: many are fed at once but for the last ones.
fn held_manners(random: &mut Random, begin: usize, blanks: usize) -> Vec<(usize, Manner)> {
    if blanks >= MANY {
        let place = begin + blanks - random.pick(&[1, 2, 66, 131]);
        return vec![
            (0, long_pieces(random)),
            (place, short_pieces(random, true)),
        ];
    }
    let manner = |text: &'static [usize]| Manner {
        pieces: random.pick(&[TINY, BLOCK, WHOLE]),
        text,
        ends: random.pick(&[ONE, TINY]),
        rows: random.pick(&[ONE, TINY]),
    };
    [ONE, TINY, FEW].map(manner).map(|m| (0, m)).to_vec()
}
