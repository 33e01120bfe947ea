//! Contents at their limit and a byte over it in every form, where they meet every other fault.

use crate::model::{BLANK, CONTENT_LIMIT, QUOTE};
use crate::random::Random;
use crate::random_files::{all_dialects, random_pieces};
use crate::rooms::usual;
use crate::wire::{length_of, Recipe, Wire};
use std::io::{self, Write};

pub const DIALECTS: [(u8, u8); 6] = [
    (b',', 0),
    (b',', 3),
    (b',', 4),
    (b';', 10),
    (b'\t', 2),
    (b'|', 15),
];

/// A length far over the limit.
pub const FAR_OVER: usize = 70_000;

/// What stands before the field; `,` is the dialect's delimiter here and below.
pub const BEFORE: [&str; 3] = ["", "x,y\r\n", "x\r\n"];

/// What stands behind the field.
pub const BEHIND: [&str; 15] = [
    "", ",", ",b", "\r\n", "\r\nb", "\r\n\r\n", "\n", "\nb", "\r", "\rb", "\x01", "\"", "b", " b",
    " \"",
];

pub fn send<W: Write>(wire: &mut Wire<W>) -> io::Result<()> {
    let mut random = Random::from_seed(65_535);
    wire.section("contents at their limit and a byte over it")?;
    for dialect in DIALECTS {
        for length in [CONTENT_LIMIT, CONTENT_LIMIT + 1] {
            for field in fields(length) {
                for before in BEFORE {
                    for behind in BEHIND {
                        let recipe = between(before, &field, behind, dialect.0);
                        send_one(wire, &mut random, dialect, &recipe)?;
                    }
                }
            }
        }
        let long = vec![(vec![b'a'], CONTENT_LIMIT + 1)];
        let two = [long.clone(), vec![(vec![dialect.0], 1)], long].concat();
        send_one(wire, &mut random, dialect, &two)?;
        // More blanks than a content may have, which are dropped, or belong to it.
        let blanks = vec![(b"a".to_vec(), 1), (vec![BLANK], FAR_OVER)];
        for behind in BEHIND {
            let recipe = between("", &blanks, behind, dialect.0);
            send_one(wire, &mut random, dialect, &recipe)?;
        }
    }
    wire.section("contents at their limit and a byte over it, in 64 dialects")?;
    for (number, dialect) in all_dialects().enumerate() {
        for length in [CONTENT_LIMIT, CONTENT_LIMIT + 1] {
            for (turn, field) in fields(length).iter().enumerate() {
                let before = BEFORE[(number + turn) % BEFORE.len()];
                let behind = BEHIND[(number + length + turn) % BEHIND.len()];
                let recipe = between(before, field, behind, dialect.0);
                send_one(wire, &mut random, dialect, &recipe)?;
            }
        }
    }
    Ok(())
}

/// A field with what stands before and behind it, in a dialect of this delimiter.
pub fn between(before: &str, field: &Recipe, behind: &str, delimiter: u8) -> Recipe {
    let own = |part: &str| (with_delimiter(part.as_bytes(), delimiter), 1);
    let mut recipe = vec![own(before)];
    recipe.extend(field.clone());
    recipe.push(own(behind));
    recipe
}

fn send_one<W: Write>(
    wire: &mut Wire<W>,
    random: &mut Random,
    dialect: (u8, u8),
    recipe: &Recipe,
) -> io::Result<()> {
    let length = length_of(recipe);
    // The last three bytes come one by one: faults at the field's end are found there.
    let mut pieces = random_pieces(random, length - 3);
    pieces.extend([1, 1, 1]);
    wire.long(dialect, recipe, &pieces, usual(length, random.below(8)))
}

/// Fields whose contents have this many bytes, in some dialect at least.
pub fn fields(length: usize) -> Vec<Recipe> {
    let some = |byte: u8, times: usize| (vec![byte], times);
    let quote = || some(QUOTE, 1);
    let blanks = || some(BLANK, 3);
    vec![
        vec![some(b'a', length)],
        vec![some(0x80, length)],
        vec![quote(), some(b'a', length), quote()],
        vec![quote(), some(QUOTE, 2 * length), quote()],
        vec![quote(), some(b'\n', length), quote()],
        vec![quote(), some(b'a', length)],
        vec![blanks(), some(b'a', length)],
        vec![some(b'a', length), blanks()],
        vec![blanks(), quote(), some(b'a', length), quote(), blanks()],
        vec![quote(), blanks(), some(b'a', length - 6), blanks(), quote()],
        vec![some(b'a', 1), some(BLANK, length - 2), some(b'a', 1)],
        vec![some(b'a', 1), some(BLANK, length - 1)],
        vec![some(BLANK, length)],
    ]
}

/// The bytes, with the delimiter in the place of every comma.
pub fn with_delimiter(part: &[u8], delimiter: u8) -> Vec<u8> {
    let own = |&b: &u8| if b == b',' { delimiter } else { b };
    part.iter().map(own).collect()
}
