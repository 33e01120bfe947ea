//! The timed files: the same bytes at each run, whole rows, as many as fit in 16 MiB.

use crate::ordinary::CONTENT_LIMIT;

pub const LIMIT: usize = 16_777_216;

/// A timed file: its name in the table, how it is made, and its refusal with line, column and byte.
pub struct Input {
    pub name: &'static str,
    pub make: fn() -> Vec<u8>,
    pub refused: [u32; 4],
}

pub const SHORT: &str = "short rows";
pub const QUOTED: &str = "short rows, a field quoted";
pub const REMARKS: &str = "long remarks";
pub const BROKEN: &str = "long remarks, much quoted";
pub const QUOTES: &str = "only quotes";
pub const LINES: &str = "lines of quotes";
pub const FAULT: &str = "fault in the first row";

pub const INPUTS: [Input; 7] = [
    Input {
        name: SHORT,
        make: || rows(LIMIT, "", short_row),
        refused: [0, 0, 0, 0],
    },
    Input {
        name: QUOTED,
        make: || rows(LIMIT, "", quoted_row),
        refused: [0, 0, 0, 0],
    },
    Input {
        name: REMARKS,
        make: || rows(LIMIT, "", |dice| remark_row(dice, 60)),
        refused: [0, 0, 0, 0],
    },
    Input {
        name: BROKEN,
        make: || rows(LIMIT, "", |dice| remark_row(dice, 24)),
        refused: [0, 0, 0, 0],
    },
    Input {
        name: QUOTES,
        make: || vec![b'"'; LIMIT],
        refused: [9, 1, 1, 0],
    },
    Input {
        name: LINES,
        make: || rows(LIMIT, "", quotes_row),
        refused: [0, 0, 0, 0],
    },
    Input {
        name: FAULT,
        make: || rows(LIMIT, "a\"b\r\n", short_row),
        refused: [4, 1, 2, 1],
    },
];

/// Short rows of at most so many bytes, to be fed in small pieces.
pub fn short_rows(limit: usize) -> Vec<u8> {
    rows(limit, "", short_row)
}

const NAMES: [&str; 8] = [
    "Outer Roads",
    "Gate 4",
    "Middle Bank",
    "N Spit",
    "Wreck",
    "Harbour",
    "Sand West",
    "Fairway",
];
const STATES: [&str; 5] = ["lit", "dark", "adrift", "in dock", "lit"];
const WORDS: [&str; 12] = [
    "buoy", "drifted", "north", "of", "the", "charted", "place", "chain", "replaced", "light",
    "seen", "again",
];

/// A small generator of numbers (xorshift), so that no two rows in turn are alike.
struct Dice(u32);

impl Dice {
    fn below(&mut self, n: usize) -> usize {
        self.0 ^= self.0 << 13;
        self.0 ^= self.0 >> 17;
        self.0 ^= self.0 << 5;
        self.0 as usize % n
    }

    fn of<'a>(&mut self, list: &[&'a str]) -> &'a str {
        list[self.below(list.len())]
    }

    /// Latitude and longitude.
    fn position(&mut self) -> String {
        format!(
            "{}.{:04},{}.{:03}",
            50 + self.below(9),
            self.below(10_000),
            self.below(20),
            self.below(1_000)
        )
    }
}

/// So many numbers below n.
pub fn at_random(count: usize, n: usize) -> Vec<usize> {
    let mut dice = Dice(2_463_534_242);
    (0..count).map(|_| dice.below(n)).collect()
}

fn rows(limit: usize, front: &str, row: fn(&mut Dice) -> String) -> Vec<u8> {
    let mut dice = Dice(2_463_534_242);
    let mut file = front.as_bytes().to_vec();
    loop {
        let next = row(&mut dice);
        if file.len() + next.len() > limit {
            return file;
        }
        file.extend_from_slice(next.as_bytes());
    }
}

fn short_row(dice: &mut Dice) -> String {
    let (number, name) = (dice.below(10_000), dice.of(&NAMES));
    format!(
        "{number},{name},{},{}\r\n",
        dice.position(),
        dice.of(&STATES)
    )
}

fn quoted_row(dice: &mut Dice) -> String {
    let (number, name, position) = (dice.below(10_000), dice.of(&NAMES), dice.position());
    format!(
        "{number},\"{name}, {}\",{position},{}\r\n",
        dice.below(40),
        dice.of(&STATES)
    )
}

/// A few plain fields and a quoted remark of 100 to 2,000 bytes, in which one word of so many stands between
/// quotes of its own, one ends a line, and three end in a comma.
fn remark_row(dice: &mut Dice, words: usize) -> String {
    let (number, name, position) = (dice.below(10_000), dice.of(&NAMES), dice.position());
    let length = 100 + dice.below(1_880);
    let mut remark = String::new();
    while remark.len() < length {
        let word = dice.of(&WORDS);
        match dice.below(words) {
            0 => remark.push_str(&format!("\"\"{word}\"\" ")),
            1 => remark.push_str(&format!("{word}.\r\n")),
            2..=4 => remark.push_str(&format!("{word}, ")),
            _ => remark.push_str(&format!("{word} ")),
        }
    }
    format!("{number},{name},{position},\"{remark}\"\r\n")
}

/// One field of nothing but quotes: a content of 1 to as many as may be, each written twice.
fn quotes_row(dice: &mut Dice) -> String {
    let content = 1 + dice.below(CONTENT_LIMIT);
    format!("\"{}\"\r\n", "\"\"".repeat(content))
}
