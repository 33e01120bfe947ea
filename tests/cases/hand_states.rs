//! Check states put together by hand. Nothing is expected of them but that they do no harm, that
//! the same calls give the same answers, and that a piece leads to the same state wherever it is
//! cut.

use crate::content_limit::with_delimiter;
use crate::model::dialect::DELIMITERS;
use crate::random::Random;
use crate::wire::{HandState, Wire};
use std::io::{self, Write};

const STATES: usize = 6_000;
const NUMBERED_STATES: usize = 200_000;

/// What states put together by hand are fed.
pub const BYTES: &[u8] = b"aab  ,;\t|\"\"\r\n\n\x01\x80";

pub fn send<W: Write>(wire: &mut Wire<W>) -> io::Result<()> {
    wire.section("check states put together by hand")?;
    let mut random = Random::from_seed(17);
    for number in 0..STATES {
        let lengths = (random.below(12), random.below(40));
        let state = HandState {
            delimiter: random.pick(&DELIMITERS),
            leniencies: random.below(16) as u8,
            fed_first: &random.bytes(BYTES, lengths.0),
            seed: random.next(),
            // Every third state is hit all over, the others one, two or four times.
            hits: (number % 3 * (1 + random.below(2))) as u64,
            fed_then: &random.bytes(BYTES, lengths.1),
        };
        wire.hand_state(&state)?;
    }
    send_numbered(wire, &mut random)
}

/// States of numbers chosen one by one, each fed a piece that is made of runs.
fn send_numbered<W: Write>(wire: &mut Wire<W>, random: &mut Random) -> io::Result<()> {
    wire.section("check states put together number by number, fed with runs")?;
    for _ in 0..NUMBERED_STATES {
        let mut numbers: Vec<u32> = state_bytes(random).iter().map(|&b| b.into()).collect();
        numbers.extend((0..16).map(|_| counter(random)));
        let longest = random.pick(&[20, 70, 135, 200]);
        let length = 1 + random.below(longest);
        let piece = runs(random, numbers[0] as u8, length);
        wire.numbered_state(&numbers, &piece, random.below(length + 1))?;
    }
    Ok(())
}

/// Delimiter, leniencies, refusal, form, begun, and the four leniencies used: mostly such as occur.
pub fn state_bytes(random: &mut Random) -> [u8; 9] {
    const DELIMITERS: &[u8] = b",,,;;\t\t||\r\n\" a\x00\x80";
    let any = random.next() as u8;
    let refusal = random.below(18) as u8;
    let mut bytes = [
        random.pick(DELIMITERS),
        random.below(16) as u8,
        random.pick(&[0, 0, 0, 0, 0, 0, 0, refusal]),
        random.pick(&[0, 1, 2, 3, 4, 5, 6, 7, 8, 255]),
        random.below(2) as u8,
        random.below(2) as u8,
        random.below(2) as u8,
        random.below(2) as u8,
        random.below(2) as u8,
    ];
    if random.one_in(4) {
        bytes[random.below(9)] = any;
    }
    bytes
}

/// A small number, one at or a little below a limit, or any.
pub fn counter(random: &mut Random) -> u32 {
    const EDGES: [u32; 11] = [
        70,
        255,
        65_534,
        65_535,
        65_536,
        16_777_215,
        16_777_216,
        16_777_217,
        16_777_218,
        u32::MAX / 2,
        u32::MAX,
    ];
    let edge = random.pick(&EDGES);
    match random.below(8) {
        0..=3 => random.pick(&[0, 1, 2, 3, 5, 60]),
        4 => edge,
        5 | 6 => edge - random.below(70) as u32,
        _ => random.next() as u32,
    }
}

/// A piece of this length made of runs and rows, with now and then a byte of its own.
pub fn runs(random: &mut Random, delimiter: u8, length: usize) -> Vec<u8> {
    const UNITS: [&[u8]; 14] = [
        b"a",
        b"abc",
        b" ",
        b"\"\"",
        b"\n",
        b"\r\n",
        b",",
        b"a,b\r\n",
        b"ab,,c\r\n",
        b"a\n",
        b"\"a\",b\r\n",
        b"x \x80\t",
        b"\"\"a\n",
        b"\r",
    ];
    let mut piece = Vec::new();
    while piece.len() < length {
        let unit = with_delimiter(random.pick(&UNITS), delimiter);
        let run = random.pick(&[1, 1, 2, 7, 8, 9, 16, 33, 65]);
        piece.extend(unit.iter().copied().cycle().take(run));
        piece.push(random.pick(b"aab  \"\",\n\r\x01"));
    }
    piece.truncate(length);
    piece
}
