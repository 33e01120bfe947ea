//! Stream states put together by hand, and sessions of callers that keep no rule. Nothing is
//! expected but that the calls do no harm, that the same calls give the same, and, of a state, that
//! a piece with ample room leads to the same state and the same output wherever it is cut.

use crate::hand_states::{counter, runs, state_bytes, BYTES};
use crate::model::dialect::DELIMITERS;
use crate::model::reader::Room;
use crate::random::Random;
use crate::wire::{HandState, Wire};
use std::io::{self, Write};

const STATES: usize = 20_000;
const NUMBERED_STATES: usize = 100_000;
const UNRULY: usize = 20_000;

/// Which number of a state counts the blanks held.
const HELD: usize = 19;

pub fn send<W: Write>(wire: &mut Wire<W>) -> io::Result<()> {
    let mut random = Random::from_seed(18);
    wire.section("stream states put together by hand")?;
    for number in 0..STATES {
        let lengths = (random.below(12), random.below(40));
        let state = HandState {
            delimiter: random.pick(&DELIMITERS),
            leniencies: random.below(16) as u8,
            fed_first: &random.bytes(BYTES, lengths.0),
            seed: random.next(),
            // Every third state is hit all over, the others one, two or four times.
            hits: (number % 3 * (1 + random.below(2))) as u64,
            fed_then: &random.bytes(BYTES, lengths.1),
        };
        let cut = random.below(lengths.1 + 1);
        wire.stream_hand_state(&state, cut, some_room(&mut random))?;
    }
    wire.section("stream states put together number by number, fed with runs")?;
    for _ in 0..NUMBERED_STATES {
        send_numbered(wire, &mut random)?;
    }
    wire.section("sessions on a stream that keep no rule")?;
    for _ in 0..UNRULY {
        send_unruly(wire, &mut random)?;
    }
    Ok(())
}

fn some_room(random: &mut Random) -> Room {
    let mut places = || random.pick(&[0, 0, 1, 1, 2, 3, 7, 8, 9, 31, 64, 65, 70, 150]);
    Room {
        text: places(),
        ends: places(),
        rows: places(),
    }
}

fn send_numbered<W: Write>(wire: &mut Wire<W>, random: &mut Random) -> io::Result<()> {
    let mut numbers: Vec<u32> = state_bytes(random).iter().map(|&b| b.into()).collect();
    numbers.extend((0..16).map(|_| counter(random)));
    // One in 16 may hold many blanks, for which the driver needs much room. Most often some of those
    // held are out already, and the stream is not closed.
    if !random.one_in(16) {
        numbers[HELD] = random.below(300) as u32;
    }
    let held = numbers[HELD];
    let some = random.next() as u32 % held.max(1);
    let any = counter(random);
    numbers.push(random.pick(&[0, some, some, held, any]));
    numbers.push(random.pick(&[0, 0, 0, 0, 0, 0, 1, 255]));
    let longest = random.pick(&[20, 70, 135, 200]);
    let length = 1 + random.below(longest);
    let piece = runs(random, numbers[0] as u8, length);
    let cut = random.below(length + 1);
    wire.stream_numbered_state(&numbers, &piece, cut, some_room(random))
}

/// Pieces that do not go on from what was taken, and closes anywhere among them.
fn send_unruly<W: Write>(wire: &mut Wire<W>, random: &mut Random) -> io::Result<()> {
    let mut calls = Vec::new();
    for _ in 0..3 + random.below(12) {
        let longest = random.pick(&[3, 10, 40, 200]);
        let length = random.below(longest);
        let kept = |piece: Vec<u8>, closes: bool| if closes { None } else { Some(piece) };
        // Blanks and text alone are seldom refused, so that later calls have something to do.
        let bytes = random.pick(&[BYTES, b"ab  ,;|", b"a  "]);
        let piece = kept(random.bytes(bytes, length), random.one_in(9));
        calls.push((piece, some_room(random)));
    }
    let dialect = (random.pick(b",,;\t|a"), random.below(17) as u8);
    wire.unruly(dialect, &calls)
}
