//! Streams of short files: some at every cut and with every small room, the others at one cut and
//! with one room each.

use crate::dialect_bytes;
use crate::every_byte::AROUND;
use crate::model::dialect::DELIMITERS;
use crate::model::reader::Room;
use crate::model::stream::Plan;
use crate::random::Random;
use crate::random_files::all_dialects;
use crate::sessions::{by_first_call, in_two};
use crate::short_files::{for_each_file, FOUR_SUMS, SIX, TWELVE};
use crate::wire::Wire;
use std::io::{self, Write};

/// Rooms have up to this many places in each buffer.
const PLACES: usize = 3;

/// Files of the six bytes that are tried at every cut have up to this many.
const EVERY_CUT: usize = 4;

pub fn send<W: Write>(wire: &mut Wire<W>) -> io::Result<()> {
    wire.section("streams of up to 4 bytes of 6, every cut and room, in 4 dialects")?;
    for leniencies in FOUR_SUMS {
        for_each_file(SIX, EVERY_CUT, &mut |file| {
            send_every_cut(wire, (b',', leniencies), file)
        })?;
    }
    let mut random = Random::from_seed(6);
    wire.section("streams of 5 and 6 bytes of 6, in 4 dialects")?;
    for leniencies in FOUR_SUMS {
        for_each_file(SIX, 6, &mut |file| {
            if file.len() <= EVERY_CUT {
                return Ok(());
            }
            send_one_cut(wire, (b',', leniencies), file, &mut random)
        })?;
    }
    wire.section("streams of up to 4 bytes of 12, in 64 dialects")?;
    for dialect in all_dialects() {
        for_each_file(TWELVE, 4, &mut |file| {
            send_one_cut(wire, dialect, file, &mut random)
        })?;
    }
    wire.section("streams of every byte in every state, in 64 dialects")?;
    for dialect in all_dialects() {
        for byte in 0..=255 {
            for (before, behind) in AROUND {
                let file = [before, &[byte], behind].concat();
                send_one_cut(wire, dialect, &file, &mut random)?;
            }
        }
    }
    wire.section("streams in all 65,536 pairs of dialect bytes")?;
    send_dialects(wire, &mut random)
}

fn send_every_cut<W: Write>(
    wire: &mut Wire<W>,
    (delimiter, leniencies): (u8, u8),
    file: &[u8],
) -> io::Result<()> {
    let plan = Plan::of(file, delimiter, leniencies);
    let mut sessions = Vec::new();
    for cut in 0..=file.len() {
        for room in every_room() {
            let turn = cut + room.text + room.ends + room.rows;
            sessions.push(in_two(&plan, cut, room, turn));
        }
    }
    let recipe = vec![(file.to_vec(), 1)];
    wire.streamed((delimiter, leniencies), &recipe, &plan.out, &sessions)
}

fn every_room() -> impl Iterator<Item = Room> {
    (0..(PLACES + 1).pow(3)).map(|number| Room {
        text: number % (PLACES + 1),
        ends: number / (PLACES + 1) % (PLACES + 1),
        rows: number / (PLACES + 1).pow(2),
    })
}

fn random_room(random: &mut Random) -> Room {
    Room {
        text: random.below(PLACES + 1),
        ends: random.below(PLACES + 1),
        rows: random.below(PLACES + 1),
    }
}

fn send_one_cut<W: Write>(
    wire: &mut Wire<W>,
    (delimiter, leniencies): (u8, u8),
    file: &[u8],
    random: &mut Random,
) -> io::Result<()> {
    let plan = Plan::of(file, delimiter, leniencies);
    let cut = random.below(file.len() + 1);
    let session = in_two(&plan, cut, random_room(random), random.below(4));
    let recipe = vec![(file.to_vec(), 1)];
    wire.streamed((delimiter, leniencies), &recipe, &plan.out, &[session])
}

/// Each pair of bytes with a piece, an empty piece and the close as the first call.
fn send_dialects<W: Write>(wire: &mut Wire<W>, random: &mut Random) -> io::Result<()> {
    for delimiter in 0..=255 {
        for leniencies in 0..=255 {
            let file = random.pick(&dialect_bytes::FILES);
            let is_bad = !DELIMITERS.contains(&delimiter) || leniencies > 15;
            let plan = Plan::of(file, delimiter, leniencies);
            let mut first = vec![Some(file.len()), Some(0)];
            // In a good dialect, to close with bytes left would break the rule.
            if is_bad || file.is_empty() {
                first.push(None);
            }
            let session = |&offered| by_first_call(&plan, offered, random_room(random));
            let sessions: Vec<_> = first.iter().map(session).collect();
            let recipe = vec![(file.to_vec(), 1)];
            wire.streamed((delimiter, leniencies), &recipe, &plan.out, &sessions)?;
        }
    }
    Ok(())
}
