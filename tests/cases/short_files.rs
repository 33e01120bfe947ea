//! Every short file over the bytes that have a role of their own.

use crate::model::dialect::DELIMITERS;
use crate::rooms::usual;
use crate::wire::Wire;
use std::io::{self, Write};

/// A byte or two of each class, in every dialect.
pub const TWELVE: &[u8; 12] = b"a ,;\t|\"\r\n\x01\x7F\x80";

/// The bytes that lead from state to state, for longer files.
pub const SIX: &[u8; 6] = b"a ,\"\r\n";

/// Strict; blanks; lf and ragged; everything.
pub const FOUR_SUMS: [u8; 4] = [0, 2, 5, 15];

pub fn send<W: Write>(wire: &mut Wire<W>) -> io::Result<()> {
    wire.section("files of up to 4 bytes of 12, in 64 dialects")?;
    for delimiter in DELIMITERS {
        for leniencies in 0..16 {
            send_all(wire, (delimiter, leniencies), TWELVE, 4)?;
        }
    }
    wire.section("files of up to 6 bytes of 6, in 4 dialects")?;
    for leniencies in FOUR_SUMS {
        send_all(wire, (b',', leniencies), SIX, 6)?;
    }
    Ok(())
}

fn send_all<W: Write>(
    wire: &mut Wire<W>,
    (delimiter, leniencies): (u8, u8),
    alphabet: &[u8],
    longest: usize,
) -> io::Result<()> {
    wire.dialect(delimiter, leniencies)?;
    let mut turn = 0;
    for_each_file(alphabet, longest, &mut |file| {
        turn += 1;
        wire.walk(file, usual(file.len(), turn))
    })
}

/// Visits the files in which a model is held to its laws, each with its dialect: up to 3 bytes of twelve in
/// all, and up to 5 of six in four.
pub fn for_each_to_hold(visit: &mut impl FnMut(&[u8], (u8, u8))) {
    let mut hold = |dialect, alphabet: &[u8], longest| {
        for_each_file(alphabet, longest, &mut |file| {
            visit(file, dialect);
            Ok(())
        })
        .expect("nothing is written");
    };
    for delimiter in DELIMITERS {
        for leniencies in 0..16 {
            hold((delimiter, leniencies), TWELVE, 3);
        }
    }
    for leniencies in FOUR_SUMS {
        hold((b',', leniencies), SIX, 5);
    }
}

/// Visits every file of up to `longest` bytes, each before those that it begins.
pub fn for_each_file(
    alphabet: &[u8],
    longest: usize,
    visit: &mut impl FnMut(&[u8]) -> io::Result<()>,
) -> io::Result<()> {
    let mut digits: Vec<usize> = Vec::new();
    loop {
        let file: Vec<u8> = digits.iter().map(|&d| alphabet[d]).collect();
        visit(&file)?;
        if digits.len() < longest {
            digits.push(0);
            continue;
        }
        while digits.last() == Some(&(alphabet.len() - 1)) {
            digits.pop();
        }
        match digits.last_mut() {
            None => return Ok(()),
            Some(last) => *last += 1,
        }
    }
}
