//! Prints one column of a file from standard input, as `column 4 <samples/buoys.csv`, the first being 0. The file
//! goes through small buffers and is never held whole. The office wants every file taken, so it is read at commas
//! with every leniency on; if it used any, their sum is told at the end.
//!
//! Each content gets a line, with line breaks inside it as they are, and a record that is too short "none". They
//! are printed as they come, and the fault of a file may come behind them: what was printed is of use only if the
//! exit status is 0.

#[path = "../include/siprovault.rs"]
mod siprovault;

use siprovault::{Answer, Stream, BLANKS, BYTES, LF, RAGGED};
use std::io::{Read, Result, Write};

const PIECE: u64 = 512;
const TEXT: usize = 256;
const ENTRIES: usize = 16;

/// The column to print, that of the open field, and the fields and the text that have come in all.
struct Column<W> {
    wanted: u32,
    column: u32,
    fields: u32,
    text: u32,
    out: W,
}

impl<W: Write> Column<W> {
    /// What a call gave. A field may come by several; its end comes once, and a row end with it.
    fn print(&mut self, mut text: &[u8], ends: &[u32], rows: &[u32]) -> Result<()> {
        for end in ends {
            let (last, rest) = text.split_at((end - self.text) as usize);
            self.print_part(last)?;
            text = rest;
            if self.column == self.wanted {
                self.out.write_all(b"\n")?;
            }
            self.column += 1;
            self.fields += 1;
            if rows.contains(&self.fields) {
                if self.column <= self.wanted {
                    self.out.write_all(b"none\n")?;
                }
                self.column = 0;
            }
        }
        self.print_part(text)
    }

    /// The open field goes on. The bytes are written as they are, since they need not be UTF-8.
    fn print_part(&mut self, part: &[u8]) -> Result<()> {
        self.text += part.len() as u32;
        if self.column == self.wanted {
            self.out.write_all(part)?;
        }
        Ok(())
    }
}

fn print_input<W: Write>(to: &mut Column<W>) -> Result<Answer> {
    let (mut text, mut ends, mut rows) = ([0; TEXT], [0; ENTRIES], [0; ENTRIES]);
    let mut stream = Stream::start(siprovault::COMMA, LF | BLANKS | RAGGED | BYTES);
    let mut input = std::io::stdin();
    let mut piece = Vec::new();
    while input.by_ref().take(PIECE).read_to_end(&mut piece)? > 0 {
        // what is not taken opens the next piece, which here is the rest of this one
        let mut taken = 0;
        while taken < piece.len() {
            let given = stream.feed(&piece[taken..], &mut text, &mut ends, &mut rows);
            to.print(
                &text[..given.text],
                &ends[..given.ends],
                &rows[..given.rows],
            )?;
            if given.answer.refusal != siprovault::ACCEPTED {
                return Ok(given.answer);
            }
            stream = given.state;
            taken += given.taken;
        }
        piece.clear();
    }
    // with room for an end and a row it is never short
    let given = stream.close(&mut ends, &mut rows);
    to.print(&[], &ends[..given.ends], &rows[..given.rows])?;
    Ok(given.answer)
}

/// A number of at most eight digits, which is enough for any column.
fn number(word: &str) -> Option<u32> {
    let digits = word.len() <= 8 && word.bytes().all(|b| b.is_ascii_digit());
    word.parse().ok().filter(|_| digits)
}

/// Prints the column, and gives the exit status.
fn run(wanted: u32) -> Result<i32> {
    let mut to = Column {
        wanted,
        column: 0,
        fields: 0,
        text: 0,
        out: std::io::BufWriter::new(std::io::stdout()),
    };
    let answer = print_input(&mut to)?;
    to.out.flush()?;
    if answer.refusal != siprovault::ACCEPTED {
        eprintln!(
            "column: refused by {} at line {}, column {}, byte {}",
            answer.refusal, answer.line, answer.column, answer.byte
        );
        return Ok(1);
    }
    if answer.report != 0 {
        eprintln!("column: accepted with leniencies of sum {}", answer.report);
    }
    Ok(0)
}

fn main() {
    let words: Vec<_> = std::env::args_os().skip(1).collect();
    let wanted = match words.as_slice() {
        [word] => word.to_str().and_then(number),
        _ => None,
    };
    let status = match wanted.map(run) {
        Some(Ok(status)) => status,
        Some(Err(_)) => {
            eprintln!("column: the file cannot be read, or the column cannot be written");
            2
        }
        None => {
            eprintln!("column: say which column, by a number from 0: column NUMBER <FILE");
            2
        }
    };
    std::process::exit(status);
}
