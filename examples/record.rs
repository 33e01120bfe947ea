//! Prints records of a strict file from standard input by their numbers, as `record 5 0 2 <samples/buoys.csv`, the
//! first being 0. Each is printed as it stands in the file, quotes and line breaks inside it included, in the order
//! asked for. The file is checked once, when its index is built; each record is then found by reading at most 64
//! records of it.

#[path = "../include/siprovault.rs"]
mod siprovault;

use siprovault::{ACCEPTED, COMMA};
use std::io::{Read, Result, Write};

/// As many bytes as a file may have.
const MOST: usize = 16_777_216;

/// A number of at most nine digits, which is enough for any record.
fn number(word: &str) -> Option<usize> {
    let digits = word.len() <= 9 && word.bytes().all(|b| b.is_ascii_digit());
    word.parse().ok().filter(|_| digits)
}

/// Prints the records, and gives the exit status.
fn run(records: &[usize]) -> Result<i32> {
    // a byte more than the most, so that a longer file is refused too
    let mut file = Vec::new();
    let limit = MOST as u64 + 1;
    std::io::stdin().take(limit).read_to_end(&mut file)?;
    // always enough
    let mut index = vec![0; (file.len() + 63) / 64];
    let indexed = siprovault::index(&file, COMMA, 0, &mut index);
    if indexed.refusal != ACCEPTED {
        eprintln!(
            "record: refused by {} at line {}, column {}, byte {}",
            indexed.refusal, indexed.line, indexed.column, indexed.byte
        );
        return Ok(1);
    }
    let index = indexed.of(&index);
    let mut out = std::io::BufWriter::new(std::io::stdout());
    let mut status = 0;
    for &record in records {
        let at = siprovault::jump(&file, COMMA, 0, index, record);
        if at.refusal != ACCEPTED {
            eprintln!("record: there is no record {}", record);
            status = 1;
            continue;
        }
        out.write_all(at.part(&file))?;
        out.write_all(b"\n")?;
    }
    out.flush()?;
    Ok(status)
}

fn main() {
    let words = std::env::args_os().skip(1);
    let records: Option<Vec<usize>> = words.map(|w| w.to_str().and_then(number)).collect();
    let status = match records.filter(|r| !r.is_empty()).map(|r| run(&r)) {
        Some(Ok(status)) => status,
        Some(Err(_)) => {
            eprintln!("record: the file cannot be read, or the records cannot be written");
            2
        }
        None => {
            eprintln!("record: say which records, by numbers from 0: record NUMBER ... <FILE");
            2
        }
    };
    std::process::exit(status);
}
