//! Reads an office's list from standard input: semicolons, and every leniency switched on by its name. Says
//! which of them the file used, and shows two columns for each buoy.

#[path = "../include/siprovault.rs"]
mod siprovault;

use siprovault::{Answer, Table, BLANKS, BYTES, LF, RAGGED};
use std::io::{Read, Write};

/// The longest list that is taken here.
const MOST: usize = 65536;

fn used(answer: &Answer) -> String {
    let all = [
        (LF, " lf"),
        (BLANKS, " blanks"),
        (RAGGED, " ragged"),
        (BYTES, " bytes"),
    ];
    let names = all.iter().filter(|one| answer.used(one.0));
    let line: String = names.map(|one| one.1).collect();
    if line.is_empty() {
        return " none".to_string();
    }
    line
}

/// The column of a name, with a line that says why where there is none.
fn find(list: &Table, name: &str) -> Option<usize> {
    let found = list.find_column(name.as_bytes());
    if found.refusal != siprovault::ACCEPTED {
        println!(
            "no column {}: refused by {} at column {}",
            name, found.refusal, found.column
        );
        return None;
    }
    Some(found.column as usize)
}

/// Shows the list, and gives the exit status.
fn show(file: &[u8]) -> std::io::Result<i32> {
    // always enough
    let (mut text, mut rows) = (vec![0; file.len()], vec![0; file.len()]);
    let mut ends = vec![0; file.len() + 1];
    let on = LF | BLANKS | RAGGED | BYTES;
    let delimiter = siprovault::SEMICOLON;
    let answer = siprovault::read(file, delimiter, on, &mut text, &mut ends, &mut rows);
    if answer.refusal != siprovault::ACCEPTED {
        println!(
            "refused by {} at line {}, column {}",
            answer.refusal, answer.line, answer.column
        );
        return Ok(1);
    }
    println!("leniencies used:{}", used(&answer));
    let list = Table::of(&answer, &text, &ends, &rows);
    let (buoy, remark) = match (find(&list, "buoy"), find(&list, "remark")) {
        (Some(buoy), Some(remark)) => (buoy, remark),
        _ => return Ok(1),
    };
    let mut out = std::io::stdout();
    for record in 1..list.rows.len() {
        // "none" where the record is too short
        let field = |column| list.record(record).nth(column).unwrap_or(b"none");
        // the bytes as they are, since they need not be UTF-8
        out.write_all(&[field(buoy), b": ", field(remark), b"\n"].concat())?;
    }
    Ok(0)
}

fn main() {
    let mut file = Vec::new();
    let read = std::io::stdin()
        .take(MOST as u64 + 1)
        .read_to_end(&mut file);
    if read.is_err() || file.len() > MOST {
        eprintln!("office: the list cannot be read, or is longer than 65,536 bytes");
        std::process::exit(2);
    }
    std::process::exit(show(&file).unwrap_or(2));
}
