//! Writes a landing list as a strict file to standard output. The caller builds the table; the library quotes.

#[path = "../include/siprovault.rs"]
mod siprovault;

use siprovault::Table;
use std::io::Write;

fn main() {
    let landed: [[&str; 3]; 3] = [
        ["buoy", "landed", "remark"],
        ["N01", "2026-11-02", "pole repaired, flag new"],
        ["S02", "2026-11-02", "marked \"lost\"\r\nin spring"],
    ];
    let (mut text, mut ends, mut rows) = (Vec::new(), Vec::new(), Vec::new());
    for record in landed {
        for content in record {
            text.extend_from_slice(content.as_bytes());
            ends.push(text.len() as u32);
        }
        rows.push(ends.len() as u32);
    }
    let table = Table {
        text: &text,
        ends: &ends,
        rows: &rows,
    };
    // always enough for the file
    let mut out = vec![0; 2 * text.len() + 3 * ends.len() + rows.len()];
    let written = table.write(siprovault::PLAIN, &mut out);
    if written.refusal != siprovault::ACCEPTED {
        eprintln!("refused by {} at {}", written.refusal, written.byte);
        std::process::exit(1);
    }
    let mut file = std::io::stdout();
    let whole = file.write_all(&out[..written.length as usize]);
    if whole.is_err() || file.flush().is_err() {
        std::process::exit(2);
    }
}
