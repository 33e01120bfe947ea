//! Reads a strict buoy list, finds the column "remark" by its name and shows it for the first buoy.

#[path = "../include/siprovault.rs"]
mod siprovault;

use siprovault::Table;

fn main() {
    let file = b"buoy,remark\r\nN01,\"pole repaired, flag new\"\r\n";
    let (mut text, mut ends, mut rows) = ([0; 256], [0; 16], [0; 4]);
    let answer = siprovault::read_strict(file, &mut text, &mut ends, &mut rows);
    if answer.refusal != siprovault::ACCEPTED {
        println!(
            "refused by {} at line {}, column {}",
            answer.refusal, answer.line, answer.column
        );
        std::process::exit(1);
    }
    let list = Table::of(&answer, &text, &ends, &rows);
    let remark = list.find_column(b"remark");
    if remark.refusal != siprovault::ACCEPTED {
        std::process::exit(1);
    }
    let shown = list.show(1, remark.column as usize, b"none");
    println!("{}", String::from_utf8_lossy(shown));
}
