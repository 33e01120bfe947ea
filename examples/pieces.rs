//! Checks a strict file from standard input in pieces of 64 bytes, and asks after each. What is asked before the
//! end is the answer for the bytes so far as a whole file, and more bytes may change it: only the last one is
//! the file's.

#[path = "../include/siprovault.rs"]
mod siprovault;

use siprovault::{Answer, Check};
use std::io::Read;

fn print_answer(answer: &Answer) {
    if answer.refusal == siprovault::ACCEPTED {
        println!(
            "accepted, {} records of {} fields in all",
            answer.records, answer.fields
        );
    } else {
        println!(
            "refused by {} at line {}, column {}, byte {}",
            answer.refusal, answer.line, answer.column, answer.byte
        );
    }
}

fn check_input() -> std::io::Result<Answer> {
    let mut input = std::io::stdin();
    let mut piece = Vec::new();
    let mut so_far = 0;
    let mut check = Check::start(siprovault::COMMA, 0);
    while input.by_ref().take(64).read_to_end(&mut piece)? > 0 {
        check = check.feed(&piece);
        so_far += piece.len();
        print!("{} bytes so far: ", so_far);
        print_answer(&check.ask());
        piece.clear();
    }
    Ok(check.ask())
}

fn main() {
    let answer = match check_input() {
        Ok(answer) => answer,
        Err(_) => {
            eprintln!("pieces: the file cannot be read");
            std::process::exit(2);
        }
    };
    print!("the file: ");
    print_answer(&answer);
    if answer.refusal != siprovault::ACCEPTED {
        std::process::exit(1);
    }
}
