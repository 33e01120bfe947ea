//! Times our check and our whole read beside an ordinary check and csv-core's whole read, our stream
//! beside our read, our index beside our check, and asks for a record by that index. The answers are
//! compared first. A time is the least of several turns, with each job once in each turn.

mod agree;
mod inputs;
mod ordinary;
mod other;
mod ours;
#[path = "../include/siprovault.rs"]
mod siprovault;

use inputs::{Input, INPUTS, LIMIT};
use ours::Buffers;
use std::time::Instant;

/// Turns on each input, and as many more as the seconds allow.
const TURNS: usize = 7;

/// The jobs in the order of the table.
const ORDINARY: usize = 0;
const CHECK: usize = 1;
const CSV_CORE: usize = 2;
const READ: usize = 3;
const STREAM: usize = 4;
const INDEX: usize = 5;
const JOBS: [&str; 6] = [
    "ordinary check",
    "our check",
    "csv-core read",
    "our read",
    "our stream",
    "our index",
];

/// The stream's pieces, and its room for bytes of text, for ends and for rows.
const PIECE: usize = 65_536;

/// Asks for a record, at random, and how many of them should fit in the time of one check of the file.
const ASKS: usize = 1_000_000;
const ASKS_IN_A_CHECK: f64 = 5_000.0;

/// Seconds of each job on an input; infinite where there is no such job.
struct Times {
    input: &'static str,
    bytes: usize,
    least: [f64; JOBS.len()],
}

/// The bars: an input, two jobs, and the most that the ratio of their times should be. The first is the
/// ordinary check's own: the ratios to it count only if it is at least half as fast as csv-core.
const BARS: [(&str, usize, usize, f64); 13] = [
    (inputs::SHORT, ORDINARY, CSV_CORE, 2.0),
    (inputs::SHORT, CHECK, ORDINARY, 0.65),
    (inputs::REMARKS, CHECK, ORDINARY, 0.75),
    (inputs::BROKEN, CHECK, ORDINARY, 0.75),
    (inputs::QUOTES, CHECK, ORDINARY, 0.5),
    (inputs::LINES, CHECK, ORDINARY, 0.6),
    (inputs::SHORT, READ, CSV_CORE, 1.7),
    (inputs::QUOTED, READ, CSV_CORE, 1.7),
    (inputs::REMARKS, READ, CSV_CORE, 1.7),
    (inputs::BROKEN, READ, CSV_CORE, 1.7),
    (inputs::LINES, READ, CSV_CORE, 1.7),
    (inputs::SHORT, STREAM, READ, 1.5),
    (inputs::REMARKS, STREAM, READ, 1.5),
];

fn main() {
    let seconds = std::env::args()
        .nth(1)
        .map_or(4, |n| n.parse().expect("SECONDS is a number"));
    println!("{}", agree::on_small_files());
    println!(
        "16 MiB each, the least of {TURNS} turns or more in {seconds} s, buffers cleared before."
    );
    println!("The stream has pieces of {PIECE} bytes, and as much room in text, ends and rows.");
    println!("Ratio: of our check to the ordinary check, of our read to csv-core's,");
    println!("of our stream to our read, of our index to our check.");
    println!(
        "{:<28}{:<16}{:>8}{:>8}{:>8}",
        "input", "job", "ms", "GB/s", "ratio"
    );
    let all: Vec<Times> = INPUTS.iter().map(|input| timed(input, seconds)).collect();
    for size in [1, 64, 4_096] {
        pieces("our check", size, |file| ours::check_in_pieces(file, size));
    }
    let mut room = Buffers::cleared(64, 16);
    pieces("our stream, room 64, 16 and 16", 64, |file| {
        ours::stream(file, 64, &mut room).0
    });
    let check = times_of(&all, inputs::SHORT).least[CHECK];
    asks(check);
    for (input, job, to, most) in BARS {
        bar(&all, input, job, to, most);
    }
}

/// Times the jobs on one input, once their answers agree, and prints its lines of the table.
fn timed(input: &Input, seconds: u64) -> Times {
    let file = (input.make)();
    let answer = agree::on(&file, &mut Buffers::cleared(LIMIT, LIMIT / 4));
    let refused = [answer.refusal, answer.line, answer.column, answer.byte];
    assert_eq!(refused, input.refused, "{}", input.name);
    let told = ours::told(answer);
    let counts = (answer.records, answer.fields, answer.text);
    let mut to = Buffers::cleared(LIMIT, LIMIT / 4);
    let mut room = Buffers::cleared(PIECE, PIECE);
    let mut index = vec![1; LIMIT / 64];
    let (mut text, mut ends) = (vec![1; LIMIT], vec![1; 4_096]);
    let mut times = Times::none(input.name, file.len());
    let (mut turns, start) = (0, Instant::now());
    while turns < TURNS || start.elapsed().as_secs() < seconds {
        turns += 1;
        assert_eq!(times.of(ORDINARY, || ordinary::check(&file)), answer);
        assert_eq!(times.of(CHECK, || ours::check(&file)), told);
        assert_eq!(times.of(READ, || ours::read(&file, &mut to)), told);
        let indexed = times.of(INDEX, || ours::index(&file, &mut index));
        assert_eq!(indexed.entries, (answer.records + 63) / 64);
        if input.name == inputs::FAULT {
            continue; // csv-core takes it, and the stream is at its end
        }
        if other::THERE {
            let counted = times.of(CSV_CORE, || other::read(&file, &mut text, &mut ends));
            assert!(counted == counts || answer.refusal != 0, "{counted:?}");
        }
        let given = times.of(STREAM, || ours::stream(&file, PIECE, &mut room));
        assert_eq!(given.0, told);
    }
    times.print();
    times
}

impl Times {
    fn none(input: &'static str, bytes: usize) -> Times {
        let least = [f64::INFINITY; JOBS.len()];
        Times {
            input,
            bytes,
            least,
        }
    }

    fn of<T>(&mut self, job: usize, run: impl FnOnce() -> T) -> T {
        let (seconds, result) = clocked(run);
        self.least[job] = self.least[job].min(seconds);
        result
    }

    /// The lines of the table. The ordinary check stops at a fault, so its time says nothing there.
    fn print(&self) {
        for (job, seconds) in self.least.iter().enumerate().filter(|(_, s)| s.is_finite()) {
            let speed = format!("{:.2}", self.bytes as f64 / seconds / 1e9);
            let (speed, ratio) = match job {
                ORDINARY if self.input == inputs::FAULT => (String::new(), None),
                CHECK if self.input != inputs::FAULT => (speed, self.ratio(CHECK, ORDINARY)),
                READ => (speed, self.ratio(READ, CSV_CORE)),
                STREAM => (speed, self.ratio(STREAM, READ)),
                INDEX => (speed, self.ratio(INDEX, CHECK)),
                _ => (speed, None),
            };
            let ratio = ratio.map_or(String::new(), |r| format!("{r:.2}"));
            println!(
                "{:<28}{:<16}{:>8.2}{speed:>8}{ratio:>8}",
                self.input,
                JOBS[job],
                seconds * 1e3
            );
        }
    }

    fn ratio(&self, job: usize, to: usize) -> Option<f64> {
        let ratio = self.least[job] / self.least[to];
        (self.least[job].is_finite() && self.least[to].is_finite()).then(|| ratio)
    }
}

fn clocked<T>(run: impl FnOnce() -> T) -> (f64, T) {
    let start = Instant::now();
    let result = run();
    (start.elapsed().as_secs_f64(), result)
}

/// Times our check or our stream fed in small pieces.
fn pieces(job: &str, size: usize, mut run: impl FnMut(&[u8]) -> ours::Told) {
    let file = inputs::short_rows(LIMIT / 16);
    let whole = ours::check(&file);
    let mut least = f64::INFINITY;
    for _ in 0..3 * TURNS {
        let (seconds, told) = clocked(|| run(&file));
        assert_eq!(told, whole, "{job}, pieces of {size}");
        least = least.min(seconds);
    }
    let each = least * 1e9 / file.len() as f64;
    println!("{job}, 1 MiB of short rows in pieces of {size}: {each:.2} ns a byte");
}

/// Times a million asks for records of the short rows, at random, by their index, and says how many of
/// them take as long as one check, which goes over the file from its beginning.
fn asks(check: f64) {
    let file = inputs::short_rows(LIMIT);
    let starts = agree::starts_of_rows(&file);
    let mut index = vec![1; LIMIT / 64];
    let entries = ours::index(&file, &mut index).entries as usize;
    let records = inputs::at_random(ASKS, starts.len());
    let mut least = f64::INFINITY;
    for _ in 0..TURNS {
        let (seconds, sum) = clocked(|| ours::asks(&file, &index[..entries], &records));
        let expected: usize = records.iter().map(|&record| starts[record]).sum();
        assert_eq!(sum, expected, "where the records asked for begin");
        least = least.min(seconds);
    }
    let each = least / ASKS as f64;
    let in_a_check = check / each;
    println!(
        "asks for a record of {} at random: {:.0} a second, {:.0} ns each",
        starts.len(),
        1.0 / each,
        each * 1e9
    );
    let verdict = if in_a_check >= ASKS_IN_A_CHECK {
        "met"
    } else {
        "missed"
    };
    println!(
        "asks in the time of one check, at least {ASKS_IN_A_CHECK}: {in_a_check:.0}, {verdict}"
    );
}

fn times_of<'a>(all: &'a [Times], input: &str) -> &'a Times {
    all.iter().find(|times| times.input == input).unwrap()
}

fn bar(all: &[Times], input: &str, job: usize, to: usize, most: f64) {
    let verdict = match times_of(all, input).ratio(job, to) {
        Some(ratio) if ratio <= most => format!("{ratio:.2}, met"),
        Some(ratio) => format!("{ratio:.2}, missed"),
        None => "not measured".to_string(),
    };
    println!(
        "{input}: {} / {}, at most {most:.2}: {verdict}",
        JOBS[job], JOBS[to]
    );
}
