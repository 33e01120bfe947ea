//! Writes cases with the answers that the model expects, for the driver to replay.

use std::env;
use std::io::{self, BufWriter};

mod model;

#[path = "cases/big_shapes.rs"]
mod big_shapes;
#[path = "cases/content_limit.rs"]
mod content_limit;
#[path = "cases/dialect_bytes.rs"]
mod dialect_bytes;
#[path = "cases/every_byte.rs"]
mod every_byte;
#[path = "cases/examples.rs"]
mod examples;
#[path = "cases/file_limit.rs"]
mod file_limit;
#[path = "cases/hand_states.rs"]
mod hand_states;
#[path = "cases/headers.rs"]
mod headers;
#[path = "cases/jump_faults.rs"]
mod jump_faults;
#[path = "cases/jump_laws.rs"]
mod jump_laws;
#[path = "cases/jump_long.rs"]
mod jump_long;
#[path = "cases/jump_rows.rs"]
mod jump_rows;
#[path = "cases/jump_short.rs"]
mod jump_short;
#[path = "cases/laws.rs"]
mod laws;
#[path = "cases/limit_runs.rs"]
mod limit_runs;
#[path = "cases/malformed.rs"]
mod malformed;
#[path = "cases/many_rows.rs"]
mod many_rows;
#[path = "cases/random.rs"]
mod random;
#[path = "cases/random_files.rs"]
mod random_files;
#[path = "cases/random_tables.rs"]
mod random_tables;
#[path = "cases/rooms.rs"]
mod rooms;
#[path = "cases/runs.rs"]
mod runs;
#[path = "cases/sessions.rs"]
mod sessions;
#[path = "cases/short_files.rs"]
mod short_files;
#[path = "cases/small_tables.rs"]
mod small_tables;
#[path = "cases/stream_laws.rs"]
mod stream_laws;
#[path = "cases/stream_limit.rs"]
mod stream_limit;
#[path = "cases/stream_long.rs"]
mod stream_long;
#[path = "cases/stream_short.rs"]
mod stream_short;
#[path = "cases/stream_states.rs"]
mod stream_states;
#[path = "cases/wire.rs"]
mod wire;
#[path = "cases/writer_order.rs"]
mod writer_order;

type Out = wire::Wire<BufWriter<io::Stdout>>;

/// The cases in two parts, which take two drivers about as long, side by side.
const PARTS: [&[fn(&mut Out) -> io::Result<()>]; 2] = [
    &[
        examples::send,
        file_limit::send,
        limit_runs::send,
        stream_long::send,
        stream_limit::send,
        small_tables::send,
        writer_order::send,
        random_tables::send,
        malformed::send,
        headers::send,
        big_shapes::send,
        jump_long::send,
        jump_faults::send,
        jump_rows::send,
    ],
    &[
        short_files::send,
        every_byte::send,
        dialect_bytes::send,
        rooms::send,
        random_files::send,
        runs::send,
        many_rows::send,
        content_limit::send,
        hand_states::send,
        stream_short::send,
        runs::send_streams,
        many_rows::send_streams,
        stream_states::send,
        jump_short::send,
        runs::send_jumps,
        many_rows::send_jumps,
    ],
];

fn main() -> io::Result<()> {
    let part = match env::args().nth(1).as_deref() {
        Some("1") => PARTS[0],
        Some("2") => PARTS[1],
        _ => panic!("say which part of the cases: 1 or 2"),
    };
    laws::hold_of_the_model();
    stream_laws::hold_of_the_model();
    jump_laws::hold_of_the_model();
    let mut wire = Out::new(BufWriter::with_capacity(1 << 16, io::stdout()))?;
    for send in part {
        send(&mut wire)?;
    }
    wire.finish()
}
