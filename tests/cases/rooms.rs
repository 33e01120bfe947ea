//! How much room a read, a write or an index is lent.

use crate::model::jump::Indexed;
use crate::model::reader::{check, Answer, Room};
use crate::model::table::Table;
use crate::model::writer::{write, FULL, PLAIN};
use crate::model::{refusal, FILE_LIMIT};
use crate::wire::Wire;
use std::io::{self, Write};

const NONE: Room = Room {
    text: 0,
    ends: 0,
    rows: 0,
};

/// Room in which a refused read of a file of this length could do harm.
pub fn ample(length: usize) -> Room {
    Room {
        text: length + 3,
        ends: length.min(64) + 2,
        rows: length.min(64) + 1,
    }
}

/// Exactly what an accepted file needs.
pub fn exact(answer: &Answer) -> Room {
    Room {
        text: answer.text as usize,
        ends: answer.fields as usize,
        rows: answer.records as usize,
    }
}

/// Room with one place too few in each buffer whose bit is set in `short`, 1 for text, 2 for ends
/// and 4 for rows; if none is set, with one to three places too many.
pub fn changed(answer: &Answer, short: usize) -> Room {
    let need = exact(answer);
    if short == 0 {
        return Room {
            text: need.text + 3,
            ends: need.ends + 2,
            rows: need.rows + 1,
        };
    }
    let less = |need: usize, bit: usize| need.saturating_sub(usize::from(short & bit != 0));
    Room {
        text: less(need.text, 1),
        ends: less(need.ends, 2),
        rows: less(need.rows, 4),
    }
}

/// For an accepted file of this length the exact room and one changed room, which one by `turn`;
/// for a refused file ample room and none.
pub fn usual(length: usize, turn: usize) -> impl Fn(&Answer) -> Vec<Room> {
    move |answer| {
        if answer.refusal == refusal::ACCEPTED {
            vec![exact(answer), changed(answer, turn % 8)]
        } else {
            vec![ample(length), NONE]
        }
    }
}

/// For an accepted file the exact room, room that lacks a place in some buffer, and room for some
/// places or for whole blocks more, both by `turn`; for a refused file ample room and none.
pub fn around(length: usize, turn: usize) -> impl Fn(&Answer) -> Vec<Room> {
    const MORE: [usize; 10] = [1, 7, 8, 9, 16, 31, 32, 63, 64, 130];
    move |answer| {
        let need = exact(answer);
        let more = MORE[turn % MORE.len()];
        let wide = Room {
            text: need.text + more,
            ends: need.ends + more,
            rows: need.rows + more,
        };
        if answer.refusal == refusal::ACCEPTED {
            vec![need, changed(answer, 1 + turn % 7), wide]
        } else {
            vec![ample(length), NONE]
        }
    }
}

/// For an index exactly enough room, an entry less, and one and two more; if it is refused, room in
/// which a write would show, and none.
pub fn for_index(index: &Result<Vec<u32>, Indexed>) -> Vec<usize> {
    match index.as_ref().map(|entries| entries.len()) {
        Ok(0) => vec![0, 1, 2],
        Ok(need) => vec![need, need - 1, need + 1, need + 2],
        Err(_) => vec![3, 0],
    }
}

/// The driver has no more room than this.
const MOST_ROOM: usize = FILE_LIMIT + 131_072;

/// Room in which a refused write of this table could do harm: no form of it is longer, unless that
/// is more than the driver has.
pub fn ample_to_write(table: &Table) -> usize {
    MOST_ROOM.min(2 * table.text.len() + 4 * table.ends.len() + 3)
}

/// Writes in both modes: exactly enough room, one byte too few and some more; or, for a table that
/// is refused, ample room and none.
pub fn usual_writes(table: &Table) -> Vec<(u8, usize)> {
    let mut writes = Vec::new();
    for mode in [PLAIN, FULL] {
        let answer = write(table, mode, usize::MAX).0;
        let length = answer.length as usize;
        let rooms = if answer.refusal == refusal::ACCEPTED {
            vec![length, length.saturating_sub(1), length + 3]
        } else {
            vec![ample_to_write(table), 0]
        };
        writes.extend(rooms.into_iter().map(|room| (mode, room)));
    }
    writes
}

const FILES: [(&[u8], u8); 6] = [
    (b"", 0),
    (b"\r\n\r\n", 0),
    (b"a,bb\r\n,c\r\n", 0),
    (b"\"a\"\"\",\r\n\"\r\n\",b", 0),
    (b" a ;b\n;c d", 15),
    (b"a,b\r\nc\"", 0),
];

/// Every room from none to two places more than is needed, in every combination.
pub fn send<W: Write>(wire: &mut Wire<W>) -> io::Result<()> {
    wire.section("every room, too little included")?;
    for (file, leniencies) in FILES {
        let delimiter = if leniencies == 0 { b',' } else { b';' };
        let need = exact(&check(file, delimiter, leniencies).0);
        wire.dialect(delimiter, leniencies)?;
        wire.walk(file, |_| every_room_around(need))?;
    }
    Ok(())
}

fn every_room_around(need: Room) -> Vec<Room> {
    let mut rooms = Vec::new();
    for text in 0..=need.text + 2 {
        for ends in 0..=need.ends + 2 {
            rooms.extend((0..=need.rows + 2).map(|rows| Room { text, ends, rows }));
        }
    }
    rooms
}
