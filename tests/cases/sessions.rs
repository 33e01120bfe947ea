//! Sessions on a stream: how a caller cuts pieces and rooms, with what the model says of each call.
//!
//! The caller keeps the rule on untaken bytes: each piece is a beginning of them. A call that does
//! nothing for lack of room is followed by one with at least one place in each buffer, so that
//! every session comes to its end.

use crate::model::reader::Room;
use crate::model::stream::{Given, Plan, Stream};
use crate::model::{refusal, CONTENT_LIMIT};
use crate::random::Random;

/// A call: how many bytes it offers, or none if it closes; what it is lent and what it gives.
pub struct Call {
    pub offered: Option<usize>,
    pub room: Room,
    pub given: Given,
}

pub type Session = Vec<Call>;

/// How many bytes a call offers and how many places it lends in each buffer, one of these numbers
/// each time. More bytes than are left are as many as are left, and more places than the file can
/// fill are two more than it has bytes.
#[derive(Clone, Copy)]
pub struct Manner {
    pub pieces: &'static [usize],
    pub text: &'static [usize],
    pub ends: &'static [usize],
    pub rows: &'static [usize],
}

pub const WHOLE: &[usize] = &[usize::MAX];
pub const TINY: &[usize] = &[0, 1, 2, 3];
pub const ONE: &[usize] = &[1];
pub const FEW: &[usize] = &[0, 1, 7, 8, 9, 15, 16, 17];
pub const BLOCK: &[usize] = &[1, 31, 32, 33, 62, 63, 64, 65, 66, 127, 128, 129];
pub const LIMIT: &[usize] = &[
    1,
    CONTENT_LIMIT - 2,
    CONTENT_LIMIT - 1,
    CONTENT_LIMIT,
    CONTENT_LIMIT + 1,
    CONTENT_LIMIT + 2,
];

impl Manner {
    pub fn random(random: &mut Random) -> Manner {
        const LENGTHS: [&[usize]; 6] = [TINY, ONE, FEW, BLOCK, BLOCK, WHOLE];
        Manner {
            pieces: random.pick(&LENGTHS),
            text: random.pick(&LENGTHS),
            ends: random.pick(&LENGTHS),
            rows: random.pick(&LENGTHS),
        }
    }

    /// Long pieces, and room for text that ends at and around blocks.
    pub fn around_blocks(random: &mut Random) -> Manner {
        Manner {
            pieces: random.pick(&[BLOCK, WHOLE, WHOLE]),
            text: random.pick(&[BLOCK, BLOCK, WHOLE]),
            ends: random.pick(&[FEW, BLOCK, WHOLE]),
            rows: random.pick(&[FEW, BLOCK, WHOLE]),
        }
    }

    fn room(&self, random: &mut Random, most: usize) -> Room {
        let mut places = |from: &[usize]| random.pick(from).min(most);
        Room {
            text: places(self.text),
            ends: places(self.ends),
            rows: places(self.rows),
        }
    }
}

/// The file in two pieces, what is left of the first at the front of the second, and every call
/// with this room. Every fourth turn it calls on behind the end.
pub fn in_two(plan: &Plan, cut: usize, room: Room, turn: usize) -> Session {
    let mut caller = Caller::of(plan);
    caller.feed(cut, room);
    caller.feed_on(room);
    while caller.has_more() {
        caller.feed_on(room);
    }
    caller.close_at_last(room);
    if turn % 4 == 0 {
        caller.call_on(cut + 1, room);
    }
    caller.finish()
}

/// The file up to a place at once, few fields or none, and from there on in pieces and with rooms of
/// this manner; and calls behind the end.
pub fn in_manner(plan: &Plan, place: usize, manner: Manner, random: &mut Random) -> Session {
    let mut caller = Caller::of(plan);
    let most = plan.length() + 2;
    if place > 0 {
        caller.feed(place, AMPLE_FOR_FEW);
    }
    while caller.has_more() {
        let room = manner.room(random, most);
        let offered = random.pick(manner.pieces).min(most_offered(room));
        let offered = offered.min(caller.stream.left());
        let given = caller.feed(offered, room);
        if offered > 0 && does_nothing(&given) {
            let more = at_least_one(manner.room(random, most));
            caller.feed(offered, more);
        }
    }
    caller.close_at_last(manner.room(random, most));
    caller.call_on(random.below(4), manner.room(random, most));
    caller.finish()
}

/// The file up to each of these places, with this room in every call, and then up to its end.
pub fn by_way_of(plan: &Plan, places: &[usize], room: Room) -> Session {
    let mut caller = Caller::of(plan);
    for &place in places.iter().filter(|&&p| p <= plan.length()) {
        caller.feed_up_to(place, room);
        while caller.has_more() && caller.taken() < place {
            caller.feed_up_to(place, room);
        }
    }
    while caller.has_more() {
        caller.feed_on(room);
    }
    caller.close_at_last(room);
    let behind = caller.stream.left() + 1;
    caller.call_on(behind, NONE);
    caller.finish()
}

/// A first call of so many bytes, or a close, and calls behind it if it ends the stream; if it does
/// not, the rest of the file.
pub fn by_first_call(plan: &Plan, offered: Option<usize>, room: Room) -> Session {
    let mut caller = Caller::of(plan);
    match offered {
        Some(offered) => caller.feed(offered, room),
        None => caller.close(room),
    };
    if !caller.stream.is_open() {
        caller.call_on(2, room);
    }
    while caller.has_more() {
        caller.feed_on(room);
    }
    caller.close_at_last(room);
    caller.finish()
}

pub const NONE: Room = Room {
    text: 0,
    ends: 0,
    rows: 0,
};

const AMPLE_FOR_FEW: Room = Room {
    text: CONTENT_LIMIT + 64,
    ends: 8,
    rows: 8,
};

fn at_least_one(room: Room) -> Room {
    Room {
        text: room.text.max(1),
        ends: room.ends.max(1),
        rows: room.rows.max(1),
    }
}

/// Far more than fits is not offered, since it would be offered again and again.
fn most_offered(room: Room) -> usize {
    1_000 + 8 * room.text
}

/// An open stream has taken all, or the buffer that it names is full; and with room for one of each
/// it has done something.
fn stops_for_a_reason(offered: usize, room: Room, given: &Given) {
    match given.short_of {
        0 => assert_eq!(given.taken, offered),
        refusal::NO_ROOM_TEXT => assert_eq!(given.text, room.text),
        refusal::NO_ROOM_ENDS => assert_eq!(given.ends, room.ends),
        _ => assert!(given.rows == room.rows && given.ends < room.ends),
    }
    if offered > 0 && room == at_least_one(room) {
        assert!(!does_nothing(given));
    }
}

fn does_nothing(given: &Given) -> bool {
    given.taken == 0 && given.text == 0
}

struct Caller<'a> {
    plan: &'a Plan,
    stream: Stream<'a>,
    calls: Session,
}

impl Caller<'_> {
    fn of(plan: &Plan) -> Caller<'_> {
        Caller {
            plan,
            stream: Stream::start(plan),
            calls: Vec::new(),
        }
    }

    /// Whether there is something to feed.
    fn has_more(&self) -> bool {
        self.stream.is_open() && self.stream.left() > 0
    }

    fn taken(&self) -> usize {
        self.plan.length() - self.stream.left()
    }

    fn feed_up_to(&mut self, place: usize, room: Room) {
        if self.stream.is_open() {
            self.feed(place - self.taken(), room);
        }
    }

    fn feed(&mut self, offered: usize, room: Room) -> Given {
        let given = self.stream.feed(offered, room);
        if self.stream.is_open() {
            stops_for_a_reason(offered, room, &given);
        }
        self.note(Some(offered), room, given)
    }

    fn close(&mut self, room: Room) -> Given {
        let given = self.stream.close(room);
        self.note(None, room, given)
    }

    fn note(&mut self, offered: Option<usize>, room: Room, given: Given) -> Given {
        assert!(given.text <= room.text && given.ends <= room.ends && given.rows <= room.rows);
        self.calls.push(Call {
            offered,
            room,
            given,
        });
        given
    }

    /// Offers all that is left, and again with more room if nothing comes of it.
    fn feed_on(&mut self, room: Room) {
        let given = self.feed(self.stream.left(), room);
        if self.has_more() && does_nothing(&given) {
            self.feed(self.stream.left(), at_least_one(room));
        }
    }

    /// Closes with this room, and, if that is short, once more with it and then with enough.
    fn close_at_last(&mut self, room: Room) {
        if self.close(room).short_of != 0 {
            self.close(room);
            self.close(at_least_one(room));
        }
    }

    /// Calls behind the end, with room in which a write would show: of pieces of this length, which
    /// may go on behind the file, and of none, and closes.
    fn call_on(&mut self, length: usize, room: Room) {
        let room = at_least_one(room);
        self.feed(length, room);
        self.close(room);
        self.feed(0, room);
    }

    /// What came out in all calls is all that the plan says.
    fn finish(self) -> Session {
        let sum = |part: fn(&Given) -> usize| self.calls.iter().map(|c| part(&c.given)).sum();
        let out = &self.plan.out;
        assert_eq!(out.text.len(), sum(|g| g.text));
        assert_eq!(out.ends.len(), sum(|g| g.ends));
        assert_eq!(out.rows.len(), sum(|g| g.rows));
        self.calls
    }
}
