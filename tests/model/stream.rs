//! The stream: what each call takes, puts out and answers, from the request and its readings.
//!
//! Every byte of a file has a role, which says what its output is, however pieces and rooms are
//! cut. The roles come from the grammar, field by field; what a call does with its room goes by
//! them alone.

use super::dialect::{leniency, Dialect};
use super::reader::{check, fault_found, Answer, Room};
use super::table::Table;
use super::{refusal, BLANK, CONTENT_LIMIT, CR, FILE_LIMIT, LF, QUOTE};

#[derive(Clone, Copy, Debug, PartialEq, Eq)]
enum Role {
    /// No output: a quote that delimits, the first quote of a pair, a CR outside quotes, a blank
    /// that is dropped whatever follows.
    Silent,
    /// A blank in a bare field, which comes out only if content follows it in the field.
    Held,
    /// It comes out itself, behind the blanks held before it.
    Content,
    EndsField,
    /// An LF that completes a line break: it ends the last field too.
    EndsRecord,
}

/// What can be said of a file before anybody cuts it.
pub struct Plan {
    length: usize,
    bad_dialect: bool,
    /// Of all bytes, or of those before the one that shows a refusal.
    roles: Vec<Role>,
    /// By the byte behind the roles, or else by the close: the check's for the bytes taken then.
    answer: Answer,
    /// All that comes out, the last ends by an accepted close included.
    pub out: Table,
}

impl Plan {
    pub fn of(file: &[u8], delimiter: u8, leniencies: u8) -> Plan {
        let dialect = Dialect::of(delimiter, leniencies);
        let shows = dialect.and_then(|dialect| shows_refusal(file, dialect));
        let taken = shows.map_or(file.len(), |byte| byte + 1);
        let answer = check(&file[..taken], delimiter, leniencies).0;
        let roles = match dialect {
            Some(dialect) => Walk::roles(&file[..shows.unwrap_or(file.len())], dialect),
            None => Vec::new(),
        };
        let mut plan = Plan {
            length: file.len(),
            bad_dialect: dialect.is_none(),
            roles,
            answer,
            out: Table::default(),
        };
        plan.out = plan.joined(file);
        plan
    }

    pub fn length(&self) -> usize {
        self.length
    }

    /// The byte that shows a refusal, if one does.
    pub fn shows(&self) -> Option<usize> {
        let shown = !self.bad_dialect && self.roles.len() < self.length;
        shown.then_some(self.roles.len())
    }

    /// The answer that ends the stream.
    pub fn answer(&self) -> Answer {
        self.answer
    }

    /// Whether the last record has no line break, so that the close has ends to write.
    fn is_open(&self) -> bool {
        !matches!(self.roles.last(), None | Some(Role::EndsRecord))
    }

    /// The contents of the fields that are closed, each with its end, and of the open one what the
    /// content limit leaves of it.
    fn joined(&self, file: &[u8]) -> Table {
        let mut out = Table::default();
        let mut content = Vec::new();
        let mut held = 0;
        for (&byte, &role) in file.iter().zip(&self.roles) {
            match role {
                Role::Silent => {}
                Role::Held => held += 1,
                Role::Content => {
                    content.resize(content.len() + held, BLANK);
                    content.push(byte);
                    held = 0;
                }
                Role::EndsField | Role::EndsRecord => {
                    out.push_field(&content);
                    content.clear();
                    held = 0;
                }
            }
            if role == Role::EndsRecord {
                out.close_record();
            }
        }
        content.truncate(CONTENT_LIMIT);
        out.text.extend(content);
        if self.is_open() && self.answer.refusal == refusal::ACCEPTED {
            out.push_field(&[]);
            out.close_record();
        }
        out
    }
}

/// The byte that shows a refusal: the first one past the limit, or the one where a fault is found.
/// What is found at a CR is shown by the byte behind it.
fn shows_refusal(file: &[u8], dialect: Dialect) -> Option<usize> {
    let within = &file[..file.len().min(FILE_LIMIT)];
    let found = fault_found(within, dialect).unwrap_or(file.len());
    let shows = found + usize::from(within.get(found) == Some(&CR));
    let first = shows.min(FILE_LIMIT);
    (first < file.len()).then_some(first)
}

/// Finds the roles of bytes among which no refusal is shown.
struct Walk<'a> {
    file: &'a [u8],
    dialect: Dialect,
    roles: Vec<Role>,
}

impl Walk<'_> {
    fn roles(file: &[u8], dialect: Dialect) -> Vec<Role> {
        let mut walk = Walk {
            file,
            dialect,
            roles: Vec::with_capacity(file.len()),
        };
        while walk.peek().is_some() {
            walk.field();
            walk.field_end();
        }
        walk.roles
    }

    fn field(&mut self) {
        self.dropped_blanks();
        if self.peek() == Some(QUOTE) {
            self.quoted();
            self.dropped_blanks();
        } else {
            self.bare();
        }
    }

    fn bare(&mut self) {
        while let Some(byte) = self.peek().filter(|&b| self.dialect.is_text(b)) {
            let held = byte == BLANK && self.dialect.allows(leniency::BLANKS);
            self.is(if held { Role::Held } else { Role::Content });
        }
    }

    fn quoted(&mut self) {
        self.is(Role::Silent);
        while let Some(byte) = self.peek() {
            if byte == QUOTE {
                self.is(Role::Silent);
                if self.peek() != Some(QUOTE) {
                    return;
                }
            }
            self.is(Role::Content);
        }
    }

    fn field_end(&mut self) {
        match self.peek() {
            None => {}
            Some(CR) => {
                self.is(Role::Silent);
                if self.peek() == Some(LF) {
                    self.is(Role::EndsRecord);
                }
            }
            Some(LF) => self.is(Role::EndsRecord),
            Some(byte) => {
                assert!(self.dialect.is_delimiter(byte), "a refusal is shown here");
                self.is(Role::EndsField);
            }
        }
    }

    fn dropped_blanks(&mut self) {
        while self.dialect.allows(leniency::BLANKS) && self.peek() == Some(BLANK) {
            self.is(Role::Silent);
        }
    }

    /// The first byte without a role.
    fn peek(&self) -> Option<u8> {
        self.file.get(self.roles.len()).copied()
    }

    fn is(&mut self, role: Role) {
        self.roles.push(role);
    }
}

/// What a call gives; what it put out is the next part of the plan's lists.
#[derive(Clone, Copy, Debug, Default, PartialEq, Eq)]
pub struct Given {
    pub taken: usize,
    pub text: usize,
    pub ends: usize,
    pub rows: usize,
    pub short_of: u32,
    pub closed: u32,
    pub answer: Answer,
}

/// What a byte or the close puts out, and how much of its text is held blanks.
#[derive(Clone, Copy, Default)]
struct Output {
    text: usize,
    ends: usize,
    rows: usize,
    blanks: usize,
}

impl Output {
    /// The lowest number among the buffers that are too small for it, or 0.
    fn short_of(&self, room: Room) -> u32 {
        if room.text < self.text {
            refusal::NO_ROOM_TEXT
        } else if room.ends < self.ends {
            refusal::NO_ROOM_ENDS
        } else if room.rows < self.rows {
            refusal::NO_ROOM_ROWS
        } else {
            0
        }
    }
}

#[derive(Clone, Copy, PartialEq, Eq)]
enum Stage {
    Open,
    Refused,
    Closed,
}

/// A stream after some calls, of a caller that keeps the rule on untaken bytes.
pub struct Stream<'a> {
    plan: &'a Plan,
    stage: Stage,
    taken: usize,
    /// The bytes of the field that can no longer be dropped, past the limit too; the blanks held
    /// behind them, and how many of these are out.
    content: usize,
    held: usize,
    early: usize,
}

impl<'a> Stream<'a> {
    pub fn start(plan: &'a Plan) -> Stream<'a> {
        Stream {
            plan,
            stage: Stage::Open,
            taken: 0,
            content: 0,
            held: 0,
            early: 0,
        }
    }

    pub fn is_open(&self) -> bool {
        self.stage == Stage::Open
    }

    /// The bytes that are not taken yet.
    pub fn left(&self) -> usize {
        self.plan.length - self.taken
    }

    /// A call with a piece of the next `offered` bytes.
    pub fn feed(&mut self, offered: usize, room: Room) -> Given {
        let mut given = Given::default();
        if self.plan.bad_dialect {
            self.stage = Stage::Refused;
        }
        while self.is_open() && given.taken < offered && given.short_of == 0 {
            match self.plan.roles.get(self.taken) {
                Some(&role) => self.offer(role, room, &mut given),
                None => {
                    self.taken += 1;
                    given.taken += 1;
                    self.stage = Stage::Refused;
                }
            }
        }
        self.answered(given)
    }

    /// Takes the next byte if all of its output fits. If it does not, only held blanks come out.
    fn offer(&mut self, role: Role, room: Room, given: &mut Given) {
        let left = Room {
            text: room.text - given.text,
            ends: room.ends - given.ends,
            rows: room.rows - given.rows,
        };
        let output = self.output(role);
        given.short_of = output.short_of(left);
        if given.short_of != 0 {
            let blanks = output.blanks.min(left.text);
            given.text += blanks;
            self.early += blanks;
            return;
        }
        given.taken += 1;
        given.text += output.text;
        given.ends += output.ends;
        given.rows += output.rows;
        self.take(role);
    }

    fn output(&self, role: Role) -> Output {
        let within = |length: usize| length.min(CONTENT_LIMIT);
        let mut output = Output::default();
        match role {
            Role::Silent | Role::Held => {}
            Role::Content => {
                let out = within(self.content) + self.early;
                output.blanks = within(self.content + self.held) - out;
                output.text = within(self.content + self.held + 1) - out;
            }
            Role::EndsField => output.ends = 1,
            Role::EndsRecord => {
                output.ends = 1;
                output.rows = 1;
            }
        }
        output
    }

    fn take(&mut self, role: Role) {
        self.taken += 1;
        match role {
            Role::Silent => {}
            Role::Held => self.held += 1,
            Role::Content => {
                self.content += self.held + 1;
                self.held = 0;
                self.early = 0;
            }
            Role::EndsField | Role::EndsRecord => {
                self.content = 0;
                self.held = 0;
            }
        }
    }

    /// The last call, for a caller to whom no byte is left, and every call like it behind that.
    pub fn close(&mut self, room: Room) -> Given {
        let mut given = Given::default();
        let keeps_the_rule = self.left() == 0 || self.plan.bad_dialect || !self.is_open();
        assert!(keeps_the_rule, "untaken bytes are left");
        if self.is_open() && self.plan.answer.refusal != refusal::ACCEPTED {
            self.stage = Stage::Refused;
        }
        if self.is_open() {
            let last = usize::from(self.plan.is_open());
            let output = Output {
                ends: last,
                rows: last,
                ..Output::default()
            };
            given.short_of = output.short_of(room);
            if given.short_of == 0 {
                given.ends = last;
                given.rows = last;
                self.stage = Stage::Closed;
            }
        }
        self.answered(given)
    }

    fn answered(&self, mut given: Given) -> Given {
        given.closed = u32::from(self.stage == Stage::Closed);
        if !self.is_open() {
            given.answer = self.plan.answer;
        }
        given
    }
}
