//! What siprovault.h declares, for Rust: its names without SV_, and its calls over slices. The header says what
//! each promises. Take it in by a `mod` with its path, and link libsiprovault.a, which is for x86-64 Linux. It is
//! for rustc from 1.63 and for editions up to 2021; for a crate of 2024, compile it as a crate of its own.

#![allow(dead_code)]

// Delimiters.
pub const COMMA: u8 = 0x2C;
pub const SEMICOLON: u8 = 0x3B;
pub const TAB: u8 = 0x09;
pub const BAR: u8 = 0x7C;

// Leniencies, to be joined by `|`.
pub const LF: u8 = 1;
pub const BLANKS: u8 = 2;
pub const RAGGED: u8 = 4;
pub const BYTES: u8 = 8;

// The writer's modes.
pub const PLAIN: u8 = 0;
pub const FULL: u8 = 1;

// Refusals.
pub const ACCEPTED: u32 = 0;
pub const UNKNOWN_DIALECT_OR_MODE: u32 = 1;
pub const LONG_FILE: u32 = 2;
pub const FORBIDDEN_BYTE: u32 = 3;
pub const QUOTE_IN_BARE_FIELD: u32 = 4;
pub const BYTE_AFTER_CLOSING_QUOTE: u32 = 5;
pub const CR_WITHOUT_LF: u32 = 6;
pub const LF_WITHOUT_CR: u32 = 7;
pub const QUOTED_FIELD_OPEN: u32 = 8;
pub const LONG_CONTENT: u32 = 9;
pub const UNEQUAL_RECORD: u32 = 10;
pub const NO_ROOM_IN_TEXT: u32 = 11;
pub const NO_ROOM_IN_ENDS: u32 = 12;
pub const NO_ROOM_IN_ROWS: u32 = 13;
pub const MALFORMED_TABLE: u32 = 14;
pub const NO_ROOM_IN_OUT: u32 = 15;
pub const EQUAL_NAMES: u32 = 16;
pub const NO_SUCH_NAME: u32 = 17;
pub const NO_SUCH_RECORD: u32 = 18;
pub const NO_ROOM_IN_INDEX: u32 = 19;
pub const WRONG_INDEX: u32 = 20;

/// The answer to a file.
#[repr(C)]
#[derive(Clone, Copy, Debug, PartialEq, Eq)]
pub struct Answer {
    pub refusal: u32,
    pub line: u32,
    pub column: u32,
    pub byte: u32,
    pub records: u32,
    pub fields: u32,
    pub text: u32,
    pub report: u32,
}

impl Answer {
    /// Whether the file used this leniency.
    pub fn used(&self, leniency: u8) -> bool {
        self.report & u32::from(leniency) != 0
    }
}

/// A check's state.
#[repr(C)]
#[derive(Clone, Copy)]
pub struct Check {
    bytes: [u8; 9],
    numbers: [u32; 16],
}

/// A stream's state.
#[repr(C)]
#[derive(Clone, Copy)]
pub struct Stream {
    check: Check,
    early: u32,
    closed: u8,
}

/// What a call on a stream gives.
#[repr(C)]
#[derive(Clone, Copy)]
pub struct Streamed {
    pub state: Stream,
    pub taken: usize,
    pub text: usize,
    pub ends: usize,
    pub rows: usize,
    pub short_of: u32,
    pub closed: u32,
    pub answer: Answer,
}

/// The answer of a write.
#[repr(C)]
#[derive(Clone, Copy, Debug, PartialEq, Eq)]
pub struct Written {
    pub refusal: u32,
    pub line: u32,
    pub column: u32,
    pub byte: u32,
    pub length: u32,
}

/// The answer of a search.
#[repr(C)]
#[derive(Clone, Copy, Debug, PartialEq, Eq)]
pub struct Column {
    pub refusal: u32,
    pub column: u32,
}

/// Where a field lies in text.
#[repr(C)]
#[derive(Clone, Copy, Debug, PartialEq, Eq)]
pub struct Part {
    pub found: u32,
    pub start: u32,
    pub length: u32,
}

/// The answer to an index.
#[repr(C)]
#[derive(Clone, Copy, Debug, PartialEq, Eq)]
pub struct Indexed {
    pub refusal: u32,
    pub line: u32,
    pub column: u32,
    pub byte: u32,
    pub entries: u32,
}

impl Indexed {
    /// The entries that a call with this answer left in its buffer: none where it was refused.
    pub fn of<'a>(&self, index: &'a [u32]) -> &'a [u32] {
        &index[..self.entries as usize]
    }
}

/// Where a record lies in a file.
#[repr(C)]
#[derive(Clone, Copy, Debug, PartialEq, Eq)]
pub struct Jumped {
    pub refusal: u32,
    pub line: u32,
    pub column: u32,
    pub byte: u32,
    pub start: u32,
    pub length: u32,
}

impl Jumped {
    /// That part of the file: empty, at its beginning, where the call was refused.
    pub fn part<'a>(&self, file: &'a [u8]) -> &'a [u8] {
        &file[self.start as usize..][..self.length as usize]
    }
}

// In each unsafe call below the slices live as long as the call, those that are written are borrowed alone, and
// each goes with its own length: that is all that the header asks.

/// Reads a file in a dialect into three buffers.
pub fn read(
    file: &[u8],
    delimiter: u8,
    leniencies: u8,
    text: &mut [u8],
    ends: &mut [u32],
    rows: &mut [u32],
) -> Answer {
    unsafe {
        c::sv_read(
            file.as_ptr(),
            file.len(),
            delimiter,
            leniencies,
            text.as_mut_ptr(),
            text.len(),
            ends.as_mut_ptr(),
            ends.len(),
            rows.as_mut_ptr(),
            rows.len(),
        )
    }
}

/// Reads a strict file into three buffers.
pub fn read_strict(file: &[u8], text: &mut [u8], ends: &mut [u32], rows: &mut [u32]) -> Answer {
    unsafe {
        c::sv_read_strict(
            file.as_ptr(),
            file.len(),
            text.as_mut_ptr(),
            text.len(),
            ends.as_mut_ptr(),
            ends.len(),
            rows.as_mut_ptr(),
            rows.len(),
        )
    }
}

/// Builds the index of a file: where records 0, 64, 128 and so on begin.
pub fn index(file: &[u8], delimiter: u8, leniencies: u8, index: &mut [u32]) -> Indexed {
    unsafe {
        c::sv_index(
            file.as_ptr(),
            file.len(),
            delimiter,
            leniencies,
            index.as_mut_ptr(),
            index.len(),
        )
    }
}

/// Where the record of a number lies, by the index of this very file and dialect: hand on `Indexed::of`, not the
/// whole buffer, whose rest would be taken for entries too.
pub fn jump(file: &[u8], delimiter: u8, leniencies: u8, index: &[u32], record: usize) -> Jumped {
    unsafe {
        c::sv_jump(
            file.as_ptr(),
            file.len(),
            delimiter,
            leniencies,
            index.as_ptr(),
            index.len(),
            record,
        )
    }
}

impl Check {
    /// Starts a check with a dialect.
    pub fn start(delimiter: u8, leniencies: u8) -> Check {
        unsafe { c::sv_check_start(delimiter, leniencies) }
    }

    /// The state after a piece of any length.
    pub fn feed(self, piece: &[u8]) -> Check {
        unsafe { c::sv_check_feed(self, piece.as_ptr(), piece.len()) }
    }

    /// The answer for all bytes so far as one whole file.
    pub fn ask(self) -> Answer {
        unsafe { c::sv_check_ask(self) }
    }
}

impl Stream {
    /// Starts a stream with a dialect.
    pub fn start(delimiter: u8, leniencies: u8) -> Stream {
        unsafe { c::sv_stream_start(delimiter, leniencies) }
    }

    /// Takes a piece and puts out what is known. What it did not take opens the next piece.
    pub fn feed(
        self,
        piece: &[u8],
        text: &mut [u8],
        ends: &mut [u32],
        rows: &mut [u32],
    ) -> Streamed {
        unsafe {
            c::sv_stream_feed(
                self,
                piece.as_ptr(),
                piece.len(),
                text.as_mut_ptr(),
                text.len(),
                ends.as_mut_ptr(),
                ends.len(),
                rows.as_mut_ptr(),
                rows.len(),
            )
        }
    }

    /// Ends the file. Short of room it writes nothing, and may be repeated.
    pub fn close(self, ends: &mut [u32], rows: &mut [u32]) -> Streamed {
        unsafe {
            c::sv_stream_close(
                self,
                ends.as_mut_ptr(),
                ends.len(),
                rows.as_mut_ptr(),
                rows.len(),
            )
        }
    }
}

/// A table in memory: the used part of three buffers.
#[derive(Clone, Copy)]
pub struct Table<'a> {
    pub text: &'a [u8],
    pub ends: &'a [u32],
    pub rows: &'a [u32],
}

impl<'a> Table<'a> {
    /// What a read that gave this answer left in the three buffers: nothing where it was refused.
    pub fn of(answer: &Answer, text: &'a [u8], ends: &'a [u32], rows: &'a [u32]) -> Table<'a> {
        Table {
            text: &text[..answer.text as usize],
            ends: &ends[..answer.fields as usize],
            rows: &rows[..answer.records as usize],
        }
    }

    /// The fields of one record, by rows and ends alone. As every slicing it panics where there is no such record,
    /// and it may where the table is malformed.
    pub fn record(&self, record: usize) -> impl Iterator<Item = &'a [u8]> {
        let table = *self;
        let before = |list: &[u32], i: usize| if i == 0 { 0 } else { list[i - 1] as usize };
        (before(table.rows, record)..table.rows[record] as usize)
            .map(move |k| &table.text[before(table.ends, k)..table.ends[k] as usize])
    }

    /// Finds a column by its name in the header. It walks the whole table first.
    pub fn find_column(&self, name: &[u8]) -> Column {
        unsafe {
            c::sv_find_column(
                self.text.as_ptr(),
                self.text.len(),
                self.ends.as_ptr(),
                self.ends.len(),
                self.rows.as_ptr(),
                self.rows.len(),
                name.as_ptr(),
                name.len(),
            )
        }
    }

    /// Where the field of a record and a column lies, both from 0. It walks the whole table first.
    pub fn locate(&self, record: usize, column: usize) -> Part {
        unsafe {
            c::sv_show(
                self.text.as_ptr(),
                self.text.len(),
                self.ends.as_ptr(),
                self.ends.len(),
                self.rows.as_ptr(),
                self.rows.len(),
                record,
                column,
            )
        }
    }

    /// The field of a record and a column, a part of text, or the stand-in.
    pub fn show(&self, record: usize, column: usize, stand_in: &'a [u8]) -> &'a [u8] {
        let part = self.locate(record, column);
        if part.found == 0 {
            return stand_in;
        }
        &self.text[part.start as usize..][..part.length as usize]
    }

    /// Writes the table as a strict file.
    pub fn write(&self, mode: u8, out: &mut [u8]) -> Written {
        unsafe {
            c::sv_write(
                self.text.as_ptr(),
                self.text.len(),
                self.ends.as_ptr(),
                self.ends.len(),
                self.rows.as_ptr(),
                self.rows.len(),
                mode,
                out.as_mut_ptr(),
                out.len(),
            )
        }
    }
}

mod c {
    use super::{Answer, Check, Column, Indexed, Jumped, Part, Stream, Streamed, Written};

    extern "C" {
        pub fn sv_read(
            file: *const u8,
            file_len: usize,
            delimiter: u8,
            leniencies: u8,
            text: *mut u8,
            text_len: usize,
            ends: *mut u32,
            ends_len: usize,
            rows: *mut u32,
            rows_len: usize,
        ) -> Answer;

        pub fn sv_read_strict(
            file: *const u8,
            file_len: usize,
            text: *mut u8,
            text_len: usize,
            ends: *mut u32,
            ends_len: usize,
            rows: *mut u32,
            rows_len: usize,
        ) -> Answer;

        pub fn sv_check_start(delimiter: u8, leniencies: u8) -> Check;
        pub fn sv_check_feed(state: Check, piece: *const u8, piece_len: usize) -> Check;
        pub fn sv_check_ask(state: Check) -> Answer;

        pub fn sv_stream_start(delimiter: u8, leniencies: u8) -> Stream;

        pub fn sv_stream_feed(
            state: Stream,
            piece: *const u8,
            piece_len: usize,
            text: *mut u8,
            text_len: usize,
            ends: *mut u32,
            ends_len: usize,
            rows: *mut u32,
            rows_len: usize,
        ) -> Streamed;

        pub fn sv_stream_close(
            state: Stream,
            ends: *mut u32,
            ends_len: usize,
            rows: *mut u32,
            rows_len: usize,
        ) -> Streamed;

        pub fn sv_write(
            text: *const u8,
            text_len: usize,
            ends: *const u32,
            ends_len: usize,
            rows: *const u32,
            rows_len: usize,
            mode: u8,
            out: *mut u8,
            out_len: usize,
        ) -> Written;

        pub fn sv_find_column(
            text: *const u8,
            text_len: usize,
            ends: *const u32,
            ends_len: usize,
            rows: *const u32,
            rows_len: usize,
            name: *const u8,
            name_len: usize,
        ) -> Column;

        pub fn sv_show(
            text: *const u8,
            text_len: usize,
            ends: *const u32,
            ends_len: usize,
            rows: *const u32,
            rows_len: usize,
            record: usize,
            column: usize,
        ) -> Part;

        pub fn sv_index(
            file: *const u8,
            file_len: usize,
            delimiter: u8,
            leniencies: u8,
            index: *mut u32,
            index_len: usize,
        ) -> Indexed;

        pub fn sv_jump(
            file: *const u8,
            file_len: usize,
            delimiter: u8,
            leniencies: u8,
            index: *const u32,
            index_len: usize,
            record: usize,
        ) -> Jumped;
    }
}
