//! A model of the rules for buoy list files, written from the rules alone.
//!
//! Nothing here is meant to be fast, and nothing follows the library's code. The reader goes by
//! the grammar, position by position, notes every fault that it meets, and then lets the rules'
//! order choose among them.

pub mod dialect;
pub mod grammar;
pub mod header;
pub mod jump;
pub mod reader;
pub mod stream;
pub mod table;
pub mod writer;

/// A file has at most this many bytes.
pub const FILE_LIMIT: usize = 16_777_216;

/// A field's content has at most this many bytes.
pub const CONTENT_LIMIT: usize = 65_535;

pub const QUOTE: u8 = 0x22;
pub const BLANK: u8 = 0x20;
pub const TAB: u8 = 0x09;
pub const CR: u8 = 0x0D;
pub const LF: u8 = 0x0A;

/// The rules' refusal numbers.
pub mod refusal {
    pub const ACCEPTED: u32 = 0;
    pub const BAD_REQUEST: u32 = 1;
    pub const FILE_TOO_LONG: u32 = 2;
    pub const FORBIDDEN_BYTE: u32 = 3;
    pub const QUOTE_IN_BARE: u32 = 4;
    pub const AFTER_CLOSING_QUOTE: u32 = 5;
    pub const LONE_CR: u32 = 6;
    pub const BARE_LF: u32 = 7;
    pub const STILL_OPEN: u32 = 8;
    pub const CONTENT_TOO_LONG: u32 = 9;
    pub const WRONG_FIELD_COUNT: u32 = 10;
    pub const NO_ROOM_TEXT: u32 = 11;
    pub const NO_ROOM_ENDS: u32 = 12;
    pub const NO_ROOM_ROWS: u32 = 13;
    pub const MALFORMED_TABLE: u32 = 14;
    pub const NO_ROOM_OUT: u32 = 15;
    pub const EQUAL_NAMES: u32 = 16;
    pub const NO_SUCH_NAME: u32 = 17;
    pub const NO_SUCH_RECORD: u32 = 18;
    pub const NO_ROOM_INDEX: u32 = 19;
    pub const WRONG_INDEX: u32 = 20;
}
