//! Dialects, and what each byte may be in one.

use super::{CR, LF, QUOTE, TAB};

pub const DELIMITERS: [u8; 4] = [b',', b';', TAB, b'|'];

/// The bits of the leniencies, by name.
pub mod leniency {
    pub const LF: u8 = 1;
    pub const BLANKS: u8 = 2;
    pub const RAGGED: u8 = 4;
    pub const BYTES: u8 = 8;
    pub const ALL: u8 = 15;
}

#[derive(Clone, Copy)]
pub struct Dialect {
    delimiter: u8,
    leniencies: u8,
}

impl Dialect {
    /// The dialect of two bytes handed in, if there is one.
    pub fn of(delimiter: u8, leniencies: u8) -> Option<Dialect> {
        let known = DELIMITERS.contains(&delimiter) && leniencies <= leniency::ALL;
        known.then_some(Dialect {
            delimiter,
            leniencies,
        })
    }

    /// The same with one more leniency.
    pub fn with(self, leniency: u8) -> Dialect {
        Dialect {
            leniencies: self.leniencies | leniency,
            ..self
        }
    }

    pub fn allows(self, leniency: u8) -> bool {
        self.leniencies & leniency != 0
    }

    pub fn is_delimiter(self, byte: u8) -> bool {
        byte == self.delimiter
    }

    /// A byte that only the leniency "bytes" lets in, and whose use is reported.
    pub fn is_beyond_strict(self, byte: u8) -> bool {
        (byte == TAB || byte >= 0x80) && !self.is_delimiter(byte)
    }

    /// A byte that may stand in a bare field.
    pub fn is_text(self, byte: u8) -> bool {
        if self.is_delimiter(byte) || byte == QUOTE {
            return false;
        }
        (0x20..=0x7E).contains(&byte)
            || (self.allows(leniency::BYTES) && self.is_beyond_strict(byte))
    }

    /// A byte that may stand nowhere, quoted fields included.
    pub fn is_forbidden(self, byte: u8) -> bool {
        let has_a_role = self.is_delimiter(byte) || byte == QUOTE || byte == CR || byte == LF;
        !has_a_role && !self.is_text(byte)
    }
}
