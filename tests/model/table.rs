//! The table in memory: contents joined, their ends, and the rows' field counts so far.

#[derive(Clone, Debug, Default, PartialEq, Eq)]
pub struct Table {
    pub text: Vec<u8>,
    pub ends: Vec<u32>,
    pub rows: Vec<u32>,
}

impl Table {
    /// The table of these records, each a list of contents.
    pub fn of(records: &[Vec<Vec<u8>>]) -> Table {
        let mut table = Table::default();
        for record in records {
            for content in record {
                table.push_field(content);
            }
            table.close_record();
        }
        table
    }

    pub fn push_field(&mut self, content: &[u8]) {
        self.text.extend_from_slice(content);
        self.ends.push(self.text.len() as u32);
    }

    pub fn close_record(&mut self) {
        self.rows.push(self.ends.len() as u32);
    }

    pub fn is_well_formed(&self) -> bool {
        if self.rows.is_empty() {
            return self.ends.is_empty() && self.text.is_empty();
        }
        let rows_rise = self.rows[0] >= 1 && self.rows.windows(2).all(|pair| pair[0] < pair[1]);
        let ends_never_fall = self.ends.windows(2).all(|pair| pair[0] <= pair[1]);
        rows_rise
            && ends_never_fall
            && self.rows.last().map(|&last| last as usize) == Some(self.ends.len())
            && self.ends.last().map(|&last| last as usize) == Some(self.text.len())
    }

    // What follows is asked of well formed tables only.

    /// Where the content of a field lies in the text; fields count through the whole table.
    pub fn part(&self, field: usize) -> std::ops::Range<usize> {
        let start = if field == 0 { 0 } else { self.ends[field - 1] };
        start as usize..self.ends[field] as usize
    }

    pub fn content(&self, field: usize) -> &[u8] {
        &self.text[self.part(field)]
    }

    /// The numbers of the fields of a record.
    pub fn fields_of(&self, record: usize) -> std::ops::Range<usize> {
        let start = if record == 0 {
            0
        } else {
            self.rows[record - 1]
        };
        start as usize..self.rows[record] as usize
    }
}
