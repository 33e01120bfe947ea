//! csv-core's whole read, where its source is installed: records into one buffer, each over the last, as
//! its users do.

pub use reader::*;

/// Records, fields and the length of all contents.
pub type Counts = (u32, u32, u32);

#[cfg(csv_core)]
mod reader {
    use super::Counts;
    use csv_core::{ReadRecordResult, Reader};

    pub const THERE: bool = true;

    pub fn read(mut file: &[u8], text: &mut [u8], ends: &mut [usize]) -> Counts {
        let mut reader = Reader::new();
        let (mut records, mut fields, mut content) = (0, 0, 0);
        loop {
            let (result, taken, written, ended) = reader.read_record(file, text, ends);
            file = &file[taken..];
            content += written as u32;
            fields += ended as u32;
            match result {
                ReadRecordResult::Record => records += 1,
                ReadRecordResult::InputEmpty => {}
                ReadRecordResult::End => return (records, fields, content),
                full => panic!("csv-core has too little room: {full:?}"),
            }
        }
    }
}

#[cfg(not(csv_core))]
mod reader {
    use super::Counts;

    pub const THERE: bool = false;

    pub fn read(_file: &[u8], _text: &mut [u8], _ends: &mut [usize]) -> Counts {
        (0, 0, 0)
    }
}
