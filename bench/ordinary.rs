//! An ordinary strict check, for comparison: std alone, field by field over slices. Line and column are
//! found when a refusal needs them.

const FILE_LIMIT: usize = 16_777_216;
pub const CONTENT_LIMIT: usize = 65_535;

/// The eight numbers of an answer.
#[derive(Clone, Copy, Debug, Default, PartialEq, Eq)]
pub struct Answer {
    pub refusal: u32,
    pub line: u32,
    pub column: u32,
    pub byte: u32,
    pub records: u32,
    pub fields: u32,
    pub text: u32,
    pub report: u32,
}

/// A refusal's number and the byte that it names.
struct Fault(u32, usize);

/// A field from its first byte: where it ends, and the length of its content.
struct Field {
    end: usize,
    content: usize,
    quoted: bool,
}

pub fn check(file: &[u8]) -> Answer {
    if file.len() > FILE_LIMIT {
        return Answer {
            refusal: 2,
            ..Answer::default()
        };
    }
    walk(file).unwrap_or_else(|Fault(number, byte)| refused(file, number, byte))
}

fn refused(file: &[u8], number: u32, byte: usize) -> Answer {
    let before = &file[..byte];
    let lines = before.iter().filter(|&&b| b == b'\n').count();
    let line_start = before
        .iter()
        .rposition(|&b| b == b'\n')
        .map_or(0, |lf| lf + 1);
    Answer {
        refusal: number,
        line: lines as u32 + 1,
        column: (byte - line_start) as u32 + 1,
        byte: byte as u32,
        ..Answer::default()
    }
}

/// Takes record by record; a line break at the file's end opens no other.
fn walk(file: &[u8]) -> Result<Answer, Fault> {
    let (mut records, mut fields, mut text) = (0, 0, 0);
    let mut width = 0; // of the first record
    let mut at = 0;
    while at < file.len() {
        let mut taken = 0;
        let end = loop {
            let field = take_field(file, at)?;
            taken += 1;
            text += field.content;
            if file.get(field.end) != Some(&b',') {
                break field.end;
            }
            at = field.end + 1;
        };
        if records == 0 {
            width = taken;
        } else if taken != width {
            return Err(Fault(10, end));
        }
        records += 1;
        fields += taken;
        at = end + 2; // behind CRLF, or behind the file
    }
    Ok(Answer {
        records,
        fields,
        text: text as u32,
        ..Answer::default()
    })
}

/// The field at a place, with what ends it: a comma, CRLF or the file's end.
fn take_field(file: &[u8], start: usize) -> Result<Field, Fault> {
    let field = match file.get(start) {
        Some(b'"') => quoted(file, start)?,
        _ => bare(file, start),
    };
    match file.get(field.end) {
        None | Some(b',') => {}
        Some(b'\r') if file.get(field.end + 1) == Some(&b'\n') => {}
        Some(b'\r') => return Err(Fault(6, field.end)),
        Some(b'\n') => return Err(Fault(7, field.end)),
        Some(b' '..=b'~') => return Err(Fault(if field.quoted { 5 } else { 4 }, field.end)),
        Some(_) => return Err(Fault(3, field.end)),
    }
    if field.content > CONTENT_LIMIT {
        return Err(Fault(9, start));
    }
    Ok(field)
}

fn bare(file: &[u8], start: usize) -> Field {
    let rest = &file[start..];
    let content = rest.iter().position(|&b| !is_text(b)).unwrap_or(rest.len());
    Field {
        end: start + content,
        content,
        quoted: false,
    }
}

fn quoted(file: &[u8], open: usize) -> Result<Field, Fault> {
    let mut pairs = 0;
    let mut at = open + 1;
    loop {
        match file.get(at) {
            Some(b'"') if file.get(at + 1) == Some(&b'"') => {
                pairs += 1;
                at += 2;
            }
            Some(b'"') => {
                return Ok(Field {
                    end: at + 1,
                    content: at - open - 1 - pairs,
                    quoted: true,
                })
            }
            Some(b' '..=b'~' | b'\r' | b'\n') => at += 1,
            Some(_) => return Err(Fault(3, at)),
            None => return Err(Fault(8, open)),
        }
    }
}

fn is_text(b: u8) -> bool {
    matches!(b, b' '..=b'~') && b != b',' && b != b'"'
}
