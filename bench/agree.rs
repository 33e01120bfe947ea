//! The ordinary check and ours, our read, our stream and our index must agree before they are timed.

use crate::ordinary::{self, Answer, CONTENT_LIMIT};
use crate::ours::{self, Buffers};
use crate::PIECE;

/// Files with the answer that the rules give: refusal, line, column, byte, records, fields, text, report.
const FILES: [(&[u8], [u32; 8]); 20] = [
    (b"", [0, 0, 0, 0, 0, 0, 0, 0]),
    (b"\r\n", [0, 0, 0, 0, 1, 1, 0, 0]),
    (b"a\r\n\r\n", [0, 0, 0, 0, 2, 2, 1, 0]),
    (b"a\r\n\"\"", [0, 0, 0, 0, 2, 2, 1, 0]),
    (b"a,", [0, 0, 0, 0, 1, 2, 1, 0]),
    (b"\"a\"\"b\"", [0, 0, 0, 0, 1, 1, 3, 0]),
    (b"\"a\r\nb\",c\r\n", [0, 0, 0, 0, 1, 2, 5, 0]),
    (b"a\x7f", [3, 1, 2, 1, 0, 0, 0, 0]),
    (b"\"\n\"\xff", [3, 2, 2, 3, 0, 0, 0, 0]),
    (b"a\"b", [4, 1, 2, 1, 0, 0, 0, 0]),
    (b"\"a\"b", [5, 1, 4, 3, 0, 0, 0, 0]),
    (b"a\rb", [6, 1, 2, 1, 0, 0, 0, 0]),
    (b"a\r", [6, 1, 2, 1, 0, 0, 0, 0]),
    (b"a\n", [7, 1, 2, 1, 0, 0, 0, 0]),
    (b"a,b\r\n\"c", [8, 2, 1, 5, 0, 0, 0, 0]),
    (b"a,b\r\nc", [10, 2, 2, 6, 0, 0, 0, 0]),
    (b"a,b\r\n\r\n", [10, 2, 1, 5, 0, 0, 0, 0]),
    (b" a , \"b\" ", [4, 1, 6, 5, 0, 0, 0, 0]),
    (&[b'a'; 65_535], [0, 0, 0, 0, 1, 1, 65_535, 0]),
    (&[b'a'; 65_536], [9, 1, 1, 0, 0, 0, 0, 0]),
];

fn answer(n: [u32; 8]) -> Answer {
    let [refusal, line, column, byte, records, fields, text, report] = n;
    Answer {
        refusal,
        line,
        column,
        byte,
        records,
        fields,
        text,
        report,
    }
}

/// The files above, one past the size limit, contents about their limit, every byte at every kind of
/// place, and every file of up to six bytes out of six.
pub fn on_small_files() -> String {
    let mut to = Buffers::cleared(CONTENT_LIMIT + 64, 64);
    for (file, numbers) in FILES {
        assert_eq!(on(file, &mut to), answer(numbers), "{}", shown(file));
    }
    let mut files = vec![vec![b'a'; 16_777_217]];
    files.extend(about_the_limit());
    files.extend(every_byte());
    files.extend(every_file(b"a,\"\r\n\0", 6));
    for file in &files {
        on(file, &mut to);
    }
    let number = FILES.len() + files.len();
    format!("Both checks, our read, our stream and our index agree on {number} small files.")
}

/// The answer of the ordinary check, if our check, our read, our stream and our index give the same. Of a
/// table that is read the last entries are compared too, of one that is streamed how much of it came, and of
/// an index how many entries it has.
pub fn on(file: &[u8], to: &mut Buffers) -> Answer {
    let answer = ordinary::check(file);
    let told = ours::told(answer);
    assert_eq!(ours::check(file), told, "our check: {}", shown(file));
    assert_eq!(ours::read(file, to), told, "our read: {}", shown(file));
    if answer.records > 0 {
        let row = to.rows[answer.records as usize - 1];
        let end = to.ends[answer.fields as usize - 1];
        let last = (answer.fields, answer.text);
        assert_eq!((row, end), last, "last entries: {}", shown(file));
    }
    let (streamed, came) = ours::stream(file, PIECE, to);
    assert_eq!(streamed, told, "our stream: {}", shown(file));
    let all = (answer.records, answer.fields, answer.text);
    let whole = came == all || answer.refusal != 0;
    assert!(whole, "our stream, {came:?}: {}", shown(file));
    let indexed = ours::index(file, &mut to.rows);
    let refused = [indexed.refusal, indexed.line, indexed.column, indexed.byte];
    let expected = [answer.refusal, answer.line, answer.column, answer.byte];
    assert_eq!(refused, expected, "our index: {}", shown(file));
    let entries = (answer.records + 63) / 64;
    assert_eq!(indexed.entries, entries, "our index: {}", shown(file));
    answer
}

/// Where the records begin of rows that hold no line break.
pub fn starts_of_rows(file: &[u8]) -> Vec<usize> {
    let ends = (0..file.len()).filter(|&at| file[at] == b'\n');
    let mut starts: Vec<usize> = std::iter::once(0).chain(ends.map(|lf| lf + 1)).collect();
    starts.pop();
    starts
}

fn shown(file: &[u8]) -> String {
    file[..file.len().min(60)].escape_ascii().to_string()
}

/// Bare and quoted fields of content at the limit and a byte over it, with all that may follow them.
fn about_the_limit() -> Vec<Vec<u8>> {
    let mut files = Vec::new();
    for content in [CONTENT_LIMIT, CONTENT_LIMIT + 1] {
        let text = "a".repeat(content);
        let pairs = "\"\"".repeat(content);
        for field in [
            text.clone(),
            format!("\"{text}\""),
            format!("\"{pairs}\""),
            format!("\"{text}"),
        ] {
            for tail in [
                "", ",", "\r\n", "\r\nb,c", ",b\r\nc", "\"", "b", "\r", "\n", "\0",
            ] {
                files.push(format!("{field}{tail}").into_bytes());
                files.push(format!("\"\n\"\r\n{field}{tail}").into_bytes());
            }
        }
    }
    files
}

/// Every byte in a field, in quotes, and behind a closing quote, a pair and a CR.
fn every_byte() -> Vec<Vec<u8>> {
    let fronts = ["a", "\"", "\"a\"", "\"\"\"", "a\r"];
    let after = |front: &str, b| [front.as_bytes(), &[b], b"\""].concat();
    let all = |front| (0..=255).map(move |b| after(front, b));
    fronts.into_iter().flat_map(all).collect()
}

fn every_file(bytes: &[u8], longest: usize) -> Vec<Vec<u8>> {
    let mut files = vec![Vec::new()];
    let mut at = 0;
    while files[at].len() < longest {
        for &b in bytes {
            files.push([&files[at][..], &[b]].concat());
        }
        at += 1;
    }
    files
}
