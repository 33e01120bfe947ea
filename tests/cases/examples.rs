//! The rules' own examples. Here the answers are the rules', and the model is held to them.

use crate::model::header::{find_column, Column};
use crate::model::reader::{check, Answer};
use crate::model::table::Table;
use crate::model::writer::{write, FULL, PLAIN};
use crate::rooms::usual;
use crate::wire::Wire;
use std::io::{self, Write};

const STRICT: u8 = 0;
const LF: u8 = 1;
const BLANKS: u8 = 2;
const RAGGED: u8 = 4;

/// Refusal, line, column and byte, or records, fields, text length and report.
enum Says {
    No(u32, u32, u32, u32),
    Yes(u32, u32, u32, u32),
}

impl Says {
    fn answer(&self) -> Answer {
        let mut answer = Answer::default();
        match *self {
            Says::No(refusal, line, column, byte) => {
                answer.refusal = refusal;
                answer.line = line;
                answer.column = column;
                answer.byte = byte;
            }
            Says::Yes(records, fields, text, report) => {
                answer.records = records;
                answer.fields = fields;
                answer.text = text;
                answer.report = report;
            }
        }
        answer
    }
}

const FILES: [(&[u8], u8, Says); 20] = [
    (b"", STRICT, Says::Yes(0, 0, 0, 0)),
    (b"\r\n", STRICT, Says::Yes(1, 1, 0, 0)),
    (b"a\r\n\r\n", STRICT, Says::Yes(2, 2, 1, 0)),
    (b"a\r\n\"\"", STRICT, Says::Yes(2, 2, 1, 0)),
    (b"a,", STRICT, Says::Yes(1, 2, 1, 0)),
    (b"\"a\"\"b\"", STRICT, Says::Yes(1, 1, 3, 0)),
    (b"\"a\r\nb\",c\r\n", STRICT, Says::Yes(1, 2, 5, 0)),
    (b"a\"b", STRICT, Says::No(4, 1, 2, 1)),
    (b"\"a\"b", STRICT, Says::No(5, 1, 4, 3)),
    (b"a\rb", STRICT, Says::No(6, 1, 2, 1)),
    (b"a\n", STRICT, Says::No(7, 1, 2, 1)),
    (b"a\n", LF, Says::Yes(1, 1, 1, 1)),
    (b"a,b\r\n\"c", STRICT, Says::No(8, 2, 1, 5)),
    (b"a,b\r\nc", RAGGED, Says::Yes(2, 3, 3, 4)),
    (b"a,b\r\n\r\n", STRICT, Says::No(10, 2, 1, 5)),
    (b"a,b\r\nc", STRICT, Says::No(10, 2, 2, 6)),
    (b" a , \"b\" ", STRICT, Says::No(4, 1, 6, 5)),
    (b" a , \"b\" ", BLANKS, Says::Yes(1, 2, 2, 2)),
    (&[b'a'; 65_535], STRICT, Says::Yes(1, 1, 65_535, 0)),
    (&[b'a'; 65_536], STRICT, Says::No(9, 1, 1, 0)),
];

pub fn send<W: Write>(wire: &mut Wire<W>) -> io::Result<()> {
    wire.section("the rules' examples")?;
    for (file, leniencies, says) in &FILES {
        assert_eq!(check(file, b',', *leniencies).0, says.answer());
        let rooms = usual(file.len(), 0);
        if file.len() < 64 {
            wire.dialect(b',', *leniencies)?;
            wire.walk(file, rooms)?;
        } else {
            let (recipe, pieces) = (vec![(file.to_vec(), 1)], [file.len()]);
            wire.long((b',', *leniencies), &recipe, &pieces, rooms)?;
        }
    }
    let table = table_of(&[b"", b"x,y"]);
    assert_eq!(write(&table, PLAIN, 8).1, Some(b",\"x,y\"\r\n".to_vec()));
    assert_eq!(
        write(&table, FULL, 10).1,
        Some(b"\"\",\"x,y\"\r\n".to_vec())
    );
    wire.table(&table, &[(PLAIN, 8), (FULL, 10)], &[], &[])?;
    let header = table_of(&[b"a", b"b", b"b", b"a"]);
    let later = Column {
        refusal: 16,
        column: 2,
    };
    assert_eq!(find_column(&header, b"a"), later);
    wire.table(&header, &[], &[b"a", b"b", b"c"], &[])
}

fn table_of(contents: &[&[u8]]) -> Table {
    Table::of(&[contents.iter().map(|c| c.to_vec()).collect()])
}
