//! The plain Rust program's loops over lists, beside the second program: at the
//! greatest depth, with every number of visits, and with each bit of a message
//! changed.

use compare::canonical;
use compare::coding::{Coding, CODINGS};
use compare::judging::same_verdict;
use compare::plain_program::Plain;
use compare::program::{Budget, Second, Verdict};
use compare::schema::*;
use compare::subjects::{Sort, Subject};
use compare::value::{self, Value};

/// The members of a table in a chain: the next table, then the lists.
const LISTS: usize = 4;

/// A table that leads to one like itself and has lists of texts, of bytes and of
/// rows, and a direct list of rows where the coding has such; a row is a number,
/// an optional struct with bools, a text and bytes.
fn schema(coding: Coding) -> Schema {
    let lists = [
        Record::plain(TEXT, 0),
        Record::plain(BYTES, 0),
        Record::plain(TABLE, 1),
    ];
    let mut members = vec![Record::plain(TABLE, 0)];
    members.extend((0..3).map(|list| Record::plain(LIST, list)));
    if !coding.is_older() {
        members.push(Record::plain(DIRECT, 1));
    }
    let mut optional = Record::plain(STRUCT, 0);
    optional.optional = true;
    let row = vec![
        Record::plain(2, 0),
        optional,
        Record::plain(TEXT, 0),
        Record::plain(BYTES, 0),
    ];
    Schema {
        structs: vec![vec![
            Record::plain(BOOL, 0),
            Record::plain(1, 0),
            Record::plain(BOOL, 0),
        ]],
        lists: lists.to_vec(),
        tables: vec![
            Table {
                id: 0x0A0A_0001,
                members,
            },
            Table {
                id: 0x0A0A_0002,
                members: row,
            },
        ],
        ..Schema::new(coding)
    }
}

/// The three elements of a list: the second is absent, or has absent parts.
fn elements(list: usize) -> Value {
    let blob = |bytes: &[u8]| Value::Blob(bytes.to_vec());
    let bools = Value::Struct(vec![
        Value::Bool(true),
        Value::Number(7),
        Value::Bool(false),
    ]);
    let row = |flagged, text| Value::Table(vec![Value::Number(3), flagged, text, blob(b"xyz")]);
    Value::List(match list {
        1 | 2 => vec![
            blob(b"ab"),
            Value::Absent,
            blob("Größe und Länge".as_bytes()),
        ],
        3 => vec![
            row(bools, blob(b"ab")),
            Value::Absent,
            row(Value::Absent, blob(b"")),
        ],
        _ => vec![
            row(bools, blob(b"ab")),
            row(Value::Absent, Value::Absent),
            row(Value::Absent, blob(b"c")),
        ],
    })
}

/// A chain of so many tables, the last of which has one list.
fn chain(schema: &Schema, tables: usize, list: usize) -> (Subject, Budget) {
    let mut parts = vec![Value::Absent; schema.tables[0].members.len()];
    parts[list] = elements(list);
    let mut root = Value::Table(parts);
    for _ in 1..tables {
        let mut parts = vec![Value::Absent; schema.tables[0].members.len()];
        parts[0] = root;
        root = Value::Table(parts);
    }
    let subject = Subject {
        sort: Sort::Written,
        schema: schema.pack(),
        message: canonical::message(schema, &root),
    };
    (subject, value::spent(schema, &root))
}

fn judged(subject: &Subject, budget: Budget) -> Verdict {
    match same_verdict(&Plain, &Second, subject, budget) {
        Ok(verdict) => verdict,
        Err(report) => panic!("{report}"),
    }
}

/// The lists of a coding, by their members.
fn lists(coding: Coding) -> std::ops::RangeInclusive<usize> {
    1..=LISTS - usize::from(coding.is_older())
}

/// Every number of visits, and every amount of content, up to what is spent.
#[test]
fn lists_with_every_budget() {
    for coding in CODINGS {
        let schema = schema(coding);
        for list in lists(coding) {
            let (subject, spent) = chain(&schema, 1, list);
            assert_eq!(judged(&subject, spent).number, 0);
            for visits in 0..spent.visits {
                assert_eq!(judged(&subject, Budget::of_visits(visits)).number, 4);
            }
            for content in 0..spent.content {
                let budget = Budget {
                    content,
                    ..Budget::LARGEST
                };
                assert_eq!(judged(&subject, budget).number, 17);
            }
        }
    }
}

/// A list of rows under a chain of `n` tables has rows at `n + 2` and texts one
/// deeper; a list of texts has them at `n + 2`.
#[test]
fn lists_at_the_greatest_depth() {
    for coding in CODINGS {
        let schema = schema(coding);
        for list in lists(coding) {
            let fits = if list < 3 { 30 } else { 29 };
            for tables in 27..=33 {
                let (subject, spent) = chain(&schema, tables, list);
                let number = judged(&subject, Budget::LARGEST).number;
                assert_eq!(number, if tables <= fits { 0 } else { 5 });
                for less in 0..8 {
                    let visits = spent.visits.saturating_sub(less);
                    judged(&subject, Budget::of_visits(visits));
                }
            }
        }
    }
}

/// Each bit of a message changed, at the root and where the depth is just enough.
#[test]
fn lists_with_a_bit_changed() {
    for coding in CODINGS {
        let schema = schema(coding);
        for list in lists(coding) {
            for tables in [1, 29] {
                let (subject, _) = chain(&schema, tables, list);
                for bit in 0..8 * subject.message.len() {
                    let mut changed = subject.clone();
                    changed.message[bit / 8] ^= 1 << (bit % 8);
                    judged(&changed, Budget::of_visits(1000));
                }
            }
        }
    }
}

/// The message's end anywhere.
#[test]
fn lists_that_are_cut() {
    for coding in CODINGS {
        let schema = schema(coding);
        for list in lists(coding) {
            let (subject, _) = chain(&schema, 2, list);
            for length in 0..subject.message.len() {
                let mut cut = subject.clone();
                cut.message.truncate(length);
                judged(&cut, Budget::LARGEST);
            }
        }
    }
}

/// Rows that are shorter or longer than the schema says, one after the other.
#[test]
fn rows_of_every_length() {
    for coding in CODINGS {
        let schema = schema(coding);
        let (subject, _) = chain(&schema, 1, 3);
        let (_, full) = schema.slots(1);
        let id = schema.tables[1].id.to_le_bytes();
        let rows: Vec<usize> = (subject.message.windows(4).enumerate())
            .filter(|(_, bytes)| *bytes == id)
            .map(|(at, _)| at)
            .collect();
        assert_eq!(rows.len(), 2);
        for first in 0..=full + 2 {
            for second in 0..=full + 2 {
                let mut changed = subject.clone();
                for (row, length) in rows.iter().zip([first, second]) {
                    changed.message[row + 4] = length as u8;
                }
                judged(&changed, Budget::LARGEST);
            }
        }
    }
}
