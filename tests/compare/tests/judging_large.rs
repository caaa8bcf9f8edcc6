//! The proved library and the second program on messages at the largest size,
//! on walks that double, and on schemas of the largest counts.

use compare::calls::{Calls, LibraryCalls};
use compare::canonical;
use compare::coding::{Coding, CODINGS};
use compare::doubling;
use compare::judging::same_verdict;
use compare::program::{accepted, verdict, Budget, Second, Verdict};
use compare::schema::*;
use compare::subjects::{Sort, Subject};
use compare::value::Value;

/// What both judges answer with so many visits and all content.
fn judged(schema: &Schema, message: &[u8], visits: u32) -> Verdict {
    judged_with(schema, message, Budget::of_visits(visits))
}

fn judged_with(schema: &Schema, message: &[u8], budget: Budget) -> Verdict {
    let subject = Subject {
        sort: Sort::Written,
        schema: schema.pack(),
        message: message.to_vec(),
    };
    match same_verdict(&LibraryCalls, &Second, &subject, budget) {
        Ok(verdict) => verdict,
        Err(report) => panic!("{report}"),
    }
}

/// Accepted with two visits and just so much content; with a byte less the
/// second object is refused, and the root has been visited.
fn takes(schema: &Schema, message: &[u8], content: u64) {
    let (visits, coding) = (2, schema.coding);
    let exact = Budget { visits, content };
    let given = judged_with(schema, message, exact);
    assert_eq!(given, accepted(2, content));
    assert_eq!(judged(schema, message, 2), given);
    let content = content - 1;
    let short = judged_with(schema, message, Budget { visits, content });
    let root = coding.offset() as u64;
    assert_eq!(short, verdict(17, second_at(coding), 2, root));
}

/// Where the second object stands, behind the start and the root.
fn second_at(coding: Coding) -> u64 {
    (2 * coding.header() + coding.offset()) as u64
}

/// The bytes left for its content in the largest message.
fn room(coding: Coding) -> u64 {
    (SIZE_LIMIT - coding.header()) as u64 - second_at(coding)
}

/// A message of the root and one object that is filled up to the size, by
/// content bytes of one value.
fn filled(schema: &Schema, empty: Value, length: u64) -> Vec<u8> {
    let mut message = canonical::message(schema, &Value::Table(vec![empty]));
    message.resize(SIZE_LIMIT, 0);
    let (at, bytes) = (second_at(schema.coding) + 4, schema.coding.bytes(length));
    message[at as usize..at as usize + bytes.len()].copy_from_slice(&bytes);
    message
}

#[test]
fn objects_that_fill_the_largest_message() {
    for coding in CODINGS {
        let lengths = [(TEXT, room(coding) - 1), (BYTES, room(coding))];
        for (kind, length) in lengths {
            let schema = root_with(coding, Record::plain(kind, 0));
            let message = |length| filled(&schema, Value::Blob(Vec::new()), length);
            let (place, root) = (second_at(coding), coding.offset() as u64);
            takes(&schema, &message(length), root + length);
            let long = judged(&schema, &message(length + 1), 2);
            assert_eq!(long, verdict(6, place, 2, root));
            let mut over = message(length);
            over.push(0);
            assert_eq!(judged(&schema, &over, 2), verdict(2, 0, 0, 0));
        }
    }
}

/// A text that fills the largest message, with one byte that is none's.
#[test]
fn a_byte_of_the_largest_text() {
    for coding in CODINGS {
        let schema = root_with(coding, Record::plain(TEXT, 0));
        let (length, root) = (room(coding) - 1, coding.offset() as u64);
        let mut message = filled(&schema, Value::Blob(Vec::new()), length);
        let start = SIZE_LIMIT - 1 - length as usize;
        message[start..SIZE_LIMIT - 1].fill(b'x');
        takes(&schema, &message, root + length);
        for at in [
            0,
            1,
            63,
            64,
            4095,
            65_536,
            length / 2,
            length - 2,
            length - 1,
        ] {
            let at = start + at as usize;
            for byte in [0x80, 0xE1, 0xFF] {
                message[at] = byte;
                let refused = verdict(16, second_at(coding), 2, root + length);
                assert_eq!(judged(&schema, &message, 2), refused, "{at}");
            }
            message[at] = b'x';
        }
    }
}

#[test]
fn lists_that_fill_the_largest_message() {
    for kind in [BOOL, 1, 2, 3, 4, F32, TEXT] {
        for coding in CODINGS {
            fill_a_list(coding, kind);
        }
    }
    fill_a_list(Coding::Bits48, UNION);
}

fn fill_a_list(coding: Coding, kind: u8) {
    let mut schema = root_with(coding, Record::plain(LIST, 0));
    schema.lists = vec![Record::plain(kind, 0)];
    schema.unions = vec![vec![Record::plain(TEXT, 0)]];
    let bits = match kind {
        BOOL => 1,
        1 => 8,
        2 => 16,
        4 | UNION => 64,
        TEXT => u64::from(coding.number()),
        _ => 32,
    };
    let (most, root) = (8 * room(coding) / bits, coding.offset() as u64);
    let message = |length| filled(&schema, Value::List(Vec::new()), length);
    takes(&schema, &message(most), root + (most * bits).div_ceil(8));
    for length in [most + 1, coding.largest()] {
        let long = judged(&schema, &message(length), 2);
        assert_eq!(long, verdict(6, second_at(coding), 2, root));
    }
}

/// Lists that each name the next table twice: the walk doubles at each level.
#[test]
fn walks_that_double() {
    let levels = 15;
    for coding in CODINGS {
        let schema = doubling::schema(coding);
        let message = doubling::message(&schema, levels);
        let exact = doubling::spent(coding, levels);
        let Budget { visits, content } = exact;
        for budget in [exact, Budget::LARGEST] {
            let given = judged_with(&schema, &message, budget);
            assert_eq!(given, accepted(visits, content));
        }
        let last = doubling::table_at(coding, levels);
        let before = content - coding.offset() as u64;
        let short = judged(&schema, &message, visits - 1);
        assert_eq!(short, verdict(4, last, visits - 1, before));
        let less = Budget {
            content: content - 1,
            ..exact
        };
        let short = judged_with(&schema, &message, less);
        assert_eq!(short, verdict(17, last, visits, before));
    }
}

/// Bytes named by every element of a list: content of more than 32 bits, of
/// which just so much is enough, and no less.
#[test]
fn a_large_blob_named_often() {
    let (length, count) = (8_000_000, 1_000_000);
    for coding in CODINGS {
        let mut schema = root_with(coding, Record::plain(LIST, 0));
        schema.lists = vec![Record::plain(BYTES, 0)];
        let empty = Value::Table(vec![Value::List(Vec::new())]);
        let mut message = canonical::message(&schema, &empty);
        let (list, offset) = (message.len() - coding.header(), coding.offset() as u64);
        message[list + 4..].copy_from_slice(&coding.bytes(count));
        let blob = message.len() as u64 + count * offset;
        let names = coding.bytes(blob).repeat(count as usize);
        message.extend(names);
        message.extend_from_slice(&0xDCDB_BE10u32.to_le_bytes());
        message.extend(coding.bytes(length));
        message.resize(message.len() + length as usize, 7);
        let before = offset + count * offset;
        let exact = Budget {
            visits: 2 + count as u32,
            content: before + count * length,
        };
        let given = judged_with(&schema, &message, exact);
        assert_eq!(given, accepted(exact.visits, exact.content));
        let at = |content| judged_with(&schema, &message, Budget { content, ..exact });
        for many in [0, 1, 9, 536, 537, count - 1] {
            let spent = before + many * length;
            let refused = verdict(17, blob, 3 + many as u32, spent);
            assert_eq!(at(spent), refused, "{many}");
            assert_eq!(at(spent + length - 1), refused, "{many}");
        }
        let some = at(1 << 32);
        assert_eq!((some.number, some.content >> 32), (17, 0));
    }
}

/// A list of unions that fills the message: each that has offset 0 is told from
/// every other, the last one too.
#[test]
fn far_elements() {
    let coding = Coding::Bits48;
    let mut schema = root_with(coding, Record::plain(LIST, 0));
    schema.lists = vec![Record::plain(UNION, 0)];
    schema.unions = vec![vec![Record::plain(TEXT, 0)]];
    let count = room(coding) / 8;
    let message = filled(&schema, Value::List(Vec::new()), count);
    let (packed, start) = (schema.pack(), second_at(coding) + coding.header() as u64);
    for element in [0, 255, 256, 65_535, 65_536, 1 << 20, count - 1] {
        let mut message = message.clone();
        message[(start + 8 * element) as usize] = 1;
        let subject = Subject {
            sort: Sort::Written,
            schema: packed.clone(),
            message,
        };
        let given = same_verdict(&LibraryCalls, &Second, &subject, Budget::LARGEST);
        let expected = Verdict {
            member: element as u32,
            ..verdict(9, start - 10, 2, 6 + 8 * count)
        };
        assert_eq!(given, Ok(expected));
        let mut steps = [0; 8];
        let given = LibraryCalls.list(&packed, &subject.message, &[0], element, &mut steps);
        let own = LibraryCalls.field(&packed, &subject.message, &[0, element as u32]);
        assert_eq!((given, &steps[..4]), (count, &own[..]));
        assert_eq!(own, [7, 9, start - 10, element]);
    }
}

/// Every count at its most, and a byte more behind the last table.
#[test]
fn the_largest_schema() {
    let flag = Record::plain(BOOL, 0);
    let table = |id| Table {
        id,
        members: vec![flag; 64],
    };
    for coding in CODINGS {
        let schema = Schema {
            coding,
            structs: vec![vec![flag; 32]; 64],
            lists: vec![flag; 64],
            unions: vec![vec![Record::plain(TEXT, 0); 32]; 64],
            tables: (0..64).map(table).collect(),
            root: 63,
        };
        let value = Value::Table(vec![Value::Bool(true); 64]);
        let message = canonical::message(&schema, &value);
        // 64 bools take eight bytes.
        assert_eq!(judged(&schema, &message, 1), accepted(1, 8));
        for extra in [1, 1000, 1 << 20] {
            let packed = schema.pack();
            let mut bytes = packed.bytes().to_vec();
            bytes.resize(bytes.len() + extra, 0);
            let subject = Subject {
                sort: Sort::BrokenSchema,
                schema: packed.with(bytes),
                message: message.clone(),
            };
            let given = same_verdict(&LibraryCalls, &Second, &subject, Budget::LARGEST);
            assert_eq!(given, Ok(verdict(1, 0, 0, 0)));
        }
    }
}
