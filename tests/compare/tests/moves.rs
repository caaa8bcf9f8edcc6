//! Clearing schemas and moving stored messages over, by the library's C interface and
//! the second program side by side.
//!
//! A longer run: `compare clears --cases 10000000 --seed S`, with `--coding 32` of
//! schemas made for the older coding, and `compare moves --cases 10000000 --seed S`.

use compare::calls::{clears, moves, LibraryCalls, Output, SecondCalls, Writes};
use compare::canonical;
use compare::coding::{Coding, CODINGS};
use compare::counts::Counts;
use compare::program::Budget;
use compare::schema::*;
use compare::value::Value;

/// No difference, and everything reached.
fn reached(outcome: Result<Counts, String>, wanted: &[(&str, u64)]) {
    let counts = match outcome {
        Ok(counts) => counts,
        Err(report) => panic!("{report}"),
    };
    println!("{counts}");
    for (name, least) in wanted {
        let count = counts.named(name);
        assert!(count >= *least, "{name}: {count}, at least {least} wanted");
    }
}

const CLEARED: [(&str, u64); 19] = [
    ("clears", 100_000),
    ("flags cleared: none", 1500),
    ("flags cleared: one", 2000),
    ("flags cleared: several", 1000),
    ("room: exact, answer 0", 6000),
    ("room: exact, answer 1", 10_000),
    ("room: larger, answer 0", 6000),
    ("room: larger, answer 1", 10_000),
    ("room: none, answer 14", 6000),
    ("room: none, answer 1", 10_000),
    ("room: one less, answer 14", 6000),
    ("room: one less, answer 1", 10_000),
    ("room: some less, answer 14", 6000),
    ("schemas damaged, lawful", 300),
    ("schemas damaged, not lawful", 8000),
    ("schemas of the other coding, lawful", 2000),
    ("schemas random bytes, not lawful", 2000),
    ("schemas with a rule broken, not lawful", 1500),
    ("schemas with a union in place, lawful", 2000),
];

#[test]
fn clearing_schemas() {
    for coding in CODINGS {
        let outcome = clears::run(&LibraryCalls, &SecondCalls, coding, 1, 100_000);
        reached(outcome, &CLEARED);
    }
}

const MOVED: [(&str, u64); 11] = [
    (moves::MOVES, 120_000),
    ("messages as written, moved 0", 20_000),
    ("messages laid out, moved 0", 20_000),
    ("messages wild, moved 0", 10_000),
    ("messages wild, moved 12", 6000),
    ("messages damaged, moved 0", 20_000),
    ("messages damaged, moved 12", 8000),
    ("moved 0, with a union in place", 25_000),
    ("moved 0, without a union in place", 40_000),
    ("moved 12, with a union in place", 4000),
    ("read back", 80_000),
];

#[test]
fn moving_messages_over() {
    let outcome = moves::run(&LibraryCalls, &SecondCalls, 1, 120_000);
    reached(outcome, &MOVED);
}

/// A message of bytes in a union in place, as large as may be and somewhat smaller: each object gets
/// a header of 10 bytes when it is moved over.
#[test]
fn messages_too_large_to_move() {
    let mut schema = Schema::new(Coding::Bits48);
    schema.unions = vec![vec![Record::plain(BYTES, 0)]];
    let member = Record {
        in_place: true,
        ..Record::plain(UNION, 0)
    };
    let (id, members) = (7, vec![member]);
    schema.tables = vec![Table { id, members }];
    let (stored, cleared) = (schema.pack(), schema.cleared().pack());
    for (size, number) in [(SIZE_LIMIT - 10, 0), (SIZE_LIMIT - 9, 13), (SIZE_LIMIT, 13)] {
        let bytes = Value::Union(1, Box::new(Value::Blob(vec![0xA5; size - 28])));
        let value = Value::Table(vec![bytes]);
        let message = canonical::message(&schema, &value);
        assert_eq!(message.len(), size);
        for program in [&LibraryCalls as &dyn Writes, &SecondCalls] {
            let mut sheet = vec![0; SIZE_LIMIT];
            let read = program.read(&stored, &message, Budget::LARGEST, &mut sheet);
            assert_eq!(read.verdict.number, 0);
            let sheet = &sheet[..read.length as usize];
            let mut output = Output::new(SIZE_LIMIT, 1);
            let by_stored = program.write(&stored, sheet, output.lent());
            assert_eq!(by_stored, [12, 0]);
            let length = if number == 0 { SIZE_LIMIT as u64 } else { 0 };
            let moved = program.write(&cleared, sheet, output.lent());
            assert_eq!(moved, [number, length]);
            // 12 and 13 come before 14.
            let no_room = if number == 0 { 14 } else { number };
            assert_eq!(program.write(&cleared, sheet, &mut []), [no_room, 0]);
            assert_eq!(program.write(&stored, sheet, &mut []), [12, 0]);
            if number == 0 {
                let mut back = vec![0; sheet.len()];
                let moved = output.front(SIZE_LIMIT);
                let read = program.read(&cleared, moved, Budget::LARGEST, &mut back);
                assert_eq!(read.verdict.number, 0);
                assert!(back == sheet, "sheets differ");
            }
        }
    }
}

/// By the largest schema: 64 tables of 64 members, of which each has one union in place.
#[test]
fn the_largest_schema() {
    let mut schema = Schema::new(Coding::Bits48);
    schema.structs = vec![vec![Record::plain(ENUM, 0x8A); 32]; 64];
    schema.lists = vec![Record::plain(UNION, 0x0A); 64];
    schema.unions = vec![vec![Record::plain(LIST, 0x0A); 32]; 64];
    for table in 0..64 {
        let mut members = vec![Record::plain(UNION, 0x0A); 64];
        members[table].in_place = true;
        let id = 0x8A0A_8A00 + table as u32;
        schema.tables.push(Table { id, members });
    }
    let bytes = |schema: &Schema| schema.pack().bytes().to_vec();
    let (packed, cleared) = (bytes(&schema), bytes(&schema.cleared()));
    let changed = packed.iter().zip(&cleared).filter(|(a, b)| a != b).count();
    assert_eq!(
        (packed.len(), changed),
        (5 + 2 * 64 * 65 + 128 + 64 * 133, 64)
    );
    for program in [&LibraryCalls as &dyn Writes, &SecondCalls] {
        let mut output = Output::new(packed.len(), 1);
        let given = program.clear(&packed, output.lent());
        assert_eq!(given, [0, packed.len() as u64]);
        assert!(output.front(packed.len()) == cleared);
        assert_eq!(program.clear(&packed[1..], output.lent()), [1, 0]);
    }
}
