//! The cases of the requirements' own table, on this crate's model, on the
//! second program and on the proved library; those of judging on the plain
//! Rust program too.

use compare::canonical;
use compare::coding::Coding::Bits48;
use compare::plain_program::Plain;
use compare::program::{refused, verdict, Answer, Budget, Judge, Library, Program};
use compare::program::{Second, Verdict};
use compare::schema::{Packed, Record, Schema, Slot, Table, BOOL};
use compare::schema_rules;
use compare::sheet;
use compare::value::Value;

/// O and N, under the coding of the table.
fn older() -> Packed {
    Packed::new(Bits48, &OLDER)
}

fn newer() -> Packed {
    Packed::new(Bits48, &NEWER)
}

const OLDER: [u8; 12] = [0, 0, 0, 1, 0, 0x4C, 0x49, 0x43, 0x45, 1, 0x10, 0];
const NEWER: [u8; 14] = [0, 0, 0, 1, 0, 0x4C, 0x49, 0x43, 0x45, 2, 0x10, 0, 0x68, 0];
const MESSAGE: [u8; 41] = [
    0xB3, 0xC4, 0xC0, 0xB5, 0x0A, 0, 0, 0, 0, 0, 0x45, 0x43, 0x49, 0x4C, 8, 0, 0, 0, 0, 0, 3, 0,
    0x1C, 0, 0, 0, 0, 0, 0xF5, 0xC8, 0x12, 0xD8, 2, 0, 0, 0, 0, 0, 0x61, 0x62, 0,
];
const SHEET: [u8; 9] = [0x40, 0, 0xD0, 0, 0, 0, 0x26, 0x16, 0x20];

fn value() -> Value {
    Value::Table(vec![Value::Number(3), Value::Blob(b"ab".to_vec())])
}

#[test]
fn own_model_gives_the_table_s_bytes() {
    let newer = schema_rules::parse(&newer()).expect("lawful");
    let older = schema_rules::parse(&older()).expect("lawful");
    assert_eq!(newer.pack().bytes(), NEWER);
    assert_eq!(canonical::message(&newer, &value()), MESSAGE);
    assert_eq!(sheet::encode(&newer, &value()), SHEET);
    assert_eq!(sheet::decode(&newer, &SHEET), Some(value()));
    let old = Value::Table(vec![Value::Number(3)]);
    assert_eq!(sheet::encode(&older, &old), [0x40, 0, 0xC0]);
}

fn changed(at: usize, byte: u8) -> Vec<u8> {
    let mut message = MESSAGE.to_vec();
    message[at] = byte;
    message
}

/// "the counter's cases ... hand in the largest content allowance".
fn judges_as_the_table_says(judge: &dyn Judge) {
    let by_newer =
        |message: &[u8], visits| judge.judge(&newer(), message, Budget::of_visits(visits));
    assert_eq!(by_newer(&MESSAGE, 2), verdict(0, 0, 2, 10));
    assert_eq!(by_newer(&MESSAGE, 1), verdict(4, 28, 1, 8));
    assert_eq!(by_newer(&MESSAGE, 0), verdict(4, 10, 0, 0));
    let by_older = judge.judge(&older(), &MESSAGE, Budget::of_visits(1));
    assert_eq!(by_older, verdict(0, 0, 1, 8));
    // The text is member 1.
    let cut = Verdict {
        member: 1,
        ..verdict(8, 10, 1, 5)
    };
    assert_eq!(by_newer(&changed(14, 5), 2), cut);
    assert_eq!(by_newer(&changed(14, 2), 2), verdict(0, 0, 1, 2));
    assert_eq!(by_newer(&changed(14, 0), 2), verdict(0, 0, 1, 0));
    assert_eq!(by_newer(&changed(40, 1), 2), verdict(10, 28, 2, 10));
    assert_eq!(by_newer(&MESSAGE[..40], 2), verdict(6, 28, 2, 8));
    assert_eq!(by_newer(&[], 2), verdict(2, 0, 0, 0));
    assert_eq!(by_newer(&changed(22, 9), 2), verdict(6, 9, 2, 8));
}

#[test]
fn second_program_judges_as_the_table_says() {
    judges_as_the_table_says(&Second);
}

#[test]
fn library_judges_as_the_table_says() {
    judges_as_the_table_says(&Library);
}

#[test]
fn plain_program_judges_as_the_table_says() {
    judges_as_the_table_says(&Plain);
}

fn gives_the_table_s_sheets(program: &dyn Program) {
    let [one, two] = [1, 2].map(Budget::of_visits);
    let read = program.read(&newer(), &MESSAGE, two, 9);
    assert_eq!(read, (verdict(0, 0, 2, 10), SHEET.to_vec()));
    let read = program.read(&older(), &MESSAGE, one, 3);
    assert_eq!(read, (verdict(0, 0, 1, 8), vec![0x40, 0, 0xC0]));
    let read = program.read(&newer(), &changed(14, 2), two, 9);
    assert_eq!(read, (verdict(0, 0, 1, 2), vec![0x40, 0, 0xC0]));
    let read = program.read(&newer(), &changed(14, 0), two, 9);
    assert_eq!(read, (verdict(0, 0, 1, 0), vec![0]));
    let read = program.read(&newer(), &MESSAGE, two, 8);
    assert_eq!(read, (verdict(14, 0, 2, 10), Vec::new()));
}

#[test]
fn second_program_gives_the_table_s_sheets() {
    gives_the_table_s_sheets(&Second);
}

#[test]
fn library_gives_the_table_s_sheets() {
    gives_the_table_s_sheets(&Library);
}

/// The table's entries one by one.
fn answers_the_table_s_fields(program: &dyn Program) {
    let by_newer = |message: &[u8], path: &[u32]| program.field(&newer(), message, path);
    let number = Answer::Number {
        bits: 3,
        width: 16,
        signed: false,
    };
    let object = |kind, place, length| Answer::Object {
        kind,
        place,
        length,
    };
    assert_eq!(by_newer(&MESSAGE, &[]), object(16, 10, 8));
    assert_eq!(by_newer(&MESSAGE, &[0]), number);
    assert_eq!(by_newer(&MESSAGE, &[1]), object(13, 28, 2));
    assert_eq!(program.text(&newer(), &MESSAGE, &[1]), Some(b"ab".to_vec()));
    assert_eq!(program.text(&newer(), &MESSAGE, &[0]), None);
    assert_eq!(program.field(&older(), &MESSAGE, &[1]), refused(15, 10));
    assert_eq!(by_newer(&changed(14, 5), &[0]), number);
    let cut = Answer::Refused {
        number: 8,
        place: 10,
        member: 1,
    };
    assert_eq!(by_newer(&changed(14, 5), &[1]), cut);
    assert_eq!(by_newer(&changed(14, 2), &[1]), Answer::Absent);
    assert_eq!(by_newer(&changed(14, 0), &[0]), Answer::Absent);
    assert_eq!(by_newer(&changed(40, 1), &[1]), refused(10, 28));
    assert_eq!(by_newer(&MESSAGE[..40], &[1]), refused(6, 28));
    assert_eq!(by_newer(&[], &[1]), refused(2, 0));
    assert_eq!(by_newer(&changed(22, 9), &[1]), refused(6, 9));
    let list = program.list_steps(&newer(), &MESSAGE, &[1], 1);
    assert_eq!(list, Err(refused(15, 0)));
}

#[test]
fn second_program_answers_the_table_s_fields() {
    answers_the_table_s_fields(&Second);
}

#[test]
fn library_answers_the_table_s_fields() {
    answers_the_table_s_fields(&Library);
}

fn writes_the_table_s_message(program: &dyn Program) {
    let write = |sheet: &[u8], room| program.write(&newer(), sheet, room);
    assert_eq!(write(&SHEET, 41), (0, MESSAGE.to_vec()));
    assert_eq!(write(&SHEET, 40), (14, Vec::new()));
    assert_eq!(write(&SHEET[..8], 41), (11, Vec::new()));
    // Both absent; a plain number may not be.
    assert_eq!(write(&[0], 41), (12, Vec::new()));
    let none = Packed::new(Bits48, &[]);
    assert_eq!(program.write(&none, &SHEET, 41), (1, Vec::new()));
}

#[test]
fn second_program_writes_the_table_s_message() {
    writes_the_table_s_message(&Second);
}

#[test]
fn library_writes_the_table_s_message() {
    writes_the_table_s_message(&Library);
}

#[test]
fn optional_bool_after_seven_bools() {
    let mut members = vec![Record::plain(BOOL, 0); 8];
    members[7].optional = true;
    let tables = vec![Table { id: 1, members }];
    let schema = Schema {
        tables,
        ..Schema::new(Bits48)
    };
    let (slots, size) = schema.slots(0);
    let expected = Slot {
        flag: Some(7),
        value: 8,
        bits: 1,
    };
    assert_eq!((slots[7], size), (expected, 2));
}

/// The flag is bit 7 of byte 0 and the value bit 0 of byte 1, so that with one
/// byte a flag of 1 is without its value.
#[test]
fn optional_bool_after_seven_bools_is_judged_so() {
    let mut members = vec![Record::plain(BOOL, 0); 8];
    members[7].optional = true;
    let tables = vec![Table { id: 1, members }];
    let schema = Schema {
        tables,
        ..Schema::new(Bits48)
    };
    let start: &[u8] = &[0xB3, 0xC4, 0xC0, 0xB5, 10, 0, 0, 0, 0, 0];
    let judges: [&dyn Judge; 3] = [&Second, &Library, &Plain];
    for judge in judges {
        let with = |fixed: &[u8]| {
            let header = [1, 0, 0, 0, fixed.len() as u8, 0, 0, 0, 0, 0];
            let message = [start, &header, fixed].concat();
            judge.judge(&schema.pack(), &message, Budget::of_visits(1))
        };
        let refused = Verdict {
            member: 7,
            ..verdict(8, 10, 1, 1)
        };
        assert_eq!(with(&[0x80]), refused, "{}", judge.name());
        assert_eq!(with(&[0x7F]), verdict(0, 0, 1, 1), "{}", judge.name());
        assert_eq!(with(&[0x80, 0]), verdict(0, 0, 1, 2), "{}", judge.name());
    }
}
