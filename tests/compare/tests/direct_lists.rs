//! The proved library and the second program on direct lists at their limits:
//! as many elements as there may be, and as large as they may be.

use compare::calls::{Calls, LibraryCalls, Output, SecondCalls, Writes};
use compare::coding::Coding;
use compare::program::{accepted, verdict, Budget, Judge, Verdict};
use compare::schema::*;
use compare::sheet;
use compare::value::Value;
use std::time::{Duration, Instant};

/// Where the list stands, and its first element.
const LIST_AT: u64 = 26;
const FIRST: u64 = 44;

/// The root has a direct list of table 1 with these members, and nothing else.
fn schema(members: &[Record]) -> Schema {
    let mut schema = root_with(Coding::Bits48, Record::plain(DIRECT, 1));
    schema.tables.push(Table {
        id: 0x5EA7_0002,
        members: members.to_vec(),
    });
    schema
}

/// The root and its direct list, with zeros behind its header.
fn message(count: u64, size: u32, zeros: usize) -> Vec<u8> {
    let mut message = b"\xB3\xC4\xC0\xB5\x0A\0\0\0\0\0".to_vec();
    message.extend_from_slice(&0x5EA7_0001u32.to_le_bytes());
    message.extend_from_slice(b"\x06\0\0\0\0\0\x1A\0\0\0\0\0");
    message.extend_from_slice(&0xE2C6_CC05u32.to_le_bytes());
    message.extend_from_slice(&count.to_le_bytes()[..6]);
    message.extend_from_slice(&0x5EA7_0002u32.to_le_bytes());
    message.extend_from_slice(&size.to_le_bytes());
    message.resize(message.len() + zeros, 0);
    message
}

/// What both judges answer.
fn judged(schema: &Schema, message: &[u8], budget: Budget) -> Verdict {
    let packed = schema.pack();
    let given = LibraryCalls.judge(&packed, message, budget);
    assert_eq!(given, SecondCalls.judge(&packed, message, budget));
    given
}

/// Reads with both into outputs of their own; gives the verdict and the length.
fn read(schema: &Schema, message: &[u8], room: usize) -> (Verdict, usize) {
    let packed = schema.pack();
    let (mut sheet, mut expected) = (Output::new(room, 7), Output::new(room, 7));
    let given = LibraryCalls.read(&packed, message, Budget::LARGEST, sheet.lent());
    let second = SecondCalls.read(&packed, message, Budget::LARGEST, expected.lent());
    assert_eq!(given, second);
    assert!(sheet.whole() == expected.whole(), "outputs differ");
    (given.verdict, given.length as usize)
}

/// Writes with both likewise; gives number and length.
fn write(schema: &Schema, sheet: &[u8], room: usize) -> (u64, usize) {
    let packed = schema.pack();
    let (mut message, mut expected) = (Output::new(room, 7), Output::new(room, 7));
    let given = LibraryCalls.write(&packed, sheet, message.lent());
    let second = SecondCalls.write(&packed, sheet, expected.lent());
    assert_eq!(given, second);
    assert!(message.whole() == expected.whole(), "outputs differ");
    (given[0], given[1] as usize)
}

fn text() -> Record {
    Record::plain(TEXT, 0)
}

/// Four billion elements of no bytes: the visits bound the walk.
#[test]
fn elements_of_no_bytes() {
    let (schema, count) = (schema(&[text()]), u64::from(u32::MAX));
    let message = message(count, 0, 0);
    for visits in [2, 3, 1000, 1_000_000] {
        let given = judged(&schema, &message, Budget::of_visits(visits));
        assert_eq!(given, verdict(4, FIRST, visits, 6));
    }
    let packed = schema.pack();
    for from in [
        0,
        1,
        1 << 31,
        count - 2,
        count - 1,
        count,
        count + 1,
        u64::MAX,
    ] {
        let (mut steps, mut second) = ([9; 11], [9; 11]);
        let given = LibraryCalls.list(&packed, &message, &[0], from, &mut steps);
        let expected = SecondCalls.list(&packed, &message, &[0], from, &mut second);
        assert_eq!((given, steps), (expected, second), "from {from}");
        assert_eq!(given, count);
        let none = u64::from(u32::MAX);
        let element = [3, 16, FIRST, 0];
        let ended = [7, 15, LIST_AT, none];
        let first = if from < count { element } else { ended };
        assert_eq!(steps[..4], first, "from {from}");
    }
    for (step, expected) in [
        (u32::MAX - 1, [3, 16, FIRST, 0]),
        (u32::MAX, [7, 15, LIST_AT, u64::from(u32::MAX)]),
    ] {
        assert_eq!(LibraryCalls.field(&packed, &message, &[0, step]), expected);
        assert_eq!(SecondCalls.field(&packed, &message, &[0, step]), expected);
    }
}

/// Elements of one byte up to the message's last.
#[test]
fn elements_that_fill_the_largest_message() {
    let schema = schema(&[Record::plain(1, 0)]);
    let room = SIZE_LIMIT - FIRST as usize;
    let count = room as u64;
    let full = message(count, 1, room);
    let (visits, content) = (count as u32 + 2, count + 6);
    let exact = Budget { visits, content };
    assert_eq!(judged(&schema, &full, exact), accepted(visits, content));
    let last = SIZE_LIMIT as u64 - 1;
    let fewer = Budget::of_visits(visits - 1);
    let short = verdict(4, last, visits - 1, content - 1);
    assert_eq!(judged(&schema, &full, fewer), short);
    let less = Budget {
        content: content - 1,
        ..exact
    };
    let short = verdict(17, last, visits, content - 1);
    assert_eq!(judged(&schema, &full, less), short);
    let over = message(count + 1, 1, room);
    assert_eq!(judged(&schema, &over, exact), verdict(6, LIST_AT, 2, 6));
}

/// Neither product is taken for one that fits.
#[test]
fn products_of_many_bits() {
    let schema = schema(&[text()]);
    let largest = u32::MAX;
    for (count, size) in [
        (u64::from(largest), largest),
        (65_536, 65_536),
        (1 << 31, 2),
        (2, 1 << 31),
        (1 << 31, 1 << 31),
        (u64::from(largest), 1),
        (1, largest),
        (1 << 32, 0),
        ((1 << 48) - 1, 0),
        (1 << 40, 1 << 24),
    ] {
        let message = message(count, size, 100);
        let given = judged(&schema, &message, Budget::LARGEST);
        assert_eq!(given, verdict(6, LIST_AT, 2, 6), "{count} of {size}");
    }
}

/// Four marks an element are a byte: a sheet of the largest size, and one over it.
#[test]
fn sheets_at_and_over_the_size() {
    let schema = schema(&[text(); 4]);
    let bytes = |count: u64| (34 + 8 * count).div_ceil(8) as usize;
    let most = SIZE_LIMIT as u64 - 5;
    assert_eq!(bytes(most), SIZE_LIMIT);
    let fits = message(most, 0, 0);
    let spent = accepted(most as u32 + 2, 6);
    assert_eq!(read(&schema, &fits, SIZE_LIMIT), (spent, SIZE_LIMIT));
    let no_room = |visits| verdict(14, 0, visits, 6);
    let short = read(&schema, &fits, SIZE_LIMIT - 1);
    assert_eq!(short, (no_room(most as u32 + 2), 0));
    let over = message(most + 1, 0, 0);
    let given = read(&schema, &over, SIZE_LIMIT + 1000);
    assert_eq!(given, (no_room(most as u32 + 3), 0));
}

/// Elements of 4,097 bytes, absent in two bits each: 13 from 4,095 on.
#[test]
fn messages_at_and_over_the_size() {
    let mut member = Record::plain(STRUCT, 1);
    member.optional = true;
    let mut schema = schema(&[member]);
    schema.structs = vec![
        vec![Record::plain(4, 0); 32],
        vec![Record::plain(STRUCT, 0); 16],
    ];
    let sheet_of = |count| {
        let list = Value::List(vec![Value::Table(vec![Value::Absent]); count]);
        sheet::encode(&schema, &Value::Table(vec![list]))
    };
    let used = FIRST as usize + 4094 * 4097;
    let fits = sheet_of(4094);
    assert_eq!(write(&schema, &fits, used), (0, used));
    assert_eq!(write(&schema, &fits, used - 1), (14, 0));
    assert_eq!(write(&schema, &sheet_of(4095), SIZE_LIMIT), (13, 0));
    assert_eq!(write(&schema, &sheet_of(1_000_000), SIZE_LIMIT), (13, 0));
}

/// A count that the sheet's few bytes cannot hold is not lawful, and costs nothing.
#[test]
fn counts_without_elements() {
    let schema = schema(&[text()]);
    let bytes = [0x7F, 0xFF, 0xFF, 0xFF, 0xC0];
    let began = Instant::now();
    assert_eq!(write(&schema, &bytes, SIZE_LIMIT), (11, 0));
    assert!(began.elapsed() < Duration::from_secs(1));
}
