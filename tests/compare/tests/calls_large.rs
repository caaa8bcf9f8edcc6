//! The C interface at the largest sizes: messages that are full, sheets at and
//! over the size, and sheets that would be far larger than their messages.

use compare::calls::{Calls, LibraryCalls, Output, Read, SecondCalls};
use compare::canonical;
use compare::coding::{Coding, CODINGS};
use compare::program::{verdict, Budget};
use compare::schema::*;
use compare::value::Value;
use std::time::{Duration, Instant};

/// Reads with both into outputs of their own; gives number and length.
fn read(schema: &Schema, message: &[u8], room: usize) -> (u32, usize) {
    let packed = schema.pack();
    let (mut sheet, mut expected) = (Output::new(room, 7), Output::new(room, 7));
    let given = LibraryCalls.read(&packed, message, Budget::LARGEST, sheet.lent());
    let second = SecondCalls.read(&packed, message, Budget::LARGEST, expected.lent());
    assert_eq!(given, second);
    assert!(sheet.whole() == expected.whole(), "outputs differ");
    (given.verdict.number, given.length as usize)
}

/// A root and one object that is filled up to the largest message with bytes
/// that no two kinds read alike.
fn filled(schema: &Schema, empty: Value, length: u64) -> Vec<u8> {
    let mut message = canonical::message(schema, &Value::Table(vec![empty]));
    let start = message.len();
    message.resize(SIZE_LIMIT, 0);
    for at in start..SIZE_LIMIT - 1 {
        message[at] = (at as u8).wrapping_mul(29) ^ (at >> 9) as u8;
    }
    let at = before_content(schema.coding) - schema.coding.offset();
    put(schema.coding, &mut message, at, length);
    message
}

/// Writes an offset or a length over what stands there.
fn put(coding: Coding, message: &mut [u8], at: usize, number: u64) {
    message[at..at + coding.offset()].copy_from_slice(&coding.bytes(number));
}

/// The bytes of the start, the root with its one reference and a header.
fn before_content(coding: Coding) -> usize {
    3 * coding.header() + coding.offset()
}

/// The bytes that are left for content.
fn content(coding: Coding) -> u64 {
    (SIZE_LIMIT - before_content(coding)) as u64
}

#[test]
fn full_lists_of_every_plain_kind() {
    let kinds = [(BOOL, 1, 1), (F32, 32, 34), (F64, 64, 66), (ENUM, 8, 10)];
    let integers = [(1, 8), (2, 16), (3, 32), (4, 64), (5, 8), (8, 64)];
    let integers = integers.map(|(kind, bits)| (kind, bits, bits));
    for (kind, bits, in_sheet) in kinds.into_iter().chain(integers) {
        for coding in CODINGS {
            full_list(coding, kind, bits, in_sheet);
        }
    }
}

/// A full list of elements of so many bits, and of so many in a sheet.
fn full_list(coding: Coding, kind: u8, bits: u64, in_sheet: u64) {
    let mut schema = root_with(coding, Record::plain(LIST, 0));
    schema.lists = vec![Record::plain(kind, if kind == ENUM { 200 } else { 0 })];
    let most = 8 * content(coding) / bits;
    let message = filled(&schema, Value::List(Vec::new()), most);
    // A mark and a count, and the elements, few of which are absent.
    let (number, length) = read(&schema, &message, SIZE_LIMIT);
    if in_sheet == bits {
        let exact = (34 + most * bits).div_ceil(8) as usize;
        assert_eq!((number, length), (0, exact), "kind {kind}");
        assert_eq!(read(&schema, &message, exact - 1), (14, 0));
        assert_eq!(read(&schema, &message, exact), (0, exact));
    } else {
        assert_eq!((number, length), (14, 0), "kind {kind}");
    }
    let fewer = filled(&schema, Value::List(Vec::new()), most / 2);
    assert_eq!(read(&schema, &fewer, SIZE_LIMIT).0, 0);
}

#[test]
fn full_texts_and_bytes() {
    for coding in CODINGS {
        for (kind, length) in [(TEXT, content(coding) - 1), (BYTES, content(coding))] {
            let schema = root_with(coding, Record::plain(kind, 0));
            let mut message = filled(&schema, Value::Blob(Vec::new()), length);
            if kind == TEXT {
                fill_with_text(&mut message[before_content(coding)..SIZE_LIMIT - 1]);
            }
            let exact = (34 + 8 * length).div_ceil(8) as usize;
            for room in [exact, SIZE_LIMIT, SIZE_LIMIT + 1000] {
                assert_eq!(read(&schema, &message, room), (0, exact));
            }
            assert_eq!(read(&schema, &message, exact - 1), (14, 0));
            if kind == TEXT {
                message[SIZE_LIMIT - 2] = 0xC2;
                assert_eq!(read(&schema, &message, exact), (16, 0));
            }
        }
    }
}

/// Characters of one to four bytes over and over, and ASCII where none fits.
fn fill_with_text(bytes: &mut [u8]) {
    let text = "aß€𐍈".as_bytes();
    for part in bytes.chunks_mut(text.len()) {
        match part.len() == text.len() {
            true => part.copy_from_slice(text),
            false => part.fill(b'x'),
        }
    }
}

/// A text or bytes of the given length, named so often by one list, and a list of
/// that list.
fn naming(schema: &Schema, text: usize, lists: usize, texts: usize) -> Vec<u8> {
    let coding = schema.coding;
    let (offset, header) = (coding.offset(), coding.header());
    let mut message = canonical::message(schema, &Value::Table(vec![Value::Absent]));
    let outer = message.len();
    let inner = outer + header + offset * lists;
    let content = inner + header + offset * texts;
    put(coding, &mut message, 2 * header, outer as u64);
    for (count, to) in [(lists, inner), (texts, content)] {
        message.extend_from_slice(&0x3400_BB46u32.to_le_bytes());
        message.extend(coding.bytes(count as u64));
        message.extend(coding.bytes(to as u64).repeat(count));
    }
    let magic = canonical::magic(schema, &schema.lists[1]);
    message.extend_from_slice(&magic.to_le_bytes());
    message.extend(coding.bytes(text as u64));
    message.resize(message.len() + text, b'x');
    message.push(0);
    message
}

/// The sheet of a text named often, at the size and over it.
#[test]
fn a_text_named_often() {
    CODINGS.into_iter().for_each(one_text_named_often);
}

/// A sheet that would be some 65 billion bytes, which is refused without that
/// work; of texts, each of which is judged at every arrival, with an allowance.
#[test]
fn a_blob_named_a_million_times() {
    CODINGS.into_iter().for_each(one_blob_named_often);
}

/// A list of lists of texts or of bytes.
fn lists_of(coding: Coding, kind: u8) -> Schema {
    let mut schema = root_with(coding, Record::plain(LIST, 0));
    schema.lists = vec![Record::plain(LIST, 1), Record::plain(kind, 0)];
    schema
}

fn one_text_named_often(coding: Coding) {
    let schema = lists_of(coding, TEXT);
    let bits = |text: usize, texts: usize| 34 + 34 + texts * (34 + 8 * text);
    let exact = bits(65_530, 256).div_ceil(8);
    assert_eq!(exact, 16_776_777);
    let fits = naming(&schema, 65_530, 1, 256);
    assert_eq!(read(&schema, &fits, exact), (0, exact));
    assert_eq!(read(&schema, &fits, exact - 1), (14, 0));
    let over = naming(&schema, 65_530, 1, 257);
    assert_eq!(read(&schema, &over, SIZE_LIMIT + 70_000), (14, 0));
}

fn one_blob_named_often(coding: Coding) {
    let schema = lists_of(coding, BYTES);
    let packed = schema.pack();
    let far_over = naming(&schema, 65_530, 1000, 1000);
    let mut sheet = vec![3; SIZE_LIMIT];
    let began = Instant::now();
    let given = LibraryCalls.read(&packed, &far_over, Budget::LARGEST, &mut sheet);
    assert!(began.elapsed() < Duration::from_secs(2), "too much work");
    // A root, a list of lists, 1,000 times the list and 1,000,000 times the bytes.
    let offsets = (1 + 1000 + 1_000_000) * coding.offset() as u64;
    let content = offsets + 65_530 * 1_000_000;
    let no_room = verdict(14, 0, 2 + 1000 + 1_000_000, content);
    let (verdict, length) = (no_room, 0);
    assert_eq!(given, Read { verdict, length });
    refused_by_content(&schema, &far_over, &mut sheet);
    let schema = lists_of(coding, TEXT);
    let far_over = naming(&schema, 65_530, 1000, 1000);
    refused_by_content(&schema, &far_over, &mut sheet);
    assert!(sheet.iter().all(|&byte| byte == 3));
}

/// With an allowance of 10,000,000 bytes the same is refused by 17 at the text or
/// the bytes.
fn refused_by_content(schema: &Schema, message: &[u8], sheet: &mut [u8]) {
    let (packed, coding) = (schema.pack(), schema.coding);
    let budget = Budget {
        content: 10_000_000,
        ..Budget::LARGEST
    };
    let began = Instant::now();
    let given = LibraryCalls.read(&packed, message, budget, sheet);
    assert!(began.elapsed() < Duration::from_secs(2), "too much work");
    assert_eq!(given, SecondCalls.read(&packed, message, budget, sheet));
    // The root, both lists, and then the text until it would pass.
    let before = (1 + 1000 + 1000) * coding.offset() as u64;
    let texts = (10_000_000 - before) / 65_530;
    let place = message.len() - 65_531 - coding.header();
    let spent = before + texts * 65_530;
    let verdict = verdict(17, place as u64, 3 + texts as u32 + 1, spent);
    assert_eq!(given, Read { verdict, length: 0 });
}

/// A list of 100,000 texts of which every fifth is refused, from every place.
#[test]
fn a_long_list() {
    CODINGS.into_iter().for_each(one_long_list);
}

fn one_long_list(coding: Coding) {
    let count = 100_000;
    let mut schema = root_with(coding, Record::plain(LIST, 0));
    schema.lists = vec![Record::plain(TEXT, 0)];
    let list = Value::List(vec![Value::Blob(b"ab".to_vec()); count]);
    let mut message = canonical::message(&schema, &Value::Table(vec![list]));
    for number in (0..count).step_by(5) {
        message[before_content(coding) + coding.offset() * number] ^= 1;
    }
    let packed = schema.pack();
    let mut cases = vec![9; 4 * count + 7];
    let mut second = cases.clone();
    let given = LibraryCalls.list(&packed, &message, &[0], 0, &mut cases);
    let expected = SecondCalls.list(&packed, &message, &[0], 0, &mut second);
    assert_eq!((given, expected), (count as u64, count as u64));
    assert!(cases == second, "answers differ");
    let refused = cases.chunks_exact(4).filter(|case| case[0] == 7).count();
    // The last that fits is after the last element.
    assert_eq!(refused, count / 5 + 1);
    for from in [1, 4999, 99_998, 99_999, 100_000, 100_001] {
        let mut part = [9; 11];
        let given = LibraryCalls.list(&packed, &message, &[0], from as u64, &mut part);
        assert_eq!(given, count as u64);
        for (step, case) in part[..8].chunks_exact(4).enumerate() {
            let at = 4 * (from + step).min(count);
            assert_eq!(case, &cases[at..at + 4], "from {from}");
        }
        assert_eq!(part[8..], [9; 3]);
    }
}

mod writing {
    use super::*;
    use compare::calls::Writes;
    use compare::sheet;

    /// Writes with both into outputs of their own; gives number and length.
    fn write(schema: &Schema, bytes: &[u8], room: usize) -> (u64, usize) {
        let packed = schema.pack();
        let (mut message, mut expected) = (Output::new(room, 7), Output::new(room, 7));
        let given = LibraryCalls.write(&packed, bytes, message.lent());
        let second = SecondCalls.write(&packed, bytes, expected.lent());
        assert_eq!(given, second);
        assert!(message.whole() == expected.whole(), "outputs differ");
        (given[0], given[1] as usize)
    }

    /// Bools are a sixteenth of what fits, for the time that they take.
    #[test]
    fn full_lists_of_every_plain_kind() {
        let kinds = [(1, 8), (2, 16), (3, 32), (4, 64), (8, 64), (BOOL, 1)];
        for (kind, bits) in kinds {
            for coding in CODINGS {
                full_list(coding, kind, bits);
            }
        }
    }

    fn full_list(coding: Coding, kind: u8, bits: u64) {
        let mut schema = root_with(coding, Record::plain(LIST, 0));
        schema.lists = vec![Record::plain(kind, 0)];
        let most = 8 * content(coding) / bits / if kind == BOOL { 16 } else { 1 };
        let message = filled(&schema, Value::List(Vec::new()), most);
        let mut sheet = vec![0; SIZE_LIMIT];
        let packed = schema.pack();
        let read = SecondCalls.read(&packed, &message, Budget::LARGEST, &mut sheet);
        let bytes = &sheet[..read.length as usize];
        let used = before_content(coding) + (most * bits).div_ceil(8) as usize;
        assert_eq!(write(&schema, bytes, used), (0, used), "kind {kind}");
        assert_eq!(write(&schema, bytes, used - 1), (14, 0));
    }

    #[test]
    fn a_text_at_and_over_the_size() {
        for coding in CODINGS {
            let schema = root_with(coding, Record::plain(TEXT, 0));
            let value = |length| Value::Table(vec![Value::Blob(vec![b'x'; length])]);
            let longest = content(coding) as usize - 1;
            let bytes = sheet::encode(&schema, &value(longest));
            assert_eq!(write(&schema, &bytes, SIZE_LIMIT), (0, SIZE_LIMIT));
            assert_eq!(write(&schema, &bytes, SIZE_LIMIT - 1), (14, 0));
            let over = sheet::encode(&schema, &value(longest + 1));
            for room in [0, SIZE_LIMIT, SIZE_LIMIT + 1] {
                assert_eq!(write(&schema, &over, room), (13, 0));
            }
        }
    }

    /// A sheet of 2 bits an element for all its bytes in the message.
    #[test]
    fn absent_elements() {
        for coding in CODINGS {
            for (kind, size) in [(F64, 8), (TEXT, coding.offset())] {
                let mut schema = root_with(coding, Record::plain(LIST, 0));
                schema.lists = vec![Record::plain(kind, 0)];
                let most = content(coding) as usize / size;
                let value = |count| Value::Table(vec![Value::List(vec![Value::Absent; count])]);
                let bytes = sheet::encode(&schema, &value(most));
                let used = before_content(coding) + size * most;
                assert_eq!(write(&schema, &bytes, SIZE_LIMIT), (0, used));
                assert_eq!(write(&schema, &bytes, used - 1), (14, 0));
                let over = sheet::encode(&schema, &value(most + 1));
                assert_eq!(write(&schema, &over, SIZE_LIMIT), (13, 0));
            }
        }
    }

    /// A count that the sheet's few bytes cannot hold is not lawful, and costs
    /// nothing.
    #[test]
    fn counts_without_elements() {
        for mut schema in CODINGS.map(|coding| root_with(coding, Record::plain(LIST, 0))) {
            for kind in [BOOL, 1, 4, F64, ENUM, TEXT] {
                schema.lists = vec![Record::plain(kind, u8::from(kind == ENUM))];
                let bytes = [0x7F, 0xFF, 0xFF, 0xFF, 0xC0];
                let began = Instant::now();
                assert_eq!(write(&schema, &bytes, SIZE_LIMIT), (11, 0));
                assert!(began.elapsed() < Duration::from_secs(1));
            }
        }
    }
}
