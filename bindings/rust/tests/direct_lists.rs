//! Direct lists by every function of the wrapper. What is expected was worked out by hand from the
//! documents.

mod common;

use common::by;
use scalgo::Coding::Bits48;
use scalgo::{Answer, Budget};

/// Table 0 has a direct list of table 1, which has a U16 and a text.
const SCHEMA: &[u8] = b"\x00\x00\x00\x02\x00\
    \x0A\x0B\x0C\x0D\x01\x90\x01\x01\x02\x03\x04\x02\x10\x00\x68\x00";

/// The list at 26 has 7 and "ab" at 44, 9 and no text at 52; the text is at 60.
const MESSAGE: &[u8] = b"\xB3\xC4\xC0\xB5\x0A\x00\x00\x00\x00\x00\
    \x0D\x0C\x0B\x0A\x06\x00\x00\x00\x00\x00\x1A\x00\x00\x00\x00\x00\
    \x05\xCC\xC6\xE2\x02\x00\x00\x00\x00\x00\x04\x03\x02\x01\x08\x00\x00\x00\
    \x07\x00\x3C\x00\x00\x00\x00\x00\x09\x00\x00\x00\x00\x00\x00\x00\
    \xF5\xC8\x12\xD8\x02\x00\x00\x00\x00\x00ab\x00";

/// Present, 2 elements; present 7, present "ab"; present 9, absent.
const SHEET: &[u8] = b"\x40\x00\x00\x00\x90\x00\x74\x00\x00\x00\x09\x85\x89\x00\x09\x00";

fn object(kind: u8, place: u64, length: u64) -> Answer {
    Answer::Object {
        kind,
        place,
        length,
    }
}

fn refused(number: u32, place: u64) -> Answer {
    Answer::Refused {
        number,
        place,
        member: None,
    }
}

/// The root 6, the list 0, its elements 8 each, the text 2.
#[test]
fn judging() {
    let judged = |message: &[u8], visits, content| {
        let verdict = by(Bits48, SCHEMA).judge(message, Budget { visits, content });
        assert_eq!(verdict.member, None);
        let (number, place) = (verdict.number, verdict.place);
        (number, place, verdict.visits, verdict.content)
    };
    assert_eq!(judged(MESSAGE, 5, 24), (0, 0, 5, 24));
    assert_eq!(judged(MESSAGE, 4, 24), (4, 52, 4, 16));
    assert_eq!(judged(MESSAGE, 2, 24), (4, 44, 2, 6));
    assert_eq!(judged(MESSAGE, 5, 23), (17, 52, 5, 16));
    assert_eq!(judged(MESSAGE, 5, 6), (17, 44, 3, 6));
    let changed = |at: usize, byte: u8| {
        let mut message = MESSAGE.to_vec();
        message[at] = byte;
        judged(&message, 9, 99)
    };
    assert_eq!(changed(26, 0x06), (7, 26, 2, 6));
    assert_eq!(changed(36, 0x05), (7, 26, 2, 6));
    assert_eq!(changed(34, 0x01), (6, 26, 2, 6));
    assert_eq!(changed(40, 0x10), (6, 26, 2, 6));
    // With no bytes in an element nothing is there to be judged.
    assert_eq!(changed(40, 0x00), (0, 0, 4, 6));
}

#[test]
fn fields() {
    let answer = |path: &[u32]| by(Bits48, SCHEMA).field(MESSAGE, path);
    assert_eq!(answer(&[0]), object(18, 26, 2));
    assert_eq!(answer(&[0, 0]), object(16, 44, 8));
    assert_eq!(answer(&[0, 1]), object(16, 52, 8));
    assert_eq!(answer(&[0, 0, 1]), object(13, 60, 2));
    assert_eq!(answer(&[0, 1, 1]), Answer::Absent);
    assert_eq!(answer(&[0, 2]), refused(15, 26));
    assert_eq!(answer(&[0, 1, 2]), refused(15, 52));
    assert_eq!(
        by(Bits48, SCHEMA).text(MESSAGE, &[0, 0, 1]),
        Some(&b"ab"[..])
    );
    assert_eq!(by(Bits48, SCHEMA).text(MESSAGE, &[0]), None);
}

#[test]
fn elements() {
    let schema = by(Bits48, SCHEMA);
    let elements = schema.list(MESSAGE, &[0]).expect("a direct list");
    assert_eq!(elements.len(), 2);
    let answers: Vec<Answer> = elements.collect();
    assert_eq!(answers, [object(16, 44, 8), object(16, 52, 8)]);
    let none = schema.list(MESSAGE, &[0, 0]).err();
    assert_eq!(none, Some(refused(15, 0)));
    // A direct list of no elements is one too.
    let mut empty = MESSAGE.to_vec();
    empty[30] = 0;
    let elements = schema.list(&empty, &[0]).expect("a direct list");
    assert_eq!(elements.collect::<Vec<Answer>>(), []);
}

/// As many elements as there may be, of no bytes each.
#[test]
fn elements_passed_over() {
    let mut message = MESSAGE[..44].to_vec();
    message[30..34].fill(0xFF);
    message[40] = 0;
    let schema = by(Bits48, SCHEMA);
    let mut elements = schema.list(&message, &[0]).expect("a direct list");
    assert_eq!(elements.len(), 4_294_967_295);
    assert_eq!(elements.next(), Some(object(16, 44, 0)));
    assert_eq!(elements.nth(4_294_967_293), Some(object(16, 44, 0)));
    assert_eq!((elements.next(), elements.len()), (None, 0));
    let verdict = schema.judge(&message, Budget::of_visits(1000));
    assert_eq!((verdict.number, verdict.place), (4, 44));
}

#[test]
fn sheets_and_messages() {
    let mut sheet = [0; 17];
    let answer = by(Bits48, SCHEMA).read(MESSAGE, Budget::LARGEST, &mut sheet);
    assert_eq!((answer.verdict.number, answer.length), (0, 16));
    assert_eq!(sheet[..16], *SHEET);
    let mut written = [0; 80];
    let answer = by(Bits48, SCHEMA).write(SHEET, &mut written);
    assert_eq!((answer.number, answer.length), (0, 73));
    assert_eq!(written[..73], *MESSAGE);
}
