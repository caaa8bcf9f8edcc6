//! One field by its path, and the list reader.

mod common;

use common::tabled::{field, list_reader, text};
use common::*;
use reference::Answer;

fn unsigned(bits: u64, width: u32) -> Answer {
    Answer::Number {
        bits,
        width,
        signed: false,
    }
}

/// Struct 0 is bool, enum of 2, F32; struct 1 is U8, struct 0.
fn with_members(members: &[u16]) -> Vec<u8> {
    Parts {
        structs: vec![vec![BOOL, enumeration(2), F32], vec![U8, structure(0)]],
        lists: vec![
            U16,
            BOOL,
            F64,
            enumeration(2),
            TEXT,
            union(0),
            table(1),
            list(4),
        ],
        unions: vec![vec![TEXT, table(1), list(4)]],
        tables: vec![(ID, members.to_vec()), (1, vec![U8, TEXT])],
        root: 0,
    }
    .pack()
}

#[test]
fn the_empty_path_is_the_root() {
    let schema = one_table(&[U8]);
    let mut message = Message::new(12);
    message.raw(&[0, 0]).table(ID, 3).raw(&[1, 2, 3]);
    let root = Answer::Object {
        kind: 16,
        place: 12,
        length: 3,
    };
    assert_eq!(field(48, &schema, &message.bytes, &[]), root);
    assert_eq!(field(48, &schema, &message.bytes, &[1]), refused(15, 12));
}

/// "1, 15 for length, 2 and 3 come first".
#[test]
fn the_first_refusals() {
    let schema = one_table(&[U8]);
    let mut message = Message::new(10);
    message.table(ID, 1).raw(&[1]);
    assert_eq!(field(48, &[], &[], &[0; 97]), refused(1, 0));
    assert_eq!(field(48, &schema, &[], &[0; 97]), refused(15, 0));
    assert_eq!(field(48, &schema, &[], &[0; 96]), refused(2, 0));
    assert_eq!(field(48, &schema, &[0; 10], &[0; 96]), refused(3, 0));
    assert_eq!(
        field(48, &schema, &message.bytes, &[0; 96]),
        refused(15, 10)
    );
    assert_eq!(field(48, &schema, &message.bytes, &[0]), unsigned(1, 8));
    message.bytes.resize(16_777_216, 0);
    assert_eq!(field(48, &schema, &message.bytes, &[0]), refused(2, 0));
}

/// Two bools, I16, two floats that are NaN, three enums, an optional U8.
fn scalars() -> (Vec<u8>, Message) {
    let mut members = vec![BOOL, optional(BOOL), I16, F32, optional(F32)];
    members.extend([enumeration(2); 3]);
    members.push(optional(U8));
    let mut message = Message::new(10);
    // Bits 0 bool, 1 flag, 2 value, 3 flag. The last value is not there.
    message.table(ID, 14).raw(&[0b0111]).raw(&[0xFE, 0xFF]);
    message.raw(&[0, 0, 0xC0, 0x7F]).raw(&[0, 0, 0xC0, 0x7F]);
    message.raw(&[1, 2, 255]);
    (with_members(&members), message)
}

#[test]
fn scalars_in_a_table() {
    let (schema, message) = scalars();
    let at = |path: &[u32]| field(48, &schema, &message.bytes, path);
    assert_eq!(at(&[0]), Answer::Boolean(true));
    assert_eq!(at(&[1]), Answer::Boolean(true));
    let minus_two = Answer::Number {
        bits: 0xFFFE,
        width: 16,
        signed: true,
    };
    assert_eq!(at(&[2]), minus_two);
    let nan = Answer::Float {
        bits: 0x7FC0_0000,
        width: 32,
    };
    assert_eq!(at(&[3]), nan);
    assert_eq!(at(&[4]), Answer::Absent);
    assert_eq!(at(&[5]), unsigned(1, 8));
    assert_eq!(at(&[6]), Answer::Unknown(2));
    assert_eq!(at(&[7]), Answer::Absent);
    assert_eq!(at(&[8]), Answer::Absent);
}

/// "An absent or unknown place ends it, whatever steps remain."
#[test]
fn steps_beyond_scalars() {
    let (schema, message) = scalars();
    let at = |path: &[u32]| field(48, &schema, &message.bytes, path);
    for number in [4, 6, 7, 8] {
        assert_eq!(at(&[number, 5, 6]), at(&[number]));
    }
    for number in [0, 1, 2, 3, 5] {
        assert_eq!(at(&[number, 0]), refused(15, 10));
    }
    assert_eq!(at(&[9]), refused(15, 10));
    assert_eq!(at(&[u32::MAX]), refused(15, 10));
}

/// Only what is on the path is judged.
#[test]
fn what_is_not_on_the_path_is_not_judged() {
    let schema = with_members(&[TEXT, U16, structure(0), U32]);
    let mut message = Message::new(10);
    message.table(ID, 15).u48(3).raw(&[1, 0]);
    message.raw(&[2, 0, 0, 0, 0, 0]).raw(&[0]);
    let at = |path: &[u32]| field(48, &schema, &message.bytes, path);
    assert_eq!(at(&[0]), refused(6, 3));
    assert_eq!(at(&[1]), unsigned(1, 16));
    assert_eq!(at(&[2]), refused_of(10, 10, 2));
    assert_eq!(at(&[3]), refused_of(8, 10, 3));
    assert_eq!(at(&[3, 1]), refused_of(8, 10, 3));
    assert_eq!(at(&[4]), refused(15, 10));
}

/// "a struct as a whole": a wrong boolean refuses every path into it.
#[test]
fn structs() {
    let schema = with_members(&[structure(1), optional(structure(1))]);
    let mut message = Message::new(10);
    // 20 to 27, the flag at 27, 28 to 35.
    message.table(ID, 15);
    message.raw(&[5, 1, 1, 0, 0, 0xC0, 0xFF]).raw(&[1]);
    message.raw(&[6, 0, 9, 1, 2, 3, 4]);
    let at = |message: &Message, path: &[u32]| field(48, &schema, &message.bytes, path);
    assert_eq!(at(&message, &[0]), Answer::Struct { place: 20 });
    assert_eq!(at(&message, &[0, 0]), unsigned(5, 8));
    assert_eq!(at(&message, &[0, 1]), Answer::Struct { place: 21 });
    assert_eq!(at(&message, &[0, 1, 0]), Answer::Boolean(true));
    assert_eq!(at(&message, &[0, 1, 1]), unsigned(1, 8));
    let nan = Answer::Float {
        bits: 0xFFC0_0000,
        width: 32,
    };
    assert_eq!(at(&message, &[0, 1, 2]), nan);
    assert_eq!(at(&message, &[1]), Answer::Struct { place: 28 });
    assert_eq!(at(&message, &[1, 1, 0]), Answer::Boolean(false));
    assert_eq!(at(&message, &[1, 1, 1]), Answer::Unknown(9));
    assert_eq!(at(&message, &[1, 1, 1, 7]), Answer::Unknown(9));
    for path in [&[0, 2][..], &[0, 0, 0], &[0, 1, 3], &[0, 1, 2, 0]] {
        assert_eq!(at(&message, path), refused(15, 10));
    }
    let mut wrong = message.clone();
    wrong.bytes[21] = 2;
    for path in [&[0][..], &[0, 0], &[0, 1, 2], &[0, 9], &[0, 0, 0]] {
        assert_eq!(at(&wrong, path), refused_of(10, 10, 0));
    }
    assert_eq!(at(&wrong, &[1, 0]), unsigned(6, 8));
    let mut unset = message;
    unset.bytes[27] = 0;
    unset.bytes[29] = 7;
    assert_eq!(at(&unset, &[1, 1, 0]), Answer::Absent);
}

#[test]
fn objects() {
    let schema = with_members(&[TEXT, BYTES, list(0), table(1), in_place(list(1))]);
    let mut message = Message::new(10);
    // Fixed 20 to 50, two bytes of bools, then 52, 65, 76, 90.
    message.table(ID, 30);
    message.u48(52).u48(65).u48(76).u48(90).u48(11);
    message.raw(&[0b0000_0010, 0b0000_0100]);
    message.text("ab").bytes_head(1).raw(&[7]);
    message
        .list_head(2)
        .raw(&[1, 2, 3, 4])
        .table(1, 1)
        .raw(&[8]);
    let at = |path: &[u32]| field(48, &schema, &message.bytes, path);
    let object = |kind, place, length| Answer::Object {
        kind,
        place,
        length,
    };
    assert_eq!(at(&[0]), object(13, 52, 2));
    assert_eq!(at(&[1]), object(14, 65, 1));
    assert_eq!(at(&[2]), object(15, 76, 2));
    assert_eq!(at(&[3]), object(16, 90, 1));
    assert_eq!(at(&[4]), object(15, 50, 11));
    // Texts and bytes have no parts; 15 is placed at them.
    assert_eq!(at(&[0, 0]), refused(15, 52));
    assert_eq!(at(&[1, 0]), refused(15, 65));
    assert_eq!(at(&[2, 0]), unsigned(0x0201, 16));
    assert_eq!(at(&[2, 1]), unsigned(0x0403, 16));
    assert_eq!(at(&[2, 2]), refused(15, 76));
    assert_eq!(at(&[2, 1, 0]), refused(15, 76));
    assert_eq!(at(&[3, 0]), unsigned(8, 8));
    assert_eq!(at(&[3, 1]), Answer::Absent);
    assert_eq!(at(&[3, 2]), refused(15, 90));
    assert_eq!(at(&[4, 0]), Answer::Boolean(false));
    assert_eq!(at(&[4, 1]), Answer::Boolean(true));
    assert_eq!(at(&[4, 10]), Answer::Boolean(true));
    assert_eq!(at(&[4, 11]), refused(15, 50));
}

/// "texts and bytes can be had as a part of the message".
#[test]
fn texts_and_bytes_as_a_part() {
    let members = [in_place(union(0)), TEXT, BYTES, list(4), TEXT, TEXT, U8];
    let schema = with_members(&members);
    let mut message = Message::new(10);
    // Fixed 20 to 59, the in-place text "x" to 61.
    message.table(ID, 39).choice(1, 1).u48(61).u48(74);
    message.u48(86).u48(113).u48(0).raw(&[7]).raw(b"x\0");
    message.text("ab").bytes_head(2).raw(b"cd");
    message.list_head(2).u48(61).u48(108).raw(&[0; 5]);
    message.text_head(0).raw(&[1]);
    let at = |path: &[u32]| text(48, &schema, &message.bytes, path);
    assert_eq!(at(&[0]), Some((59, 1)));
    assert_eq!(at(&[1]), Some((71, 2)));
    assert_eq!(at(&[2]), Some((84, 2)));
    assert_eq!(at(&[3, 0]), Some((71, 2)));
    // A list, wrong magic, a wrong end byte, absent, a number, no such part, the root.
    for path in [&[3][..], &[3, 1], &[4], &[5], &[6], &[7], &[1, 0], &[]] {
        assert_eq!(at(path), None);
    }
    assert_eq!(text(48, &[], &message.bytes, &[1]), None);
    assert_eq!(text(48, &schema, &message.bytes[..9], &[1]), None);
    assert_eq!(text(48, &schema, &message.bytes, &[1; 97]), None);
}

/// "A holder is judged before 15 is given at it."
#[test]
fn a_holder_is_judged_first() {
    let schema = with_members(&[TEXT, list(0)]);
    let mut message = Message::new(10);
    message.table(ID, 12).u48(32).u48(43);
    message.text_head(0).raw(&[1]).list_head(9);
    let at = |path: &[u32]| field(48, &schema, &message.bytes, path);
    assert_eq!(at(&[0, 0]), refused(10, 32));
    assert_eq!(at(&[1, 99]), refused(6, 43));
    assert_eq!(at(&[1]), refused(6, 43));
    assert_eq!(at(&[2]), refused(15, 10));
    let mut message = Message::new(10);
    message.table(ID ^ 1, 0);
    assert_eq!(field(48, &schema, &message.bytes, &[7]), refused(7, 10));
}

#[test]
fn scalar_elements() {
    let schema = with_members(&[list(2), list(3)]);
    let mut message = Message::new(10);
    message.table(ID, 12).u48(32).u48(58);
    message.list_head(2).raw(&[0, 0, 0, 0, 0, 0, 0xF0, 0x7F]);
    message.raw(&[1, 0, 0, 0, 0, 0, 0xF0, 0x7F]);
    message.list_head(3).raw(&[1, 3, 255]);
    let at = |path: &[u32]| field(48, &schema, &message.bytes, path);
    let infinity = Answer::Float {
        bits: 0x7FF0_0000_0000_0000,
        width: 64,
    };
    assert_eq!(at(&[0, 0]), infinity);
    assert_eq!(at(&[0, 0, 0]), refused(15, 32));
    assert_eq!(at(&[0, 1]), Answer::Absent);
    assert_eq!(at(&[0, 1, 0]), Answer::Absent);
    assert_eq!(at(&[1, 0]), unsigned(1, 8));
    assert_eq!(at(&[1, 1]), Answer::Unknown(3));
    assert_eq!(at(&[1, 2]), Answer::Absent);
    assert_eq!(at(&[1, 3]), refused(15, 58));
}

/// "unions are passed through without one".
#[test]
fn unions() {
    let schema = with_members(&[union(0), in_place(union(0)), union(0), union(0), union(0)]);
    let mut message = Message::new(10);
    // Fixed 20 to 60, the in-place text "x" to 62, table 1 at 62.
    message.table(ID, 40).choice(2, 62).choice(1, 1);
    message.choice(0, 5).choice(4, 5).choice(3, 0);
    message.raw(b"x\0").table(1, 1).raw(&[44]);
    let at = |path: &[u32]| field(48, &schema, &message.bytes, path);
    let object = |kind, place, length| Answer::Object {
        kind,
        place,
        length,
    };
    assert_eq!(at(&[0]), object(16, 62, 1));
    assert_eq!(at(&[0, 0]), unsigned(44, 8));
    assert_eq!(at(&[0, 9]), refused(15, 62));
    assert_eq!(at(&[1]), object(13, 60, 1));
    assert_eq!(at(&[1, 0]), refused(15, 60));
    assert_eq!(at(&[2]), Answer::Absent);
    assert_eq!(at(&[2, 3]), Answer::Absent);
    assert_eq!(at(&[3]), Answer::Unknown(4));
    assert_eq!(at(&[3, 3]), Answer::Unknown(4));
    assert_eq!(at(&[4]), refused_of(9, 10, 4));
    assert_eq!(at(&[4, 0]), refused_of(9, 10, 4));
}

/// A table that leads to itself: the 33rd object is too deep.
#[test]
fn a_path_of_33_objects() {
    let schema = one_table(&[table(0)]);
    let mut message = Message::new(10);
    message.table(ID, 6).u48(10);
    let root = Answer::Object {
        kind: 16,
        place: 10,
        length: 6,
    };
    assert_eq!(field(48, &schema, &message.bytes, &[0; 31]), root);
    assert_eq!(field(48, &schema, &message.bytes, &[0; 32]), refused(5, 10));
    assert_eq!(field(48, &schema, &message.bytes, &[0; 96]), refused(5, 10));
    assert_eq!(field(48, &schema, &message.bytes, &[0; 97]), refused(15, 0));
}

/// The longest path: 31 steps to a table at depth 32, one to a struct, and 64
/// into structs one in another.
#[test]
fn a_path_of_96_numbers() {
    let mut structs = vec![vec![U8]];
    for index in 0..63 {
        structs.push(vec![structure(index)]);
    }
    let schema = Parts {
        structs,
        tables: vec![(ID, vec![table(0), structure(63)])],
        ..Parts::default()
    }
    .pack();
    let mut message = Message::new(10);
    message.table(ID, 7).u48(10).raw(&[77]);
    let mut path = vec![0; 31];
    path.push(1);
    path.extend([0; 64]);
    assert_eq!(path.len(), 96);
    assert_eq!(field(48, &schema, &message.bytes, &path), unsigned(77, 8));
    path.pop();
    let inner = Answer::Struct { place: 26 };
    assert_eq!(field(48, &schema, &message.bytes, &path), inner);
}

/// All answers of a list reader, and the element's own paths beside them.
fn steps(schema: &[u8], message: &Message, path: &[u32], count: u32) -> Vec<Answer> {
    let mut reader = list_reader(48, schema, &message.bytes, path).ok().unwrap();
    let answers: Vec<Answer> = (0..count).map(|_| reader.step()).collect();
    for (number, answer) in answers.iter().enumerate() {
        let mut element = path.to_vec();
        element.push(number as u32);
        assert_eq!(field(48, schema, &message.bytes, &element), *answer);
    }
    // It stays at its end.
    let last = reader.step();
    assert_eq!(reader.step(), last);
    answers
}

#[test]
fn the_list_reader() {
    let schema = with_members(&[list(4), list(5), list(6)]);
    let mut message = Message::new(10);
    // Fixed 20 to 38; lists at 38, 66 and 108; text at 124.
    message.table(ID, 18).u48(38).u48(66).u48(108);
    message.list_head(3).u48(124).u48(0).u48(9);
    message.list_head(4).choice(1, 124).choice(0, 1);
    message.choice(2, 0).choice(9, 2);
    message.list_head(1).u48(124).text("txt");
    let text = Answer::Object {
        kind: 13,
        place: 124,
        length: 3,
    };
    assert_eq!(
        steps(&schema, &message, &[0], 4),
        [text, Answer::Absent, refused(6, 9), refused(15, 38)]
    );
    assert_eq!(
        steps(&schema, &message, &[1], 5),
        [
            text,
            Answer::Absent,
            refused_of(9, 66, 2),
            Answer::Unknown(9),
            refused(15, 66)
        ]
    );
    assert_eq!(
        steps(&schema, &message, &[2], 2),
        [refused(7, 124), refused(15, 108)]
    );
}

/// "a refused path gives its own refusal, any other answer is 15 at 0"
#[test]
fn where_the_list_reader_does_not_start() {
    let schema = with_members(&[
        list(0),
        list(1),
        list(2),
        list(3),
        TEXT,
        union(0),
        list(4),
        U8,
    ]);
    let mut message = Message::new(10);
    // Fixed 20 to 65.
    message.table(ID, 45).u48(65).u48(65).u48(65).u48(65);
    message.u48(75).choice(9, 0).u48(0).raw(&[1]);
    message.list_head(0).text("");
    let start = |path: &[u32]| list_reader(48, &schema, &message.bytes, path).err();
    for number in 0..8 {
        assert_eq!(start(&[number]), Some(refused(15, 0)), "{number}");
    }
    assert_eq!(start(&[]), Some(refused(15, 0)));
    assert_eq!(start(&[8]), Some(refused(15, 10)));
    assert_eq!(start(&[4, 0]), Some(refused(15, 75)));
    assert_eq!(start(&[0; 97]), Some(refused(15, 0)));
    assert_eq!(
        list_reader(48, &schema, &[], &[6]).err(),
        Some(refused(2, 0))
    );
    assert_eq!(
        list_reader(48, &schema, &[0; 10], &[6]).err(),
        Some(refused(3, 0))
    );
}

/// A list by a union, a list in place, and the elements of an inner list.
#[test]
fn the_list_reader_at_other_lists() {
    let schema = with_members(&[union(0), in_place(list(7))]);
    let mut message = Message::new(10);
    // Fixed 20 to 34, the in-place list's content to 40, lists at 40 and 62.
    message.table(ID, 14).choice(3, 40).u48(1).u48(62);
    message.list_head(2).u48(0).u48(72).list_head(0);
    message.text("");
    let text = Answer::Object {
        kind: 13,
        place: 72,
        length: 0,
    };
    assert_eq!(
        steps(&schema, &message, &[0], 3),
        [Answer::Absent, text, refused(15, 40)]
    );
    let inner = Answer::Object {
        kind: 15,
        place: 62,
        length: 0,
    };
    assert_eq!(steps(&schema, &message, &[1], 2), [inner, refused(15, 34)]);
    assert_eq!(steps(&schema, &message, &[1, 0], 1), [refused(15, 62)]);
}

/// A list at depth 32: its elements are too deep.
#[test]
fn the_list_reader_at_depth_32() {
    let schema = Parts {
        lists: vec![TEXT],
        tables: vec![(ID, vec![table(0), list(0)])],
        ..Parts::default()
    }
    .pack();
    let mut message = Message::new(10);
    message.table(ID, 12).u48(10).u48(32).list_head(1).u48(5);
    let mut path = vec![0; 30];
    path.push(1);
    assert_eq!(
        steps(&schema, &message, &path, 2),
        [refused(5, 5), refused(15, 32)]
    );
}
