//! Messages to sheets: every kind, every mark, and 14.

mod common;

use common::*;

/// Reads with all the budget and room there is; the message is accepted.
fn sheet_of(schema: &[u8], message: &Message) -> Vec<u8> {
    let (verdict, sheet) = read(48, schema, &message.bytes, u32::MAX, usize::MAX);
    assert_eq!((verdict.number, verdict.place), (0, 0));
    assert_eq!(judge(48, schema, &message.bytes, u32::MAX), verdict);
    sheet
}

#[test]
fn numbers_at_their_width() {
    let schema = one_table(&[U8, U16, U32, U64, I8, I16, I32, I64]);
    let mut message = Message::new(10);
    message.table(ID, 30);
    message.raw(&[0x12]).raw(&[0x34, 0x12]);
    message.raw(&[0x78, 0x56, 0x34, 0x12]);
    message.raw(&[0xF0, 0xDE, 0xBC, 0x9A, 0x78, 0x56, 0x34, 0x12]);
    message.raw(&[0xFF]).raw(&[0xFE, 0xFF]);
    message.raw(&[0xFD, 0xFF, 0xFF, 0xFF]);
    message.raw(&[0xFC, 0xFF, 0xFF, 0xFF, 0xFF, 0xFF, 0xFF, 0xFF]);
    let expected = Sheet::new().here().put(0x12, 8).here().put(0x1234, 16);
    let expected = expected.here().put(0x1234_5678, 32);
    let expected = expected.here().put(0x1234_5678_9ABC_DEF0, 64);
    let expected = expected.here().put(0xFF, 8).here().put(0xFFFE, 16);
    let expected = expected.here().put(0xFFFF_FFFD, 32);
    let expected = expected.here().put(0xFFFF_FFFF_FFFF_FFFC, 64);
    assert_eq!(sheet_of(&schema, &message), expected.done());
}

/// A NaN is a value in a plain member and no value in an optional one. An
/// infinity is always a value.
#[test]
fn float_members() {
    let quiet = 0x7FC0_0000u32;
    let signed = 0xFF80_0001u32;
    let infinity = 0x7F80_0000u32;
    let schema = one_table(&[F32, optional(F32), optional(F32), optional(F32)]);
    let mut message = Message::new(10);
    message.table(ID, 16);
    for bits in [quiet, quiet, signed, infinity] {
        message.raw(&bits.to_le_bytes());
    }
    let expected = Sheet::new().here().put(u64::from(quiet), 32);
    let expected = expected.absent().absent();
    let expected = expected.here().put(u64::from(infinity), 32);
    assert_eq!(sheet_of(&schema, &message), expected.done());

    let quiet = 0x7FF8_0000_0000_0000u64;
    let small = 0xFFF0_0000_0000_0001u64;
    let infinity = 0xFFF0_0000_0000_0000u64;
    let schema = one_table(&[F64, optional(F64), optional(F64), optional(F64)]);
    let mut message = Message::new(10);
    message.table(ID, 32);
    for bits in [small, quiet, small, infinity] {
        message.raw(&bits.to_le_bytes());
    }
    let expected = Sheet::new().here().put(small, 64);
    let expected = expected.absent().absent().here().put(infinity, 64);
    assert_eq!(sheet_of(&schema, &message), expected.done());
}

/// "Enum byte 255 is no value, everywhere."
#[test]
fn enum_members() {
    let schema = one_table(&[enumeration(3); 5]);
    let mut message = Message::new(10);
    message.table(ID, 5).raw(&[0, 2, 3, 254, 255]);
    let expected = Sheet::new().here().put(0, 8).here().put(2, 8);
    let expected = expected.unknown(3, 8).unknown(254, 8).absent();
    assert_eq!(sheet_of(&schema, &message), expected.done());
    let schema = one_table(&[enumeration(255); 2]);
    let mut message = Message::new(10);
    message.table(ID, 2).raw(&[254, 255]);
    let expected = Sheet::new().here().put(254, 8).absent();
    assert_eq!(sheet_of(&schema, &message), expected.done());
}

/// The bools share a byte; an optional one's flag comes first.
#[test]
fn bool_members() {
    let schema = one_table(&[BOOL, optional(BOOL), optional(BOOL), optional(U8), BOOL]);
    // Bits: 0 bool, 1 flag, 2 value, 3 flag, 4 value, 5 flag, 6 bool.
    let mut message = Message::new(10);
    message.table(ID, 2).raw(&[0b1111_0011, 0x55]);
    let expected = Sheet::new().put(0b011, 3).put(0b010, 3).absent();
    let expected = expected.here().put(0x55, 8).put(0b011, 3);
    assert_eq!(sheet_of(&schema, &message), expected.done());
}

/// Struct 0 is bool, enum, F32; struct 1 is U8, struct 0, enum.
fn with_structs(members: &[u16]) -> Vec<u8> {
    Parts {
        structs: vec![
            vec![BOOL, enumeration(2), F32],
            vec![U8, structure(0), enumeration(9)],
        ],
        tables: vec![(ID, members.to_vec())],
        ..Parts::default()
    }
    .pack()
}

#[test]
fn struct_members() {
    let schema = with_structs(&[structure(1), optional(structure(0)), optional(structure(0))]);
    let mut message = Message::new(10);
    // Struct 1 at 0 to 8, the flag byte at 8, then two structs of 6 bytes.
    message.table(ID, 21);
    message.raw(&[7, 1, 255]).raw(&[0, 0, 0xC0, 0x7F]).raw(&[8]);
    message.raw(&[0b01]).raw(&[0, 5, 1, 2, 3, 4]).raw(&[9; 6]);
    // A NaN in a struct is a value; enums have their marks.
    let expected = Sheet::new().here().put(7, 8).put(1, 1).absent();
    let expected = expected.put(0x7FC0_0000, 32).here().put(8, 8);
    let expected = expected.here().put(0, 1).unknown(5, 8);
    let expected = expected.put(0x0403_0201, 32).absent();
    assert_eq!(sheet_of(&schema, &message), expected.done());
}

fn with_list(element: u16) -> Vec<u8> {
    Parts {
        lists: vec![element, U8],
        unions: vec![vec![TEXT, list(1), table(1)]],
        tables: vec![(ID, vec![list(0)]), (1, vec![U8])],
        ..Parts::default()
    }
    .pack()
}

/// A root that refers to a list at 26.
fn list_of(count: u64) -> Message {
    let mut message = Message::new(10);
    message.table(ID, 6).u48(26).list_head(count);
    message
}

#[test]
fn bool_lists() {
    for count in 0..20u64 {
        let mut message = list_of(count);
        message.raw(&[0b0110_0101, 0b1011_0111, 0b1111_1010]);
        let all = [
            1, 0, 1, 0, 0, 1, 1, 0, 1, 1, 1, 0, 1, 1, 0, 1, 0, 1, 0, 1u64,
        ];
        let mut expected = Sheet::new().here().put(count, 32);
        for bit in &all[..count as usize] {
            expected = expected.put(*bit, 1);
        }
        assert_eq!(sheet_of(&with_list(BOOL), &message), expected.done());
    }
}

#[test]
fn number_lists() {
    let bytes: Vec<u8> = (1..=48).collect();
    for (record, size) in [
        (U8, 1),
        (I8, 1),
        (U16, 2),
        (I16, 2),
        (U32, 4),
        (I32, 4),
        (U64, 8),
        (I64, 8),
    ] {
        let mut message = list_of(3);
        message.raw(&bytes);
        let mut expected = Sheet::new().here().put(3, 32);
        for element in bytes.chunks(size).take(3) {
            for byte in element.iter().rev() {
                expected = expected.put(u64::from(*byte), 8);
            }
        }
        assert_eq!(sheet_of(&with_list(record), &message), expected.done());
    }
}

/// "Numbers stand as they are; a NaN means no value."
#[test]
fn float_and_enum_lists() {
    let mut message = list_of(2);
    message.raw(&[1, 0, 0x80, 0x7F]).raw(&[0, 0, 0x80, 0x7F]);
    let expected = Sheet::new().here().put(2, 32).absent();
    let expected = expected.here().put(0x7F80_0000, 32);
    assert_eq!(sheet_of(&with_list(F32), &message), expected.done());

    let mut message = list_of(2);
    message.raw(&[0, 0, 0, 0, 0, 0, 0xF0, 0x3F]);
    message.raw(&[0, 0, 0, 0, 0, 0, 0xF8, 0xFF]);
    let expected = Sheet::new().here().put(2, 32);
    let expected = expected.here().put(0x3FF0_0000_0000_0000, 64).absent();
    assert_eq!(sheet_of(&with_list(F64), &message), expected.done());

    let mut message = list_of(4);
    message.raw(&[0, 255, 1, 254]);
    let expected = Sheet::new().here().put(4, 32).here().put(0, 8);
    let expected = expected.absent().unknown(1, 8).unknown(254, 8);
    assert_eq!(
        sheet_of(&with_list(enumeration(1)), &message),
        expected.done()
    );
}

#[test]
fn lists_of_objects() {
    let mut message = list_of(3);
    message.u48(54).u48(0).u48(54).text("hi");
    let expected = Sheet::new().here().put(3, 32);
    let expected = expected.here().text("hi").absent().here().text("hi");
    assert_eq!(sheet_of(&with_list(TEXT), &message), expected.done());

    // A list of lists and a list of tables, one of them empty.
    let mut message = list_of(2);
    message.u48(48).u48(60).list_head(2).raw(&[8, 9]);
    message.list_head(0);
    let expected = Sheet::new().here().put(2, 32);
    let expected = expected.here().put(2, 32).put(0x0809, 16);
    let expected = expected.here().put(0, 32);
    assert_eq!(sheet_of(&with_list(list(1)), &message), expected.done());

    let mut message = list_of(2);
    message.u48(48).u48(59).table(1, 1).raw(&[5]).table(1, 0);
    let expected = Sheet::new().here().put(2, 32);
    let expected = expected.here().here().put(5, 8).here().absent();
    assert_eq!(sheet_of(&with_list(table(1)), &message), expected.done());
}

#[test]
fn lists_of_unions() {
    let mut message = list_of(5);
    // The elements stand at 36 to 76, the text at 76 to 90.
    message.choice(0, 77).choice(1, 76).choice(3, 90);
    message.choice(4, 1).choice(0xFFFF, 0);
    message.text("xyz").table(1, 1).raw(&[6]);
    let expected = Sheet::new().here().put(5, 32).absent();
    let expected = expected.here().put(1, 16).text("xyz");
    let expected = expected.here().put(3, 16).here().put(6, 8);
    let expected = expected.unknown(4, 16).unknown(0xFFFF, 16);
    assert_eq!(sheet_of(&with_list(union(0)), &message), expected.done());
}

/// The chain of in-place contents: table, table, union of a list.
#[test]
fn in_place_content() {
    let schema = Parts {
        lists: vec![U16],
        unions: vec![vec![BYTES, list(0)]],
        tables: vec![
            (ID, vec![in_place(table(1)), U8]),
            (1, vec![U8, in_place(union(0)), optional(BOOL)]),
        ],
        ..Parts::default()
    }
    .pack();
    let mut message = Message::new(10);
    // The inner table is read with a fixed part of 9 bytes: its last member
    // is absent. Root 20 to 27, inner 27 to 36, list 36 to 40.
    message.table(ID, 7).u48(9).raw(&[1]);
    message.raw(&[2]).choice(2, 2).raw(&[3, 0, 4, 0]);
    let expected = Sheet::new().here();
    let expected = expected.here().put(2, 8);
    let expected = expected.here().put(2, 16).put(2, 32).put(3, 16).put(4, 16);
    let expected = expected.absent().here().put(1, 8);
    assert_eq!(sheet_of(&schema, &message), expected.done());
    // An empty bytes object by a known choice.
    message.bytes[28] = 1;
    message.bytes[30] = 0;
    let expected = Sheet::new().here().here().put(2, 8);
    let expected = expected.here().put(1, 16).put(0, 32);
    let expected = expected.absent().here().put(1, 8);
    assert_eq!(sheet_of(&schema, &message), expected.done());
}

/// A root without members has a sheet without bytes.
#[test]
fn the_empty_sheet() {
    let mut message = Message::new(10);
    message.table(ID, 3).raw(&[1, 2, 3]);
    assert_eq!(
        read(48, &one_table(&[]), &message.bytes, 1, 0),
        (verdict(0, 0, 1), vec![])
    );
}

/// A table longer than its schema: "Bits and bytes of no known member are
/// ignored."
#[test]
fn a_longer_table() {
    let schema = one_table(&[BOOL, U8]);
    let mut message = Message::new(10);
    message.table(ID, 5).raw(&[0xFE, 9, 1, 2, 3]);
    let expected = Sheet::new().put(0b010, 3).here().put(9, 8);
    assert_eq!(sheet_of(&schema, &message), expected.done());
}

/// The refusal comes before 14; 14 has the full visits.
#[test]
fn refusal_14_no_room() {
    let schema = one_table(&[TEXT, TEXT]);
    let mut message = Message::new(10);
    message.table(ID, 12).u48(32).u48(32).text("abc");
    let (answer, sheet) = read(48, &schema, &message.bytes, 3, 15);
    // 2 * (2 + 32 + 24) = 116 bits, 15 bytes.
    assert_eq!((answer, sheet.len()), (verdict(0, 0, 3), 15));
    for room in 0..15 {
        let answer = read(48, &schema, &message.bytes, 3, room);
        assert_eq!(answer, (verdict(14, 0, 3), vec![]));
    }
    let answer = read(48, &schema, &message.bytes, 2, 0);
    assert_eq!(answer, (verdict(4, 32, 2), vec![]));
}

/// Two references to one bytes object: a sheet of the size, and one over it.
#[test]
fn refusal_14_over_the_size() {
    let schema = one_table(&[BYTES, BYTES]);
    for (length, number) in [(8_388_603u64, 0), (8_388_604, 14)] {
        let mut message = Message::new(10);
        message.table(ID, 12).u48(32).u48(32).bytes_head(length);
        message.bytes.resize(42 + length as usize, 0x5A);
        let (answer, sheet) = read(48, &schema, &message.bytes, 9, usize::MAX);
        assert_eq!(answer, verdict(number, 0, 3));
        // 2 * (2 + 32) bits and the bytes twice.
        let expected = if number == 0 { 16_777_215 } else { 0 };
        assert_eq!(sheet.len(), expected);
    }
}

/// Thirty tables, each naming the next twice: 2^30 visits would be walked, so
/// fewer levels here, but the sheet ends where it is over the size.
#[test]
fn a_sheet_that_would_be_huge() {
    let schema = Parts {
        tables: vec![(ID, vec![table(0), table(0), BYTES])],
        ..Parts::default()
    }
    .pack();
    let mut message = Message::new(10);
    for level in 1..=16u64 {
        let next = if level < 16 { 10 + level * 28 } else { 0 };
        message.table(ID, 18).u48(next).u48(next);
        message.u48(10 + 16 * 28);
    }
    message.bytes_head(1 << 10);
    message.bytes.resize(message.bytes.len() + (1 << 10), 1);
    // 2^16 - 1 tables and as many bytes objects of 1,024 bytes.
    let answer = read(48, &schema, &message.bytes, u32::MAX, usize::MAX);
    assert_eq!(answer, (verdict(14, 0, 131_070), vec![]));
}
