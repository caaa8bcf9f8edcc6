//! Sheets to messages: 11 to 14, and the layout byte by byte.

mod common;

use common::*;
use reference::{lawful, write, write_stored};

/// Writes a sheet, and reads the message back to the same sheet.
fn written(schema: &[u8], sheet: &Sheet) -> Vec<u8> {
    let (number, message) = write(48, schema, &sheet.done(), usize::MAX);
    assert_eq!(number, 0);
    let (verdict, back) = read(48, schema, &message, u32::MAX, usize::MAX);
    assert_eq!((verdict.number, back), (0, sheet.done()));
    assert_eq!(judge(48, schema, &message, verdict.visits), verdict);
    assert_eq!(judge(48, schema, &message, verdict.visits - 1).number, 4);
    // The room is what the message needs.
    let length = message.len();
    assert_eq!(
        write(48, schema, &sheet.done(), length),
        (0, message.clone())
    );
    assert_eq!(write(48, schema, &sheet.done(), length - 1), (14, vec![]));
    message
}

fn number(schema: &[u8], sheet: &Sheet) -> u32 {
    let (number, message) = write(48, schema, &sheet.done(), usize::MAX);
    assert_eq!(message.is_empty(), number != 0);
    number
}

/// One of each thing a member can be.
fn with_members(members: &[u16]) -> Vec<u8> {
    Parts {
        structs: vec![vec![BOOL, enumeration(4), F32]],
        lists: vec![U8, F32, TEXT, union(0), enumeration(3), BOOL, table(1)],
        unions: vec![vec![TEXT, BYTES, list(0), table(1)]],
        tables: vec![
            (ID, members.to_vec()),
            (1, vec![]),
            (2, vec![TEXT, in_place(list(2))]),
            (3, vec![optional(U8)]),
        ],
        root: 0,
    }
    .pack()
}

#[test]
fn the_smallest_message() {
    let mut expected = Message::new(10);
    expected.table(ID, 0);
    assert_eq!(written(&one_table(&[]), &Sheet::new()), expected.bytes);
}

/// "Every unused bit and everything absent is zero (an absent struct
/// throughout), except enum 255 and absent floats".
#[test]
fn everything_absent() {
    let members = [
        optional(BOOL),
        optional(U16),
        optional(F32),
        optional(F64),
        optional(structure(0)),
        enumeration(4),
        TEXT,
        BYTES,
        list(0),
        table(1),
        union(0),
        in_place(union(0)),
    ];
    let schema = with_members(&members);
    let mut sheet = Sheet::new();
    for _ in members {
        sheet = sheet.absent();
    }
    let mut expected = Message::new(10);
    // Flags and the bool in byte 0, U16, F32, F64, struct of 6, enum.
    expected.table(ID, 62).raw(&[0]).raw(&[0, 0]);
    expected.raw(&[0, 0, 0xC0, 0x7F]);
    expected.raw(&[0, 0, 0, 0, 0, 0, 0xF8, 0x7F]);
    expected.raw(&[0; 6]).raw(&[255]);
    expected.raw(&[0; 6 * 4 + 8 + 8]);
    assert_eq!(written(&schema, &sheet), expected.bytes);
}

#[test]
fn everything_present_in_the_fixed_part() {
    let members = [
        BOOL,
        optional(BOOL),
        optional(I16),
        optional(F32),
        F64,
        optional(structure(0)),
        enumeration(4),
        U64,
    ];
    let schema = with_members(&members);
    let sheet = Sheet::new().put(0b011, 3).put(0b011, 3);
    let sheet = sheet.here().put(0xFFFE, 16).here().put(0x3F80_0000, 32);
    // A NaN in a plain member and in a struct is written as it is.
    let sheet = sheet.here().put(0x7FF0_0000_0000_0001, 64);
    let sheet = sheet.here().put(1, 1).absent().put(0xFFC1_2345, 32);
    let sheet = sheet.here().put(3, 8).here().put(0x0102_0304_0506_0708, 64);
    let mut expected = Message::new(10);
    // Bits 0 bool, 1 flag, 2 value, 3 flag, 4 flag.
    expected.table(ID, 30).raw(&[0b1_1111]).raw(&[0xFE, 0xFF]);
    expected.raw(&[0, 0, 0x80, 0x3F]);
    expected.raw(&[1, 0, 0, 0, 0, 0, 0xF0, 0x7F]);
    expected.raw(&[1, 255, 0x45, 0x23, 0xC1, 0xFF]);
    expected.raw(&[3]).raw(&[8, 7, 6, 5, 4, 3, 2, 1]);
    assert_eq!(written(&schema, &sheet), expected.bytes);
}

/// "An object is written with its chain of in-place contents behind it; then
/// the objects that these refer to in walk order, each followed by its own
/// before the next."
#[test]
fn the_layout_of_objects_and_in_place_content() {
    let schema = with_members(&[TEXT, in_place(table(2)), BYTES]);
    let sheet = Sheet::new().here().text("a");
    let sheet = sheet.here().here().text("c");
    let sheet = sheet.here().put(3, 32);
    let sheet = sheet.here().text("x").absent().here().text("");
    let sheet = sheet.here().text("b");
    let mut expected = Message::new(10);
    // Root 20 to 38, table 2's content 38 to 50, the list's 50 to 68.
    expected.table(ID, 18).u48(68).u48(12).u48(115);
    expected.u48(80).u48(3);
    expected.u48(92).u48(0).u48(104);
    expected.text("a").text("c").text("x").text("");
    expected.bytes_head(1).raw(b"b");
    assert_eq!(written(&schema, &sheet), expected.bytes);
}

/// Each object is followed by its own before the next.
#[test]
fn the_layout_goes_down_before_it_goes_on() {
    let schema = Parts {
        lists: vec![table(0)],
        tables: vec![(ID, vec![TEXT, list(0), TEXT])],
        ..Parts::default()
    }
    .pack();
    let leaf = |sheet: Sheet, text: &str| sheet.here().text(text).absent().absent();
    let sheet = Sheet::new().here().text("1").here().put(2, 32);
    let sheet = leaf(sheet.here(), "2");
    let sheet = leaf(sheet.here(), "3").here().text("4");
    let mut expected = Message::new(10);
    // Root 10 to 38, "1" 38 to 50, list 50 to 72, table 72 to 100, "2" to 112,
    // table 112 to 140, "3" to 152, "4".
    expected.table(ID, 18).u48(38).u48(50).u48(152);
    expected.text("1").list_head(2).u48(72).u48(112);
    expected.table(ID, 18).u48(100).u48(0).u48(0).text("2");
    expected.table(ID, 18).u48(140).u48(0).u48(0).text("3");
    expected.text("4");
    assert_eq!(written(&schema, &sheet), expected.bytes);
}

#[test]
fn lists_of_every_element() {
    let schema = with_members(&[list(0), list(1), list(3), list(4), list(5)]);
    let sheet = Sheet::new().here().put(2, 32).put(0x0102, 16);
    let sheet = sheet.here().put(2, 32).absent().here().put(5, 32);
    let sheet = sheet.here().put(3, 32).absent();
    let sheet = sheet.here().put(3, 16).put(0, 32);
    let sheet = sheet.here().put(4, 16);
    let sheet = sheet.here().put(3, 32).here().put(2, 8).absent();
    let sheet = sheet.here().put(0, 8);
    let sheet = sheet.here().put(11, 32).put(0b1000_0001, 8).put(0b110, 3);
    let mut expected = Message::new(10);
    // Root 10 to 50; then 50, 62, 80, 114 and 124, 134, 147.
    expected.table(ID, 30);
    expected.u48(50).u48(62).u48(80).u48(134).u48(147);
    expected.list_head(2).raw(&[1, 2]);
    expected.list_head(2).raw(&[0, 0, 0xC0, 0x7F, 5, 0, 0, 0]);
    expected
        .list_head(3)
        .choice(0, 0)
        .choice(3, 114)
        .choice(4, 124);
    expected.list_head(0).table(1, 0);
    expected.list_head(3).raw(&[2, 255, 0]);
    expected.list_head(11).raw(&[0b1000_0001, 0b011]);
    assert_eq!(written(&schema, &sheet), expected.bytes);
}

/// A stored message: refused by 12 now, whatever the room, and written before; it
/// is still read to its sheet.
fn stored(schema: &[u8], sheet: &Sheet) -> Vec<u8> {
    for room in [0, usize::MAX] {
        let refused = write(48, schema, &sheet.done(), room);
        assert_eq!(refused, (12, Vec::new()));
    }
    let (number, message) = write_stored(48, schema, &sheet.done(), usize::MAX);
    assert_eq!(number, 0);
    let (verdict, back) = read(48, schema, &message, u32::MAX, usize::MAX);
    assert_eq!((verdict.number, back), (0, sheet.done()));
    message
}

/// "the writer refuses a present one under the 48-bit coding", an empty one too.
/// Of those that are stored: "A text keeps its zero byte unless it is absent": an
/// empty one too.
#[test]
fn in_place_unions() {
    let schema = with_members(&[in_place(union(0)), U8]);
    for (choice, length, content) in [(1, 0, &[0u8] as &[u8]), (2, 0, &[]), (3, 0, &[])] {
        let sheet = Sheet::new().here().put(choice, 16).put(0, 32);
        let sheet = sheet.here().put(9, 8);
        let mut expected = Message::new(10);
        expected.table(ID, 9).choice(choice as u16, length);
        expected.raw(&[9]).raw(content);
        assert_eq!(stored(&schema, &sheet), expected.bytes);
    }
    let sheet = Sheet::new().here().put(4, 16).here().put(9, 8);
    let mut expected = Message::new(10);
    expected.table(ID, 9).choice(4, 0).raw(&[9]);
    assert_eq!(stored(&schema, &sheet), expected.bytes);
    let sheet = Sheet::new().here().put(1, 16).text("hey").here().put(9, 8);
    let mut expected = Message::new(10);
    expected.table(ID, 9).choice(1, 3).raw(&[9]).raw(b"hey\0");
    assert_eq!(stored(&schema, &sheet), expected.bytes);
}

/// "absent is still written", and what is not lawful comes first.
#[test]
fn absent_in_place_unions() {
    let schema = with_members(&[in_place(union(0)), U8]);
    let sheet = Sheet::new().absent().here().put(9, 8);
    let mut expected = Message::new(10);
    expected.table(ID, 9).choice(0, 0).raw(&[9]);
    assert_eq!(written(&schema, &sheet), expected.bytes);
    let known = |sheet: Sheet| sheet.here().put(4, 16);
    assert_eq!(number(&schema, &known(Sheet::new()).put(3, 2)), 11);
    // A table behind a list, and an enum later on that is not lawful.
    let schema = Parts {
        lists: vec![table(1)],
        unions: vec![vec![table(1)]],
        tables: vec![
            (ID, vec![list(0), enumeration(4)]),
            (1, vec![in_place(union(0))]),
        ],
        ..Parts::default()
    }
    .pack();
    let list = |elements| Sheet::new().here().put(elements, 32);
    let present = |sheet: Sheet| sheet.here().here().put(1, 16).absent();
    assert_eq!(number(&schema, &list(1).here().absent().absent()), 0);
    assert_eq!(number(&schema, &present(list(1)).absent()), 12);
    let second = present(list(2).here().absent());
    assert_eq!(number(&schema, &second.clone().absent()), 12);
    assert_eq!(number(&schema, &second.here().put(4, 8)), 11);
}

#[test]
fn in_place_text_bytes_list_and_table() {
    for (record, content) in [(TEXT, &b"abc\0"[..]), (BYTES, b"abc"), (list(0), b"abc")] {
        let schema = with_members(&[in_place(record)]);
        let sheet = Sheet::new().here().text("abc");
        let mut expected = Message::new(10);
        expected.table(ID, 6).u48(3).raw(content);
        assert_eq!(written(&schema, &sheet), expected.bytes);
    }
    let schema = with_members(&[in_place(table(3))]);
    let mut expected = Message::new(10);
    expected.table(ID, 6).u48(2).raw(&[0, 0]);
    assert_eq!(
        written(&schema, &Sheet::new().here().absent()),
        expected.bytes
    );
}

/// Every beginning of a sheet is not lawful, nor one with more, nor one whose
/// last bits are not zero.
#[test]
fn refusal_11_the_end() {
    let schema = with_members(&[TEXT, U16, list(3), optional(structure(0))]);
    let sheet = Sheet::new().here().text("abc").here().put(7, 16);
    let sheet = sheet
        .here()
        .put(1, 32)
        .here()
        .put(3, 16)
        .put(2, 32)
        .put(9, 16);
    let sheet = sheet.here().put(1, 1).here().put(3, 8).put(0, 32);
    assert_eq!(number(&schema, &sheet), 0);
    let whole = sheet.done();
    for length in 0..whole.len() {
        assert_eq!(write(48, &schema, &whole[..length], 999), (11, vec![]));
    }
    let mut more = whole.clone();
    more.push(0);
    assert_eq!(write(48, &schema, &more, 999), (11, vec![]));
    // 58 + 18 + 100 + 45 = 221 bits: three bits are left in the last byte.
    for bit in 0..3 {
        let mut padded = whole.clone();
        *padded.last_mut().unwrap() |= 1 << bit;
        assert_eq!(write(48, &schema, &padded, 999), (11, vec![]));
    }
    // A root without members has no bytes at all.
    assert_eq!(write(48, &one_table(&[]), &[0], 999), (11, vec![]));
}

#[test]
fn refusal_11_marks() {
    for record in [
        optional(BOOL),
        optional(U8),
        optional(F32),
        optional(structure(0)),
        TEXT,
        BYTES,
        list(0),
        table(1),
    ] {
        let schema = with_members(&[record]);
        assert_eq!(number(&schema, &Sheet::new().absent()), 0);
        for mark in [2, 3] {
            let sheet = Sheet::new().put(mark, 2).put(0xFFFF, 60);
            assert_eq!(number(&schema, &sheet), 11, "{record:#x}");
        }
    }
    for (record, width) in [(enumeration(4), 8), (union(0), 16)] {
        let schema = with_members(&[record]);
        let sheet = Sheet::new().put(3, 2).put(200, width);
        assert_eq!(number(&schema, &sheet), 11);
    }
    // Float and enum elements have marks.
    let schema = with_members(&[list(1)]);
    let sheet = |mark| Sheet::new().here().put(1, 32).put(mark, 2).put(0, 32);
    assert_eq!(number(&schema, &sheet(1)), 0);
    assert_eq!(number(&schema, &sheet(2)), 11);
    assert_eq!(number(&schema, &sheet(3)), 11);
}

/// "Unknown ... must truly be unknown. A present enum is below its count, a
/// present choice known."
#[test]
fn refusal_11_known_and_unknown_numbers() {
    let members = with_members(&[enumeration(4)]);
    let elements = with_members(&[list(4)]);
    for value in 0..=255 {
        let present = if value < 4 { 0 } else { 11 };
        let sheet = Sheet::new().here().put(value, 8);
        assert_eq!(number(&members, &sheet), present);
        let unknown = if (4..255).contains(&value) { 12 } else { 11 };
        let sheet = Sheet::new().unknown(value, 8);
        assert_eq!(number(&members, &sheet), unknown);
        // The list's enum has three values.
        let present = if value < 3 { 0 } else { 11 };
        let sheet = Sheet::new().here().put(1, 32).here().put(value, 8);
        assert_eq!(number(&elements, &sheet), present);
        let unknown = if (3..255).contains(&value) { 12 } else { 11 };
        let sheet = Sheet::new().here().put(1, 32).unknown(value, 8);
        assert_eq!(number(&elements, &sheet), unknown);
    }
    let members = with_members(&[union(0)]);
    for choice in [0, 1, 2, 3, 5, 6, 0xFFFF] {
        let known = (1..=4).contains(&choice);
        let sheet = Sheet::new().here().put(choice, 16).put(0, 32);
        assert_eq!(number(&members, &sheet), if known { 0 } else { 11 });
        let sheet = Sheet::new().unknown(choice, 16);
        let expected = if known || choice == 0 { 11 } else { 12 };
        assert_eq!(number(&members, &sheet), expected);
    }
}

/// An enum of 255 values has no unknown number.
#[test]
fn refusal_11_an_enum_of_255_values() {
    let schema = one_table(&[enumeration(255)]);
    for value in 0..=255 {
        let expected = if value < 255 { 0 } else { 11 };
        let sheet = Sheet::new().here().put(value, 8);
        assert_eq!(number(&schema, &sheet), expected);
        assert_eq!(number(&schema, &Sheet::new().unknown(value, 8)), 11);
    }
}

/// A sheet of 32 objects one in another, and one of 33.
#[test]
fn refusal_11_deeper_than_32() {
    let schema = one_table(&[table(0)]);
    let nested = |count: u32| {
        let mut sheet = Sheet::new();
        for _ in 1..count {
            sheet = sheet.here();
        }
        sheet.absent()
    };
    assert_eq!(written(&schema, &nested(32)).len(), 10 + 32 * 16);
    assert_eq!(number(&schema, &nested(33)), 11);
    // In place each is 6 bytes.
    let schema = one_table(&[in_place(table(0))]);
    assert_eq!(written(&schema, &nested(32)).len(), 20 + 32 * 6);
    assert_eq!(number(&schema, &nested(33)), 11);
    // A text counts too.
    let schema = one_table(&[table(0), TEXT]);
    let with_text = |count: u32| {
        let mut sheet = Sheet::new();
        for _ in 1..count {
            sheet = sheet.here();
        }
        sheet = sheet.absent().here().text("t");
        for _ in 1..count {
            sheet = sheet.absent();
        }
        sheet
    };
    written(&schema, &with_text(31));
    assert_eq!(number(&schema, &with_text(32)), 11);
}

#[test]
fn refusal_11_too_long_and_13() {
    let schema = one_table(&[BYTES]);
    let of_length = |length: usize| {
        let mut sheet = Sheet::new().here().put(length as u64, 32).done();
        sheet.resize(length + 5, 0);
        sheet
    };
    // The message is 10 + 16 + 10 bytes longer than the bytes.
    let (number, message) = write(48, &schema, &of_length(16_777_179), usize::MAX);
    assert_eq!((number, message.len()), (0, 16_777_215));
    let write_number = |length| write(48, &schema, &of_length(length), 0).0;
    assert_eq!(write_number(16_777_179), 14);
    assert_eq!(write_number(16_777_180), 13);
    // A sheet of the size, and one over it.
    assert_eq!(of_length(16_777_210).len(), 16_777_215);
    assert_eq!(write_number(16_777_210), 13);
    assert_eq!(write_number(16_777_211), 11);
}

/// A small sheet of a large message: each table takes 262,152 bytes.
#[test]
fn refusal_13_by_fixed_parts() {
    let schema = Parts {
        structs: vec![vec![U64; 16], vec![structure(0); 32]],
        lists: vec![table(1)],
        tables: vec![
            (ID, vec![list(0), U8]),
            (1, vec![optional(structure(1)); 64]),
        ],
        ..Parts::default()
    }
    .pack();
    let of_tables = |count: u64| {
        let mut sheet = Sheet::new().here().put(count, 32);
        for _ in 0..count {
            sheet = sheet.here().put(0, 64).put(0, 64);
        }
        sheet
    };
    let sheet = of_tables(63).here().put(0, 8);
    let (number, message) = write(48, &schema, &sheet.done(), usize::MAX);
    // Root 10 to 27; the list's header, and 6 + 10 + 262,152 for each table.
    assert_eq!((number, message.len()), (0, 27 + 10 + 63 * 262_168));
    let sheet = of_tables(64).here().put(0, 8);
    assert_eq!(write(48, &schema, &sheet.done(), 0), (13, vec![]));
    // 12 comes before 13, over the whole sheet.
    let sheet = of_tables(64).absent();
    assert_eq!(write(48, &schema, &sheet.done(), 0), (12, vec![]));
    // And 11 before both.
    let sheet = of_tables(64).put(3, 2);
    assert_eq!(write(48, &schema, &sheet.done(), 0), (11, vec![]));
}

/// "an absent plain bool, integer, struct or float member"
#[test]
fn refusal_12_absent_plain_members() {
    let all = [
        BOOL,
        U8,
        U16,
        U32,
        U64,
        I8,
        I16,
        I32,
        I64,
        F32,
        F64,
        structure(0),
    ];
    for record in all {
        let absent = Sheet::new().absent();
        assert_eq!(number(&with_members(&[record]), &absent), 12);
        assert_eq!(number(&with_members(&[optional(record)]), &absent), 0);
    }
    let absent = Sheet::new().absent();
    for record in [enumeration(4), TEXT, BYTES, list(0), table(1), union(0)] {
        assert_eq!(number(&with_members(&[record]), &absent), 0);
    }
}

/// "a present NaN in an optional float member or as a list element (not
/// inside a struct)"
#[test]
fn refusal_12_present_nans() {
    let nan = 0xFF80_0001;
    let infinity = 0xFF80_0000;
    let present = |bits| Sheet::new().here().put(bits, 32);
    assert_eq!(number(&with_members(&[F32]), &present(nan)), 0);
    assert_eq!(number(&with_members(&[optional(F32)]), &present(nan)), 12);
    assert_eq!(
        number(&with_members(&[optional(F32)]), &present(infinity)),
        0
    );
    let element = |bits| Sheet::new().here().put(1, 32).here().put(bits, 32);
    assert_eq!(number(&with_members(&[list(1)]), &element(nan)), 12);
    assert_eq!(number(&with_members(&[list(1)]), &element(infinity)), 0);
    let inside = Sheet::new().here().put(0, 1).absent().put(nan, 32);
    assert_eq!(number(&with_members(&[structure(0)]), &inside), 0);
    assert_eq!(number(&with_members(&[optional(structure(0))]), &inside), 0);
    let wide = Sheet::new().here().put(0x7FF0_0000_0000_0001, 64);
    assert_eq!(number(&with_members(&[F64]), &wide), 0);
    assert_eq!(number(&with_members(&[optional(F64)]), &wide), 12);
}

/// "a present in-place text, bytes, list or table of length 0"
#[test]
fn refusal_12_empty_in_place() {
    let empty = Sheet::new().here().put(0, 32);
    for record in [TEXT, BYTES, list(0)] {
        assert_eq!(number(&with_members(&[in_place(record)]), &empty), 12);
        assert_eq!(number(&with_members(&[record]), &empty), 0);
    }
    let empty = Sheet::new().here();
    assert_eq!(number(&with_members(&[in_place(table(1))]), &empty), 12);
    assert_eq!(number(&with_members(&[table(1)]), &empty), 0);
}

/// "an unknown mark", wherever it is.
#[test]
fn refusal_12_unknown_marks() {
    let schema = with_members(&[structure(0)]);
    let inside = Sheet::new().here().put(0, 1).unknown(4, 8).put(0, 32);
    assert_eq!(number(&schema, &inside), 12);
    let schema = with_members(&[list(3)]);
    let element = Sheet::new().here().put(1, 32).unknown(5, 16);
    assert_eq!(number(&schema, &element), 12);
    let schema = with_members(&[in_place(union(0))]);
    assert_eq!(number(&schema, &Sheet::new().unknown(5, 16)), 12);
    // What is not lawful later on comes first.
    let schema = with_members(&[enumeration(4), enumeration(4)]);
    let sheet = Sheet::new().unknown(4, 8).unknown(3, 8);
    assert_eq!(number(&schema, &sheet), 11);
}

/// A table that holds itself in one way: by what a sheet has at each level, and
/// the objects of a level.
fn levels(schema: &[u8], level: &dyn Fn(Sheet) -> Sheet, objects: u32, more: u32) -> Vec<u8> {
    assert!(lawful(48, schema));
    let mut sheet = Sheet::new();
    for _ in 0..(31 + more) / objects {
        sheet = level(sheet);
    }
    sheet.absent().done()
}

/// "Depth: 32 objects, the root being 1; following a reference or entering
/// in-place content adds 1." Over it a sheet is not lawful.
#[test]
fn the_depth_of_a_sheet_by_every_way_down() {
    let schema = |member, element| {
        Parts {
            lists: vec![element],
            unions: vec![vec![table(0)]],
            tables: vec![(ID, vec![member])],
            ..Parts::default()
        }
        .pack()
    };
    let reference = |sheet: Sheet| sheet.here();
    let choice = |sheet: Sheet| sheet.here().put(1, 16);
    for (member, level) in [
        (table(0), &reference as &dyn Fn(Sheet) -> Sheet),
        (in_place(table(0)), &reference),
        (union(0), &choice),
        (in_place(union(0)), &choice),
    ] {
        let schema = schema(member, U8);
        let deepest = levels(&schema, level, 1, 0);
        let (number, message) = write_stored(48, &schema, &deepest, usize::MAX);
        assert_eq!(number, 0);
        let refused = (12, Vec::new());
        let expected = match member == in_place(union(0)) {
            true => refused,
            false => (0, message.clone()),
        };
        assert_eq!(write(48, &schema, &deepest, usize::MAX), expected);
        assert_eq!(judge(48, &schema, &message, 32), verdict(0, 0, 32));
        let deeper = levels(&schema, level, 1, 1);
        assert_eq!(write(48, &schema, &deeper, usize::MAX), (11, Vec::new()));
    }
    // A list and its one element at each level: 31 objects, then 33.
    let element = |sheet: Sheet| sheet.here().put(1, 32).here();
    let union_element = |sheet: Sheet| sheet.here().put(1, 32).here().put(1, 16);
    for (kind, level) in [
        (table(0), &element as &dyn Fn(Sheet) -> Sheet),
        (union(0), &union_element),
    ] {
        let schema = schema(list(0), kind);
        let (number, message) = write(48, &schema, &levels(&schema, level, 2, 0), usize::MAX);
        assert_eq!(number, 0);
        assert_eq!(judge(48, &schema, &message, 31), verdict(0, 0, 31));
        let deeper = levels(&schema, level, 2, 1);
        assert_eq!(write(48, &schema, &deeper, usize::MAX), (11, Vec::new()));
    }
}
