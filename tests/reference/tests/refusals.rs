//! Every refusal of the walk, at every kind of object.

mod common;

use common::*;
use reference::NO_MEMBER;

const MOST: usize = 16_777_215;

/// Judged with all the budget there is. 8 and 9 have a member, 10 may have one,
/// and nothing else does.
fn judged(schema: &[u8], message: &Message) -> (u32, u64, u32) {
    let verdict = judge(48, schema, &message.bytes, u32::MAX);
    let number = verdict.number;
    if number != 10 {
        let member = matches!(number, 8 | 9);
        assert_eq!(verdict.member != NO_MEMBER, member);
    }
    (number, verdict.place, verdict.visits)
}

/// A table at 10 with one member of six bytes, which is a reference to `to`.
fn refers_to(to: u64) -> Message {
    let mut message = Message::new(10);
    message.table(ID, 6).u48(to);
    message
}

/// Text, bytes, list of U16 and table as a member: the record, the object's
/// first four bytes, and its content's bytes for length 3.
fn objects() -> Vec<(u16, Vec<u8>, usize)> {
    vec![
        (TEXT, hex("F5 C8 12 D8"), 4),
        (BYTES, hex("10 BE DB DC"), 3),
        (list(0), hex("46 BB 00 34"), 6),
        (table(1), hex("04 03 02 01"), 3),
    ]
}

/// A schema whose root has the given members, with one of each other thing.
fn with_members(members: &[u16]) -> Vec<u8> {
    Parts {
        structs: vec![vec![BOOL, U8], vec![structure(0), BOOL]],
        lists: vec![U16, union(0), TEXT, BOOL],
        unions: vec![vec![TEXT, BYTES, list(0), table(1)]],
        tables: vec![(ID, members.to_vec()), (0x0102_0304, vec![])],
        root: 0,
    }
    .pack()
}

#[test]
fn refusal_2_under_10_bytes_or_over_the_size() {
    let schema = one_table(&[]);
    let mut message = Message::new(10);
    message.table(ID, 0);
    for length in 0..10 {
        assert_eq!(
            judge(48, &schema, &message.bytes[..length], 9),
            verdict(2, 0, 0)
        );
    }
    message.bytes.resize(MOST, 0xAA);
    assert_eq!(judge(48, &schema, &message.bytes, 9), verdict(0, 0, 1));
    message.bytes.push(0);
    assert_eq!(judge(48, &schema, &message.bytes, 9), verdict(2, 0, 0));
    // 2 comes before 3.
    message.bytes[0] = 0;
    assert_eq!(judge(48, &schema, &message.bytes, 9), verdict(2, 0, 0));
}

#[test]
fn refusal_3_wrong_message_magic() {
    let schema = one_table(&[]);
    for byte in 0..4 {
        let mut message = Message::new(10);
        message.table(ID, 0);
        message.bytes[byte] ^= 0x10;
        // Before the budget.
        assert_eq!(judge(48, &schema, &message.bytes, 0), verdict(3, 0, 0));
    }
}

#[test]
fn refusal_4_at_every_kind_of_object() {
    let far = 0xFFFF_FFFF_FFFF;
    for (record, _, _) in objects() {
        let schema = with_members(&[record]);
        // Nothing of the object is judged before the budget.
        assert_eq!(
            judge(48, &schema, &refers_to(far).bytes, 1),
            verdict(4, far, 1)
        );
        let schema = with_members(&[in_place(record)]);
        assert_eq!(
            judge(48, &schema, &refers_to(far).bytes, 1),
            verdict(4, 26, 1)
        );
    }
    for choice in 1..=4 {
        let mut message = Message::new(10);
        message.table(ID, 8).choice(choice, 7);
        let schema = with_members(&[union(0)]);
        assert_eq!(judge(48, &schema, &message.bytes, 1), verdict(4, 7, 1));
        let schema = with_members(&[in_place(union(0))]);
        assert_eq!(judge(48, &schema, &message.bytes, 1), verdict(4, 28, 1));
    }
}

/// "shared objects each time": a list whose elements are all one text.
#[test]
fn a_shared_object_is_charged_each_time() {
    let schema = with_members(&[list(2)]);
    let mut message = refers_to(26);
    message.list_head(3).u48(54).u48(54).u48(54).text("");
    assert_eq!(judge(48, &schema, &message.bytes, 5), verdict(0, 0, 5));
    assert_eq!(judge(48, &schema, &message.bytes, 4), verdict(4, 54, 4));
    assert_eq!(judge(48, &schema, &message.bytes, 2), verdict(4, 54, 2));
    assert_eq!(judge(48, &schema, &message.bytes, 1), verdict(4, 26, 1));
}

/// A table that leads to itself by a reference.
#[test]
fn refusal_5_by_references() {
    let schema = one_table(&[table(0)]);
    assert_eq!(judged(&schema, &refers_to(10)), (5, 10, 33));
    assert_eq!(
        judge(48, &schema, &refers_to(10).bytes, 33),
        verdict(5, 10, 33)
    );
    assert_eq!(
        judge(48, &schema, &refers_to(10).bytes, 32),
        verdict(4, 10, 32)
    );
    // A chain of 32 tables is not too deep; of 33 it is. The tables are at
    // 10, 26, 42, ...; the last has no member.
    for (count, expected) in [(32, (0, 0, 32)), (33, (5, 10 + 32 * 16, 33))] {
        let mut message = Message::new(10);
        for number in 1..=count {
            let next = if number < count { 10 + number * 16 } else { 0 };
            message.table(ID, 6).u48(next);
        }
        assert_eq!(judged(&schema, &message), expected);
    }
}

/// 5 comes before 6 and 7, and counts texts as it does tables.
#[test]
fn refusal_5_before_the_offset_is_judged() {
    let schema = one_table(&[table(0), TEXT]);
    // Every table is 22 bytes: 10 + 12.
    let chain = |count: u64, last: u64| {
        let mut message = Message::new(10);
        for number in 1..=count {
            let next = if number < count { 10 + number * 22 } else { 0 };
            message.table(ID, 12).u48(next);
            message.u48(if number < count { 0 } else { last });
        }
        message
    };
    assert_eq!(judged(&schema, &chain(32, 5)), (5, 5, 33));
    assert_eq!(judged(&schema, &chain(31, 5)), (6, 5, 32));
    let mut message = chain(31, 10 + 31 * 22);
    message.text("x");
    assert_eq!(judged(&schema, &message), (0, 0, 32));
}

/// A chain of tables each in place behind the one before it.
#[test]
fn refusal_5_by_in_place_content() {
    let schema = one_table(&[in_place(table(0))]);
    for (count, expected) in [(32, (0, 0, 32)), (33, (5, 20 + 32 * 6, 33))] {
        let mut message = Message::new(10);
        message.table(ID, 6);
        for number in 1..=count {
            message.u48(if number < count { 6 } else { 0 });
        }
        assert_eq!(judged(&schema, &message), expected);
    }
}

#[test]
fn refusal_6_at_the_root() {
    let schema = one_table(&[]);
    for root in [0, 9, 11, 19, 20, 0xFFFF_FFFF_FFFF] {
        let mut message = Message::new(root);
        message.table(ID, 0);
        assert_eq!(judged(&schema, &message), (6, root, 1), "{root}");
    }
    // Ten bytes have no room for a root.
    assert_eq!(judged(&schema, &Message::new(10)), (6, 10, 1));
    assert_eq!(judged(&schema, &Message::new(0)), (6, 0, 1));
}

#[test]
fn refusal_6_at_every_kind_of_object() {
    for (record, magic, content) in objects() {
        let schema = with_members(&[record]);
        for offset in [1, 9, 0xFFFF_FFFF_FFFF] {
            assert_eq!(judged(&schema, &refers_to(offset)), (6, offset, 2));
        }
        let mut whole = refers_to(26);
        whole.raw(&magic).u48(3);
        whole.bytes.resize(36 + content, 0);
        assert_eq!(judged(&schema, &whole), (0, 0, 2));
        for length in 26..36 + content {
            let mut cut = whole.clone();
            cut.bytes.truncate(length);
            assert_eq!(judged(&schema, &cut), (6, 26, 2), "{record:#x} {length}");
        }
        // The longest length there is.
        let mut long = refers_to(26);
        long.raw(&magic).u48(0xFFFF_FFFF_FFFF).raw(&[0; 100]);
        assert_eq!(judged(&schema, &long), (6, 26, 2));
    }
}

#[test]
fn refusal_6_in_place() {
    for (record, _, content) in objects() {
        let schema = with_members(&[in_place(record)]);
        let mut whole = refers_to(3);
        whole.bytes.resize(26 + content, 0);
        assert_eq!(judged(&schema, &whole), (0, 0, 2));
        for length in 26..26 + content {
            let mut cut = whole.clone();
            cut.bytes.truncate(length);
            assert_eq!(judged(&schema, &cut), (6, 26, 2));
        }
        let mut long = refers_to(0xFFFF_FFFF_FFFF);
        long.raw(&[0; 100]);
        assert_eq!(judged(&schema, &long), (6, 26, 2));
    }
}

/// A bool list takes a byte for every eight.
#[test]
fn refusal_6_of_a_bool_list() {
    let schema = with_members(&[list(3)]);
    for (count, bytes) in [(0, 0), (1, 1), (8, 1), (9, 2), (16, 2), (17, 3)] {
        let mut message = refers_to(26);
        message.list_head(count);
        message.bytes.resize(36 + bytes, 0xFF);
        assert_eq!(judged(&schema, &message), (0, 0, 2));
        if bytes > 0 {
            message.bytes.pop();
            assert_eq!(judged(&schema, &message), (6, 26, 2));
        }
    }
}

#[test]
fn refusal_7_at_every_kind_of_object() {
    let schema = one_table(&[]);
    let mut message = Message::new(10);
    message.table(ID ^ 1, 0xFFFF);
    // Before the content's fit.
    assert_eq!(judged(&schema, &message), (7, 10, 1));
    for (record, magic, _) in objects() {
        let schema = with_members(&[record]);
        for byte in 0..4 {
            let mut message = refers_to(26);
            message.raw(&magic).u48(0xFFFF_FFFF_FFFF);
            message.bytes[26 + byte] ^= 0x40;
            assert_eq!(judged(&schema, &message), (7, 26, 2));
        }
    }
}

/// Members of every size that the fixed part's end may cut.
#[test]
fn refusal_8_member_cut() {
    let members = [
        (U16, 2),
        (I32, 4),
        (U64, 8),
        (F32, 4),
        (F64, 8),
        (optional(F64), 8),
        (structure(1), 3),
        (TEXT, 6),
        (BYTES, 6),
        (list(0), 6),
        (table(1), 6),
        (union(0), 8),
        (in_place(TEXT), 6),
        (in_place(union(0)), 8),
    ];
    for (record, size) in members {
        let schema = with_members(&[U8, record]);
        for length in 0..size + 3 {
            let mut message = Message::new(10);
            message.table(ID, length).raw(&vec![0; length as usize]);
            let cut = length > 1 && length < 1 + size;
            let expected = if cut { (8, 10, 1) } else { (0, 0, 1) };
            assert_eq!(judged(&schema, &message), expected, "{record:#x} {length}");
        }
    }
}

/// A cut member is refused even where the same table holds what comes after.
#[test]
fn refusal_8_comes_in_turn() {
    let schema = with_members(&[TEXT, U16]);
    let mut message = Message::new(10);
    message.table(ID, 7).u48(9).raw(&[0]);
    // The text's arrival comes before the cut.
    assert_eq!(judged(&schema, &message), (6, 9, 2));
    let schema = with_members(&[U16, TEXT]);
    let mut message = Message::new(10);
    message.table(ID, 1).raw(&[0]);
    assert_eq!(judged(&schema, &message), (8, 10, 1));
}

#[test]
fn refusal_8_flag_without_value() {
    for (record, size) in [
        (optional(U16), 2),
        (optional(I64), 8),
        (optional(structure(1)), 3),
    ] {
        let schema = with_members(&[record]);
        for flag in 0..2u8 {
            for length in 0..=size + 1 {
                let mut message = Message::new(10);
                message.table(ID, length).raw(&[flag; 1]).raw(&[0; 10]);
                let expected = match length {
                    // The member starts at its flag.
                    0 => (0, 0, 1),
                    1 if flag == 0 => (0, 0, 1),
                    length if length == size + 1 => (0, 0, 1),
                    _ => (8, 10, 1),
                };
                assert_eq!(judged(&schema, &message), expected);
            }
        }
    }
}

/// The flag shares an earlier byte; the value stands behind another member.
#[test]
fn refusal_8_a_flag_far_from_its_value() {
    let schema = one_table(&[BOOL, U32, optional(U16)]);
    let judged_at = |length: u64, bools: u8| {
        let mut message = Message::new(10);
        message.table(ID, length).raw(&[bools, 0, 0, 0, 0, 7, 0]);
        judged(&schema, &message)
    };
    assert_eq!(judged_at(7, 0b11), (0, 0, 1));
    assert_eq!(judged_at(6, 0b11), (8, 10, 1));
    assert_eq!(judged_at(6, 0b01), (8, 10, 1));
    assert_eq!(judged_at(5, 0b11), (8, 10, 1));
    assert_eq!(judged_at(5, 0b01), (0, 0, 1));
    // The U32 begins at the end and is absent, the flag is still inside.
    assert_eq!(judged_at(1, 0b01), (0, 0, 1));
    assert_eq!(judged_at(1, 0b11), (8, 10, 1));
    assert_eq!(judged_at(0, 0b11), (0, 0, 1));
}

/// The end is the message's, not the schema's: nothing beyond is read.
#[test]
fn refusal_8_in_an_in_place_table() {
    let schema = Parts {
        tables: vec![(ID, vec![in_place(table(1))]), (1, vec![U16, optional(U8)])],
        ..Parts::default()
    }
    .pack();
    for (length, expected) in [
        (1, (8, 26, 2)),
        (2, (0, 0, 2)),
        (3, (8, 26, 2)),
        (4, (0, 0, 2)),
    ] {
        let mut message = refers_to(length);
        message.raw(&[0xFF; 8]);
        assert_eq!(judged(&schema, &message), expected);
    }
}

#[test]
fn refusal_9_known_choice_offset_0() {
    let schema = with_members(&[union(0)]);
    for (choice, expected) in [
        (0, (0, 0, 1)),
        (1, (9, 10, 1)),
        (4, (9, 10, 1)),
        (5, (0, 0, 1)),
    ] {
        let mut message = Message::new(10);
        message.table(ID, 8).choice(choice, 0);
        assert_eq!(judged(&schema, &message), expected);
    }
    // Choice 0 and an unknown choice ignore their offset.
    for choice in [0, 5, 0xFFFF] {
        let mut message = Message::new(10);
        message.table(ID, 8).choice(choice, 3);
        assert_eq!(judged(&schema, &message), (0, 0, 1));
    }
    // In a list, at the list.
    let schema = with_members(&[list(1)]);
    let mut message = refers_to(26);
    message.list_head(3).choice(0, 0).choice(5, 0).choice(2, 0);
    assert_eq!(judged(&schema, &message), (9, 26, 2));
    // In a list in place, where its content starts.
    let schema = with_members(&[in_place(list(1))]);
    let mut message = refers_to(2);
    message.choice(5, 0).choice(2, 0);
    assert_eq!(judged(&schema, &message), (9, 26, 2));
}

/// "except in a union with a known choice, where it is an empty object. A text
/// keeps its zero byte unless it is absent."
#[test]
fn an_in_place_union_of_length_0_is_an_empty_object() {
    let schema = with_members(&[in_place(union(0))]);
    let union_of = |choice, length| {
        let mut message = Message::new(10);
        message.table(ID, 8).choice(choice, length);
        message
    };
    let text = union_of(1, 0);
    assert_eq!(judged(&schema, &text), (6, 28, 2));
    let mut ended = text.clone();
    ended.raw(&[0]);
    assert_eq!(judged(&schema, &ended), (0, 0, 2));
    let mut wrong = text;
    wrong.raw(&[1]);
    assert_eq!(judged(&schema, &wrong), (10, 28, 2));
    for choice in 2..=4 {
        assert_eq!(judged(&schema, &union_of(choice, 0)), (0, 0, 2));
    }
    // Absent and unknown ones are not entered, whatever their length.
    for choice in [0, 5, 0xFFFF] {
        assert_eq!(judged(&schema, &union_of(choice, 0)), (0, 0, 1));
        assert_eq!(judged(&schema, &union_of(choice, 99)), (0, 0, 1));
    }
    // Outside unions length 0 is no value.
    for (record, _, _) in objects() {
        let schema = with_members(&[in_place(record)]);
        assert_eq!(judged(&schema, &refers_to(0)), (0, 0, 1));
    }
}

#[test]
fn refusal_10_text_end_byte() {
    let schema = with_members(&[TEXT]);
    let mut message = refers_to(26);
    message.text_head(2).raw(&[0, 0, 1]);
    assert_eq!(judged(&schema, &message), (10, 26, 2));
    message.bytes[38] = 0;
    assert_eq!(judged(&schema, &message), (0, 0, 2));
    let schema = with_members(&[in_place(TEXT)]);
    let mut message = refers_to(2);
    message.raw(&[0, 0, 1]);
    assert_eq!(judged(&schema, &message), (10, 26, 2));
    let schema = with_members(&[list(2)]);
    let mut message = refers_to(26);
    message.list_head(2).u48(0).u48(48);
    message.text_head(0).raw(&[0xFF]);
    assert_eq!(judged(&schema, &message), (10, 48, 3));
}

/// Struct 1 is bool, U8, bool: its booleans are at 0 and 2.
#[test]
fn refusal_10_struct_booleans() {
    for (bytes, expected) in [
        ([0, 9, 1], (0, 0, 1)),
        ([1, 9, 0], (0, 0, 1)),
        ([2, 9, 0], (10, 10, 1)),
        ([0, 9, 255], (10, 10, 1)),
    ] {
        let schema = with_members(&[structure(1)]);
        let mut message = Message::new(10);
        message.table(ID, 3).raw(&bytes);
        assert_eq!(judged(&schema, &message), expected);
        let schema = with_members(&[optional(structure(1))]);
        let mut message = Message::new(10);
        message.table(ID, 4).raw(&[1]).raw(&bytes);
        assert_eq!(judged(&schema, &message), expected);
        // "with flag 0 ... a struct's bytes are not judged"
        message.bytes[20] = 0xFE;
        assert_eq!(judged(&schema, &message), (0, 0, 1));
    }
}

/// A struct boolean in in-place content is placed where the content starts.
#[test]
fn refusal_10_in_an_in_place_table() {
    let schema = Parts {
        structs: vec![vec![BOOL]],
        tables: vec![(ID, vec![in_place(table(1))]), (1, vec![structure(0)])],
        ..Parts::default()
    }
    .pack();
    let mut message = refers_to(1);
    message.raw(&[2]);
    assert_eq!(judged(&schema, &message), (10, 26, 2));
}

/// In-place content starts where the message says that the fixed part ends.
#[test]
fn in_place_content_behind_a_longer_table() {
    let schema = with_members(&[in_place(TEXT)]);
    let mut message = Message::new(10);
    message.table(ID, 9).u48(2).raw(&[7, 7, 7]).raw(b"ab\0");
    assert_eq!(judged(&schema, &message), (0, 0, 2));
    let (_, sheet) = read(48, &schema, &message.bytes, 2, 100);
    assert_eq!(sheet, Sheet::new().here().text("ab").done());
}

/// Members in order; the in-place one where it stands.
#[test]
fn the_walk_takes_members_in_order() {
    let schema = with_members(&[TEXT, in_place(list(2)), BYTES]);
    let mut message = Message::new(10);
    // Fixed part 20 to 38, the list's content 38 to 44, then objects.
    message.table(ID, 18).u48(44).u48(1).u48(66).u48(55);
    message.text("").text("").bytes_head(0);
    assert_eq!(message.here(), 76);
    assert_eq!(judge(48, &schema, &message.bytes, 5), verdict(0, 0, 5));
    for (budget, place) in [(1, 44), (2, 38), (3, 55), (4, 66)] {
        let expected = verdict(4, place, budget);
        assert_eq!(judge(48, &schema, &message.bytes, budget), expected);
    }
}

/// An object may overlap others, even its own holder.
#[test]
fn objects_may_overlap() {
    let schema = one_table(&[BYTES]);
    let mut message = refers_to(26);
    message.bytes_head(3).raw(&[1, 2, 3]);
    assert_eq!(judged(&schema, &message), (0, 0, 2));
    // The bytes object begins inside the fixed part of the table.
    let mut message = Message::new(10);
    message.table(ID, 16).u48(26).bytes_head(1).raw(&[5]);
    assert_eq!(judged(&schema, &message), (0, 0, 2));
}
