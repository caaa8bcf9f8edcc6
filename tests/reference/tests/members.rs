//! Which member or element a refusal is about: "Refusals 8, 9 and 10 shall carry
//! the member's or element's number in its holder, counted from 0; a text's end
//! byte and every other answer carry 4,294,967,295."

mod common;

use common::tabled::{field, list_reader};
use common::*;
use reference::Verdict;

/// A schema whose root has the given members. Struct 1 is a struct of a bool and
/// a U8, and a bool; table 1 has a U8, a U16 and struct 1.
fn with_members(members: &[u16]) -> Vec<u8> {
    parts(members).pack()
}

fn parts(members: &[u16]) -> Parts {
    Parts {
        structs: vec![vec![BOOL, U8], vec![structure(0), BOOL]],
        lists: vec![union(0), TEXT, table(1)],
        unions: vec![vec![TEXT, table(1)]],
        tables: vec![(ID, members.to_vec()), (1, vec![U8, U16, structure(1)])],
        root: 0,
    }
}

/// The root at 10 with this fixed part, which starts at 20.
fn root(fixed: &[u8]) -> Message {
    let mut message = Message::new(10);
    message.table(ID, fixed.len() as u64).raw(fixed);
    message
}

fn judged(schema: &[u8], message: &Message) -> Verdict {
    let verdict = judge(48, schema, &message.bytes, 1000);
    assert_eq!(read(48, schema, &message.bytes, 1000, 1000).0, verdict);
    verdict
}

/// The U16 stands at 1 and 2, the U32 at 3 to 6.
#[test]
fn a_cut_member() {
    let schema = with_members(&[U8, U16, U32]);
    for (length, member) in [(2, 1), (4, 2), (5, 2), (6, 2)] {
        let message = root(&vec![0; length]);
        assert_eq!(judged(&schema, &message), verdict_of(8, 10, member, 1));
        let at = |path: &[u32]| field(48, &schema, &message.bytes, path);
        assert_eq!(at(&[member]), refused_of(8, 10, member));
        assert_eq!(at(&[member, 7]), refused_of(8, 10, member));
        assert_eq!(at(&[3]), refused(15, 10));
    }
    for length in [0, 1, 3, 7, 8] {
        assert_eq!(judged(&schema, &root(&vec![0; length])), verdict(0, 0, 1));
    }
}

/// Byte 0 has a bool, the flag of the U8 at 1 and the flag of the U16 at 2.
#[test]
fn a_flag_without_its_value() {
    let schema = with_members(&[BOOL, optional(U8), optional(U16)]);
    for (fixed, member) in [
        (&[0b010][..], 1),
        (&[0b100], 2),
        (&[0b110], 1),
        (&[0b110, 5], 2),
        // Flag 0, and the value cut.
        (&[0b010, 5, 5], 2),
    ] {
        assert_eq!(judged(&schema, &root(fixed)), verdict_of(8, 10, member, 1));
    }
    assert_eq!(judged(&schema, &root(&[0b001])), verdict(0, 0, 1));
    let message = root(&[0b110]);
    let at = |path: &[u32]| field(48, &schema, &message.bytes, path);
    assert_eq!(at(&[1]), refused_of(8, 10, 1));
    assert_eq!(at(&[2]), refused_of(8, 10, 2));
}

/// Unions at 1 to 8 and 9 to 16.
#[test]
fn a_union_of_offset_0() {
    let schema = with_members(&[U8, union(0), union(0)]);
    for (choices, expected) in [
        ([1, 0], verdict_of(9, 10, 1, 1)),
        ([0, 2], verdict_of(9, 10, 2, 1)),
        ([2, 1], verdict_of(9, 10, 1, 1)),
        ([3, 0], verdict(0, 0, 1)),
    ] {
        let mut message = Message::new(10);
        message.table(ID, 17).raw(&[7]);
        message.choice(choices[0], 0).choice(choices[1], 0);
        assert_eq!(judged(&schema, &message), expected);
    }
}

/// "or element's number": the list is the holder, by offset and in place.
#[test]
fn an_element_of_offset_0() {
    let schema = with_members(&[U8, list(0)]);
    let mut message = Message::new(10);
    // Fixed 20 to 27; the list at 27, its elements from 37 on, the text at 69.
    message.table(ID, 7).raw(&[7]).u48(27).list_head(4);
    message.choice(1, 69).choice(0, 0).choice(3, 0).choice(2, 0);
    message.text("ab");
    assert_eq!(judged(&schema, &message), verdict_of(9, 27, 3, 3));
    let at = |path: &[u32]| field(48, &schema, &message.bytes, path);
    assert_eq!(at(&[1, 3]), refused_of(9, 27, 3));
    assert_eq!(at(&[1, 3, 0]), refused_of(9, 27, 3));
    assert_eq!(at(&[1, 4]), refused(15, 27));
    let schema = with_members(&[in_place(list(0))]);
    let mut message = Message::new(10);
    message.table(ID, 6).u48(2).choice(3, 0).choice(1, 0);
    assert_eq!(judged(&schema, &message), verdict_of(9, 26, 1, 2));
}

/// Numbers of more than one byte and of more than two.
#[test]
fn elements_far_on() {
    let schema = with_members(&[list(0)]);
    for last in [255, 256, 65_535, 65_536, 70_000] {
        let mut message = Message::new(10);
        message.table(ID, 6).u48(26).list_head(last + 1);
        message.raw(&vec![0; 8 * last as usize]).choice(1, 0);
        let expected = verdict_of(9, 26, last as u32, 2);
        assert_eq!(judged(&schema, &message), expected);
    }
}

/// "A struct reports the table's member": not the one inside the struct.
#[test]
fn a_struct_s_boolean() {
    // The struct's booleans are its bytes 0 and 2; it stands at 2 to 4 and,
    // behind its flag's byte, at 6 to 8.
    let schema = with_members(&[U16, structure(1), optional(structure(1))]);
    for (fixed, expected) in [
        ([0, 0, 2, 0, 0, 1, 0, 0, 0], verdict_of(10, 10, 1, 1)),
        ([0, 0, 0, 0, 9, 1, 0, 0, 0], verdict_of(10, 10, 1, 1)),
        ([0, 0, 1, 9, 1, 1, 2, 0, 0], verdict_of(10, 10, 2, 1)),
        ([0, 0, 1, 9, 1, 1, 0, 0, 3], verdict_of(10, 10, 2, 1)),
        ([0, 0, 2, 0, 0, 1, 2, 0, 0], verdict_of(10, 10, 1, 1)),
        ([0, 0, 1, 9, 1, 0, 2, 2, 2], verdict(0, 0, 1)),
    ] {
        assert_eq!(judged(&schema, &root(&fixed)), expected);
    }
    let message = root(&[0, 0, 0, 0, 9, 1, 0, 0, 0]);
    for path in [&[1][..], &[1, 0], &[1, 1], &[1, 0, 1], &[1, 7]] {
        let answer = field(48, &schema, &message.bytes, path);
        assert_eq!(answer, refused_of(10, 10, 1));
    }
    // A member that the struct does not have is 15.
    let answer = field(48, &schema, &message.bytes, &[2, 7]);
    assert_eq!(answer, refused(15, 10));
}

#[test]
fn a_text_s_end_byte_has_no_member() {
    let schema = with_members(&[U8, TEXT]);
    let mut message = Message::new(10);
    message.table(ID, 7).raw(&[7]).u48(27);
    message.text_head(2).raw(b"ab\x01");
    assert_eq!(judged(&schema, &message), verdict(10, 27, 2));
    let answer = field(48, &schema, &message.bytes, &[1]);
    assert_eq!(answer, refused(10, 27));
    let schema = with_members(&[in_place(TEXT)]);
    let mut message = Message::new(10);
    message.table(ID, 6).u48(1).raw(b"a\x01");
    assert_eq!(judged(&schema, &message), verdict(10, 26, 2));
    let schema = with_members(&[list(1)]);
    let mut message = Message::new(10);
    message.table(ID, 6).u48(26).list_head(2).u48(0).u48(48);
    message.text_head(0).raw(&[1]);
    assert_eq!(judged(&schema, &message), verdict(10, 48, 3));
    let answer = field(48, &schema, &message.bytes, &[0, 1]);
    assert_eq!(answer, refused(10, 48));
}

/// Table 1 is the holder, not what leads to it. Its members stand at 0, 1 and 3.
#[test]
fn members_of_an_inner_table() {
    let content: [(&[u8], u32, u32); 3] = [
        (&[5, 0], 8, 1),
        (&[5, 0, 0, 1], 8, 2),
        (&[5, 0, 0, 2, 0, 0], 10, 2),
    ];
    for (inner, number, member) in content {
        let length = inner.len() as u64;
        // As the third element of a list at 26; the table is at 54.
        let schema = with_members(&[list(2)]);
        let mut message = Message::new(10);
        message.table(ID, 6).u48(26).list_head(3).u48(0).u48(0);
        message.u48(54).table(1, length).raw(inner);
        let expected = verdict_of(number, 54, member, 3);
        assert_eq!(judged(&schema, &message), expected);
        let answer = field(48, &schema, &message.bytes, &[0, 2, member]);
        assert_eq!(answer, refused_of(number, 54, member));
        // In place, its content at 27; and by a union.
        let schema = with_members(&[U8, in_place(table(1))]);
        let mut message = Message::new(10);
        message.table(ID, 7).raw(&[7]).u48(length).raw(inner);
        let expected = verdict_of(number, 27, member, 2);
        assert_eq!(judged(&schema, &message), expected);
        let schema = with_members(&[U8, U8, U8, union(0)]);
        let mut message = Message::new(10);
        message.table(ID, 11).raw(&[7; 3]).choice(2, 31);
        message.table(1, length).raw(inner);
        let expected = verdict_of(number, 31, member, 2);
        assert_eq!(judged(&schema, &message), expected);
    }
}

/// "every other answer": acceptance, and 1 to 7.
#[test]
fn every_other_answer() {
    let schema = with_members(&[U8, TEXT]);
    let mut message = Message::new(10);
    message.table(ID, 7).raw(&[7]).u48(27).text("ab");
    let bytes = &message.bytes;
    assert_eq!(judge(48, &schema, bytes, 2), verdict(0, 0, 2));
    assert_eq!(judge(48, &[], bytes, 2), verdict(1, 0, 0));
    assert_eq!(judge(48, &schema, &[], 2), verdict(2, 0, 0));
    assert_eq!(judge(48, &schema, &[0; 10], 2), verdict(3, 0, 0));
    assert_eq!(judge(48, &schema, bytes, 1), verdict(4, 27, 1));
    assert_eq!(judge(48, &schema, &bytes[..39], 2), verdict(6, 27, 2));
    let mut magic = message.clone();
    magic.bytes[27] ^= 1;
    assert_eq!(judge(48, &schema, &magic.bytes, 2), verdict(7, 27, 2));
    let itself = one_table(&[table(0)]);
    let mut message = Message::new(10);
    message.table(ID, 6).u48(10);
    assert_eq!(judge(48, &itself, &message.bytes, 99), verdict(5, 10, 33));
}

/// 14 of reading has no member either.
#[test]
fn a_sheet_without_room() {
    let schema = with_members(&[U8]);
    let (answer, _) = read(48, &schema, &root(&[7]).bytes, 1, 1);
    assert_eq!(answer, verdict(14, 0, 1));
}

/// Steps of the list reader, and paths at which it does not start.
#[test]
fn the_list_reader() {
    let schema = with_members(&[list(0), U32]);
    let mut message = Message::new(10);
    // Fixed 20 to 28, in which the U32 is cut; the list at 28.
    message.table(ID, 8).u48(28).raw(&[0, 0]).list_head(3);
    message.choice(1, 0).choice(0, 0).choice(2, 0);
    let reader = list_reader(48, &schema, &message.bytes, &[0]);
    let mut reader = reader.unwrap_or_else(|answer| panic!("{answer:?}"));
    assert_eq!(reader.step(), refused_of(9, 28, 0));
    reader.step();
    assert_eq!(reader.step(), refused_of(9, 28, 2));
    assert_eq!(reader.step(), refused(15, 28));
    let start = |path: &[u32]| list_reader(48, &schema, &message.bytes, path).err();
    assert_eq!(start(&[1]), Some(refused_of(8, 10, 1)));
    assert_eq!(start(&[0, 2]), Some(refused_of(9, 28, 2)));
    assert_eq!(start(&[]), Some(refused(15, 0)));
    assert_eq!(start(&[2]), Some(refused(15, 10)));
}

/// The root at 8: a U16, struct 1 from 2 on, and in place a union from 5 on.
#[test]
fn the_older_coding() {
    let schema = Parts {
        lists: Vec::new(),
        ..parts(&[U16, structure(1), in_place(union(0))])
    };
    let schema = schema.pack();
    let message = |fixed: &str, behind: &str| {
        let (fixed, behind) = (hex(fixed), hex(behind));
        let start = hex("B3 C4 C0 B5 08 00 00 00 0D 0C 0B 0A");
        let length = [fixed.len() as u8, 0, 0, 0];
        [&start[..], &length, &fixed, &behind].concat()
    };
    for (fixed, behind, expected) in [
        ("00", "", verdict_of(8, 8, 0, 1)),
        ("00 00 01 09", "", verdict_of(8, 8, 1, 1)),
        ("00 00 01 09 02", "", verdict_of(10, 8, 1, 1)),
        ("00 00 01 09 01 00", "", verdict_of(8, 8, 2, 1)),
        ("00 00 01 09 01 00 00 00 00 00", "", verdict_of(8, 8, 2, 1)),
        // The text in place ends with 1; then a table cut and a struct in it.
        (
            "00 00 01 09 01 01 00 01 00 00 00",
            "61 01",
            verdict(10, 27, 2),
        ),
        (
            "00 00 01 09 01 02 00 02 00 00 00",
            "05 00",
            verdict_of(8, 27, 1, 2),
        ),
        (
            "00 00 01 09 01 02 00 06 00 00 00",
            "05 00 00 00 00 02",
            verdict_of(10, 27, 2, 2),
        ),
    ] {
        assert_eq!(judge(32, &schema, &message(fixed, behind), 9), expected);
    }
    let cut = message("00 00 01 09 02", "");
    assert_eq!(field(32, &schema, &cut, &[1, 1]), refused_of(10, 8, 1));
}
