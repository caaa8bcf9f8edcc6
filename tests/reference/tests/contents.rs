//! The content allowance: "Each arrival whose content fits adds its content
//! length: bytes, text without its end byte, list element bytes, fixed part";
//! "17, exactly if the sum would pass the allowance, at the object, after content
//! fits and before its bytes are judged; such an arrival counts as a visit but
//! adds no content."

mod common;

use common::*;
use reference::{Budget, Verdict, NO_MEMBER};

/// A table with a U16 and a text, and a message of it: 8 bytes at 10 and "ab" at 28.
fn n() -> Vec<u8> {
    hex("00 00 00 01 00 4C 49 43 45 02 10 00 68 00")
}

fn m() -> Vec<u8> {
    hex(
        "B3 C4 C0 B5 0A 00 00 00 00 00 45 43 49 4C 08 00 00 00 00 00 03 00 1C 00 00 00 \
         00 00 F5 C8 12 D8 02 00 00 00 00 00 61 62 00",
    )
}

/// Number, place, visits and content.
type Parts4 = (u32, u64, u32, u64);

fn parts(verdict: Verdict) -> Parts4 {
    let (number, place) = (verdict.number, verdict.place);
    (number, place, verdict.visits, verdict.content)
}

/// Judged, and read to a sheet with the same answer.
fn spent(coding: u32, schema: &[u8], message: &[u8], visits: u32, content: u64) -> Parts4 {
    let budget = Budget { visits, content };
    let verdict = tabled::judge(coding, schema, message, budget);
    let (read, sheet) = tabled::read(coding, schema, message, budget, 1000);
    assert_eq!(read, verdict);
    assert!(verdict.number == 0 || sheet.is_empty());
    assert_eq!(verdict.number == 8, verdict.member != NO_MEMBER);
    parts(verdict)
}

/// With all the visits there are.
fn with(schema: &[u8], message: &Message, content: u64) -> Parts4 {
    spent(48, schema, &message.bytes, u32::MAX, content)
}

/// A message that is accepted takes just so much: with it, with more and with
/// one less.
fn takes(schema: &[u8], message: &Message, visits: u32, content: u64) {
    for allowed in [content, content + 1, u64::MAX] {
        assert_eq!(with(schema, message, allowed), (0, 0, visits, content));
    }
    if content > 0 {
        assert_eq!(with(schema, message, content - 1).0, 17);
    }
}

/// A schema whose root has the given members.
fn with_members(members: &[u16]) -> Vec<u8> {
    Parts {
        structs: vec![vec![BOOL, U8]],
        lists: vec![BOOL, U16, U64, enumeration(3), TEXT, union(0), BYTES],
        unions: vec![vec![TEXT, BYTES, list(1), table(1)]],
        tables: vec![(ID, members.to_vec()), (1, vec![U16])],
        root: 0,
    }
    .pack()
}

/// A table at 10 with one member of six bytes, which is a reference to 26.
fn refers() -> Message {
    let mut message = Message::new(10);
    message.table(ID, 6).u48(26);
    message
}

#[test]
fn exact_and_less() {
    for (content, expected) in [
        (u64::MAX, (0, 0, 2, 10)),
        (11, (0, 0, 2, 10)),
        (10, (0, 0, 2, 10)),
        (9, (17, 28, 2, 8)),
        (8, (17, 28, 2, 8)),
        (7, (17, 10, 1, 0)),
        (1, (17, 10, 1, 0)),
        (0, (17, 10, 1, 0)),
    ] {
        assert_eq!(spent(48, &n(), &m(), 2, content), expected);
        assert_eq!(spent(48, &n(), &m(), u32::MAX, content), expected);
    }
}

/// A root of no bytes adds none, and an empty text neither.
#[test]
fn nothing_is_within_an_allowance_of_0() {
    let mut empty = m();
    empty[14] = 0;
    assert_eq!(spent(48, &n(), &empty, 1, 0), (0, 0, 1, 0));
    let mut message = refers();
    message.text("");
    takes(&with_members(&[TEXT]), &message, 2, 6);
    assert_eq!(with(&with_members(&[TEXT]), &message, 5), (17, 10, 1, 0));
}

/// "Before the walk, 1, 2, 3 are tried in order", with nothing spent.
#[test]
fn before_the_walk() {
    assert_eq!(spent(48, &[], &m(), 2, 0), (1, 0, 0, 0));
    assert_eq!(spent(40, &n(), &m(), 2, 0), (1, 0, 0, 0));
    assert_eq!(spent(48, &n(), &m()[..9], 2, 0), (2, 0, 0, 0));
    assert_eq!(spent(48, &n(), &[0; 10], 2, 0), (3, 0, 0, 0));
}

/// 4 is tried before the arrival is counted, so before 17.
#[test]
fn visits_come_first() {
    assert_eq!(spent(48, &n(), &m(), 0, 0), (4, 10, 0, 0));
    assert_eq!(spent(48, &n(), &m(), 1, 0), (17, 10, 1, 0));
    assert_eq!(spent(48, &n(), &m(), 1, 8), (4, 28, 1, 8));
    assert_eq!(spent(48, &n(), &m(), 1, 7), (17, 10, 1, 0));
    assert_eq!(spent(48, &n(), &m(), 1, 9), (4, 28, 1, 8));
}

/// "after content fits": 6 and 7 of the text come before 17, and such a text adds
/// nothing.
#[test]
fn what_does_not_fit_comes_first() {
    for content in [8, 9, 10, u64::MAX] {
        assert_eq!(spent(48, &n(), &m()[..40], 9, content), (6, 28, 2, 8));
        let mut offset = m();
        offset[22] = 9;
        assert_eq!(spent(48, &n(), &offset, 9, content), (6, 9, 2, 8));
        let mut magic = m();
        magic[28] ^= 1;
        assert_eq!(spent(48, &n(), &magic, 9, content), (7, 28, 2, 8));
    }
    assert_eq!(spent(48, &n(), &m()[..40], 9, 7), (17, 10, 1, 0));
    // The root does not fit.
    assert_eq!(spent(48, &n(), &m()[..27], 9, 0), (6, 10, 1, 0));
    assert_eq!(spent(48, &n(), &m()[..28], 9, 8), (6, 28, 2, 8));
}

/// 5 comes before 17: 32 tables of six bytes each, all the same one.
#[test]
fn depth_comes_first() {
    let schema = one_table(&[table(0)]);
    let mut message = Message::new(10);
    message.table(ID, 6).u48(10);
    assert_eq!(with(&schema, &message, 192), (5, 10, 33, 192));
    assert_eq!(with(&schema, &message, u64::MAX), (5, 10, 33, 192));
    assert_eq!(with(&schema, &message, 191), (17, 10, 32, 186));
    assert_eq!(with(&schema, &message, 5), (17, 10, 1, 0));
}

/// "before its bytes are judged": 17 comes before 10, and a text that is refused
/// by 10 has added its length.
#[test]
fn the_end_byte_comes_after() {
    let mut message = m();
    message[40] = 1;
    assert_eq!(spent(48, &n(), &message, 2, 10), (10, 28, 2, 10));
    assert_eq!(spent(48, &n(), &message, 2, u64::MAX), (10, 28, 2, 10));
    assert_eq!(spent(48, &n(), &message, 2, 9), (17, 28, 2, 8));
    assert_eq!(spent(48, &n(), &message, 2, 7), (17, 10, 1, 0));
}

/// A table has added its fixed part before its members are judged.
#[test]
fn members_come_after() {
    let mut cut = m();
    cut[14] = 5;
    assert_eq!(spent(48, &n(), &cut, 9, 5), (8, 10, 1, 5));
    assert_eq!(spent(48, &n(), &cut, 9, 4), (17, 10, 1, 0));
    let schema = with_members(&[union(0), TEXT]);
    let mut message = Message::new(10);
    message.table(ID, 14).choice(1, 34).u48(34).text("abc");
    takes(&schema, &message, 3, 20);
    message.bytes[20] = 9;
    takes(&schema, &message, 2, 17);
}

/// "shared objects each time".
#[test]
fn a_shared_object_adds_each_time() {
    let schema = with_members(&[list(4)]);
    let mut message = refers();
    message.list_head(3).u48(54).u48(54).u48(54).text("abcd");
    // 6, 18, and 4 for each arrival.
    takes(&schema, &message, 5, 36);
    for (content, expected) in [
        (35, (17, 54, 5, 32)),
        (32, (17, 54, 5, 32)),
        (31, (17, 54, 4, 28)),
        (28, (17, 54, 4, 28)),
        (27, (17, 54, 3, 24)),
        (24, (17, 54, 3, 24)),
        (23, (17, 26, 2, 6)),
        (6, (17, 26, 2, 6)),
        (5, (17, 10, 1, 0)),
    ] {
        assert_eq!(with(&schema, &message, content), expected);
    }
    // Visits are spent first where both would be.
    let four = spent(48, &schema, &message.bytes, 4, 31);
    assert_eq!(four, (17, 54, 4, 28));
    let four = spent(48, &schema, &message.bytes, 4, 32);
    assert_eq!(four, (4, 54, 4, 32));
}

/// Bools add the bytes they take.
#[test]
fn a_bool_list() {
    let schema = with_members(&[list(0)]);
    for (count, bytes) in [(0, 0), (1, 1), (7, 1), (8, 1), (9, 2), (16, 2), (17, 3)] {
        let mut message = refers();
        message.list_head(count).raw(&[0xFF; 8]);
        takes(&schema, &message, 2, 6 + bytes);
        if bytes > 0 {
            let less = with(&schema, &message, 5 + bytes);
            assert_eq!(less, (17, 26, 2, 6));
        }
    }
}

/// "list element bytes": numbers, enums, references and unions.
#[test]
fn other_lists() {
    for (index, size) in [(1, 2), (2, 8), (3, 1), (4, 6), (5, 8), (6, 6)] {
        let schema = with_members(&[list(index)]);
        for count in [0, 1, 3] {
            let mut message = refers();
            message.list_head(count).raw(&[0; 24]);
            takes(&schema, &message, 2, 6 + count * size);
        }
    }
}

/// A text's, bytes', a list's and a table's own content in place, not its table's.
#[test]
fn content_in_place() {
    for (member, length, bytes, content) in [
        (TEXT, 2, &b"ab\0"[..], 2),
        (BYTES, 3, b"abc", 3),
        (list(0), 9, &[0; 2], 2),
        (list(1), 2, &[0; 4], 4),
        (table(1), 2, &[0; 2], 2),
        (table(1), 5, &[0; 5], 5),
    ] {
        let schema = with_members(&[in_place(member)]);
        let mut message = Message::new(10);
        message.table(ID, 6).u48(length).raw(bytes);
        takes(&schema, &message, 2, 6 + content);
        let less = with(&schema, &message, 5 + content);
        assert_eq!(less, (17, 26, 2, 6));
    }
}

/// The fixed part of the message, not of the schema; a struct is in it.
#[test]
fn fixed_parts() {
    let schema = with_members(&[U8, structure(0)]);
    for length in [0, 1, 3, 4, 100] {
        let mut message = Message::new(10);
        message.table(ID, length).raw(&vec![0; length as usize]);
        takes(&schema, &message, 1, length);
    }
}

/// What is absent, unknown or empty adds nothing; an empty object is a visit.
#[test]
fn what_is_not_followed() {
    let schema = with_members(&[in_place(union(0)), TEXT]);
    for (choice, length, behind, visits) in [
        (0, 99, &[][..], 1),
        (5, 99, &[], 1),
        (1, 0, &[0], 2),
        (2, 0, &[], 2),
        (3, 0, &[], 2),
        (4, 0, &[], 2),
    ] {
        let mut message = Message::new(10);
        message.table(ID, 14).choice(choice, length).u48(0);
        message.raw(behind);
        takes(&schema, &message, visits, 14);
    }
}

/// 14 of reading keeps visits and content.
#[test]
fn a_sheet_without_room() {
    let budget = Budget {
        visits: 2,
        content: 10,
    };
    let (verdict, sheet) = tabled::read(48, &n(), &m(), budget, 8);
    assert_eq!((parts(verdict), sheet.len()), ((14, 0, 2, 10), 0));
    let (verdict, sheet) = tabled::read(48, &n(), &m(), budget, 9);
    assert_eq!((parts(verdict), sheet.len()), ((0, 0, 2, 10), 9));
    let less = Budget {
        content: 9,
        ..budget
    };
    let (verdict, sheet) = tabled::read(48, &n(), &m(), less, 8);
    assert_eq!((parts(verdict), sheet.len()), ((17, 28, 2, 8), 0));
}

/// A sum of more than 32 bits: 1,000 times 5,000,000 bytes.
#[test]
fn a_large_blob_named_often() {
    let schema = with_members(&[list(6)]);
    let mut message = refers();
    message.list_head(1000);
    let blob = 36 + 6 * 1000;
    for _ in 0..1000 {
        message.u48(blob);
    }
    message.bytes_head(5_000_000).raw(&vec![7; 5_000_000]);
    let whole = 6 + 6000 + 1000 * 5_000_000;
    let judged = |content| {
        let visits = u32::MAX;
        let budget = Budget { visits, content };
        parts(tabled::judge(48, &schema, &message.bytes, budget))
    };
    assert_eq!(judged(whole), (0, 0, 1002, whole));
    assert_eq!(judged(whole - 1), (17, blob, 1002, whole - 5_000_000));
    assert_eq!(judged(u64::MAX), (0, 0, 1002, whole));
    // As much as ten of them: the tenth is refused.
    let ten = judged(50_000_000);
    assert_eq!(ten, (17, blob, 12, 6006 + 9 * 5_000_000));
    assert_eq!(judged(1 << 32).0, 17);
}

/// The root at 8 with six bytes, the text at 22 with two.
#[test]
fn the_older_coding() {
    let message = hex(
        "B3 C4 C0 B5 08 00 00 00 45 43 49 4C 06 00 00 00 03 00 16 00 00 00 \
         F5 C8 12 D8 02 00 00 00 61 62 00",
    );
    for (content, expected) in [
        (8, (0, 0, 2, 8)),
        (7, (17, 22, 2, 6)),
        (6, (17, 22, 2, 6)),
        (5, (17, 8, 1, 0)),
    ] {
        assert_eq!(spent(32, &n(), &message, 2, content), expected);
    }
    assert_eq!(spent(32, &n(), &message, 1, 6), (4, 22, 1, 6));
    assert_eq!(spent(32, &n(), &message[..32], 2, 6), (6, 22, 2, 6));
    // References are four bytes each.
    let schema = Parts {
        lists: vec![TEXT],
        tables: vec![(ID, vec![list(0)])],
        ..Parts::default()
    }
    .pack();
    let list = hex(
        "B3 C4 C0 B5 08 00 00 00 0D 0C 0B 0A 04 00 00 00 14 00 00 00 \
         46 BB 00 34 03 00 00 00 00 00 00 00 00 00 00 00 00 00 00 00",
    );
    assert_eq!(spent(32, &schema, &list, 2, 16), (0, 0, 2, 16));
    assert_eq!(spent(32, &schema, &list, 2, 15), (17, 20, 2, 4));
}
