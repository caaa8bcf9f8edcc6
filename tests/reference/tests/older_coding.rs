//! The 32-bit coding of document 002, worked out by hand: U32 offsets and
//! lengths, headers of 8 bytes, unions always in place.

mod common;

use common::tabled::{field, list_reader, text};
use common::*;
use reference::Answer;
use reference::{appends, lawful, with_added, without_appended, write};

/// A table with a U16, and the same with a text after it.
fn o() -> Vec<u8> {
    hex("00 00 00 01 00 4C 49 43 45 01 10 00")
}

fn n() -> Vec<u8> {
    hex("00 00 00 01 00 4C 49 43 45 02 10 00 68 00")
}

/// The root at 8 with 3 and the offset 22, and the text "ab" there.
fn m() -> Vec<u8> {
    hex(
        "B3 C4 C0 B5 08 00 00 00 45 43 49 4C 06 00 00 00 03 00 16 00 00 00 \
         F5 C8 12 D8 02 00 00 00 61 62 00",
    )
}

fn changed(at: usize, byte: u8) -> Vec<u8> {
    let mut message = m();
    message[at] = byte;
    message
}

fn object(kind: u32, place: u64, length: u64) -> Answer {
    Answer::Object {
        kind,
        place,
        length,
    }
}

fn unsigned(bits: u64, width: u32) -> Answer {
    Answer::Number {
        bits,
        width,
        signed: false,
    }
}

#[test]
fn a_number_and_a_text() {
    assert_eq!(judge(32, &n(), &m(), 2), verdict(0, 0, 2));
    assert_eq!(judge(32, &n(), &m(), 1), verdict(4, 22, 1));
    assert_eq!(judge(32, &n(), &m(), 0), verdict(4, 8, 0));
    assert_eq!(judge(32, &o(), &m(), 1), verdict(0, 0, 1));
    let sheet = hex("40 00 D0 00 00 00 26 16 20");
    assert_eq!(
        read(32, &n(), &m(), 2, 9),
        (verdict(0, 0, 2), sheet.clone())
    );
    assert_eq!(write(32, &n(), &sheet, 33), (0, m()));
    assert_eq!(write(32, &n(), &sheet, 32), (14, Vec::new()));
    assert_eq!(field(32, &n(), &m(), &[]), object(16, 8, 6));
    assert_eq!(field(32, &n(), &m(), &[0]), unsigned(3, 16));
    assert_eq!(field(32, &n(), &m(), &[1]), object(13, 22, 2));
    assert_eq!(text(32, &n(), &m(), &[1]), Some((30, 2)));
}

/// "Offsets under 8 are unlawful there (6)": a text's, and the root's.
#[test]
fn offsets_under_8() {
    assert_eq!(judge(32, &n(), &changed(18, 7), 2), verdict(6, 7, 2));
    assert_eq!(judge(32, &n(), &changed(18, 1), 2), verdict(6, 1, 2));
    // At 8 there is a header, of the table.
    assert_eq!(judge(32, &n(), &changed(18, 8), 2), verdict(7, 8, 2));
    assert_eq!(judge(32, &n(), &changed(18, 0), 2), verdict(0, 0, 1));
    assert_eq!(judge(32, &n(), &changed(4, 7), 2), verdict(6, 7, 1));
    assert_eq!(judge(32, &n(), &changed(4, 0), 2), verdict(6, 0, 1));
    // The last header that fits starts at 25.
    assert_eq!(judge(32, &n(), &changed(18, 25), 2), verdict(7, 25, 2));
    assert_eq!(judge(32, &n(), &changed(18, 26), 2), verdict(6, 26, 2));
    assert_eq!(field(32, &n(), &changed(18, 7), &[1]), refused(6, 7));
    let all = [&m()[..18], &[0xFF; 4], &m()[22..]].concat();
    assert_eq!(judge(32, &n(), &all, 2), verdict(6, 0xFFFF_FFFF, 2));
}

/// "a message under 8 bytes is 2"; one of 8 has no room for its root.
#[test]
fn messages_of_7_and_8_bytes() {
    for length in 0..8 {
        assert_eq!(judge(32, &n(), &m()[..length], 2), verdict(2, 0, 0));
    }
    assert_eq!(judge(32, &n(), &m()[..8], 2), verdict(6, 8, 1));
    assert_eq!(judge(32, &n(), &m()[..15], 2), verdict(6, 8, 1));
    assert_eq!(judge(32, &n(), &m()[..16], 2), verdict(6, 8, 1));
    assert_eq!(judge(32, &n(), &m()[..22], 2), verdict(6, 22, 2));
    assert_eq!(judge(32, &n(), &changed(3, 0)[..8], 2), verdict(3, 0, 0));
    // A table without members at 8, and nothing behind its header.
    let empty = hex("B3 C4 C0 B5 08 00 00 00 45 43 49 4C 00 00 00 00");
    assert_eq!(judge(32, &n(), &empty, 1), verdict(0, 0, 1));
    assert_eq!(judge(32, &n(), &empty[..15], 1), verdict(6, 8, 1));
}

/// The text's four bytes start at 2 of the fixed part.
#[test]
fn cut_members() {
    for length in 3..6 {
        let cut = changed(12, length);
        assert_eq!(judge(32, &n(), &cut, 2), verdict_of(8, 8, 1, 1));
        assert_eq!(field(32, &n(), &cut, &[0]), unsigned(3, 16));
        assert_eq!(field(32, &n(), &cut, &[1]), refused_of(8, 8, 1));
    }
    let number_cut = judge(32, &n(), &changed(12, 1), 2);
    assert_eq!(number_cut, verdict_of(8, 8, 0, 1));
    let short = read(32, &n(), &changed(12, 2), 2, 9);
    assert_eq!(short, (verdict(0, 0, 1), hex("40 00 C0")));
    assert_eq!(
        read(32, &n(), &changed(12, 0), 2, 9),
        (verdict(0, 0, 1), vec![0])
    );
    // Longer than the schema says.
    assert_eq!(judge(32, &n(), &changed(12, 17), 2), verdict(0, 0, 2));
    assert_eq!(judge(32, &n(), &changed(12, 18), 2), verdict(6, 8, 1));
    assert_eq!(judge(32, &n(), &changed(32, 1), 2), verdict(10, 22, 2));
    assert_eq!(judge(32, &n(), &m()[..32], 2), verdict(6, 22, 2));
}

/// Neither coding is guessed: each reads the other's message by its own rules.
#[test]
fn the_other_coding_s_message() {
    // The U48 at 4 has two bytes of the root's id.
    let far = 0x4345_0000_0008;
    assert_eq!(judge(48, &n(), &m(), 2), verdict(6, far, 1));
    // At 10 there is the id, then the lower four bytes of the length.
    let other = hex(
        "B3 C4 C0 B5 0A 00 00 00 00 00 45 43 49 4C 08 00 00 00 00 00 \
                     03 00 1C 00 00 00 00 00 F5 C8 12 D8 02 00 00 00 00 00 61 62 00",
    );
    assert_eq!(judge(48, &n(), &other, 2), verdict(0, 0, 2));
    // A fixed part from 18 to 26: a U16 of 0, and the offset 0x1C0003.
    assert_eq!(judge(32, &n(), &other, 2), verdict(6, 0x1C_0003, 2));
}

/// A text in place: its length in the fixed part, its content behind it.
#[test]
fn a_text_in_place() {
    let schema = one_table(&[in_place(TEXT)]);
    let message = |length: u8, behind: &str| {
        let start = hex("B3 C4 C0 B5 08 00 00 00 0D 0C 0B 0A 04 00 00 00");
        [&start[..], &[length, 0, 0, 0], &hex(behind)].concat()
    };
    let whole = message(2, "61 62 00");
    assert_eq!(judge(32, &schema, &whole, 2), verdict(0, 0, 2));
    assert_eq!(judge(32, &schema, &whole, 1), verdict(4, 20, 1));
    assert_eq!(field(32, &schema, &whole, &[0]), object(13, 20, 2));
    assert_eq!(text(32, &schema, &whole, &[0]), Some((20, 2)));
    let sheet = Sheet::new().here().text("ab").done();
    assert_eq!(
        read(32, &schema, &whole, 2, 99),
        (verdict(0, 0, 2), sheet.clone())
    );
    assert_eq!(write(32, &schema, &sheet, 99), (0, whole));
    let bad_end = message(1, "61 62 00");
    assert_eq!(judge(32, &schema, &bad_end, 2), verdict(10, 20, 2));
    let long = message(3, "61 62 00");
    assert_eq!(judge(32, &schema, &long, 2), verdict(6, 20, 2));
    // "the special length 0 indicates that we have no value"
    let none = message(0, "");
    assert_eq!(read(32, &schema, &none, 1, 9), (verdict(0, 0, 1), vec![0]));
    assert_eq!(write(32, &schema, &[0], 99), (0, none));
    let empty = Sheet::new().here().text("").done();
    assert_eq!(write(32, &schema, &empty, 99).0, 12);
}

/// A U8, a union in place and a bool, 8 bytes; the union has a text, bytes, a
/// list of U16 and a table with a U16.
fn union_schema() -> Vec<u8> {
    Parts {
        lists: vec![U16],
        unions: vec![vec![TEXT, BYTES, list(0), table(1)]],
        tables: vec![(ID, vec![U8, in_place(union(0)), BOOL]), (7, vec![U16])],
        ..Parts::default()
    }
    .pack()
}

/// The root at 8, its union at 17 with this choice and length, and content
/// from 24 on.
fn union_message(choice: u8, length: u8, behind: &str) -> Vec<u8> {
    let start = hex("B3 C4 C0 B5 08 00 00 00 0D 0C 0B 0A 08 00 00 00 07");
    let member = [choice, 0, length, 0, 0, 0, 1];
    [&start[..], &member, &hex(behind)].concat()
}

/// The sheet of that message, with the union's mark and what it has.
fn union_sheet(union: impl Fn(Sheet) -> Sheet) -> Vec<u8> {
    union(Sheet::new().here().put(7, 8)).here().put(1, 1).done()
}

#[test]
fn unions_in_place() {
    let schema = union_schema();
    let cases = [
        (union_message(1, 2, "61 62 00"), object(13, 24, 2)),
        (union_message(2, 3, "61 62 63"), object(14, 24, 3)),
        (union_message(3, 1, "34 12"), object(15, 24, 1)),
        (union_message(4, 2, "34 12"), object(16, 24, 2)),
    ];
    let sheets = [
        union_sheet(|sheet| sheet.here().put(1, 16).text("ab")),
        union_sheet(|sheet| sheet.here().put(2, 16).text("abc")),
        union_sheet(|sheet| sheet.here().put(3, 16).put(1, 32).put(0x1234, 16)),
        union_sheet(|sheet| sheet.here().put(4, 16).here().put(0x1234, 16)),
    ];
    for ((message, answer), sheet) in cases.iter().zip(sheets) {
        assert_eq!(judge(32, &schema, message, 2), verdict(0, 0, 2));
        assert_eq!(judge(32, &schema, message, 1), verdict(4, 24, 1));
        assert_eq!(field(32, &schema, message, &[1]), *answer);
        let answer = read(32, &schema, message, 2, 99);
        assert_eq!(answer, (verdict(0, 0, 2), sheet.clone()));
        assert_eq!(write(32, &schema, &sheet, 99), (0, message.clone()));
        let cut = &message[..message.len() - 1];
        assert_eq!(judge(32, &schema, cut, 2), verdict(6, 24, 2));
    }
    for (message, _) in &cases[2..] {
        assert_eq!(field(32, &schema, message, &[1, 0]), unsigned(0x1234, 16));
        assert_eq!(field(32, &schema, message, &[1, 1]), refused(15, 24));
    }
    let (bytes, _) = &cases[1];
    assert_eq!(text(32, &schema, bytes, &[1]), Some((24, 3)));
}

/// Choice 0 is none, whatever the length; 5 is unknown and is not followed.
#[test]
fn union_choices_that_lead_nowhere() {
    let schema = union_schema();
    let none = union_message(0, 200, "");
    assert_eq!(field(32, &schema, &none, &[1]), Answer::Absent);
    let sheet = union_sheet(Sheet::absent);
    let answer = read(32, &schema, &none, 1, 99);
    assert_eq!(answer, (verdict(0, 0, 1), sheet.clone()));
    let written = union_message(0, 0, "");
    assert_eq!(write(32, &schema, &sheet, 99), (0, written));
    let unknown = union_message(5, 200, "");
    assert_eq!(field(32, &schema, &unknown, &[1]), Answer::Unknown(5));
    let sheet = union_sheet(|sheet| sheet.unknown(5, 16));
    let answer = read(32, &schema, &unknown, 1, 99);
    assert_eq!(answer, (verdict(0, 0, 1), sheet.clone()));
    assert_eq!(write(32, &schema, &sheet, 99).0, 12);
}

/// A known choice of length 0 is an empty object, and 9 never comes.
#[test]
fn known_choices_of_length_0() {
    let schema = union_schema();
    let empty_text = union_message(1, 0, "00");
    assert_eq!(judge(32, &schema, &empty_text, 2), verdict(0, 0, 2));
    assert_eq!(field(32, &schema, &empty_text, &[1]), object(13, 24, 0));
    let sheet = union_sheet(|sheet| sheet.here().put(1, 16).text(""));
    assert_eq!(write(32, &schema, &sheet, 99), (0, empty_text));
    let no_end = union_message(1, 0, "");
    assert_eq!(judge(32, &schema, &no_end, 2), verdict(6, 24, 2));
    let bad_end = union_message(1, 0, "01");
    assert_eq!(judge(32, &schema, &bad_end, 2), verdict(10, 24, 2));
    for (choice, kind) in [(2, 14), (3, 15), (4, 16)] {
        let message = union_message(choice, 0, "");
        assert_eq!(judge(32, &schema, &message, 2), verdict(0, 0, 2));
        assert_eq!(field(32, &schema, &message, &[1]), object(kind, 24, 0));
        if choice < 4 {
            let sheet = read(32, &schema, &message, 2, 99).1;
            assert_eq!(write(32, &schema, &sheet, 99), (0, message));
        }
    }
    // The table of length 0 lacks its number, which a writer must have.
    let table = union_message(4, 0, "");
    assert_eq!(field(32, &schema, &table, &[1, 0]), Answer::Absent);
    let sheet = read(32, &schema, &table, 2, 99).1;
    assert_eq!(write(32, &schema, &sheet, 99).0, 12);
}

/// A union is six bytes: with five of them its table cuts it.
#[test]
fn a_union_cut() {
    let schema = union_schema();
    for (length, number) in [(1, 0), (2, 8), (4, 8), (6, 8), (7, 0), (8, 0)] {
        let mut message = union_message(0, 0, "");
        message[12] = length;
        let expected = match number {
            0 => verdict(0, 0, 1),
            _ => verdict_of(8, 8, 1, 1),
        };
        assert_eq!(judge(32, &schema, &message, 2), expected);
    }
    // Cut right behind the union, its content is what was the bool.
    let mut message = union_message(2, 1, "");
    message[12] = 7;
    assert_eq!(field(32, &schema, &message, &[1]), object(14, 23, 1));
    assert_eq!(field(32, &schema, &message, &[2]), Answer::Absent);
}

/// A list of texts at 20: its elements from 28 on, the text at 36.
#[test]
fn a_list_of_references() {
    let schema = Parts {
        lists: vec![TEXT],
        tables: vec![(ID, vec![list(0)])],
        ..Parts::default()
    }
    .pack();
    let message = hex(
        "B3 C4 C0 B5 08 00 00 00 0D 0C 0B 0A 04 00 00 00 14 00 00 00 \
         46 BB 00 34 02 00 00 00 24 00 00 00 00 00 00 00 \
         F5 C8 12 D8 02 00 00 00 61 62 00",
    );
    assert_eq!(judge(32, &schema, &message, 3), verdict(0, 0, 3));
    assert_eq!(judge(32, &schema, &message, 2), verdict(4, 36, 2));
    assert_eq!(field(32, &schema, &message, &[0]), object(15, 20, 2));
    let sheet = Sheet::new().here().put(2, 32).here().text("ab").absent();
    let sheet = sheet.done();
    assert_eq!(
        read(32, &schema, &message, 3, 99),
        (verdict(0, 0, 3), sheet.clone())
    );
    assert_eq!(write(32, &schema, &sheet, 99), (0, message.clone()));
    let path = [0];
    let reader = list_reader(32, &schema, &message, &path);
    let mut reader = reader.unwrap_or_else(|answer| panic!("{answer:?}"));
    let steps = [
        object(13, 36, 2),
        Answer::Absent,
        refused(15, 20),
        refused(15, 20),
    ];
    for step in steps {
        assert_eq!(reader.step(), step);
    }
    // Six elements have no room; the largest length has none either.
    let mut long = message.clone();
    long[24] = 5;
    assert_eq!(judge(32, &schema, &long, 9), verdict(6, 20, 2));
    long[24..28].copy_from_slice(&[0xFF; 4]);
    assert_eq!(judge(32, &schema, &long, 9), verdict(6, 20, 2));
}

/// Optional members have their flags as in the other coding: flag bit 0 of
/// byte 0, the U16 at 1, the flag of the bool bit 1 and its value bit 2.
#[test]
fn optional_members() {
    let schema = one_table(&[optional(U16), optional(BOOL)]);
    let message = |fixed: &str| {
        let fixed = hex(fixed);
        let start = hex("B3 C4 C0 B5 08 00 00 00 0D 0C 0B 0A");
        [&start[..], &[fixed.len() as u8, 0, 0, 0], &fixed].concat()
    };
    let both = message("07 34 12");
    assert_eq!(field(32, &schema, &both, &[0]), unsigned(0x1234, 16));
    assert_eq!(field(32, &schema, &both, &[1]), Answer::Boolean(true));
    let sheet = Sheet::new().here().put(0x1234, 16).here().put(1, 1).done();
    assert_eq!(
        read(32, &schema, &both, 1, 9),
        (verdict(0, 0, 1), sheet.clone())
    );
    assert_eq!(write(32, &schema, &sheet, 99), (0, both));
    let no_value = message("01");
    assert_eq!(judge(32, &schema, &no_value, 1), verdict_of(8, 8, 0, 1));
    let cut = message("00 00");
    assert_eq!(judge(32, &schema, &cut, 1), verdict_of(8, 8, 0, 1));
    let no_flag = message("02");
    assert_eq!(judge(32, &schema, &no_flag, 1), verdict(0, 0, 1));
    assert_eq!(field(32, &schema, &no_flag, &[0]), Answer::Absent);
    assert_eq!(field(32, &schema, &no_flag, &[1]), Answer::Boolean(false));
}

/// A table in a union in place, which has a text in place itself: the chain
/// stands behind the root, then what is referred to in walk order.
#[test]
fn a_chain_in_place() {
    let schema = Parts {
        unions: vec![vec![table(1)]],
        tables: vec![
            (ID, vec![TEXT, in_place(union(0))]),
            (7, vec![BYTES, in_place(TEXT)]),
        ],
        ..Parts::default()
    }
    .pack();
    let sheet = Sheet::new().here().text("x").here().put(1, 16);
    let sheet = sheet.here().text("\u{5}").here().text("yz").done();
    let message = hex("B3 C4 C0 B5 08 00 00 00 0D 0C 0B 0A 0A 00 00 00 \
         25 00 00 00 01 00 08 00 00 00 2F 00 00 00 02 00 00 00 79 7A 00 \
         F5 C8 12 D8 01 00 00 00 78 00 10 BE DB DC 01 00 00 00 05");
    assert_eq!(write(32, &schema, &sheet, 99), (0, message.clone()));
    assert_eq!(
        read(32, &schema, &message, 5, 99),
        (verdict(0, 0, 5), sheet)
    );
    let at = |path: &[u32]| field(32, &schema, &message, path);
    assert_eq!(at(&[0]), object(13, 37, 1));
    assert_eq!(at(&[1]), object(16, 26, 8));
    assert_eq!(at(&[1, 0]), object(14, 47, 1));
    assert_eq!(at(&[1, 1]), object(13, 34, 2));
    // The walk comes to the text, the table, its bytes and its text.
    for (budget, place) in [(1, 37), (2, 26), (3, 47), (4, 34)] {
        let spent = judge(32, &schema, &message, budget);
        assert_eq!(spent, verdict(4, place, budget));
    }
}

/// Tables, each in the union of the one before: the 33rd is too deep.
#[test]
fn unions_inside_each_other() {
    let schema = Parts {
        unions: vec![vec![table(0)]],
        tables: vec![(ID, vec![in_place(union(0))])],
        ..Parts::default()
    }
    .pack();
    let chain = |tables: usize| {
        let mut message = hex("B3 C4 C0 B5 08 00 00 00 0D 0C 0B 0A 06 00 00 00");
        for _ in 1..tables {
            message.extend_from_slice(&[1, 0, 6, 0, 0, 0]);
        }
        message.extend_from_slice(&[0; 6]);
        message
    };
    assert_eq!(judge(32, &schema, &chain(32), 99), verdict(0, 0, 32));
    let deep = 16 + 32 * 6;
    assert_eq!(judge(32, &schema, &chain(33), 99), verdict(5, deep, 33));
}

/// A list of references takes four bytes each, a U64 eight.
#[test]
fn sizes_of_a_full_message() {
    const MOST: usize = 16_777_215;
    for (element, size) in [(TEXT, 4), (U64, 8), (U8, 1)] {
        let schema = Parts {
            lists: vec![element],
            tables: vec![(ID, vec![list(0)])],
            ..Parts::default()
        }
        .pack();
        let mut message = hex(
            "B3 C4 C0 B5 08 00 00 00 0D 0C 0B 0A 04 00 00 00 14 00 00 00 \
             46 BB 00 34",
        );
        let most = (MOST - 28) / size;
        message.extend_from_slice(&(most as u32).to_le_bytes());
        message.resize(MOST, 0);
        assert_eq!(judge(32, &schema, &message, 2), verdict(0, 0, 2));
        message[24..28].copy_from_slice(&(most as u32 + 1).to_le_bytes());
        assert_eq!(judge(32, &schema, &message, 2), verdict(6, 20, 2));
        message.push(0);
        assert_eq!(judge(32, &schema, &message, 2), verdict(2, 0, 0));
    }
}

/// Lawful under both codings, or under 48 alone.
#[test]
fn schemas_of_one_coding_and_not_of_the_other() {
    let parts = |members: &[u16]| Parts {
        lists: vec![U8],
        unions: vec![vec![TEXT, table(1)]],
        tables: vec![(ID, members.to_vec()), (7, vec![U16])],
        ..Parts::default()
    };
    let both = |parts: &Parts| (lawful(48, &parts.pack()), lawful(32, &parts.pack()));
    for member in [in_place(union(0)), in_place(TEXT), in_place(BYTES)] {
        assert_eq!(both(&parts(&[member])), (true, true));
    }
    for member in [in_place(list(0)), table(1), list(0), TEXT, optional(U8)] {
        assert_eq!(both(&parts(&[member])), (true, true));
    }
    // A union not in place, a table in place.
    assert_eq!(both(&parts(&[union(0)])), (true, false));
    assert_eq!(both(&parts(&[in_place(table(1))])), (true, false));
    assert_eq!(both(&parts(&[in_place(union(0)), union(0)])), (true, false));
    let mut lists = parts(&[]);
    lists.lists = vec![union(0)];
    assert_eq!(both(&lists), (true, false));
    // Where nothing refers to it, too.
    let mut unused = parts(&[]);
    unused.tables[1].1 = vec![union(0)];
    assert_eq!(both(&unused), (true, false));
    // What is not lawful under 48 is not under 32.
    let two = parts(&[in_place(union(0)), in_place(union(0))]);
    assert_eq!(both(&two), (false, false));
    assert_eq!(both(&parts(&[in_place(U8)])), (false, false));
    let message = hex("B3 C4 C0 B5 08 00 00 00 0D 0C 0B 0A 00 00 00 00");
    let schema = parts(&[union(0)]).pack();
    assert_eq!(judge(32, &schema, &message, 9), verdict(1, 0, 0));
    assert_eq!(read(32, &schema, &message, 9, 9).0, verdict(1, 0, 0));
    assert_eq!(write(32, &schema, &[0], 99), (1, Vec::new()));
    assert_eq!(field(32, &schema, &message, &[0; 97]), refused(1, 0));
}

/// "Demands 2 and 3 hold within each coding": a member is appended in each.
#[test]
fn appended_members() {
    let with = |members: &[u16]| {
        Parts {
            unions: vec![vec![TEXT]],
            tables: vec![(ID, members.to_vec())],
            ..Parts::default()
        }
        .pack()
    };
    let old = with(&[BOOL, U16]);
    let new = with(&[BOOL, U16, BOOL, in_place(union(0)), BOOL, TEXT]);
    let newest = with(&[BOOL, U16, union(0)]);
    assert!(appends(32, &old, &new) && appends(48, &old, &new));
    assert!(!appends(32, &old, &newest) && appends(48, &old, &newest));
    assert!(!appends(33, &old, &new));
    let old_sheet = Sheet::new().here().put(1, 1).here().put(3, 16);
    // The bools are bits of the byte that the older has written.
    let added = old_sheet.clone().here().put(0, 1).absent();
    let added = added.here().put(0, 1).absent().done();
    let sheet = old_sheet.done();
    assert_eq!(with_added(32, &old, &new, &sheet), Some(added.clone()));
    let (number, message) = write(32, &old, &sheet, 99);
    assert_eq!((number, message.len()), (0, 19));
    assert_eq!(
        read(32, &new, &message, 1, 99),
        (verdict(0, 0, 1), added.clone())
    );
    assert_eq!(without_appended(32, &old, &new, &added), Some(sheet));
}

/// Under any number but 48 and 32 no schema is lawful, so 1 comes before
/// everything else.
#[test]
fn codings_of_other_numbers() {
    for coding in [0, 1, 16, 31, 33, 47, 49, 64, u32::MAX] {
        assert!(!lawful(coding, &n()));
        assert_eq!(judge(coding, &n(), &m(), 2), verdict(1, 0, 0));
        assert_eq!(judge(coding, &n(), &[], 0), verdict(1, 0, 0));
        let none = (verdict(1, 0, 0), Vec::new());
        assert_eq!(read(coding, &n(), &m(), 2, 99), none);
        assert_eq!(write(coding, &n(), &[], 99), (1, Vec::new()));
        assert_eq!(field(coding, &n(), &m(), &[0; 97]), refused(1, 0));
        assert_eq!(text(coding, &n(), &m(), &[1]), None);
        let path = [1];
        let list = list_reader(coding, &n(), &m(), &path).map(|_| ());
        assert_eq!(list, Err(refused(1, 0)));
    }
}
