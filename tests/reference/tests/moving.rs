//! Moving a stored message over: its sheet written with a schema in which only the
//! in-place flag of unions is cleared.

mod common;

use common::*;
use reference::{appends, clear_unions, lawful, write, write_stored};

/// Everything that can be in place, and unions that are not.
fn parts(union_flag: impl Fn(u16) -> u16) -> Parts {
    Parts {
        structs: vec![vec![BOOL, enumeration(138)], vec![structure(0), U16]],
        lists: vec![union(0), TEXT],
        unions: vec![vec![TEXT, BYTES, list(1), table(3)], vec![table(1)]],
        tables: vec![
            // An id that looks like such a member, and members that nearly do.
            (
                0x8A00_8A01,
                vec![structure(1), union_flag(union(1)), union(0), list(0)],
            ),
            (0x028A_008A, vec![in_place(TEXT), optional(BOOL)]),
            (3, vec![in_place(table(1)), enumeration(138)]),
            (4, vec![]),
            (5, vec![in_place(list(0)), table(2)]),
            (6, vec![in_place(BYTES), TEXT]),
            (7, vec![U8, union_flag(union(0))]),
        ],
        root: 6,
    }
}

/// "only the in-place flag of those unions is cleared": in every table, used or not.
#[test]
fn the_cleared_schema() {
    let (stored, cleared) = (parts(in_place).pack(), parts(|union| union).pack());
    assert!(lawful(48, &stored) && lawful(48, &cleared));
    let differing = stored.iter().zip(&cleared).filter(|(a, b)| a != b);
    let differing: Vec<(u8, u8)> = differing.map(|(a, b)| (*a, *b)).collect();
    assert_eq!(differing, [(0x8A, 0x88); 2]);
    for room in [stored.len(), stored.len() + 1, usize::MAX] {
        assert_eq!(clear_unions(&stored, room), (0, cleared.clone()));
        // Where there is none nothing changes.
        assert_eq!(clear_unions(&cleared, room), (0, cleared.clone()));
    }
    // "That change of schema isn't an append".
    assert!(!appends(48, &stored, &cleared) && !appends(48, &cleared, &stored));
}

#[test]
fn refusals_of_clearing() {
    let stored = parts(in_place).pack();
    for room in [0, 1, stored.len() - 1] {
        assert_eq!(clear_unions(&stored, room), (14, Vec::new()));
    }
    // 1 comes before 14. A union in place with another member in place is not lawful, nor is one
    // with a direct list among its cases, though without the flag both are.
    let two = one_union(&[TEXT], &[in_place(TEXT), in_place(union(0))]);
    let direct_case = one_union(&[direct(1)], &[in_place(union(0))]);
    let longer = [stored.clone(), vec![0]].concat();
    for schema in [
        &[],
        &stored[..stored.len() - 1],
        &longer,
        &two,
        &direct_case,
    ] {
        for room in [0, 1000] {
            assert_eq!(clear_unions(schema, room), (1, Vec::new()));
        }
    }
    let without = one_union(&[direct(1)], &[union(0)]);
    assert_eq!(clear_unions(&without, 1000), (0, without.clone()));
    // A direct list's table may have no member in place, a union neither.
    let parts = |member| Parts {
        unions: vec![vec![TEXT]],
        tables: vec![(ID, vec![direct(1)]), (1, vec![member])],
        ..Parts::default()
    };
    assert_eq!(clear_unions(&parts(in_place(union(0))).pack(), 99).0, 1);
    assert_eq!(clear_unions(&parts(union(0)).pack(), 99).0, 0);
}

/// Union 0 of these cases, held by table 0; table 1 has a number.
fn one_union(cases: &[u16], members: &[u16]) -> Vec<u8> {
    Parts {
        unions: vec![cases.to_vec()],
        tables: vec![(ID, members.to_vec()), (1, vec![U8])],
        ..Parts::default()
    }
    .pack()
}

/// Reads a message to its sheet and writes that with the cleared schema.
fn moved(schema: &[u8], message: &[u8]) -> (u32, Vec<u8>) {
    let (verdict, sheet) = read(48, schema, message, u32::MAX, usize::MAX);
    assert_eq!(verdict.number, 0);
    let (number, cleared) = clear_unions(schema, schema.len());
    assert_eq!(number, 0);
    let (number, moved) = write(48, &cleared, &sheet, usize::MAX);
    let (stored, _) = write_stored(48, schema, &sheet, usize::MAX);
    // "12 for an older reason".
    assert_eq!(number == 12, stored == 12);
    if number == 0 {
        let (verdict, back) = read(48, &cleared, &moved, u32::MAX, usize::MAX);
        assert_eq!((verdict.number, back), (0, sheet));
    }
    (number, moved)
}

/// A U8 and a union in place of a text, bytes or a table of a number.
fn stored_schema() -> Vec<u8> {
    one_union(&[TEXT, BYTES, table(1)], &[U8, in_place(union(0))])
}

#[test]
fn a_message_moved_over() {
    let schema = stored_schema();
    let mut stored = Message::new(10);
    stored.table(ID, 9).raw(&[7]).choice(1, 2).raw(b"ab\0");
    let mut expected = Message::new(10);
    expected.table(ID, 9).raw(&[7]).choice(1, 29).text("ab");
    assert_eq!(moved(&schema, &stored.bytes), (0, expected.bytes));
    // "a known choice ... is an empty object": its header stays.
    let mut stored = Message::new(10);
    stored.table(ID, 9).raw(&[7]).choice(2, 0);
    let mut expected = Message::new(10);
    expected.table(ID, 9).raw(&[7]).choice(2, 29).bytes_head(0);
    assert_eq!(moved(&schema, &stored.bytes), (0, expected.bytes));
    // Absent, whatever length is stored; "absent is still written" by the first schema too.
    let mut stored = Message::new(10);
    stored.table(ID, 9).raw(&[7]).choice(0, 5);
    let mut expected = Message::new(10);
    expected.table(ID, 9).raw(&[7]).choice(0, 0);
    assert_eq!(moved(&schema, &stored.bytes), (0, expected.bytes.clone()));
    let (_, sheet) = read(48, &schema, &stored.bytes, 9, 99);
    assert_eq!(write(48, &schema, &sheet, 99), (0, expected.bytes));
}

/// An unknown choice; an absent number; no text is accepted that is none.
#[test]
fn older_reasons() {
    let schema = stored_schema();
    let mut unknown = Message::new(10);
    unknown.table(ID, 9).raw(&[7]).choice(4, 0);
    assert_eq!(moved(&schema, &unknown.bytes), (12, Vec::new()));
    let mut empty = Message::new(10);
    empty.table(ID, 0);
    assert_eq!(moved(&schema, &empty.bytes), (12, Vec::new()));
    // The table in the union is too short for its number.
    let mut short = Message::new(10);
    short.table(ID, 9).raw(&[7]).choice(3, 0);
    assert_eq!(moved(&schema, &short.bytes), (12, Vec::new()));
    let mut whole = Message::new(10);
    whole.table(ID, 9).raw(&[7]).choice(3, 1).raw(&[8]);
    let mut expected = Message::new(10);
    expected.table(ID, 9).raw(&[7]).choice(3, 29).table(1, 1);
    expected.raw(&[8]);
    assert_eq!(moved(&schema, &whole.bytes), (0, expected.bytes));
}

/// A message of the size whose bytes in place get a header: 13.
#[test]
fn a_message_too_large_to_move() {
    let schema = one_union(&[BYTES], &[in_place(union(0))]);
    for (length, number) in [(16_777_177, 0), (16_777_178, 13), (16_777_187, 13)] {
        let mut stored = Message::new(10);
        stored.table(ID, 8).choice(1, length);
        stored.bytes.resize(28 + length as usize, 0xA5);
        let (given, moved) = moved(&schema, &stored.bytes);
        assert_eq!(given, number);
        assert_eq!(moved.len(), if number == 0 { 16_777_215 } else { 0 });
    }
}

/// Each table holds the next in place, as a union's: 32 of them by offset.
#[test]
fn the_deepest_chain() {
    let schema = Parts {
        unions: vec![vec![table(0)]],
        tables: vec![(ID, vec![in_place(union(0))])],
        ..Parts::default()
    }
    .pack();
    let mut stored = Message::new(10);
    stored.table(ID, 8);
    for _ in 1..32 {
        stored.choice(1, 8);
    }
    stored.choice(0, 0);
    let (number, moved) = moved(&schema, &stored.bytes);
    assert_eq!((number, moved.len()), (0, 10 + 32 * 18));
}
