//! Direct lists: "kind 18, argument a table: magic 0xE2C6CC05, U48 count, U32
//! table id, U32 size, then the elements without headers, 18 bytes before the
//! first".

mod common;

use common::tabled::{field, list_reader, text};
use common::*;
use reference::{appends, lawful, with_added, without_appended, write};
use reference::{Answer, Budget, Verdict, NO_MEMBER};

/// The id of table 1, that of the elements, and its bytes.
const ELEMENT: u32 = 0x0102_0304;

/// Table 0 has a direct list of table 1, whose members are these.
fn elements_of(members: &[u16]) -> Vec<u8> {
    parts(members).pack()
}

fn parts(members: &[u16]) -> Parts {
    Parts {
        tables: vec![(ID, vec![direct(1)]), (ELEMENT, members.to_vec())],
        ..Parts::default()
    }
}

/// Elements of a U16 at 0 and a text at 2, eight bytes in all.
fn plan() -> Vec<u8> {
    elements_of(&[U16, TEXT])
}

/// Two elements: 7 and "ab", 9 and no text. The root stands at 10, the list at
/// 26, the elements at 44 and 52, the text at 60.
fn floor() -> Vec<u8> {
    hex("B3 C4 C0 B5 0A 00 00 00 00 00 \
         0D 0C 0B 0A 06 00 00 00 00 00 1A 00 00 00 00 00 \
         05 CC C6 E2 02 00 00 00 00 00 04 03 02 01 08 00 00 00 \
         07 00 3C 00 00 00 00 00 \
         09 00 00 00 00 00 00 00 \
         F5 C8 12 D8 02 00 00 00 00 00 61 62 00")
}

/// The root at 10 and a direct list at 26, whose elements start at 44.
fn list_of(count: u64, size: u32, elements: &[u8]) -> Message {
    let mut message = Message::new(10);
    message.table(ID, 6).u48(26);
    message.direct_head(count, ELEMENT, size).raw(elements);
    message
}

/// Number, place, member, visits and content.
type Parts5 = (u32, u64, u32, u32, u64);

fn all(verdict: Verdict) -> Parts5 {
    let (number, place, member) = (verdict.number, verdict.place, verdict.member);
    (number, place, member, verdict.visits, verdict.content)
}

/// Judged, and read to a sheet with the same answer.
fn spent(schema: &[u8], message: &[u8], visits: u32, content: u64) -> Parts5 {
    let budget = Budget { visits, content };
    let verdict = tabled::judge(48, schema, message, budget);
    let (read, sheet) = tabled::read(48, schema, message, budget, 100_000);
    assert_eq!(read, verdict);
    assert!(verdict.number == 0 || sheet.is_empty());
    all(verdict)
}

/// With the largest allowances.
fn judged(schema: &[u8], message: &[u8]) -> Parts5 {
    spent(schema, message, u32::MAX, u64::MAX)
}

/// An answer that carries no member.
fn plain(number: u32, place: u64, visits: u32, content: u64) -> Parts5 {
    (number, place, NO_MEMBER, visits, content)
}

fn sheet_of(schema: &[u8], message: &[u8]) -> Vec<u8> {
    let (verdict, sheet) = tabled::read(48, schema, message, Budget::LARGEST, 1000);
    assert_eq!(verdict.number, 0);
    sheet
}

fn object(kind: u32, place: u64, length: u64) -> Answer {
    Answer::Object {
        kind,
        place,
        length,
    }
}

fn u16_answer(bits: u64) -> Answer {
    Answer::Number {
        bits,
        width: 16,
        signed: false,
    }
}

/// "The list is one visit, each element one more"; "a direct list itself adds
/// 0", each element its fixed part.
#[test]
fn two_elements() {
    // 6, 0, 8, 2, 8.
    assert_eq!(judged(&plan(), &floor()), plain(0, 0, 5, 24));
    // "a 32-bit count and the elements without marks"
    let sheet = Sheet::new().here().put(2, 32);
    let sheet = sheet.here().put(7, 16).here().text("ab");
    let sheet = sheet.here().put(9, 16).absent();
    assert_eq!(sheet_of(&plan(), &floor()), sheet.done());
    // 01, 32 bits of count, 01 0007 01, 32 bits of length, 'a' 'b', 01 0009 00:
    // 122 bits.
    let bytes = hex("40 00 00 00 90 00 74 00 00 00 09 85 89 00 09 00");
    assert_eq!(sheet.done(), bytes);
    assert_eq!(write(48, &plan(), &bytes, 73), (0, floor()));
    assert_eq!(write(48, &plan(), &bytes, 72), (14, vec![]));
}

/// Each element is walked whole before the next: the text comes between them.
#[test]
fn every_allowance_of_visits() {
    for (visits, place, content) in [(0, 10, 0), (1, 26, 6), (2, 44, 6), (3, 60, 14), (4, 52, 16)] {
        let refused = spent(&plan(), &floor(), visits, u64::MAX);
        assert_eq!(refused, plain(4, place, visits, content));
    }
    assert_eq!(spent(&plan(), &floor(), 5, u64::MAX).0, 0);
}

#[test]
fn every_allowance_of_content() {
    for content in 0..24 {
        let expected = match content {
            0..=5 => plain(17, 10, 1, 0),
            // The list adds 0, so that it is never refused by 17.
            6..=13 => plain(17, 44, 3, 6),
            14..=15 => plain(17, 60, 4, 14),
            _ => plain(17, 52, 5, 16),
        };
        assert_eq!(spent(&plan(), &floor(), 9, content), expected, "{content}");
    }
    assert_eq!(spent(&plan(), &floor(), 5, 24), plain(0, 0, 5, 24));
    // "budget" first: 4 comes before 17 at an element too.
    assert_eq!(spent(&plan(), &floor(), 2, 6), plain(4, 44, 2, 6));
    assert_eq!(spent(&plan(), &floor(), 3, 6), plain(17, 44, 3, 6));
}

/// "The size comes from the message, so elements may be shorter or longer than
/// the schema." No bytes at all: every member is absent, every place is 44.
#[test]
fn elements_of_no_bytes() {
    let message = list_of(3, 0, &[]);
    assert_eq!(judged(&plan(), &message.bytes), plain(0, 0, 5, 6));
    for visits in 2..5 {
        let refused = spent(&plan(), &message.bytes, visits, 6);
        assert_eq!(refused, plain(4, 44, visits, 6));
    }
    let sheet = Sheet::new().here().put(3, 32).put(0, 12);
    assert_eq!(sheet_of(&plan(), &message.bytes), sheet.done());
    for number in 0..3 {
        let element = field(48, &plan(), &message.bytes, &[0, number]);
        assert_eq!(element, object(16, 44, 0));
        let member = field(48, &plan(), &message.bytes, &[0, number, 0]);
        assert_eq!(member, Answer::Absent);
    }
}

/// A shorter element: one byte cuts the U16, two end before the text, five cut
/// the text. The cut is the element's, and the member its member.
#[test]
fn shorter_elements() {
    let bytes = [1, 0, 2, 0, 0, 0, 0, 0, 0, 0, 0, 0, 0, 0];
    for (size, member) in [(1, 0), (3, 1), (4, 1), (5, 1), (6, 1), (7, 1)] {
        let message = list_of(2, size, &bytes);
        let content = 6 + u64::from(size);
        let expected = (8, 44, member, 3, content);
        assert_eq!(judged(&plan(), &message.bytes), expected);
        let path = field(48, &plan(), &message.bytes, &[0, 1, member]);
        assert_eq!(path, refused_of(8, 44 + u64::from(size), member));
    }
    let message = list_of(2, 2, &bytes);
    assert_eq!(judged(&plan(), &message.bytes), plain(0, 0, 4, 10));
    let sheet = Sheet::new().here().put(2, 32);
    let sheet = sheet.here().put(1, 16).absent();
    let sheet = sheet.here().put(2, 16).absent();
    assert_eq!(sheet_of(&plan(), &message.bytes), sheet.done());
    let second = field(48, &plan(), &message.bytes, &[0, 1]);
    assert_eq!(second, object(16, 46, 2));
}

/// A longer element: its last three bytes are no member's.
#[test]
fn longer_elements() {
    let mut message = list_of(2, 11, &[]);
    message.raw(&[7, 0]).u48(66).raw(&[255; 3]);
    message.raw(&[9, 0]).u48(0).raw(&[255; 3]);
    message.text("ab");
    assert_eq!(message.here(), 79);
    assert_eq!(judged(&plan(), &message.bytes), plain(0, 0, 5, 30));
    assert_eq!(
        sheet_of(&plan(), &message.bytes),
        sheet_of(&plan(), &floor())
    );
    let second = field(48, &plan(), &message.bytes, &[0, 1]);
    assert_eq!(second, object(16, 55, 11));
}

/// 18 bytes of header, so that 6 comes before 7 where they do not fit.
#[test]
fn the_header_fits() {
    for length in 26..44 {
        let mut message = list_of(0, 8, &[]);
        message.bytes.truncate(length);
        let refused = judged(&plan(), &message.bytes);
        assert_eq!(refused, plain(6, 26, 2, 6), "{length}");
        if length > 26 {
            message.bytes[26] ^= 1;
            assert_eq!(judged(&plan(), &message.bytes), refused);
        }
        let path = field(48, &plan(), &message.bytes, &[0]);
        assert_eq!(path, common::refused(6, 26));
    }
    let message = list_of(0, 8, &[]);
    assert_eq!(message.here(), 44);
    assert_eq!(judged(&plan(), &message.bytes), plain(0, 0, 2, 6));
    // "offset under 10"
    let mut message = floor();
    message[20] = 9;
    assert_eq!(judged(&plan(), &message), plain(6, 9, 2, 6));
    // Just behind the end, and far behind it.
    for offset in [73 - 17, 73, 74, 255] {
        message[20] = offset;
        let place = u64::from(offset);
        assert_eq!(judged(&plan(), &message), plain(6, place, 2, 6));
    }
    message[20..26].fill(255);
    let largest = (1 << 48) - 1;
    assert_eq!(judged(&plan(), &message), plain(6, largest, 2, 6));
}

/// "wrong element id is 7, then a count over 4,294,967,295 is 6, both at the
/// list's arrival, after its magic and before content fit".
#[test]
fn the_header_in_turn() {
    let with = |magic: u8, id: u8, count: u64, size: u32| {
        let mut message = list_of(count, size, &[0; 8]);
        message.bytes[26] = magic;
        message.bytes[36] = id;
        judged(&plan(), &message.bytes)
    };
    let (right, id) = (0x05, 0x04);
    let refused = |number| plain(number, 26, 2, 6);
    let over = 1 << 32;
    assert_eq!(with(right, id, 1, 8).0, 0);
    assert_eq!(with(0x04, id, 1, 8), refused(7));
    assert_eq!(with(0x04, id, over, 9), refused(7));
    assert_eq!(with(right, 0x05, 1, 8), refused(7));
    // 7 by its id, though the count is over and nothing fits.
    assert_eq!(with(right, 0x05, over, 9), refused(7));
    assert_eq!(with(right, 0x05, 0, 0), refused(7));
    // A count over 32 bits, though nothing is needed for it.
    assert_eq!(with(right, id, over, 0), refused(6));
    assert_eq!(with(right, id, (1 << 48) - 1, 0), refused(6));
    assert_eq!(with(right, id, 1, 9), refused(6));
    assert_eq!(with(right, id, 2, 5), refused(6));
    assert_eq!(with(right, id, 4, 2).0, 0);
}

/// The id of another table, the magic of another object: a list, or the table's.
#[test]
fn another_object_stands_there() {
    let mut message = floor();
    message[36..40].copy_from_slice(&ID_BYTES);
    assert_eq!(judged(&plan(), &message), plain(7, 26, 2, 6));
    for magic in [[0x46, 0xBB, 0x00, 0x34], [4, 3, 2, 1]] {
        let mut message = floor();
        message[26..30].copy_from_slice(&magic);
        assert_eq!(judged(&plan(), &message), plain(7, 26, 2, 6));
    }
    // And a list of tables is no direct list.
    let schema = Parts {
        lists: vec![table(1)],
        tables: vec![(ID, vec![list(0)]), (ELEMENT, vec![U16, TEXT])],
        ..Parts::default()
    };
    assert_eq!(judged(&schema.pack(), &floor()), plain(7, 26, 2, 6));
}

/// Count times size is over 2^32, and nearly 2^64: neither wraps around.
#[test]
fn content_that_does_not_fit() {
    let largest = u32::MAX;
    for (count, size) in [
        (u64::from(largest), largest),
        (65_536, 65_536),
        (1 << 31, 2),
        (2, 1 << 31),
        (u64::from(largest), 1),
        (1, largest),
        (3, 4),
        (1, 12),
        (11, 1),
    ] {
        let message = list_of(count, size, &[0; 10]);
        let refused = judged(&plan(), &message.bytes);
        assert_eq!(refused, plain(6, 26, 2, 6), "{count} {size}");
    }
    let mut short = floor();
    short.truncate(59);
    assert_eq!(judged(&plan(), &short), plain(6, 26, 2, 6));
    // With all of its elements the list fits, and the text does not.
    let mut short = floor();
    short.truncate(60);
    assert_eq!(judged(&plan(), &short), plain(6, 60, 4, 14));
}

/// Four billion elements in 44 bytes: the allowance ends the walk, and a path
/// goes to any of them.
#[test]
fn four_billion_elements_of_no_bytes() {
    let message = list_of(4_294_967_295, 0, &[]);
    let refused = spent(&plan(), &message.bytes, 1000, u64::MAX);
    assert_eq!(refused, plain(4, 44, 1000, 6));
    let answer = |path: &[u32]| field(48, &plan(), &message.bytes, path);
    assert_eq!(answer(&[0]), object(18, 26, 4_294_967_295));
    assert_eq!(answer(&[0, 4_294_967_294]), object(16, 44, 0));
    assert_eq!(answer(&[0, 4_294_967_294, 1]), Answer::Absent);
    assert_eq!(answer(&[0, 4_294_967_295]), common::refused(15, 26));
    let schema = plan();
    let mut reader = list_reader(48, &schema, &message.bytes, &[0]).unwrap();
    for _ in 0..3 {
        assert_eq!(reader.step(), object(16, 44, 0));
    }
    reader.skip(4_294_967_291);
    assert_eq!(reader.step(), object(16, 44, 0));
    assert_eq!(reader.step(), common::refused(15, 26));
    reader.skip(u64::MAX);
    assert_eq!(reader.step(), common::refused(15, 26));
}

/// 64 marks an element are 16 bytes, so that a million of them are 16 MB.
#[test]
fn a_sheet_over_the_size() {
    let schema = elements_of(&[TEXT; 64]);
    let message = list_of(1_048_576, 0, &[]);
    let (verdict, sheet) = tabled::read(48, &schema, &message.bytes, Budget::LARGEST, 1 << 30);
    assert_eq!(all(verdict), plain(14, 0, 1_048_578, 6));
    assert!(sheet.is_empty());
    // 2 and 32 bits and 128 for each of 1,048,575: five bytes more than 16 each.
    let message = list_of(1_048_575, 0, &[]);
    let (verdict, sheet) = tabled::read(48, &schema, &message.bytes, Budget::LARGEST, 1 << 30);
    assert_eq!(all(verdict), plain(0, 0, 1_048_577, 6));
    assert_eq!(sheet.len(), 16_777_205);
}

/// Tables, each in the one before, and a direct list in the last: the message, and
/// where the list stands. Each element is a reference to bytes.
fn chain(tables: u64, count: u64, element: u64) -> (Message, u64) {
    let mut message = Message::new(10);
    for number in 1..tables {
        message.table(ID, 12).u48(10 + 22 * number).u48(0);
    }
    let list = 10 + 22 * tables;
    message.table(ID, 12).u48(0).u48(list);
    message.direct_head(count, ELEMENT, 6);
    for _ in 0..count {
        message.u48(element);
    }
    (message, list)
}

fn chain_schema() -> Vec<u8> {
    Parts {
        tables: vec![(ID, vec![table(0), direct(1)]), (ELEMENT, vec![BYTES])],
        ..Parts::default()
    }
    .pack()
}

/// "one deeper": 30 tables and a direct list, whose element is the 32nd; with one
/// more the element is too deep, but not a list of none.
#[test]
fn the_depth_of_an_element() {
    let schema = chain_schema();
    let (message, list) = chain(30, 2, 0);
    assert_eq!(
        judged(&schema, &message.bytes),
        plain(0, 0, 33, 30 * 12 + 12)
    );
    // What the element refers to is the 33rd.
    let (mut message, _) = chain(30, 1, list + 24);
    message.bytes_head(0);
    let refused = plain(5, list + 24, 33, 30 * 12 + 6);
    assert_eq!(judged(&schema, &message.bytes), refused);
    let (message, list) = chain(31, 2, 0);
    let refused = plain(5, list + 18, 33, 31 * 12);
    assert_eq!(judged(&schema, &message.bytes), refused);
    // "budget, depth" in this order.
    let four = spent(&schema, &message.bytes, 32, u64::MAX);
    assert_eq!(four, plain(4, list + 18, 32, 31 * 12));
    let mut path = vec![0; 30];
    path.push(1);
    let found = |path: &[u32]| field(48, &schema, &message.bytes, path);
    assert_eq!(found(&path), object(18, list, 2));
    path.push(1);
    assert_eq!(found(&path), common::refused(5, list + 24));
    let (message, _) = chain(31, 0, 0);
    assert_eq!(judged(&schema, &message.bytes), plain(0, 0, 32, 31 * 12));
}

/// A sheet likewise: an element at depth 33 is 11, an empty list at 32 is not.
#[test]
fn the_depth_of_a_sheet() {
    let schema = chain_schema();
    let chain = |tables: usize, count: u64| {
        let mut sheet = Sheet::new();
        for _ in 1..tables {
            sheet = sheet.here();
        }
        sheet = sheet.absent().here().put(count, 32);
        for _ in 0..count {
            sheet = sheet.absent();
        }
        for _ in 1..tables {
            sheet = sheet.absent();
        }
        write(48, &schema, &sheet.done(), 10_000).0
    };
    assert_eq!(chain(30, 0), 0);
    assert_eq!(chain(30, 3), 0);
    assert_eq!(chain(31, 0), 0);
    assert_eq!(chain(31, 1), 11);
    assert_eq!(chain(32, 0), 11);
}

/// "never in place nor a case of a union that a table holds in place, and its
/// table must have at least one member and none in place (else 1)".
#[test]
fn which_schemas_are_lawful() {
    let base = Parts {
        structs: vec![vec![U8]],
        lists: vec![U8],
        unions: vec![vec![TEXT], vec![BYTES]],
        tables: vec![
            (1, vec![U8]),
            (2, vec![U16]),
            (3, vec![]),
            (4, vec![U8, in_place(TEXT)]),
        ],
        root: 0,
    };
    let with = |change: &dyn Fn(&mut Parts)| {
        let mut parts = base.clone();
        change(&mut parts);
        assert!(!lawful(32, &parts.pack()));
        lawful(48, &parts.pack())
    };
    // Tables 0 and 1 may be a direct list's; 2 has no members, 3 has one in
    // place, 4 is none.
    for (index, expected) in [(0, true), (1, true), (2, false), (3, false), (4, false)] {
        let member = with(&|parts| parts.tables[0].1.push(direct(index)));
        let element = with(&|parts| parts.lists[0] = direct(index));
        let case = with(&|parts| parts.unions[0].push(direct(index)));
        assert_eq!([member, element, case], [expected; 3], "{index}");
    }
    assert!(!with(&|parts| parts.structs[0].push(direct(0))));
    let put = |record: u16| with(&|parts| parts.tables[0].1.push(record));
    assert!(!put(in_place(direct(1))));
    assert!(!put(optional(direct(1))));
    assert!(!put(direct(1) | 0x100));
}

/// A table of direct lists of itself, and two of each other.
#[test]
fn tables_of_direct_lists_of_themselves() {
    let with = |first: &[u16], second: &[u16]| {
        let tables = vec![(ID, first.to_vec()), (ELEMENT, second.to_vec())];
        let parts = Parts {
            tables,
            ..Parts::default()
        };
        lawful(48, &parts.pack())
    };
    assert!(with(&[direct(0)], &[]));
    assert!(with(&[direct(1)], &[direct(0)]));
    assert!(with(&[direct(1), direct(0)], &[direct(1)]));
    assert!(!with(&[direct(0), in_place(BYTES)], &[]));
    assert!(!with(&[direct(1)], &[direct(0), in_place(BYTES)]));
}

/// A union with a case of kind 18: "nor a case of a union that a table holds in
/// place", whichever table that is.
#[test]
fn a_union_with_a_direct_list() {
    let with = |cases: &[u16], members: &[u16]| {
        let parts = Parts {
            lists: vec![union(0)],
            unions: vec![cases.to_vec(), vec![TEXT]],
            tables: vec![
                (1, vec![U8, union(0), list(0)]),
                (2, vec![U8]),
                (3, members.to_vec()),
            ],
            ..Parts::default()
        };
        lawful(48, &parts.pack())
    };
    assert!(with(&[TEXT, direct(1)], &[]));
    assert!(with(&[direct(1)], &[union(0)]));
    assert!(with(&[TEXT], &[in_place(union(0))]));
    assert!(!with(&[TEXT, direct(1)], &[in_place(union(0))]));
    assert!(!with(&[direct(1), TEXT], &[TEXT, in_place(union(0))]));
    // The other union has no such case.
    assert!(with(&[TEXT, direct(1)], &[in_place(union(1))]));
    // A direct list's table may hold a union that has one.
    assert!(with(&[direct(2)], &[union(0)]));
}

/// "or a direct list is 1 under this coding", wherever its record stands.
#[test]
fn the_older_coding_has_none() {
    let base = Parts {
        lists: vec![U8],
        unions: vec![vec![TEXT]],
        tables: vec![(1, vec![U8]), (2, vec![U8])],
        ..Parts::default()
    };
    assert!(lawful(32, &base.pack()));
    let changes: [&dyn Fn(&mut Parts); 3] = [
        &|parts| parts.lists[0] = direct(1),
        &|parts| parts.unions[0][0] = direct(1),
        &|parts| parts.tables[1].1.push(direct(1)),
    ];
    for change in changes {
        let mut parts = base.clone();
        change(&mut parts);
        assert!(lawful(48, &parts.pack()));
        assert!(!lawful(32, &parts.pack()));
    }
    assert_eq!(judge(32, &plan(), &floor(), 9), verdict(1, 0, 0));
    assert_eq!(write(32, &plan(), &[0], 99), (1, vec![]));
    assert_eq!(field(32, &plan(), &floor(), &[0]), refused(1, 0));
}

/// A path to the list, to an element and to its members.
#[test]
fn fields() {
    let answer = |path: &[u32]| field(48, &plan(), &floor(), path);
    for (path, expected) in [
        (&[0][..], object(18, 26, 2)),
        (&[0, 0], object(16, 44, 8)),
        (&[0, 1], object(16, 52, 8)),
        (&[0, 0, 0], u16_answer(7)),
        (&[0, 0, 1], object(13, 60, 2)),
        (&[0, 1, 0], u16_answer(9)),
        (&[0, 1, 1], Answer::Absent),
        (&[0, 1, 1, 5, 5], Answer::Absent),
        // "path step has no such part", at the last object judged.
        (&[0, 2], refused(15, 26)),
        (&[0, 4_294_967_295], refused(15, 26)),
        (&[0, 0, 2], refused(15, 44)),
        (&[0, 1, 2], refused(15, 52)),
        (&[0, 1, 0, 0], refused(15, 52)),
        (&[0, 0, 1, 0], refused(15, 60)),
    ] {
        assert_eq!(answer(path), expected, "{path:?}");
    }
    let part = |path: &[u32]| text(48, &plan(), &floor(), path);
    assert_eq!(part(&[0, 0, 1]), Some((70, 2)));
    for path in [&[0][..], &[0, 0], &[0, 0, 0], &[0, 1, 1]] {
        assert_eq!(part(path), None);
    }
    // What is not on the path is not judged: the text has no end byte.
    let mut message = floor();
    message[72] = 1;
    let path = |path: &[u32]| field(48, &plan(), &message, path);
    assert_eq!(path(&[0, 1, 0]), u16_answer(9));
    assert_eq!(path(&[0, 0, 1]), refused(10, 60));
}

/// "The list reader takes direct lists and lists of them too."
#[test]
fn the_list_reader() {
    let (schema, message) = (plan(), floor());
    let mut reader = list_reader(48, &schema, &message, &[0]).unwrap();
    assert_eq!(reader.step(), object(16, 44, 8));
    assert_eq!(reader.step(), object(16, 52, 8));
    assert_eq!(reader.step(), refused(15, 26));
    assert_eq!(reader.step(), refused(15, 26));
    // An element is a table, which is no list.
    let no_list = list_reader(48, &schema, &message, &[0, 0]).err();
    assert_eq!(no_list, Some(refused(15, 0)));
    let no_list = list_reader(48, &schema, &message, &[0, 2]).err();
    assert_eq!(no_list, Some(refused(15, 26)));
    let mut wrong = floor();
    wrong[36] ^= 1;
    let no_list = list_reader(48, &schema, &wrong, &[0]).err();
    assert_eq!(no_list, Some(refused(7, 26)));
}

/// A list of direct lists: two of them and none, then one that is refused.
#[test]
fn a_list_of_direct_lists() {
    let schema = Parts {
        lists: vec![direct(1)],
        tables: vec![(ID, vec![list(0)]), (ELEMENT, vec![U16])],
        ..Parts::default()
    }
    .pack();
    let mut message = Message::new(10);
    message.table(ID, 6).u48(26);
    // The list's elements are at 36, 42, 48 and 54.
    message.list_head(4).u48(60).u48(0).u48(82).u48(60);
    message.direct_head(2, ELEMENT, 2).raw(&[1, 0, 2, 0]);
    message.direct_head(1, ELEMENT, 0);
    assert_eq!(message.here(), 100);
    // The root, the list, 3 for the first, 2 for the second, 3 for the first.
    let judged = judged(&schema, &message.bytes);
    assert_eq!(judged, plain(0, 0, 10, 6 + 24 + 4 + 4));
    let sheet = Sheet::new().here().put(4, 32);
    let sheet = sheet.here().put(2, 32).here().put(1, 16).here().put(2, 16);
    let sheet = sheet.absent().here().put(1, 32).absent();
    let sheet = sheet.here().put(2, 32).here().put(1, 16).here().put(2, 16);
    assert_eq!(sheet_of(&schema, &message.bytes), sheet.done());
    message.bytes[96] = 1;
    let mut reader = list_reader(48, &schema, &message.bytes, &[0]).unwrap();
    assert_eq!(reader.step(), object(18, 60, 2));
    assert_eq!(reader.step(), Answer::Absent);
    // One element of one byte does not fit behind 100.
    assert_eq!(reader.step(), refused(6, 82));
    assert_eq!(reader.step(), object(18, 60, 2));
    assert_eq!(reader.step(), refused(15, 26));
    let mut reader = list_reader(48, &schema, &message.bytes, &[0, 3]).unwrap();
    assert_eq!(reader.step(), object(16, 78, 2));
    assert_eq!(reader.step(), object(16, 80, 2));
    assert_eq!(reader.step(), refused(15, 60));
}

/// A direct list as a case: a 16-bit choice and then the count.
#[test]
fn a_direct_list_as_a_case() {
    let schema = Parts {
        lists: vec![union(0)],
        unions: vec![vec![TEXT, direct(1)]],
        tables: vec![(ID, vec![union(0), list(0)]), (ELEMENT, vec![BOOL])],
        ..Parts::default()
    }
    .pack();
    let sheet = Sheet::new().here().put(2, 16).put(3, 32);
    let sheet = sheet.here().put(1, 1).here().put(0, 1).here().put(1, 1);
    let sheet = sheet.here().put(2, 32);
    let sheet = sheet.here().put(1, 16).text("");
    let sheet = sheet.here().put(2, 16).put(0, 32);
    let mut expected = Message::new(10);
    expected.table(ID, 14).choice(2, 34).u48(55);
    expected.direct_head(3, ELEMENT, 1).raw(&[1, 0, 1]);
    expected.list_head(2).choice(1, 81).choice(2, 92);
    expected.text("").direct_head(0, ELEMENT, 1);
    let (number, message) = write(48, &schema, &sheet.done(), 110);
    assert_eq!((number, &message), (0, &expected.bytes));
    assert_eq!(sheet_of(&schema, &message), sheet.done());
    let answer = |path: &[u32]| field(48, &schema, &message, path);
    assert_eq!(answer(&[0]), object(18, 34, 3));
    assert_eq!(answer(&[0, 2, 0]), Answer::Boolean(true));
    assert_eq!(answer(&[1, 1]), object(18, 92, 0));
    // 9 where a known choice has offset 0.
    let mut zero = message.clone();
    zero[22] = 0;
    assert_eq!(judged(&schema, &zero), (9, 10, 0, 1, 14));
}

/// "A bool takes the next free bit ... of the last bool byte": of each element
/// anew. Table 1 has a bool at bit 0, a U8, an optional bool at bits 1 and 2: two
/// bytes.
#[test]
fn bools_of_each_element() {
    let schema = elements_of(&[BOOL, U8, optional(BOOL)]);
    let sheet = Sheet::new().here().put(3, 32);
    let sheet = sheet.here().put(1, 1).here().put(0xAA, 8).absent();
    let sheet = sheet.here().put(0, 1).here().put(0xBB, 8).here().put(1, 1);
    let sheet = sheet.here().put(1, 1).here().put(0xCC, 8).here().put(0, 1);
    let expected = list_of(3, 2, &[1, 0xAA, 6, 0xBB, 3, 0xCC]);
    let (number, message) = write(48, &schema, &sheet.done(), 50);
    assert_eq!((number, &message), (0, &expected.bytes));
    assert_eq!(judged(&schema, &message), plain(0, 0, 5, 12));
    assert_eq!(sheet_of(&schema, &message), sheet.done());
    let answer = |path: &[u32]| field(48, &schema, &message, path);
    assert_eq!(answer(&[0, 0, 2]), Answer::Absent);
    assert_eq!(answer(&[0, 1, 2]), Answer::Boolean(true));
    assert_eq!(answer(&[0, 2, 2]), Answer::Boolean(false));
}

/// "The writer uses the full size", with count 0 too; "everything absent is zero
/// ... except enum 255 and absent floats".
#[test]
fn the_full_size_is_written() {
    let schema = elements_of(&[optional(U32), enumeration(3), optional(F32), TEXT]);
    let none = Sheet::new().here().put(0, 32);
    // A flag, 4, 1, 4 and 6 bytes.
    let (number, message) = write(48, &schema, &none.done(), 44);
    assert_eq!((number, message), (0, list_of(0, 16, &[]).bytes));
    let one = Sheet::new().here().put(1, 32).put(0, 8);
    let element = [0, 0, 0, 0, 0, 255, 0, 0, 0xC0, 0x7F, 0, 0, 0, 0, 0, 0];
    let (number, message) = write(48, &schema, &one.done(), 60);
    assert_eq!((number, message), (0, list_of(1, 16, &element).bytes));
    // Absent is no direct list at all.
    let absent = Sheet::new().absent();
    let mut expected = Message::new(10);
    expected.table(ID, 6).u48(0);
    let (number, message) = write(48, &schema, &absent.done(), 26);
    assert_eq!((number, message), (0, expected.bytes));
}

/// Elements of a text and a direct list of a U8 and a text.
fn two_levels() -> Vec<u8> {
    Parts {
        tables: vec![
            (ID, vec![direct(1), BYTES]),
            (ELEMENT, vec![TEXT, direct(2)]),
            (0x0909_0909, vec![U8, TEXT]),
        ],
        ..Parts::default()
    }
    .pack()
}

/// Its message: the lists at 32 and 86.
fn two_levels_written() -> Message {
    let mut message = Message::new(10);
    message.table(ID, 12).u48(32).u48(143);
    // Two elements of twelve bytes, at 50 and 62.
    message.direct_head(2, ELEMENT, 12);
    message.u48(74).u48(86).u48(131).u48(0);
    message.text("a");
    // Two elements of seven bytes, at 104 and 111.
    message.direct_head(2, 0x0909_0909, 7);
    message.raw(&[5]).u48(0).raw(&[6]).u48(118);
    message.text("bc").text("d");
    message.bytes_head(1).raw(b"e");
    assert_eq!(message.here(), 154);
    message
}

/// What elements refer to comes behind the list, in walk order, each followed by
/// its own: a direct list in the first element before the text of the second.
#[test]
fn what_elements_refer_to() {
    let (schema, expected) = (two_levels(), two_levels_written());
    let sheet = Sheet::new().here().put(2, 32);
    let sheet = sheet.here().text("a").here().put(2, 32);
    let sheet = sheet.here().put(5, 8).absent();
    let sheet = sheet.here().put(6, 8).here().text("bc");
    let sheet = sheet.here().text("d").absent();
    let sheet = sheet.here().text("e");
    let (number, message) = write(48, &schema, &sheet.done(), 154);
    assert_eq!((number, &message), (0, &expected.bytes));
    assert_eq!(sheet_of(&schema, &message), sheet.done());
}

/// Root, list, element, "a", inner list, its first, its second, "bc", the second
/// element, "d", "e".
#[test]
fn the_walk_of_two_levels() {
    let (schema, message) = (two_levels(), two_levels_written().bytes);
    let content = 12 + 12 + 1 + 7 + 7 + 2 + 12 + 1 + 1;
    assert_eq!(judged(&schema, &message), plain(0, 0, 11, content));
    let places = [10, 32, 50, 74, 86, 104, 111, 118, 62, 131, 143];
    for (visits, place) in places.into_iter().enumerate() {
        let verdict = spent(&schema, &message, visits as u32, u64::MAX);
        assert_eq!((verdict.0, verdict.1, verdict.3), (4, place, visits as u32));
    }
    let deep = field(48, &schema, &message, &[0, 0, 1, 1, 1]);
    assert_eq!(deep, object(13, 118, 2));
}

/// 11 for a sheet that ends within its elements, 12 for an absent plain member,
/// 11 before 12.
#[test]
fn sheets_that_are_not_written() {
    let number = |sheet: &Sheet| write(48, &plan(), &sheet.done(), 10_000).0;
    let start = |count| Sheet::new().here().put(count, 32);
    let element = |sheet: Sheet| sheet.here().put(1, 16).absent();
    assert_eq!(number(&element(element(start(2)))), 0);
    assert_eq!(number(&element(start(2))), 11);
    assert_eq!(number(&start(u64::from(u32::MAX))), 11);
    assert_eq!(number(&element(start(0))), 11);
    assert_eq!(number(&start(1).absent().absent()), 12);
    assert_eq!(number(&element(start(2)).absent().absent()), 12);
    assert_eq!(number(&start(2).absent().absent()), 11);
    // A direct list has no unknown mark, nor have its elements marks.
    assert_eq!(number(&Sheet::new().unknown(1, 16)), 11);
    assert_eq!(number(&Sheet::new().put(3, 2)), 11);
    assert_eq!(number(&element(start(1).here())), 11);
    let unknown = elements_of(&[enumeration(2)]);
    let sheet = start(1).unknown(2, 8).done();
    assert_eq!(write(48, &unknown, &sheet, 99).0, 12);
}

/// 13: 4,095 elements of 4,097 bytes are 16,777,215 without their header. 4,094
/// of them leave room for it.
#[test]
fn a_message_over_the_size() {
    let schema = Parts {
        structs: vec![vec![U64; 32], vec![structure(0); 16]],
        tables: vec![
            (ID, vec![direct(1)]),
            (ELEMENT, vec![optional(structure(1))]),
        ],
        ..Parts::default()
    }
    .pack();
    let absent = |count| {
        let mut sheet = Sheet::new().here().put(count, 32);
        for _ in 0..count {
            sheet = sheet.absent();
        }
        write(48, &schema, &sheet.done(), usize::MAX)
    };
    assert_eq!(absent(4095), (13, vec![]));
    let (number, message) = absent(4094);
    assert_eq!((number, message.len()), (0, 44 + 4094 * 4097));
}

/// Which member: the holder of 8, 9 and 10 in an element is the element.
#[test]
fn refusals_in_an_element() {
    let schema = Parts {
        structs: vec![vec![U8, BOOL]],
        unions: vec![vec![TEXT]],
        tables: vec![
            (ID, vec![direct(1)]),
            (ELEMENT, vec![structure(0), union(0), optional(U16)]),
        ],
        ..Parts::default()
    }
    .pack();
    // A struct of 2, a union of 8, a flag at bit 0 of byte 10, and the U16.
    let fine = [0, 1, 0, 0, 0, 0, 0, 0, 0, 0, 0, 0, 0];
    let second = |size: usize, at: usize, byte: u8| {
        let mut element = fine;
        element[at] = byte;
        let elements = [&fine[..size], &element[..size]].concat();
        let message = list_of(2, size as u32, &elements);
        judged(&schema, &message.bytes)
    };
    assert_eq!(second(13, 0, 9), plain(0, 0, 4, 32));
    assert_eq!(second(13, 1, 2), (10, 57, 0, 4, 32));
    assert_eq!(second(13, 2, 1), (9, 57, 1, 4, 32));
    // With eleven bytes the flag stands inside and the value does not.
    assert_eq!(second(11, 0, 9), plain(0, 0, 4, 28));
    assert_eq!(second(11, 10, 1), (8, 55, 2, 4, 28));
    // With twelve the value is cut, flag or not, in the first element already.
    assert_eq!(second(12, 0, 9), (8, 44, 2, 3, 18));
    let message = list_of(
        2,
        11,
        &[[0; 11], [0, 0, 0, 0, 0, 0, 0, 0, 0, 0, 1]].concat(),
    );
    let path = |path: &[u32]| field(48, &schema, &message.bytes, path);
    assert_eq!(path(&[0, 0, 2]), Answer::Absent);
    assert_eq!(path(&[0, 1, 2]), refused_of(8, 55, 2));
    assert_eq!(path(&[0, 1, 0]), Answer::Struct { place: 55 });
    assert_eq!(path(&[0, 1, 0, 1]), Answer::Boolean(false));
}

/// "shared objects each time": one direct list named three times.
#[test]
fn a_shared_direct_list() {
    let schema = Parts {
        lists: vec![direct(1)],
        tables: vec![(ID, vec![list(0)]), (ELEMENT, vec![U8])],
        ..Parts::default()
    }
    .pack();
    let mut message = Message::new(10);
    message.table(ID, 6).u48(26);
    message.list_head(3).u48(54).u48(54).u48(54);
    message.direct_head(2, ELEMENT, 1).raw(&[1, 2]);
    let all = 6 + 18 + 3 * 2;
    assert_eq!(judged(&schema, &message.bytes), plain(0, 0, 11, all));
    let less = spent(&schema, &message.bytes, 11, all - 1);
    assert_eq!(less, plain(17, 73, 11, all - 1));
    let less = spent(&schema, &message.bytes, 10, all);
    assert_eq!(less, plain(4, 73, 10, all - 1));
}

/// "Demand 3 reads over these schemas too; appending an in-place member there
/// isn't lawful": the newer schema is 1.
#[test]
fn what_appends() {
    let old = parts(&[BOOL, TEXT]);
    let yes = |change: &dyn Fn(&mut Parts)| {
        let mut new = old.clone();
        change(&mut new);
        let both = appends(48, &old.pack(), &new.pack());
        assert_eq!(both, lawful(48, &new.pack()));
        both
    };
    assert!(yes(&|parts| parts.tables[1].1.push(U8)));
    assert!(yes(&|parts| parts.tables[1].1.push(direct(0))));
    assert!(yes(&|parts| parts.tables[0].1.push(in_place(TEXT))));
    assert!(!yes(&|parts| parts.tables[1].1.push(in_place(TEXT))));
    // Table 0 is a direct list's now.
    assert!(!yes(&|parts| {
        parts.tables[1].1.push(direct(0));
        parts.tables[0].1.push(in_place(TEXT));
    }));
    // Another table's direct list is no append.
    let mut other = old.clone();
    other.tables.push((9, vec![U8]));
    other.tables[0].1[0] = direct(2);
    assert!(lawful(48, &other.pack()));
    assert!(!appends(48, &old.pack(), &other.pack()));
    // Nor is a list, nor a table.
    other.tables[0].1[0] = table(1);
    assert!(!appends(48, &old.pack(), &other.pack()));
}

/// A union that a table holds in place may not get a case of kind 18.
#[test]
fn an_appended_case() {
    let with = |cases: &[u16], member: u16| {
        Parts {
            unions: vec![cases.to_vec()],
            tables: vec![(ID, vec![member]), (ELEMENT, vec![U8])],
            ..Parts::default()
        }
        .pack()
    };
    let newer = [TEXT, direct(1)];
    let by_offset = with(&[TEXT], union(0));
    assert!(appends(48, &by_offset, &with(&newer, union(0))));
    let held = with(&[TEXT], in_place(union(0)));
    assert!(lawful(48, &held));
    assert!(!lawful(48, &with(&newer, in_place(union(0)))));
    assert!(!appends(48, &held, &with(&newer, in_place(union(0)))));
    // The newer sheet without it: unknown with its number, its object left out.
    let new = with(&newer, union(0));
    let sheet = Sheet::new().here().put(2, 16).put(2, 32);
    let sheet = sheet.here().put(7, 8).here().put(8, 8);
    let cut = without_appended(48, &by_offset, &new, &sheet.done());
    assert_eq!(cut, Some(Sheet::new().unknown(2, 16).done()));
}

/// "every table in it loses the entries after its old ones", the elements too.
#[test]
fn a_newer_sheet_without_the_appended_members() {
    let old = elements_of(&[U8, enumeration(2)]);
    let new = elements_of(&[U8, enumeration(4), BOOL, TEXT]);
    let sheet = Sheet::new().here().put(2, 32);
    let first = sheet.here().put(1, 8).here().put(1, 8);
    let first = first.here().put(1, 1).here().text("x");
    let both = first.here().put(2, 8).here().put(3, 8).absent().absent();
    let cut = Sheet::new().here().put(2, 32);
    let cut = cut.here().put(1, 8).here().put(1, 8);
    // An enum at or above its old count becomes unknown.
    let cut = cut.here().put(2, 8).unknown(3, 8);
    let without = without_appended(48, &old, &new, &both.done());
    assert_eq!(without, Some(cut.done()));
    // A sheet with a count and no elements stays.
    let empty = Sheet::new().here().put(0, 32).done();
    let without = without_appended(48, &old, &new, &empty);
    assert_eq!(without, Some(empty));
}

/// The older sheet with the added members: what the newer reads in the bytes that
/// the older wrote. The bool at bit 1 of byte 0 was written, as false; the second
/// has a byte of its own only where eight are taken.
#[test]
fn an_older_sheet_with_the_added_members() {
    let old = elements_of(&[BOOL, U8]);
    let newer = [BOOL, U8, BOOL, optional(BOOL), TEXT, BOOL];
    let new = elements_of(&newer);
    assert!(appends(48, &old, &new));
    let sheet = Sheet::new().here().put(2, 32);
    let sheet = sheet.here().put(1, 1).here().put(5, 8);
    let sheet = sheet.here().put(0, 1).here().put(6, 8);
    let element = |sheet: Sheet, bool: u64, number: u64| {
        let sheet = sheet.here().put(bool, 1).here().put(number, 8);
        // A plain bool in byte 0 is false; the optional one's flag is 0.
        sheet.here().put(0, 1).absent().absent().here().put(0, 1)
    };
    let with = element(element(Sheet::new().here().put(2, 32), 1, 5), 0, 6);
    let added = with_added(48, &old, &new, &sheet.done());
    assert_eq!(added, Some(with.done()));
    let (number, message) = write(48, &old, &sheet.done(), 48);
    assert_eq!((number, &message), (0, &list_of(2, 2, &[1, 5, 0, 6]).bytes));
    assert_eq!(sheet_of(&new, &message), with.done());
    // And back: the newer's own message, read by the older.
    let (number, message) = write(48, &new, &with.done(), 100);
    let elements = [[1, 5, 0, 0, 0, 0, 0, 0], [0, 6, 0, 0, 0, 0, 0, 0]].concat();
    assert_eq!((number, &message), (0, &list_of(2, 8, &elements).bytes));
    assert_eq!(sheet_of(&old, &message), sheet.done());
}

/// A bool in a byte of its own is not in the older's full size: absent.
#[test]
fn an_added_bool_in_a_new_byte() {
    let old = elements_of(&[U8]);
    let new = elements_of(&[U8, BOOL]);
    let sheet = Sheet::new().here().put(1, 32).here().put(3, 8);
    let with = Sheet::new().here().put(1, 32).here().put(3, 8).absent();
    let added = with_added(48, &old, &new, &sheet.done());
    assert_eq!(added, Some(with.done()));
    assert_eq!(sheet_of(&new, &list_of(1, 1, &[3]).bytes), with.done());
}

/// A direct list in the elements of a direct list of the same table, round and
/// round: each list names itself, until it is too deep.
#[test]
fn a_list_that_leads_back_to_itself() {
    let schema = Parts {
        tables: vec![(ID, vec![direct(1)]), (ELEMENT, vec![direct(1)])],
        ..Parts::default()
    }
    .pack();
    let message = list_of(1, 6, &[26, 0, 0, 0, 0, 0]);
    // The root 1, the list 2, the element 3, the list 4 ... the list at 32; its
    // element is the 33rd: 6 for the root and for each of 15 elements.
    assert_eq!(
        judged(&schema, &message.bytes),
        plain(5, 44, 33, 6 + 15 * 6)
    );
    // With no bytes in an element nothing leads on.
    let message = list_of(1000, 0, &[]);
    assert_eq!(judged(&schema, &message.bytes), plain(0, 0, 1002, 6));
}
