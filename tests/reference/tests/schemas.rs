//! Which schemas are lawful: every limit on both its sides.

mod common;

use common::tabled::{field, list_reader};
use common::*;
use reference::{lawful, write, Schema};

fn tables(count: u32) -> Vec<(u32, Vec<u16>)> {
    (0..count).map(|id| (id, vec![])).collect()
}

fn parts(members: &[u16]) -> Parts {
    Parts {
        tables: vec![(ID, members.to_vec())],
        ..Parts::default()
    }
}

#[test]
fn the_smallest_schema() {
    assert!(lawful(48, &[0, 0, 0, 1, 0, 0, 0, 0, 0, 0]));
    assert!(Schema::parse(48, &[0, 0, 0, 1, 0, 0, 0, 0, 0, 0]).is_some());
}

/// Every beginning of a lawful schema is not lawful, nor is one with more.
#[test]
fn the_whole_schema_and_nothing_more() {
    let packed = Parts {
        structs: vec![vec![BOOL, U16], vec![structure(0), enumeration(3)]],
        lists: vec![TEXT, union(0)],
        unions: vec![vec![TEXT, table(1)]],
        tables: vec![
            (1, vec![structure(1), in_place(list(1))]),
            (2, vec![optional(U8), union(0)]),
        ],
        root: 1,
    }
    .pack();
    assert!(lawful(48, &packed));
    for length in 0..packed.len() {
        assert!(!lawful(48, &packed[..length]), "{length}");
    }
    for byte in [0, 1, 255] {
        let mut more = packed.clone();
        more.push(byte);
        assert!(!lawful(48, &more));
    }
}

#[test]
fn the_counts_at_their_limits() {
    let most = Parts {
        structs: vec![vec![U8; 32]; 64],
        lists: vec![U8; 64],
        unions: vec![vec![TEXT; 32]; 64],
        tables: vec![(0, vec![U8; 64])]
            .into_iter()
            .chain((1..64).map(|id| (id, vec![])))
            .collect(),
        root: 63,
    };
    assert!(lawful(48, &most.pack()));
    let over = |change: &dyn Fn(&mut Parts)| {
        let mut parts = most.clone();
        change(&mut parts);
        assert!(!lawful(48, &parts.pack()));
    };
    over(&|parts| parts.structs.push(vec![U8]));
    over(&|parts| parts.lists.push(U8));
    over(&|parts| parts.unions.push(vec![TEXT]));
    over(&|parts| parts.tables.push((64, vec![])));
    over(&|parts| parts.structs[0].push(U8));
    over(&|parts| parts.unions[0].push(TEXT));
    over(&|parts| parts.tables[0].1.push(U8));
    over(&|parts| parts.root = 64);
    over(&|parts| parts.structs[0] = vec![]);
    over(&|parts| parts.unions[0] = vec![]);
    over(&|parts| parts.tables = vec![]);
}

#[test]
fn the_root_is_below_the_tables() {
    let mut parts = Parts {
        tables: tables(3),
        root: 2,
        ..Parts::default()
    };
    assert!(lawful(48, &parts.pack()));
    parts.root = 3;
    assert!(!lawful(48, &parts.pack()));
}

#[test]
fn table_ids_differ() {
    let mut parts = Parts {
        tables: tables(3),
        ..Parts::default()
    };
    assert!(lawful(48, &parts.pack()));
    parts.tables[2].0 = 0;
    assert!(!lawful(48, &parts.pack()));
    // An id may be another object's magic.
    parts.tables[2].0 = 0xD812_C8F5;
    assert!(lawful(48, &parts.pack()));
}

/// Kinds 19 to 31, the zero bit, and arguments.
#[test]
fn records_of_no_meaning() {
    for kind in 19..32u16 {
        assert!(!lawful(48, &one_table(&[kind << 11])), "{kind}");
    }
    for kind in (0..11u16).chain([13, 14]) {
        assert!(lawful(48, &one_table(&[kind << 11])), "{kind}");
        assert!(!lawful(48, &one_table(&[kind << 11 | 1])), "{kind}");
        assert!(!lawful(48, &one_table(&[kind << 11 | 0x100])), "{kind}");
        assert!(!lawful(48, &one_table(&[kind << 11 | 255])), "{kind}");
    }
    assert!(!lawful(48, &one_table(&[enumeration(0)])));
    assert!(lawful(48, &one_table(&[enumeration(1)])));
    assert!(lawful(48, &one_table(&[enumeration(255)])));
    assert!(!lawful(48, &one_table(&[enumeration(3) | 0x100])));
}

#[test]
fn indices_are_below_their_counts() {
    let with = |member: u16| Parts {
        structs: vec![vec![U8]; 2],
        lists: vec![U8; 3],
        unions: vec![vec![TEXT]; 4],
        tables: (0..5)
            .map(|id| (id, if id == 0 { vec![member] } else { vec![U8] }))
            .collect(),
        root: 0,
    };
    // A record's argument is its low byte, so an index can be added to it.
    let first = [
        (structure(0), 2),
        (list(0), 3),
        (union(0), 4),
        (table(0), 5),
        (direct(0), 5),
    ];
    for (record, count) in first {
        for index in 0..count {
            assert!(lawful(48, &with(record + index).pack()));
        }
        assert!(!lawful(48, &with(record + count).pack()));
        assert!(!lawful(48, &with(record + 255).pack()));
    }
}

/// "Optional only on table members of kind 0 to 10 and 12; in place only on
/// table members of kind 13 to 17"; kind 18 is neither.
#[test]
fn optional_and_in_place_on_table_members() {
    let lawful_with = |member: u16| {
        let mut parts = parts(&[member]);
        parts.structs = vec![vec![U8]];
        parts.lists = vec![U8];
        parts.unions = vec![vec![TEXT]];
        lawful(48, &parts.pack())
    };
    for kind in 0..19u16 {
        let argument = u16::from(kind == 11);
        let record = kind << 11 | argument;
        assert!(lawful_with(record), "{kind}");
        assert_eq!(lawful_with(optional(record)), kind <= 10 || kind == 12);
        assert_eq!(lawful_with(in_place(record)), (13..18).contains(&kind));
        assert!(!lawful_with(in_place(optional(record))), "{kind}");
    }
}

#[test]
fn at_most_one_in_place_per_table() {
    assert!(lawful(48, &one_table(&[in_place(TEXT), BYTES])));
    assert!(!lawful(48, &one_table(&[in_place(TEXT), in_place(BYTES)])));
    let two = Parts {
        tables: vec![(1, vec![in_place(TEXT)]), (2, vec![in_place(TEXT)])],
        ..Parts::default()
    };
    assert!(lawful(48, &two.pack()));
}

/// "Struct members: kinds 0 to 12"; "List elements: 0 to 11 and 13 to 17.
/// Union cases: 13 to 16." Kind 18 "may be a table member, list element or union
/// case". None of them optional or in place.
#[test]
fn what_structs_lists_and_unions_hold() {
    for kind in 0..19u16 {
        let record = kind << 11 | u16::from(kind == 11);
        let mut base = parts(&[U8]);
        base.structs = vec![vec![U8], vec![U8]];
        base.lists = vec![U8];
        base.unions = vec![vec![TEXT]];
        let check = |expected: bool, put: &dyn Fn(&mut Parts, u16)| {
            for (record, expected) in [
                (record, expected),
                (optional(record), false),
                (in_place(record), false),
            ] {
                let mut parts = base.clone();
                put(&mut parts, record);
                assert_eq!(lawful(48, &parts.pack()), expected, "{record:#x}");
            }
        };
        check(kind <= 12, &|parts, record| parts.structs[1][0] = record);
        check(kind != 12, &|parts, record| parts.lists[0] = record);
        check((13..=16).contains(&kind) || kind == 18, &|parts, record| {
            parts.unions[0][0] = record;
        });
    }
}

#[test]
fn inner_structs_have_a_lower_index() {
    let mut parts = parts(&[]);
    parts.structs = vec![vec![U8], vec![structure(0)], vec![structure(1)]];
    assert!(lawful(48, &parts.pack()));
    parts.structs[1] = vec![structure(1)];
    assert!(!lawful(48, &parts.pack()));
    parts.structs[1] = vec![structure(2)];
    assert!(!lawful(48, &parts.pack()));
}

/// "No struct is over 4,096 bytes."
#[test]
fn a_struct_of_4096_bytes_and_one_of_4097() {
    let mut parts = parts(&[]);
    // 16 * 8 = 128; 32 * 128 = 4096.
    parts.structs = vec![vec![U64; 16], vec![structure(0); 32]];
    assert!(lawful(48, &parts.pack()));
    parts.structs.push(vec![structure(1)]);
    assert!(lawful(48, &parts.pack()));
    parts.structs.push(vec![structure(1), BOOL]);
    assert!(!lawful(48, &parts.pack()));
    // Doubling again and again stays unlawful and cheap.
    let mut deep = Parts {
        structs: vec![vec![U64; 32]],
        ..parts.clone()
    };
    for index in 0..63 {
        deep.structs.push(vec![structure(index); 32]);
    }
    assert!(!lawful(48, &deep.pack()));
}

#[test]
fn an_unlawful_schema_is_1_everywhere() {
    let schema = [0, 0, 0, 0, 0];
    assert_eq!(judge(48, &schema, &[], 0), verdict(1, 0, 0));
    assert_eq!(read(48, &schema, &[], 0, 0), (verdict(1, 0, 0), vec![]));
    assert_eq!(write(48, &schema, &[], 0), (1, vec![]));
    let refused = refused(1, 0);
    assert_eq!(field(48, &schema, &[], &[0; 97]), refused);
    assert_eq!(list_reader(48, &schema, &[], &[0; 97]).err(), Some(refused));
}
