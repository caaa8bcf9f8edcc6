//! The table of member positions: its rows worked out by hand, its refusals,
//! and the readers given another table.

mod common;

use common::*;
use reference::{field, judge, positions, read, text, Budget, Lent, ListReader, Verdict};

const NONE: u32 = u32::MAX;

/// A table from its rows.
fn table_of(rows: &[[u32; 3]]) -> Vec<u8> {
    let numbers = rows.iter().flatten();
    numbers.flat_map(|number| number.to_le_bytes()).collect()
}

/// A struct of 3 bytes; a struct of that and a U64; an enum list; a union of a
/// text or bytes; and three tables, the second without members.
fn parts() -> Parts {
    let lists = vec![enumeration(3)];
    Parts {
        structs: vec![vec![BOOL, U16], vec![structure(0), U64]],
        lists,
        unions: vec![vec![TEXT, BYTES]],
        tables: vec![
            (1, vec![optional(structure(1)), enumeration(9), list(0)]),
            (2, vec![]),
            (3, vec![optional(F32), in_place(union(0)), optional(BOOL)]),
        ],
        root: 2,
    }
}

/// "for each table member in schema order", each table's fixed part from bit 0.
#[test]
fn the_tables_stand_one_behind_the_other() {
    let rows = |offset: u32| {
        [
            // The flag takes byte 0; 11 bytes of struct, the enum's byte, the offset.
            [8, 0, 88],
            [96, NONE, 8],
            [104, NONE, offset],
            // An optional float has no flag; the union, then the bool's byte.
            [0, NONE, 32],
            [32, NONE, 16 + offset],
            [49 + offset, 48 + offset, 1],
        ]
    };
    let schema = parts().pack();
    assert_eq!(positions(48, &schema, 72), (0, table_of(&rows(48))));
    assert_eq!(positions(32, &schema, 72), (0, table_of(&rows(32))));
}

/// Under 48 bits a union may stand by offset, a table in place, and a direct
/// list is an offset too.
#[test]
fn what_only_the_48_bits_have() {
    let parts = Parts {
        unions: vec![vec![TEXT]],
        tables: vec![
            (1, vec![union(0), in_place(table(1)), direct(1), BOOL]),
            (2, vec![BOOL]),
        ],
        ..Parts::default()
    };
    let rows = [
        [0, NONE, 64],
        [64, NONE, 48],
        [112, NONE, 48],
        [160, NONE, 1],
        [0, NONE, 1],
    ];
    assert_eq!(positions(48, &parts.pack(), 60), (0, table_of(&rows)));
    assert_eq!(positions(32, &parts.pack(), 60), (1, vec![]));
}

/// "(else 1, then 14, nothing written)"; a table without members has no bytes.
#[test]
fn refusals_of_the_table() {
    let schema = parts().pack();
    for room in [0, 1, 71] {
        assert_eq!(positions(48, &schema, room), (14, vec![]));
        assert_eq!(positions(47, &schema, room), (1, vec![]));
    }
    for room in [0, 72] {
        assert_eq!(positions(48, &schema[1..], room), (1, vec![]));
        assert_eq!(positions(0, &schema, room), (1, vec![]));
    }
    assert_eq!(positions(48, &one_table(&[]), 0), (0, vec![]));
}

/// The limits of document 01: 64 tables of 64 members, each row 12 bytes; the
/// last member behind 63 structs of 4,096 bytes and their flags.
#[test]
fn the_largest_table() {
    let members = vec![optional(structure(1)); 64];
    let parts = Parts {
        structs: vec![vec![U64; 16], vec![structure(0); 32]],
        tables: (0..64).map(|id| (id, members.clone())).collect(),
        ..Parts::default()
    };
    let (number, table) = positions(48, &parts.pack(), 49_152);
    assert_eq!((number, table.len()), (0, 49_152));
    // The flag of each eighth member takes a byte of its own.
    let last = 8 * (63 * 4096 + 8);
    let flag = 8 * (56 * 4096 + 7) + 7;
    assert_eq!(table[49_140..], table_of(&[[last, flag, 32_768]]));
}

/// Every reader with a table: "Any other table handed in gets refusal 1, tried
/// with the schema", so before 15 for length, 2 and 3.
fn refused_by_all(lent: Lent, message: &[u8]) {
    let nothing = Verdict {
        number: 1,
        place: 0,
        member: NONE,
        visits: 0,
        content: 0,
    };
    for message in [message, &message[..9], &[0; 10]] {
        assert_eq!(judge(lent, message, Budget::LARGEST), nothing);
        let budget = Budget::of_visits(0);
        assert_eq!(read(lent, message, budget, 0), (nothing, vec![]));
        for path in [&[][..], &[0], &[0; 97]] {
            assert_eq!(field(lent, message, path), refused(1, 0));
            assert_eq!(text(lent, message, path), None);
            let reader = ListReader::new(lent, message, path);
            assert_eq!(reader.err(), Some(refused(1, 0)));
        }
    }
}

fn lent<'a>(coding: u32, schema: &'a [u8], positions: &'a [u8]) -> Lent<'a> {
    Lent {
        coding,
        schema,
        positions,
    }
}

#[test]
fn another_table_is_1() {
    let schema = &one_table(&[TEXT])[..];
    let mut message = Message::new(10);
    message.table(ID, 6).u48(26).text("ab");
    let message = &message.bytes[..];
    let right = &table_of(&[[0, NONE, 48]])[..];
    assert_eq!(positions(48, schema, 12), (0, right.to_vec()));
    let with_right = lent(48, schema, right);
    assert_eq!(judge(with_right, message, Budget::LARGEST).number, 0);
    assert_eq!(text(with_right, message, &[0]), Some((36, 2)));

    for bit in 0..8 * right.len() {
        let mut other = right.to_vec();
        other[bit / 8] ^= 1 << (bit % 8);
        refused_by_all(lent(48, schema, &other), message);
    }
    for length in 0..right.len() {
        refused_by_all(lent(48, schema, &right[..length]), message);
    }
    for more in [&[0][..], &[255], right] {
        refused_by_all(lent(48, schema, &[right, more].concat()), message);
    }
    let older = positions(32, schema, 12).1;
    refused_by_all(lent(48, schema, &older), message);
}

/// A schema that is not lawful is 1 with any table.
#[test]
fn no_table_makes_a_schema_lawful() {
    let schema = one_table(&[TEXT]);
    for positions in [&[][..], &table_of(&[[0, NONE, 48]])] {
        refused_by_all(lent(49, &schema, positions), &[0; 10]);
    }
}
