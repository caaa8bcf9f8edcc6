//! Making a schema: its table of positions under both codings, the largest one, and none.

use scalgo::Coding::{self, Bits32, Bits48};
use scalgo::{Budget, NotLawful, Schema};

/// A table with a bool, an optional U16, an optional F32 and a text.
const BYTES: &[u8] = b"\x00\x00\x00\x01\x00\x4C\x49\x43\x45\x04\x00\x00\x14\x00\x4C\x00\x68\x00";

fn rows(schema: &Schema) -> Vec<[u32; 3]> {
    let number = |bytes: &[u8]| u32::from_le_bytes(bytes.try_into().expect("four bytes"));
    let row = |row: &[u8]| [number(&row[..4]), number(&row[4..8]), number(&row[8..])];
    schema.positions().chunks(12).map(row).collect()
}

#[test]
fn positions() {
    for (coding, offset) in [(Bits48, 48), (Bits32, 32)] {
        let schema = Schema::new(coding, BYTES).expect("a lawful schema");
        let none = u32::MAX;
        let expected = [[0, none, 1], [8, 1, 16], [24, none, 32], [56, none, offset]];
        assert_eq!(rows(&schema), expected);
        assert_eq!((schema.coding(), schema.bytes()), (coding, BYTES));
        assert_eq!(schema, schema.clone());
    }
}

/// 64 tables of 64 bools.
#[test]
fn the_largest_table() {
    let mut bytes = vec![0, 0, 0, 64, 63];
    for id in 0..64u32 {
        bytes.extend(id.to_be_bytes());
        bytes.push(64);
        bytes.extend([0; 128]);
    }
    for coding in Coding::ALL {
        let schema = Schema::new(coding, &bytes[..]).expect("a lawful schema");
        assert_eq!(schema.positions().len(), 49_152);
        assert_eq!(rows(&schema)[4095], [63, u32::MAX, 1]);
    }
    bytes.push(0);
    assert_eq!(Schema::new(Bits48, bytes), Err(NotLawful));
}

#[test]
fn not_lawful() {
    for coding in Coding::ALL {
        for length in 0..BYTES.len() {
            assert_eq!(Schema::new(coding, &BYTES[..length]), Err(NotLawful));
        }
    }
    let said = NotLawful.to_string();
    assert_eq!(said, "the schema is not lawful under the coding");
}

/// One schema serves several threads.
#[test]
fn threads() {
    let schema = Schema::new(Bits48, BYTES).expect("a lawful schema");
    std::thread::scope(|scope| {
        for length in 0..10 {
            let schema = &schema;
            scope.spawn(move || {
                let verdict = schema.judge(&[0; 10][..length], Budget::LARGEST);
                assert_eq!(verdict.number, 2);
            });
        }
    });
}
