//! Random damage with a fixed seed: nothing panics, and what must hold of any
//! answer holds.

mod common;

use common::tabled::{field, list_reader};
use common::*;
use reference::{appends, clear_unions, lawful, with_added, without_appended};
use reference::{write, write_stored, Answer};

/// A small generator of random numbers.
struct Random(u64);

impl Random {
    fn next(&mut self) -> u64 {
        self.0 = self.0.wrapping_add(0x9E37_79B9_7F4A_7C15);
        let mut mixed = self.0;
        mixed = (mixed ^ (mixed >> 30)).wrapping_mul(0xBF58_476D_1CE4_E5B9);
        mixed = (mixed ^ (mixed >> 27)).wrapping_mul(0x94D0_49BB_1331_11EB);
        mixed ^ (mixed >> 31)
    }

    fn below(&mut self, limit: usize) -> usize {
        (self.next() % limit.max(1) as u64) as usize
    }

    /// Changes, removes or adds a few bytes.
    fn damage(&mut self, bytes: &mut Vec<u8>) {
        for _ in 0..1 + self.below(2) {
            let at = self.below(bytes.len());
            match self.below(20) {
                0 => bytes.truncate(at),
                1 => bytes.insert(at, self.next() as u8),
                2..=9 if at < bytes.len() => bytes[at] ^= 1 << self.below(8),
                10..=14 if at < bytes.len() => bytes[at] = [0, 1, 9, 10, 255][self.below(5)],
                _ if at < bytes.len() => bytes[at] = self.next() as u8,
                _ => {}
            }
        }
    }
}

/// A schema with everything in it, which leads back to itself.
fn rich() -> Parts {
    let mut members = vec![BOOL, optional(BOOL), optional(I32), optional(F32)];
    members.extend([optional(structure(1)), structure(0), enumeration(3)]);
    members.extend([list(0), list(1), list(2), in_place(union(0))]);
    members.extend([list(3), list(4), list(5), list(6), list(7)]);
    let mut lists = vec![BOOL, U16, F64, enumeration(2)];
    lists.extend([TEXT, union(0), table(1), list(0)]);
    Parts {
        structs: vec![
            vec![BOOL, enumeration(4), F32],
            vec![I16, structure(0), BOOL],
        ],
        lists,
        unions: vec![vec![TEXT, BYTES, list(5), table(1), table(0)]],
        tables: vec![
            (ID, members),
            (1, vec![TEXT, U8, in_place(list(4)), BOOL, table(1)]),
        ],
        root: 0,
    }
}

/// A sheet of that schema that could be written while in-place unions were, and by
/// the cleared schema still can.
fn rich_sheet() -> Sheet {
    let sheet = Sheet::new().put(0b011, 3).put(0b010, 3);
    let sheet = sheet.here().put(0xFFFF_0001, 32).absent();
    let sheet = sheet.here().put(3, 16).put(1, 1).absent();
    let sheet = sheet.put(0x7FC0_0000, 32).put(0, 1);
    let sheet = sheet.here().put(1, 1).here().put(3, 8).put(5, 32);
    let sheet = sheet.here().put(2, 8);
    let sheet = sheet.here().put(9, 32).put(0b1_0101_0011, 9);
    let sheet = sheet.here().put(2, 32).put(0x0001_0002, 32);
    let sheet = sheet.here().put(2, 32).absent().here().put(7, 64);
    let sheet = sheet.here().put(4, 16).here().text("in place");
    let sheet = sheet.here().put(1, 8).here().put(2, 32).absent();
    let sheet = sheet.here().text("deep").put(0b011, 3);
    let sheet = sheet.here().absent().here().put(1, 8).absent();
    let sheet = sheet.put(0b010, 3).absent();
    let sheet = sheet.here().put(2, 32).here().put(1, 8).absent();
    let sheet = sheet.here().put(2, 32).here().text("").absent();
    let sheet = sheet.here().put(3, 32).here().put(1, 16).text("u");
    let sheet = sheet.absent().here().put(3, 16).put(0, 32);
    let sheet = sheet.here().put(1, 32).here().absent();
    let sheet = sheet.here().put(4, 8).absent().put(0b011, 3).absent();
    sheet
        .here()
        .put(2, 32)
        .here()
        .put(3, 32)
        .put(0b101, 3)
        .absent()
}

#[test]
fn the_rich_sheet_comes_back() {
    let schema = rich().pack();
    let sheet = rich_sheet().done();
    assert_eq!(write(48, &schema, &sheet, usize::MAX), (12, Vec::new()));
    let (number, message) = write_stored(48, &schema, &sheet, usize::MAX);
    assert_eq!(number, 0);
    assert_eq!(read(48, &schema, &message, 99, usize::MAX).1, sheet);
    // It is moved over: the header of what was in place is all that is added.
    let cleared = cleared(&schema);
    let (number, moved) = write(48, &cleared, &sheet, usize::MAX);
    assert_eq!((number, moved.len()), (0, message.len() + 10));
    assert_eq!(read(48, &cleared, &moved, 99, usize::MAX).1, sheet);
}

fn cleared(schema: &[u8]) -> Vec<u8> {
    let (number, cleared) = clear_unions(schema, schema.len());
    assert_eq!(number, 0);
    cleared
}

/// What must hold of a message and a schema, whatever they are. Gives the
/// verdict's number.
fn hold(schema: &[u8], message: &[u8], random: &mut Random) -> u32 {
    let verdict = judge(48, schema, message, 500);
    assert!(verdict.visits <= 500 && matches!(verdict.number, 0..=10 | 16));
    let (answer, sheet) = read(48, schema, message, 500, 100_000);
    if verdict.number != 0 {
        assert_eq!((answer, sheet.len()), (verdict, 0));
    } else if answer.number == 0 {
        // Its sheet is lawful; where it can be written it comes back, and so it
        // does where it could be and is moved over.
        let cleared = cleared(schema);
        let by = |schema: &[u8]| write(48, schema, &sheet, usize::MAX);
        let (stored, _) = write_stored(48, schema, &sheet, usize::MAX);
        let moved = by(&cleared);
        assert!(moved.0 == stored && (stored == 0 || stored == 12));
        for (schema, (number, written)) in [(schema, by(schema)), (&cleared, moved)] {
            assert!(number == stored || number == 12);
            if number == 0 {
                assert_eq!(read(48, schema, &written, 500, usize::MAX).1, sheet);
            }
        }
    }
    let path: Vec<u32> = (0..random.below(5))
        .map(|_| random.below(17) as u32)
        .collect();
    if let Answer::Refused { number, .. } = field(48, schema, message, &path) {
        assert!(verdict.number != 0 || number == 15);
    }
    if let Ok(mut reader) = list_reader(48, schema, message, &path) {
        for _ in 0..5 {
            reader.step();
        }
    }
    verdict.number
}

#[test]
fn damaged_messages() {
    let schema = rich().pack();
    let message = write_stored(48, &schema, &rich_sheet().done(), usize::MAX).1;
    let mut random = Random(1);
    let mut numbers = [0; 17];
    for _ in 0..60_000 {
        let mut damaged = message.clone();
        random.damage(&mut damaged);
        numbers[hold(&schema, &damaged, &mut random) as usize] += 1;
    }
    assert!((6_000..54_000).contains(&numbers[0]), "{numbers:?}");
    assert!(numbers[10] > 100 && numbers[16] > 500, "{numbers:?}");
}

#[test]
fn damaged_schemas() {
    let schema = rich().pack();
    let message = write_stored(48, &schema, &rich_sheet().done(), usize::MAX).1;
    let mut random = Random(2);
    let mut kept = 0;
    for _ in 0..60_000 {
        let mut damaged = schema.clone();
        random.damage(&mut damaged);
        kept += u32::from(lawful(48, &damaged));
        hold(&damaged, &message, &mut random);
        let appended = appends(48, &schema, &damaged);
        let sheet = rich_sheet().done();
        assert_eq!(
            with_added(48, &schema, &damaged, &sheet).is_some(),
            appended
        );
    }
    assert!(kept > 6_000, "{kept}");
}

/// By the schema with its union by offset, which can be written.
#[test]
fn damaged_sheets() {
    let mut older = rich();
    older.tables[0].1[10] = union(0);
    let schema = older.pack();
    assert_eq!(schema, cleared(&rich().pack()));
    let sheet = rich_sheet().done();
    let mut newer = older;
    newer.tables[0].1.extend([BOOL, table(1)]);
    newer.tables[1].1.push(union(0));
    let newer = newer.pack();
    let mut random = Random(3);
    let mut numbers = [0; 15];
    for _ in 0..60_000 {
        let mut damaged = sheet.clone();
        random.damage(&mut damaged);
        let (number, message) = write(48, &schema, &damaged, 1_000_000);
        numbers[number as usize] += 1;
        if number == 0 {
            assert_eq!(read(48, &schema, &message, 500, usize::MAX).1, damaged);
        }
        // Adding the new members and leaving them out again changes nothing.
        let added = with_added(48, &schema, &newer, &damaged);
        assert_eq!(added.is_some(), number != 11);
        if let Some(added) = added {
            let back = without_appended(48, &schema, &newer, &added);
            assert_eq!(back, Some(damaged));
        }
    }
    assert!(numbers[0] > 3_000, "{numbers:?}");
    assert!(numbers[11] > 3_000 && numbers[12] > 20, "{numbers:?}");
}
