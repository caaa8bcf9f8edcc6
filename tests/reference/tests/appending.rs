//! When one schema appends to another, and the sheets between the two.

mod common;

use common::*;
use reference::{appends, with_added, without_appended, write};

fn older() -> Parts {
    Parts {
        structs: vec![vec![U8, enumeration(2)]],
        lists: vec![enumeration(2), union(0), table(1)],
        unions: vec![vec![TEXT]],
        tables: vec![
            (ID, vec![U8, union(0), structure(0), list(0)]),
            (1, vec![BOOL, optional(U16)]),
        ],
        root: 0,
    }
}

fn changed(change: impl Fn(&mut Parts)) -> Vec<u8> {
    let mut parts = older();
    change(&mut parts);
    parts.pack()
}

#[test]
fn what_appends() {
    let old = older().pack();
    let yes = |change: &dyn Fn(&mut Parts)| {
        let new = changed(change);
        assert!(appends(48, &old, &new));
        // Not the other way about, unless nothing has changed.
        assert_eq!(appends(48, &new, &old), new == old);
    };
    yes(&|_| {});
    yes(&|parts| parts.unions[0].push(BYTES));
    yes(&|parts| parts.tables[0].1.push(in_place(TEXT)));
    yes(&|parts| parts.tables[1].1.push(BOOL));
    yes(&|parts| parts.structs[0][1] = enumeration(3));
    yes(&|parts| parts.lists[0] = enumeration(255));
    yes(&|parts| parts.structs.push(vec![structure(0)]));
    yes(&|parts| parts.lists.push(U8));
    yes(&|parts| parts.unions.push(vec![BYTES]));
    yes(&|parts| parts.tables.push((2, vec![])));
    yes(&|parts| {
        parts.tables.push((2, vec![table(0)]));
        parts.tables[0].1.push(table(2));
        parts.unions[0].push(table(2));
    });
}

#[test]
fn what_does_not_append() {
    let old = older().pack();
    let no = |change: &dyn Fn(&mut Parts)| {
        let new = changed(change);
        assert!(!appends(48, &old, &new));
    };
    no(&|parts| parts.root = 1);
    no(&|parts| parts.tables[0].0 ^= 1);
    no(&|parts| parts.tables.swap(0, 1));
    no(&|parts| parts.structs[0].push(U8));
    no(&|parts| parts.structs[0][0] = I8);
    no(&|parts| parts.structs[0][1] = enumeration(1));
    no(&|parts| parts.lists[0] = enumeration(1));
    no(&|parts| parts.lists[0] = U8);
    no(&|parts| parts.lists[1] = TEXT);
    no(&|parts| parts.unions[0][0] = BYTES);
    no(&|parts| parts.unions[0].insert(0, BYTES));
    no(&|parts| parts.tables[0].1.insert(0, U8));
    no(&|parts| parts.tables[1].1[1] = U16);
    no(&|parts| parts.tables[1].1[0] = optional(BOOL));
    no(&|parts| parts.tables[0].1[1] = in_place(union(0)));
    no(&|parts| {
        parts.tables[0].1.pop();
    });
    no(&|parts| {
        parts.lists.pop();
    });
    // An index that differs, though both are lawful.
    no(&|parts| {
        parts.lists.push(U8);
        parts.tables[0].1[3] = list(3);
    });
}

/// "Both are lawful."
#[test]
fn an_unlawful_schema_does_not_append() {
    let old = older().pack();
    assert!(!appends(48, &old, &[]));
    assert!(!appends(48, &[], &old));
    assert!(!appends(48, &[], &[]));
    assert!(!appends(
        48,
        &old,
        &changed(|parts| parts.lists[0] = enumeration(0))
    ));
}

/// Old: table 0 has U8, union, struct, list. New: a case, enum counts, members.
fn newer() -> Parts {
    let mut parts = older();
    parts.structs[0][1] = enumeration(5);
    parts.lists[0] = enumeration(3);
    parts.unions[0].push(table(1));
    parts.structs.push(vec![enumeration(9), structure(0)]);
    parts.tables[0]
        .1
        .extend([structure(1), in_place(list(2)), list(1)]);
    parts.tables[1].1.extend([BOOL, TEXT]);
    parts
}

#[test]
fn a_newer_sheet_without_the_appended_members() {
    let (old, new) = (older().pack(), newer().pack());
    assert!(appends(48, &old, &new));
    // U8, a union with its new case, an enum of the new count in a struct and
    // others in a list.
    let sheet = Sheet::new().here().put(200, 8);
    let sheet = sheet.here().put(2, 16);
    let sheet = sheet.put(0b011, 3).absent().put(0b010, 3).here().text("q");
    let sheet = sheet.here().put(7, 8).here().put(4, 8);
    let sheet = sheet.here().put(4, 32).here().put(1, 8).here().put(2, 8);
    let sheet = sheet.absent().unknown(3, 8);
    // The appended ones.
    let sheet = sheet.here().here().put(8, 8).put(1, 8).unknown(5, 8);
    let sheet = sheet.here().put(1, 32).here().absent().absent();
    let sheet = sheet.absent().absent();
    let sheet = sheet.here().put(1, 32).unknown(3, 16);
    let expected = Sheet::new().here().put(200, 8).unknown(2, 16);
    let expected = expected.here().put(7, 8).unknown(4, 8);
    let expected = expected.here().put(4, 32).here().put(1, 8);
    let expected = expected.unknown(2, 8).absent().unknown(3, 8);
    assert_eq!(
        without_appended(48, &old, &new, &sheet.done()),
        Some(expected.done())
    );
    // A sheet that is not lawful under the newer, and schemas the wrong way.
    let mut more = sheet.done();
    more.push(0);
    assert_eq!(without_appended(48, &old, &new, &more), None);
    assert_eq!(without_appended(48, &new, &old, &sheet.done()), None);
    assert_eq!(without_appended(48, &old, &new, &[]), None);
}

/// Tables inside lists and unions lose their entries too; what both know stays.
#[test]
fn inner_tables_lose_the_entries() {
    let mut before = older();
    before.unions[0].push(table(1));
    before.tables[0].1 = vec![list(1), table(1), list(2)];
    let mut after = before.clone();
    after.tables[1].1.extend([optional(BOOL), list(1)]);
    after.unions[0].push(BYTES);
    let (old, new) = (before.pack(), after.pack());
    let old_entries = |sheet: Sheet| sheet.put(0b011, 3).here().put(9, 16);
    let new_entries = |sheet: Sheet| {
        let sheet = old_entries(sheet).put(0b010, 3).here().put(2, 32);
        sheet.unknown(4, 16).here().put(3, 16).text("gone")
    };
    let build = |entries: &dyn Fn(Sheet) -> Sheet, last: &dyn Fn(Sheet) -> Sheet| {
        let sheet = Sheet::new().here().put(4, 32);
        let sheet = sheet.here().put(1, 16).text("kept").absent();
        let sheet = entries(sheet.here().put(2, 16));
        let sheet = entries(last(sheet).here());
        entries(entries(sheet.here().put(3, 32).here()).absent().here())
    };
    let newer_sheet = build(&new_entries, &|sheet| sheet.here().put(3, 16).text("no"));
    let older_sheet = build(&old_entries, &|sheet| sheet.unknown(3, 16));
    assert_eq!(
        without_appended(48, &old, &new, &newer_sheet.done()),
        Some(older_sheet.done())
    );
}

/// "a plain bool whose bit falls in the older's full fixed part (a byte
/// already written) is present and false"
#[test]
fn an_older_sheet_with_the_added_members() {
    // Bool at bit 0, flag at bit 1, U16 at bytes 1 and 2. Added: bool at bit
    // 2, optional bool at bits 3 and 4, U8, optional U8 with its flag at bit
    // 5, bool at bit 6, bool at bit 7, bool in a new byte, enum, text.
    let old = one_table(&[BOOL, optional(U16)]);
    let added = [
        BOOL,
        optional(BOOL),
        U8,
        optional(U8),
        BOOL,
        BOOL,
        BOOL,
        enumeration(3),
        TEXT,
        in_place(BYTES),
        F32,
        optional(F64),
    ];
    let mut members = vec![BOOL, optional(U16)];
    members.extend(added);
    let new = one_table(&members);
    let sheet = Sheet::new().put(0b011, 3).absent();
    let expected = sheet.clone().put(0b010, 3).absent().absent().absent();
    let expected = expected.put(0b010, 3).put(0b010, 3).absent();
    let expected = expected.absent().absent().absent().absent().absent();
    assert_eq!(
        with_added(48, &old, &new, &sheet.done()),
        Some(expected.done())
    );
    // It is what the newer reads from what the older writes.
    let (number, message) = write(48, &old, &sheet.done(), usize::MAX);
    assert_eq!(number, 0);
    let (verdict, read_back) = read(48, &new, &message, 1, usize::MAX);
    assert_eq!((verdict.number, read_back), (0, expected.done()));
    assert_eq!(with_added(48, &new, &old, &sheet.done()), None);
    assert_eq!(with_added(48, &old, &new, &[0xFF, 0xFF]), None);
}

/// A table without a bool byte: an added bool takes a new byte and is absent.
#[test]
fn an_added_bool_in_a_new_byte_is_absent() {
    let old = one_table(&[U8]);
    let new = one_table(&[U8, BOOL]);
    let sheet = Sheet::new().here().put(3, 8);
    assert_eq!(
        with_added(48, &old, &new, &sheet.done()),
        Some(sheet.clone().absent().done())
    );
    // Eight bools fill their byte.
    let old = one_table(&[BOOL; 8]);
    let new = one_table(&[BOOL; 9]);
    let sheet = Sheet::new().put(0o33333333, 24);
    assert_eq!(
        with_added(48, &old, &new, &sheet.done()),
        Some(sheet.absent().done())
    );
    let old = one_table(&[BOOL; 7]);
    let new = one_table(&[BOOL; 9]);
    let sheet = Sheet::new().put(0o3333333, 21);
    assert_eq!(
        with_added(48, &old, &new, &sheet.done()),
        Some(sheet.put(0b010, 3).absent().done())
    );
}

/// Every table in the sheet gets the entries, and all else stays, unknown
/// numbers that the newer knows too.
#[test]
fn inner_tables_get_the_entries() {
    let (old, new) = (older().pack(), newer().pack());
    let sheet = Sheet::new().here().put(1, 8).unknown(2, 16);
    let sheet = sheet.here().put(2, 8).unknown(3, 8);
    let sheet = sheet.here().put(2, 32).unknown(2, 8).here().put(1, 8);
    let expected = sheet.clone().absent().absent().absent();
    assert_eq!(
        with_added(48, &old, &new, &sheet.done()),
        Some(expected.done())
    );
    let mut before = older();
    before.tables[0].1 = vec![list(2), in_place(table(1))];
    let mut after = before.clone();
    after.tables[1].1.extend([BOOL, TEXT]);
    let sheet = Sheet::new().here().put(2, 32);
    let sheet = sheet.here().put(0b011, 3).absent().absent();
    let sheet = sheet.here().put(0b011, 3).here().put(6, 16);
    let expected = Sheet::new().here().put(2, 32);
    let expected = expected.here().put(0b011, 3).absent();
    let expected = expected.put(0b010, 3).absent().absent();
    let expected = expected.here().put(0b011, 3).here().put(6, 16);
    let expected = expected.put(0b010, 3).absent();
    assert_eq!(
        with_added(48, &before.pack(), &after.pack(), &sheet.done()),
        Some(expected.done())
    );
}

/// Nothing appended: the sheet stays as it is.
#[test]
fn the_same_schema() {
    let schema = newer().pack();
    let sheet = Sheet::new().absent().here().put(1, 16).text("t");
    let sheet = sheet.here().put(1, 8).absent().absent();
    let sheet = sheet.absent().absent().absent().done();
    assert_eq!(
        without_appended(48, &schema, &schema, &sheet),
        Some(sheet.clone())
    );
    assert_eq!(with_added(48, &schema, &schema, &sheet), Some(sheet));
}
