//! The stored cases: the files are what the tool makes, the proved library
//! answers as the second program does, and every refusal is reached at every
//! kind of object.

use compare::calls::LibraryCalls;
use compare::coding::{Coding, CODINGS};
use compare::program::{Budget, Judge};
use compare::stored::{self, Case};
use std::collections::{BTreeMap, BTreeSet};
use std::fs;
use std::path::Path;

/// The numbers that an object of a kind, reached in a way, can be refused with.
fn reached(kind: &str, way: &str) -> BTreeSet<u32> {
    let mut numbers = BTreeSet::from([0, 4, 5, 6]);
    if !way.ends_with("in place") {
        numbers.insert(7);
    }
    if way == "union" || way == "union element" {
        numbers.insert(9);
    }
    match kind {
        "text" => numbers.insert(10) && numbers.insert(16),
        "table" | "direct list" => numbers.insert(8),
        _ => false,
    };
    numbers
}

fn numbers_by_group(cases: &[Case]) -> BTreeMap<String, BTreeSet<u32>> {
    let mut out: BTreeMap<String, BTreeSet<u32>> = BTreeMap::new();
    for case in cases {
        let numbers = out.entry(case.group.clone()).or_default();
        numbers.insert(case.verdict().number);
    }
    out
}

fn has(groups: &BTreeMap<String, BTreeSet<u32>>, group: &str, numbers: &BTreeSet<u32>) {
    let seen = groups.get(group).cloned().unwrap_or_default();
    assert!(
        seen.is_superset(numbers),
        "{group}: {seen:?} seen, {numbers:?} wanted"
    );
}

#[test]
fn stored_files_are_what_the_tool_makes() {
    let folder = Path::new(env!("CARGO_MANIFEST_DIR")).join("../../crates/cases");
    let cases = stored::cases();
    let stale = "is not what `compare cases crates/cases` makes";
    let bytes = fs::read(folder.join("data/cases.bin")).expect("cases.bin");
    assert!(bytes == stored::packed(&cases), "data/cases.bin {stale}");
    let answers = fs::read_to_string(folder.join("stdout")).expect("stdout");
    assert!(answers == stored::answers(&cases), "stdout {stale}");
}

#[test]
fn library_answers_the_stored_cases_alike() {
    for case in stored::cases() {
        let budget = Budget::of_visits(case.budget);
        let given = LibraryCalls.judge(&case.schema, &case.message, budget);
        let (coding, group) = (case.schema.coding(), &case.group);
        assert_eq!(given, case.verdict(), "{coding}: {group}: {}", case.name);
    }
}

#[test]
fn every_refusal_at_every_kind_of_object() {
    let groups = numbers_by_group(&stored::under(Coding::Bits48));
    let ways = [
        "by offset",
        "in place",
        "element",
        "union",
        "union in place",
        "union element",
    ];
    for kind in ["text", "bytes", "list", "table"] {
        for way in ways {
            has(&groups, &format!("{kind} {way}"), &reached(kind, way));
        }
    }
    for way in ways {
        let group = format!("direct list {way}");
        if way.ends_with("in place") {
            assert!(!groups.contains_key(&group));
        } else {
            has(&groups, &group, &reached("direct list", way));
        }
    }
    for kind in (0..=11).chain(13..=18) {
        for way in ["by offset", "in place"] {
            let group = format!("list of kind {kind} {way}");
            has(&groups, &group, &BTreeSet::from([0, 6]));
        }
    }
    has(
        &groups,
        "order of members",
        &BTreeSet::from([0, 6, 8, 9, 10]),
    );
    apart_from_objects(&groups);
}

/// What is the same in both codings.
fn apart_from_objects(groups: &BTreeMap<String, BTreeSet<u32>>) {
    has(groups, "start", &BTreeSet::from([0, 2, 3, 4, 6, 7]));
    has(groups, "struct", &BTreeSet::from([0, 8, 10]));
    has(groups, "optional struct", &BTreeSet::from([0, 8, 10]));
    has(groups, "table to itself", &BTreeSet::from([4, 5]));
    has(groups, "tables in place", &BTreeSet::from([0, 4, 5]));
    has(groups, "schema", &BTreeSet::from([0, 1]));
}

/// A table is in place only as a case of a union, and a union only in place.
#[test]
fn every_refusal_at_every_kind_of_object_under_32_bits() {
    let groups = numbers_by_group(&stored::under(Coding::Bits32));
    for kind in ["text", "bytes", "list", "table"] {
        for way in ["by offset", "in place", "element", "union in place"] {
            let group = format!("{kind} {way}");
            if group == "table in place" {
                assert!(!groups.contains_key(&group));
            } else {
                has(&groups, &group, &reached(kind, way));
            }
        }
    }
    assert!(!groups.keys().any(|group| group.starts_with("direct list")));
    for kind in (0..=11).chain(13..=16) {
        for way in ["by offset", "in place"] {
            let group = format!("list of kind {kind} {way}");
            has(&groups, &group, &BTreeSet::from([0, 6]));
        }
    }
    has(&groups, "order of members", &BTreeSet::from([0, 6, 8, 10]));
    apart_from_objects(&groups);
    // Among all cases, those of the schemas alone are refused by 1; 9 never comes.
    for (group, numbers) in &groups {
        assert_eq!(numbers.contains(&1), group == "schema", "{group}");
        assert!(!numbers.contains(&9), "{group}");
    }
}

/// A struct behind a flag of 0 is not judged, whatever its bytes are.
#[test]
fn structs_behind_a_flag_of_0_are_accepted() {
    for case in stored::cases() {
        if case.group == "struct with flag 0" {
            assert_eq!(case.verdict().number, 0, "{}", case.name);
        }
    }
}

/// Every kind of member that takes more than a byte is cut somewhere.
#[test]
fn every_kind_of_member_is_cut() {
    for coding in CODINGS {
        every_kind_is_cut(coding);
    }
}

fn every_kind_is_cut(coding: Coding) {
    let groups = numbers_by_group(&stored::under(coding));
    for kind in 0..=18 {
        let plain = format!("member of kind {kind}");
        let wide = !matches!(kind, 0 | 1 | 5 | 11);
        let numbers: &[u32] = if wide { &[0, 8] } else { &[0] };
        if kind < 17 || !coding.is_older() {
            has(&groups, &plain, &numbers.iter().copied().collect());
        }
        if kind <= 8 || kind == 12 {
            has(
                &groups,
                &format!("optional {plain}"),
                &BTreeSet::from([0, 8]),
            );
        }
        if (13..=17).contains(&kind) && !(kind == 16 && coding.is_older()) {
            let numbers: &[u32] = if kind == 17 { &[0, 8] } else { &[0, 6, 8] };
            let numbers = numbers.iter().copied().collect();
            has(&groups, &format!("in place {plain}"), &numbers);
        }
    }
}
