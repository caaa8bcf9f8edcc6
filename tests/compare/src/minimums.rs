//! How often a full run must have made or seen each thing, so that a
//! generator that stops reaching something fails.

use crate::coding::Coding;
use crate::counts::Counts;
use crate::schema_faults::rules;
use crate::sheet_faults;

/// The number of cases that the minimums are meant for.
pub const CASES: u64 = 100_000;

const NAMED: [(&str, u64); 74] = [
    ("accepted messages of depth 32", 100),
    ("accepted messages with an unwritable sheet", 1000),
    ("arrivals at shared objects", 10_000),
    ("cases: appended schemas", 10_000),
    ("cases: damaged messages", 10_000),
    ("cases: message starts", 1000),
    ("cases: messages moved over", 3000),
    ("cases: round trip", 10_000),
    ("cases: schemas", 2000),
    ("cases: sheets", 10_000),
    ("cases: wild messages", 10_000),
    ("damaged messages accepted", 5000),
    ("damaged messages refused", 10_000),
    ("damaged schemas not lawful", 5000),
    ("damaged schemas still lawful", 300),
    ("deep sheets of at most 32", 100),
    ("direct elements longer than the schema", 3000),
    ("direct elements of no bytes", 3000),
    ("direct elements of the full size", 5000),
    ("direct elements shorter than the schema", 3000),
    ("direct lists of 50 or more elements", 100),
    ("direct lists of elements", 5000),
    ("direct lists of no elements", 1000),
    ("field answers: absent", 5000),
    ("field answers: boolean", 5000),
    ("field answers: float", 2000),
    ("field answers: number", 5000),
    ("field answers: object", 10_000),
    ("field answers: refused", 10_000),
    ("field answers: struct", 300),
    ("field answers: unknown", 2000),
    ("flags of 0 with the value past the end", 300),
    ("list readers refused", 5000),
    ("list readers stepped through", 2000),
    ("message faults: CountOver", 200),
    ("message faults: Cut", 500),
    ("message faults: ElementId", 200),
    ("message faults: FarOffset", 500),
    ("message faults: FlagWithoutValue", 200),
    ("message faults: LongLength", 500),
    ("message faults: Magic", 500),
    ("message faults: SmallOffset", 500),
    ("message faults: StructBool", 100),
    ("message faults: TextEnd", 200),
    ("message faults: UnionZero", 200),
    ("message faults: cycle", 200),
    ("messages accepted by the newer", 10_000),
    ("messages with 50 or more shared arrivals", 50),
    ("no text: ByOffset", 500),
    ("no text: InPlace", 60),
    ("not writable: NaN as an element", 30),
    ("not writable: NaN in an optional member", 100),
    ("not writable: absent plain bool or integer", 300),
    ("not writable: absent plain float", 100),
    ("not writable: absent plain struct", 100),
    ("not writable: empty in place", 200),
    ("not writable: no text", 600),
    ("not writable: no text from bit 0 of a byte", 40),
    ("not writable: no text from bit 1 of a byte", 40),
    ("not writable: no text from bit 2 of a byte", 40),
    ("not writable: no text from bit 3 of a byte", 40),
    ("not writable: no text from bit 4 of a byte", 40),
    ("not writable: no text from bit 5 of a byte", 40),
    ("not writable: no text from bit 6 of a byte", 40),
    ("not writable: no text from bit 7 of a byte", 40),
    ("not writable: union in place", 300),
    ("not writable: unknown choice", 300),
    ("not writable: unknown enum", 200),
    ("objects that overlap others", 3000),
    ("stored messages moved over", 1000),
    ("stored messages: 12 for an older reason", 1000),
    ("tables longer than the schema", 5000),
    ("tables shorter than the schema", 5000),
    ("unknown enums and choices", 5000),
];

/// What only unions that are not in place and direct lists have, and messages that
/// are moved over, so never the older coding.
fn never_older(name: &str) -> bool {
    ["answers with number 9", "message faults: UnionZero"].contains(&name)
        || [sheet_faults::UNION_IN_PLACE].contains(&name)
        || name.starts_with("stored messages")
        || ["message faults: CountOver", "message faults: ElementId"].contains(&name)
        || name.starts_with("direct ")
        || name.starts_with("kind 18 ")
}

/// What a run of `CASES` cases did not reach often enough, or reached where it
/// must not.
pub fn shortfalls(coding: Coding, counts: &Counts) -> Vec<String> {
    let mut short = Vec::new();
    let mut need = |name: String, count: u64, least: u64| {
        let never = coding.is_older() && never_older(&name);
        if never && count > 0 {
            short.push(format!("{name}: {count}, none wanted"));
        } else if !never && count < least {
            short.push(format!("{name}: {count}, at least {least} wanted"));
        }
    };
    for (number, count) in counts.answers.iter().enumerate() {
        need(format!("answers with number {number}"), *count, 100);
    }
    for kind in [13, 14, 15, 16, 18] {
        let count = counts.by_offset[kind];
        need(format!("kind {kind} by offset"), count, 2000);
    }
    for kind in 13..=16 {
        need(format!("kind {kind} in place"), counts.in_place[kind], 500);
    }
    for (name, least) in NAMED {
        need(name.to_string(), counts.named(name), least);
    }
    for rule in rules(coding) {
        let name = format!("schema rule broken: {rule:?}");
        let count = counts.named(&name);
        need(name, count, 50);
    }
    for way in ["schemas that append", "schemas that do not append"] {
        need(way.to_string(), counts.named(way), 10_000);
    }
    need(
        "sheets deeper than 32".into(),
        counts.named("sheets deeper than 32"),
        100,
    );
    short
}
