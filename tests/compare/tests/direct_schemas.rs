//! Direct lists in random schemas: in a good part of them, in every place that
//! they may have, and of tables with every sort of member.

use compare::append_gen;
use compare::coding::{Coding, CODINGS};
use compare::counts::Counts;
use compare::rng::Rng;
use compare::schema::*;
use compare::schema_rules;
use compare::subjects;
use compare::value::has_direct_elements;

const SCHEMAS: u64 = 20_000;

/// The tables of a schema's direct lists.
fn direct_tables(schema: &Schema) -> impl Iterator<Item = usize> + '_ {
    (0..schema.tables.len()).filter(|&table| schema.is_direct(table))
}

fn is_direct(record: &Record) -> bool {
    record.kind == DIRECT
}

/// Where the direct lists of a schema stand.
fn note_places(counts: &mut Counts, schema: &Schema) {
    let members = |table: &Table| table.members.iter().any(is_direct);
    if schema.tables.iter().any(members) {
        counts.note("as a member");
    }
    if schema.lists.iter().any(is_direct) {
        counts.note("as an element");
    }
    if schema.unions.iter().flatten().any(is_direct) {
        counts.note("as a case");
    }
    for table in direct_tables(schema) {
        note_members(counts, schema, table);
    }
}

/// What the elements of a direct list have.
fn note_members(counts: &mut Counts, schema: &Schema, table: usize) {
    let members = &schema.tables[table].members;
    for member in members {
        counts.note(match member.kind {
            _ if member.optional => "optional members",
            BOOL => "bools",
            STRUCT => "structs",
            TEXT => "texts",
            BYTES => "bytes",
            LIST => "lists",
            TABLE => "tables",
            UNION if schema.has_direct_case(member.argument) => "unions with direct lists",
            UNION => "unions",
            DIRECT => "direct lists",
            _ => "numbers and enums",
        });
    }
    let itself = |member: &Record| is_direct(member) && usize::from(member.argument) == table;
    if members.iter().any(itself) {
        counts.note("direct lists of itself");
    }
}

/// At least so many schemas, or members of direct lists' tables.
const SEEN: [(&str, u64); 18] = [
    ("schemas", SCHEMAS / 3),
    ("values with direct elements", SCHEMAS / 8),
    ("appended schemas", SCHEMAS / 3),
    ("as a member", 3000),
    ("as an element", 2000),
    ("as a case", 2000),
    ("optional members", 5000),
    ("bools", 1000),
    ("structs", 500),
    ("texts", 1000),
    ("bytes", 500),
    ("lists", 1000),
    ("tables", 1000),
    ("unions", 1000),
    ("unions with direct lists", 500),
    ("direct lists", 1000),
    ("direct lists of itself", 200),
    ("numbers and enums", 1000),
];

#[test]
fn direct_lists_in_every_place() {
    let mut counts = Counts::default();
    for case in 0..SCHEMAS {
        let mut rng = Rng::for_case(5, case);
        let schema = subjects::some_schema(Coding::Bits48, &mut rng, 10);
        assert!(schema_rules::lawful(&schema), "{}", schema.pack());
        if direct_tables(&schema).next().is_none() {
            continue;
        }
        counts.note("schemas");
        note_places(&mut counts, &schema);
        let value = subjects::some_value(&mut rng, &schema, 12);
        if has_direct_elements(&schema, &value) {
            counts.note("values with direct elements");
        }
        let newer = append_gen::newer(&mut rng, &schema);
        assert!(append_gen::appends(&schema, &newer), "{}", newer.pack());
        counts.note("appended schemas");
    }
    println!("{counts}");
    for (name, least) in SEEN {
        let count = counts.named(name);
        assert!(count >= least, "{name}: {count}, at least {least} wanted");
    }
}

/// Schemas made for either coding are lawful under it; under the older none has a
/// direct list, and one that has is not lawful there.
#[test]
fn direct_lists_under_one_coding() {
    for coding in CODINGS {
        for case in 0..SCHEMAS / 4 {
            let mut rng = Rng::for_case(6, case);
            let schema = subjects::some_schema(coding, &mut rng, 10);
            assert!(schema_rules::lawful(&schema), "{}", schema.pack());
            let direct = direct_tables(&schema).next().is_some();
            let other = Packed::new(Coding::Bits32, schema.pack().bytes());
            let lawful = schema_rules::parse(&other).is_some();
            assert!(!(direct && (lawful || coding.is_older())), "{other}");
        }
    }
}
