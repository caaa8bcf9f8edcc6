//! Schemas: every rule broken, and counts and sizes at their edges.

use super::objects::AMPLE;
use super::tables::{message_of, schema_with};
use super::Case;
use crate::coding::Coding;
use crate::rng::Rng;
use crate::schema::*;
use crate::schema_faults;

/// A schema under a coding, and the message of a root with nothing.
fn case(coding: Coding, name: String, schema: Packed) -> Case {
    Case {
        group: "schema".to_string(),
        name,
        schema,
        message: message_of(coding, &[], &[]),
        budget: AMPLE,
    }
}

/// Adds the cases.
pub fn add(coding: Coding, cases: &mut Vec<Case>) {
    let mut push = |name: String, schema: Packed| cases.push(case(coding, name, schema));
    for (i, rule) in schema_faults::rules(coding).iter().enumerate() {
        // The shortest of several that break the rule.
        let rng = |k| Rng::for_case(7, 100 * i as u64 + k);
        let made = (0..40).map(|k| schema_faults::breaking(coding, &mut rng(k), *rule));
        let shortest = made.min_by_key(|schema| schema.bytes().len());
        push(format!("{rule:?}"), shortest.expect("a schema"));
    }
    let small = schema_with(coding, vec![Record::plain(STRUCT, 1)]).pack();
    for size in 0..=small.bytes().len() + 1 {
        let mut bytes = small.bytes().to_vec();
        bytes.resize(size, 0);
        let schema = small.with(bytes);
        push(format!("{size} of {} bytes", small.bytes().len()), schema);
    }
    let plain = schema_with(coding, Vec::new());
    records(&plain, &mut push);
    struct_sizes(&plain, &mut push);
    counts(&plain, &mut push);
}

/// Every kind of record with each flag as a member, an element, a case and a
/// struct's member.
fn records(plain: &Schema, push: &mut impl FnMut(String, Packed)) {
    for kind in 0..32 {
        for flags in [0, 1, 2, 4] {
            for argument in [0, 1] {
                let record = Record {
                    kind,
                    optional: flags & 4 != 0,
                    in_place: flags & 2 != 0,
                    zero: flags & 1 != 0,
                    argument,
                };
                let name = format!("kind {kind}, flags {flags}, argument {argument}");
                let mut member = plain.clone();
                member.tables[0].members.push(record);
                push(format!("member, {name}"), member.pack());
                if flags == 0 {
                    others(plain, &name, record, push);
                }
            }
        }
    }
}

fn others(plain: &Schema, name: &str, record: Record, push: &mut impl FnMut(String, Packed)) {
    let mut schema = plain.clone();
    schema.lists[0] = record;
    push(format!("element, {name}"), schema.pack());
    let mut schema = plain.clone();
    schema.unions[0].push(record);
    push(format!("case, {name}"), schema.pack());
    let mut schema = plain.clone();
    schema.structs[1].push(record);
    push(format!("struct member, {name}"), schema.pack());
}

/// Structs of 4096 bytes and one more.
fn struct_sizes(plain: &Schema, push: &mut impl FnMut(String, Packed)) {
    for extra in [0, 1] {
        let inner = vec![Record::plain(4, 0); 32];
        let mut outer = vec![Record::plain(STRUCT, 0); 15];
        outer.extend(vec![Record::plain(4, 0); 15]);
        outer.extend(vec![Record::plain(3, 0); 2]);
        let mut schema = plain.clone();
        schema.tables[0].members = vec![Record::plain(STRUCT, 1)];
        schema.structs = vec![inner, outer];
        if extra == 1 {
            schema.structs[1][31] = Record::plain(4, 0);
        }
        push(format!("large struct, {extra} too many"), schema.pack());
    }
}

/// Counts at their most and one over; indices at the last and one over.
fn counts(plain: &Schema, push: &mut impl FnMut(String, Packed)) {
    let flag = Record::plain(BOOL, 0);
    for count in [63, 64, 65] {
        let mut schema = plain.clone();
        schema.tables[0].members = vec![flag; count];
        push(format!("{count} members"), schema.pack());
        schema.tables[0].members.clear();
        schema.structs = vec![vec![flag]; count];
        schema.lists = vec![flag; count];
        schema.unions = vec![vec![Record::plain(TEXT, 0)]; count];
        push(format!("{count} of each"), schema.pack());
    }
    for count in [31, 32, 33] {
        let mut schema = plain.clone();
        schema.structs[0] = vec![flag; count];
        push(format!("{count} struct members"), schema.pack());
        let mut schema = plain.clone();
        schema.unions[0] = vec![Record::plain(TEXT, 0); count];
        push(format!("{count} union cases"), schema.pack());
    }
    for root in [0, 1, 2, 255] {
        let mut schema = plain.clone();
        schema.root = root;
        push(format!("root {root}"), schema.pack());
    }
}
