//! Random field paths.

use crate::rng::Rng;
use crate::schema::*;
use crate::value::Value;

/// The most numbers of a path.
pub const PATH_LIMIT: usize = 96;

/// A random path into a value: to a part, past an end, or too long.
pub fn random_path(schema: &Schema, rng: &mut Rng, root: &Value) -> Vec<u32> {
    let mut path = Vec::new();
    let mut record = Record::plain(TABLE, schema.root);
    let mut value = root;
    let to_the_end = rng.one_in(3);
    while to_the_end || !rng.one_in(12) {
        if let Value::Union(choice, object) = value {
            let cases = &schema.unions[usize::from(record.argument)];
            record = cases[usize::from(*choice) - 1];
            value = object;
        }
        let parts = match value {
            Value::Table(parts) | Value::List(parts) | Value::Struct(parts) => parts,
            _ => break,
        };
        if parts.is_empty() || rng.one_in(15) {
            path.push(past(rng, parts.len()));
            break;
        }
        let at = likely_present(rng, parts);
        path.push(at as u32);
        record = part_record(schema, &record, value, at);
        value = &parts[at];
    }
    lengthen(rng, &mut path);
    path
}

/// The record of a part of an object or struct.
pub fn part_record(schema: &Schema, record: &Record, holder: &Value, at: usize) -> Record {
    let argument = usize::from(record.argument);
    match holder {
        Value::Table(_) => schema.tables[argument].members[at],
        Value::Struct(_) => schema.structs[argument][at],
        _ => schema.element_of(record),
    }
}

fn past(rng: &mut Rng, count: usize) -> u32 {
    match rng.below(4) {
        0 => u32::MAX,
        1 => count as u32 + rng.below(300) as u32,
        2 => 1 << rng.range(8, 31),
        _ => count as u32,
    }
}

fn likely_present(rng: &mut Rng, parts: &[Value]) -> usize {
    let mut at = rng.below(parts.len());
    for _ in 0..2 {
        if !matches!(parts[at], Value::Absent) {
            break;
        }
        at = rng.below(parts.len());
    }
    at
}

fn lengthen(rng: &mut Rng, path: &mut Vec<u32>) {
    match rng.below(60) {
        0 => path.resize(rng.pick(&[PATH_LIMIT + 1, PATH_LIMIT + 2, 200]), 0),
        1 => path.resize(PATH_LIMIT.max(path.len()), 0),
        2..=8 => {
            for _ in 0..rng.range(1, 3) {
                path.push(rng.below(4) as u32);
            }
        }
        _ => {}
    }
}

/// The paths of the lists in a value, those of offset elements and others.
pub fn list_paths(schema: &Schema, root: &Value) -> Vec<Vec<u32>> {
    let mut found = Vec::new();
    let record = Record::plain(TABLE, schema.root);
    collect_lists(schema, &record, root, &mut Vec::new(), &mut found);
    found
}

fn collect_lists(
    schema: &Schema,
    record: &Record,
    value: &Value,
    path: &mut Vec<u32>,
    found: &mut Vec<Vec<u32>>,
) {
    if found.len() >= 20 {
        return;
    }
    match value {
        Value::Union(choice, object) => {
            let cases = &schema.unions[usize::from(record.argument)];
            let case = cases[usize::from(*choice) - 1];
            collect_lists(schema, &case, object, path, found);
        }
        Value::Table(parts) | Value::List(parts) => {
            if matches!(value, Value::List(_)) {
                found.push(path.clone());
            }
            for (i, part) in parts.iter().enumerate() {
                path.push(i as u32);
                let record = part_record(schema, record, value, i);
                collect_lists(schema, &record, part, path, found);
                path.pop();
            }
        }
        _ => {}
    }
}
