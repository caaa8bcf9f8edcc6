//! Schemas that append to others, near misses, and what appending does to a
//! value, by this crate's own reading.

use crate::rng::Rng;
use crate::schema::*;
use crate::schema_gen;
use crate::schema_rules;
use crate::value::Value;

/// A lawful schema that appends to a lawful one.
pub fn newer(rng: &mut Rng, older: &Schema) -> Schema {
    let mut schema = older.clone();
    let (lists, unions, tables) = (schema.lists.len(), schema.unions.len(), schema.tables.len());
    add_parts(rng, &mut schema);
    for i in lists..schema.lists.len() {
        schema.lists[i] = schema_gen::element(rng, &schema);
    }
    raise_enums(rng, &mut schema);
    for i in 0..schema.unions.len() {
        let grown = if i >= unions || rng.coin() {
            rng.range(1, 3)
        } else {
            0
        };
        for _ in 0..grown.min(32 - schema.unions[i].len()) {
            let case = schema_gen::case(rng, &schema, i);
            schema.unions[i].push(case);
        }
    }
    for i in 0..schema.tables.len() {
        let grown = if i >= tables || !rng.one_in(3) {
            rng.range(1, 5)
        } else {
            0
        };
        for _ in 0..grown.min(64 - schema.tables[i].members.len()) {
            let may_be_in_place = schema.may_hold_in_place(i);
            let member = schema_gen::member(rng, &schema, may_be_in_place);
            schema.tables[i].members.push(member);
        }
    }
    schema
}

/// New structs, and new lists, unions and tables still without their own.
fn add_parts(rng: &mut Rng, schema: &mut Schema) {
    for _ in 0..rng.small(3).min(64 - schema.structs.len()) {
        let members = schema_gen::struct_members(rng, schema);
        schema.structs.push(members);
    }
    for _ in 0..rng.small(3).min(64 - schema.lists.len()) {
        schema.lists.push(Record::plain(BOOL, 0));
    }
    for _ in 0..rng.small(2).min(64 - schema.unions.len()) {
        schema.unions.push(vec![Record::plain(TEXT, 0)]);
    }
    for _ in 0..rng.small(3).min(64 - schema.tables.len()) {
        let id = schema_gen::table_id(rng, schema);
        let members = Vec::new();
        schema.tables.push(Table { id, members });
    }
}

fn every_record(schema: &mut Schema) -> Vec<&mut Record> {
    let tables = schema.tables.iter_mut().flat_map(|t| t.members.iter_mut());
    (schema.structs.iter_mut().flatten())
        .chain(schema.lists.iter_mut())
        .chain(schema.unions.iter_mut().flatten())
        .chain(tables)
        .collect()
}

fn raise_enums(rng: &mut Rng, schema: &mut Schema) {
    for record in every_record(schema) {
        if record.kind == ENUM && rng.coin() {
            record.argument = match rng.below(3) {
                0 => 255,
                1 => record.argument.saturating_add(1),
                _ => rng.range(usize::from(record.argument), 255) as u8,
            };
        }
    }
}

/// A schema near one that appends to `older`, but that does not.
pub fn near_miss(rng: &mut Rng, older: &Schema) -> Schema {
    loop {
        let mut schema = newer(rng, older);
        spoil(rng, older, &mut schema);
        if !appends(older, &schema) {
            return schema;
        }
    }
}

fn spoil(rng: &mut Rng, older: &Schema, schema: &mut Schema) {
    let table = rng.below(older.tables.len());
    let members = older.tables[table].members.len();
    match rng.below(13) {
        12 => spoil_direct(rng, schema),
        0 => schema.root = rng.below(schema.tables.len()) as u8,
        1 => schema.tables[table].id ^= 1 << rng.below(32),
        2 => {
            let member = schema_gen::member(rng, schema, false);
            let at = rng.below(members + 1);
            schema.tables[table].members.insert(at, member);
        }
        3 if members > 0 => {
            schema.tables[table].members.remove(rng.below(members));
        }
        4 if !older.structs.is_empty() => {
            let at = rng.below(older.structs.len());
            schema.structs[at].push(Record::plain(rng.pick(&[BOOL, 1]), 0));
        }
        5 if !older.structs.is_empty() => {
            let at = rng.below(older.structs.len());
            schema.structs[at].pop();
        }
        6 if !older.unions.is_empty() => {
            let at = rng.below(older.unions.len());
            schema.unions[at].insert(0, Record::plain(rng.pick(&[TEXT, BYTES]), 0));
        }
        7 if !older.unions.is_empty() => {
            let at = rng.below(older.unions.len());
            schema.unions[at].truncate(older.unions[at].len() - 1);
        }
        8 if table + 1 < schema.tables.len() => schema.tables.swap(table, table + 1),
        _ => spoil_record(rng, schema),
    }
}

/// "appending an in-place member there isn't lawful", nor a direct list to the
/// cases of a union that is held in place.
fn spoil_direct(rng: &mut Rng, schema: &mut Schema) {
    let held = (0..schema.unions.len()).find(|union| schema.held_in_place(*union));
    let direct = (0..schema.tables.len()).find(|table| schema.is_direct(*table));
    match (held, direct) {
        (Some(union), Some(table)) if rng.coin() => {
            schema.unions[union].push(Record::plain(DIRECT, table as u8));
        }
        (_, Some(table)) => {
            let mut member = Record::plain(rng.pick(&[TEXT, BYTES]), 0);
            member.in_place = true;
            schema.tables[table].members.push(member);
        }
        _ => spoil_record(rng, schema),
    }
}

fn spoil_record(rng: &mut Rng, schema: &mut Schema) {
    let mut records = every_record(schema);
    if records.is_empty() {
        return;
    }
    let at = rng.below(records.len());
    let record = &mut *records[at];
    match rng.below(5) {
        0 => record.optional = !record.optional,
        1 => record.in_place = !record.in_place,
        2 => record.kind = rng.range(0, 18) as u8,
        _ => record.argument = record.argument.wrapping_sub(1),
    }
}

/// Whether one schema appends to another.
pub fn appends(older: &Schema, newer: &Schema) -> bool {
    let same_records = |old: &[Record], new: &[Record]| {
        old.len() <= new.len() && old.iter().zip(new).all(|(o, n)| same_record(o, n))
    };
    schema_rules::lawful(older)
        && schema_rules::lawful(newer)
        && older.root == newer.root
        && older.structs.len() <= newer.structs.len()
        && older.unions.len() <= newer.unions.len()
        && older.tables.len() <= newer.tables.len()
        && (older.structs.iter().zip(&newer.structs))
            .all(|(o, n)| o.len() == n.len() && same_records(o, n))
        && same_records(&older.lists, &newer.lists)
        && (older.unions.iter().zip(&newer.unions)).all(|(o, n)| same_records(o, n))
        && (older.tables.iter().zip(&newer.tables))
            .all(|(o, n)| o.id == n.id && same_records(&o.members, &n.members))
}

fn same_record(old: &Record, new: &Record) -> bool {
    let raised = Record {
        argument: old.argument,
        ..*new
    };
    old == new || (old.kind == ENUM && *old == raised && new.argument > old.argument)
}

/// A newer value without what was appended.
pub fn without_appended(older: &Schema, record: &Record, value: &Value) -> Value {
    let argument = usize::from(record.argument);
    let each = |records: &[Record], parts: &[Value]| -> Vec<Value> {
        (records.iter().zip(parts))
            .map(|(record, part)| without_appended(older, record, part))
            .collect()
    };
    match value {
        Value::Number(number) if record.kind == ENUM && *number >= argument as u64 => {
            Value::Unknown(*number as u16)
        }
        Value::Struct(parts) => Value::Struct(each(&older.structs[argument], parts)),
        Value::Table(parts) => Value::Table(each(&older.tables[argument].members, parts)),
        Value::List(parts) => {
            let elements = vec![older.element_of(record); parts.len()];
            Value::List(each(&elements, parts))
        }
        Value::Union(choice, object) => {
            match older.unions[argument].get(usize::from(*choice) - 1) {
                Some(case) => {
                    let object = without_appended(older, case, object);
                    Value::Union(*choice, Box::new(object))
                }
                None => Value::Unknown(*choice),
            }
        }
        other => other.clone(),
    }
}

/// An older value with the entries that were appended.
pub fn with_added(older: &Schema, newer: &Schema, record: &Record, value: &Value) -> Value {
    let argument = usize::from(record.argument);
    match value {
        Value::Table(parts) => {
            let (_, full) = older.slots(record.argument);
            let (slots, _) = newer.slots(record.argument);
            let members = &newer.tables[argument].members;
            let mut all = Vec::new();
            for (i, member) in members.iter().enumerate() {
                all.push(match parts.get(i) {
                    Some(part) => with_added(older, newer, member, part),
                    None if member.kind == BOOL && !member.optional && slots[i].first() < full => {
                        Value::Bool(false)
                    }
                    None => Value::Absent,
                });
            }
            Value::Table(all)
        }
        Value::List(parts) => {
            let element = newer.element_of(record);
            let each = |part| with_added(older, newer, &element, part);
            Value::List(parts.iter().map(each).collect())
        }
        Value::Union(choice, object) => {
            let case = newer.unions[argument][usize::from(*choice) - 1];
            let object = with_added(older, newer, &case, object);
            Value::Union(*choice, Box::new(object))
        }
        other => other.clone(),
    }
}
