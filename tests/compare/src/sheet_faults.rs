//! Values changed in one place so that they cannot be written.

use crate::rng::Rng;
use crate::schema::*;
use crate::text_gen;
use crate::value::{depth, visit, Holder, Value};
use crate::value_gen::{nan_bits, unknown_choice, unknown_enum};

/// What a text that is none is counted as.
pub const NO_TEXT: &str = "not writable: no text";

/// What one is counted as that starts at this bit of a sheet.
pub fn no_text_from(bit: usize) -> String {
    format!("{NO_TEXT} from bit {} of a byte", bit % 8)
}

/// What a union present in place is counted as.
pub const UNION_IN_PLACE: &str = "not writable: union in place";

/// The ways of not being writable, as reports call them.
const REASONS: [&str; 10] = [
    "not writable: unknown enum",
    "not writable: unknown choice",
    "not writable: absent plain bool or integer",
    "not writable: absent plain struct",
    "not writable: absent plain float",
    "not writable: NaN in an optional member",
    "not writable: NaN as an element",
    "not writable: empty in place",
    NO_TEXT,
    UNION_IN_PLACE,
];

/// Whether a reason can be put on an entry.
fn fits(schema: &Schema, reason: usize, holder: Holder, record: &Record) -> bool {
    let plain_member = holder == Holder::Table && !record.optional;
    match reason {
        0 => record.kind == ENUM && record.argument < 255,
        1 => record.kind == UNION,
        2 => plain_member && (record.kind == BOOL || record.is_integer()),
        3 => plain_member && record.kind == STRUCT,
        4 => plain_member && record.is_float(),
        5 => holder == Holder::Table && record.optional && record.is_float(),
        6 => holder == Holder::List && record.is_float(),
        7 => record.in_place && record.kind != UNION && empty_object(schema, record).is_some(),
        8 => record.kind == TEXT,
        _ => record.in_place && record.kind == UNION && !schema.coding.is_older(),
    }
}

fn empty_object(schema: &Schema, record: &Record) -> Option<Value> {
    match record.kind {
        TEXT | BYTES => Some(Value::Blob(Vec::new())),
        LIST => Some(Value::List(Vec::new())),
        TABLE => {
            let none = schema.tables[usize::from(record.argument)]
                .members
                .is_empty();
            none.then(|| Value::Table(Vec::new()))
        }
        _ => None,
    }
}

fn spoiled(schema: &Schema, rng: &mut Rng, reason: usize, record: &Record) -> Value {
    match reason {
        0 => Value::Unknown(unknown_enum(rng, record.argument)),
        1 => {
            let cases = schema.unions[usize::from(record.argument)].len();
            Value::Unknown(unknown_choice(rng, cases))
        }
        2..=4 => Value::Absent,
        5 | 6 => Value::Number(nan_bits(rng, record)),
        7 => empty_object(schema, record).unwrap_or(Value::Absent),
        8 => Value::Blob(text_gen::no_text(rng)),
        _ => some_choice(schema, rng, record),
    }
}

/// A known choice with a small object that could be written.
fn some_choice(schema: &Schema, rng: &mut Rng, union: &Record) -> Value {
    let cases = &schema.unions[usize::from(union.argument)];
    let choice = rng.below(cases.len());
    let object = match cases[choice].kind {
        TEXT | BYTES => {
            let length = rng.below(3);
            Value::Blob(b"ab"[..length].to_vec())
        }
        TABLE => least_table(schema, cases[choice].argument),
        _ => Value::List(Vec::new()),
    };
    Value::Union(choice as u16 + 1, Box::new(object))
}

/// A table with no more present in it than must be.
fn least_table(schema: &Schema, index: u8) -> Value {
    let members = &schema.tables[usize::from(index)].members;
    let least = |member: &Record| match member.kind {
        0..=F64 | STRUCT if !member.optional => least_value(schema, member),
        _ => Value::Absent,
    };
    Value::Table(members.iter().map(least).collect())
}

/// A bool, number or struct of zeros; enums are absent.
fn least_value(schema: &Schema, record: &Record) -> Value {
    match record.kind {
        BOOL => Value::Bool(false),
        ENUM => Value::Absent,
        STRUCT => {
            let members = &schema.structs[usize::from(record.argument)];
            let parts = members.iter().map(|member| least_value(schema, member));
            Value::Struct(parts.collect())
        }
        _ => Value::Number(0),
    }
}

/// The value with one entry that cannot be written, and the reason; `None`
/// where no entry can be made so.
pub fn unwritable(schema: &Schema, rng: &mut Rng, value: &Value) -> Option<(Value, &'static str)> {
    let root = Record::plain(TABLE, schema.root);
    let mut out = value.clone();
    let mut sites = [0; REASONS.len()];
    visit(schema, &root, &mut out, &mut |holder, record, _| {
        for (reason, count) in sites.iter_mut().enumerate() {
            *count += usize::from(fits(schema, reason, holder, record));
        }
    });
    let possible: Vec<usize> = (0..REASONS.len()).filter(|&r| sites[r] > 0).collect();
    if possible.is_empty() {
        return None;
    }
    let reason = rng.pick(&possible);
    let mut countdown = rng.below(sites[reason]) as isize;
    visit(schema, &root, &mut out, &mut |holder, record, entry| {
        if fits(schema, reason, holder, record) {
            if countdown == 0 {
                *entry = spoiled(schema, rng, reason, record);
            }
            countdown -= 1;
        }
    });
    // An object that was absent may be one too deep, which is another refusal.
    (depth(&out) <= DEPTH_LIMIT).then_some((out, REASONS[reason]))
}
