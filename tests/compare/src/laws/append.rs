//! Older and newer readers of one message.

use super::*;
use crate::append_gen;
use crate::damage;
use crate::message_gen;
use crate::schema::{Record, Schema, SIZE_LIMIT, TABLE};
use crate::schema_faults;
use crate::schema_gen;
use crate::schema_rules;
use crate::sheet;
use crate::value::{self, objects, Value};
use crate::value_gen::{self, Purpose};

/// A schema and one that appends to it.
struct Pair {
    older: Schema,
    newer: Schema,
    old: Packed,
    new: Packed,
}

/// One pair of schemas.
pub fn check(context: &mut Context) -> Checked {
    let older = schema_gen::lawful_schema(context.coding, &mut context.rng);
    relations(context, &older)?;
    let newer = append_gen::newer(&mut context.rng, &older);
    let pair = Pair {
        old: older.pack(),
        new: newer.pack(),
        older,
        newer,
    };
    forward(context, &pair)?;
    backward(context, &pair)
}

/// True appends are told from near misses.
fn relations(context: &mut Context, older: &Schema) -> Checked {
    let old = older.pack();
    let newer = append_gen::newer(&mut context.rng, older);
    let miss = append_gen::near_miss(&mut context.rng, older);
    let damaged = schema_faults::damaged(&mut context.rng, &newer.pack());
    let by_damage =
        schema_rules::parse(&damaged).is_some_and(|damaged| append_gen::appends(older, &damaged));
    let cases = [
        ("a schema appends to itself", old.clone(), true),
        ("a newer schema appends", newer.pack(), true),
        ("a near miss does not append", miss.pack(), false),
        ("a damaged newer schema", damaged, by_damage),
    ];
    for (law, new, expected) in cases {
        let data: Data = &[("older", old.bytes()), ("newer", new.bytes())];
        same(law, &expected, &context.relations.appends(&old, &new), data)?;
        context.counts.note(if expected {
            "schemas that append"
        } else {
            "schemas that do not append"
        });
    }
    let back = append_gen::appends(&newer, older);
    let new = newer.pack();
    let data: Data = &[("older", new.bytes()), ("newer", old.bytes())];
    let given = context.relations.appends(&new, &old);
    same("the other way round", &back, &given, data)
}

/// What the newer accepts, the older accepts.
fn forward(context: &mut Context, pair: &Pair) -> Checked {
    let size = value_gen::some_size(&mut context.rng);
    let value = value_gen::root_value(&pair.newer, &mut context.rng, Purpose::Wild, size);
    let wild = message_gen::lay_out(&pair.newer, &mut context.rng, value, None);
    // A text over other objects' bytes may be none.
    let value = (wild.number == 0).then_some(&wild.value);
    forward_one(context, pair, &wild.bytes, wild.spent(), value)?;
    for _ in 0..2 {
        let bytes = damage::message(context.coding, &mut context.rng, &wild);
        forward_one(context, pair, &bytes, AMPLE, None)?;
    }
    Ok(())
}

fn forward_one(
    context: &mut Context,
    pair: &Pair,
    bytes: &[u8],
    budget: Budget,
    value: Option<&Value>,
) -> Checked {
    let data: Data = &[
        ("older", pair.old.bytes()),
        ("newer", pair.new.bytes()),
        ("m", bytes),
    ];
    let (verdict, new_sheet) = context.read(&pair.new, bytes, budget, SIZE_LIMIT);
    if verdict.number != 0 {
        return same("laid out by the newer", &false, &value.is_some(), data);
    }
    let Some(new_value) = sheet::decode(&pair.newer, &new_sheet) else {
        return fail("the newer sheet is lawful", &hex(&new_sheet), data);
    };
    context.counts.note("messages accepted by the newer");
    let root = Record::plain(TABLE, pair.older.root);
    let old_value = append_gen::without_appended(&pair.older, &root, value.unwrap_or(&new_value));
    let expected = sheet::encode(&pair.older, &old_value);
    let visits = objects(&old_value) as u32;
    cheaper(context, pair, bytes, budget, (verdict, visits))?;
    let (_, old_sheet) = context.read(&pair.old, bytes, budget, SIZE_LIMIT);
    same_bytes("the older's sheet", &expected, &old_sheet, data)?;
    let relations = context.relations;
    let cut = relations.without_appended(&pair.old, &pair.new, &new_sheet);
    same(
        "the sheet without what was appended",
        &Some(expected),
        &cut,
        data,
    )
}

/// The older accepts with what the newer spent and with its own, which is no more
/// of either allowance.
fn cheaper(
    context: &mut Context,
    pair: &Pair,
    bytes: &[u8],
    budget: Budget,
    (newer, visits): (Verdict, u32),
) -> Checked {
    let data: Data = &[
        ("older", pair.old.bytes()),
        ("newer", pair.new.bytes()),
        ("m", bytes),
    ];
    let spent = |verdict: Verdict| Budget {
        visits: verdict.visits,
        content: verdict.content,
    };
    let older = context.judge(&pair.old, bytes, budget);
    for budget in [spent(newer), spent(older), Budget::LARGEST] {
        let verdict = context.judge(&pair.old, bytes, budget);
        let expected = accepted(visits, older.content);
        same("the older accepts too", &expected, &verdict, data)?;
    }
    let no_more = older.visits <= newer.visits && older.content <= newer.content;
    same("the older spends no more", &true, &no_more, data)
}

/// What was written by the older, the newer accepts.
fn backward(context: &mut Context, pair: &Pair) -> Checked {
    let size = value_gen::some_size(&mut context.rng);
    let value = value_gen::root_value(&pair.older, &mut context.rng, Purpose::Writable, size);
    let old_sheet = sheet::encode(&pair.older, &value);
    let (number, message) = context.write(&pair.old, &old_sheet, SIZE_LIMIT);
    let data: Data = &[
        ("older", pair.old.bytes()),
        ("newer", pair.new.bytes()),
        ("sheet", &old_sheet),
        ("message", &message),
    ];
    same("the older writes", &0, &number, data)?;
    let root = Record::plain(TABLE, pair.older.root);
    let new_value = append_gen::with_added(&pair.older, &pair.newer, &root, &value);
    let expected = sheet::encode(&pair.newer, &new_value);
    // The newer spends what the older does.
    let exact = value::spent(&pair.older, &value);
    let (accepted, more) = (accepted_with(exact), or_more(&mut context.rng, exact));
    for budget in [exact, more, Budget::LARGEST] {
        for schema in [&pair.old, &pair.new] {
            let verdict = context.judge(schema, &message, budget);
            same("older and newer accept", &accepted, &verdict, data)?;
        }
        let read = context.read(&pair.new, &message, budget, expected.len());
        same("the newer reads", &accepted, &read.0, data)?;
        same_bytes("the newer's sheet", &expected, &read.1, data)?;
    }
    context.counts.note("older messages read by the newer");
    let relations = context.relations;
    let added = relations.with_added(&pair.old, &pair.new, &old_sheet);
    same(
        "the sheet with what was added",
        &Some(expected),
        &added,
        data,
    )
}
