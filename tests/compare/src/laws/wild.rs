//! Messages laid out at random, with at most one fault.

use super::*;
use crate::message_faults::{self, Fault};
use crate::message_gen::{self, Wild};
use crate::schema::{Schema, DEPTH_LIMIT, SIZE_LIMIT};
use crate::schema_gen;
use crate::sheet;
use crate::value::{self, Value};
use crate::value_gen::{self, Purpose, Size};

/// One wild message.
pub fn check(context: &mut Context) -> Checked {
    let (schema, value) = schema_and_value(context);
    let fault = if context.rng.coin() {
        choose_fault(&schema, context, &value)
    } else {
        None
    };
    let wild = message_gen::lay_out(&schema, &mut context.rng, value, fault);
    census::note(context.counts, &schema, &wild);
    if wild.number == 16 {
        let held = wild.arrivals[wild.walked.len() - 1].held;
        context.counts.note(&format!("no text: {held:?}"));
    }
    let packed = schema.pack();
    let data: Data = &[("schema", packed.bytes()), ("message", &wild.bytes)];
    verdicts(context, &packed, &wild, data)?;
    if wild.number == 0 {
        sheet_of(context, &schema, &packed, &wild, data)?;
    }
    super::fields::on_wild(context, &schema, &packed, &wild, data)
}

/// A schema and a value; now and then one that is too deep, or has texts that are
/// none.
fn schema_and_value(context: &mut Context) -> (Schema, Value) {
    let (coding, rng) = (context.coding, &mut context.rng);
    let deep = rng.one_in(25);
    let schema = if deep {
        schema_gen::recursive(coding, rng)
    } else {
        schema_gen::lawful_schema(coding, rng)
    };
    let mut size = value_gen::some_size(rng);
    if deep {
        size = Size {
            objects: rng.range(1, 40),
            depth: DEPTH_LIMIT + rng.range(0, 2) as u32,
            spine: DEPTH_LIMIT + rng.range(0, 2) as u32,
        };
    }
    let mut value = value_gen::root_value(&schema, rng, Purpose::Wild, size);
    if rng.one_in(5) {
        value = value_gen::with_bad_texts(&schema, rng, &value).unwrap_or(value);
    }
    (schema, value)
}

/// A fault, counted by its kind.
fn choose_fault(schema: &Schema, context: &mut Context, value: &Value) -> Option<Fault> {
    let fault = message_faults::choose(schema, &mut context.rng, value);
    context
        .counts
        .note(&format!("message faults: {}", fault.kind.name()));
    Some(fault)
}

/// Budgets around what the walk spends: visits alone, content alone, and both.
fn budgets(rng: &mut Rng, exact: Budget) -> [Budget; 12] {
    let Budget { visits, content } = exact;
    let some = |rng: &mut Rng| Budget {
        visits: rng.below(visits as usize + 1) as u32,
        content: rng.below(content as usize + 1) as u64,
    };
    let of_content = |content| Budget {
        content,
        ..Budget::LARGEST
    };
    [
        Budget::LARGEST,
        exact,
        Budget::of_visits(visits.saturating_sub(1)),
        Budget::of_visits(some(rng).visits),
        Budget::of_visits(1),
        Budget::of_visits(0),
        of_content(content.saturating_sub(1)),
        of_content(some(rng).content),
        of_content(some(rng).content),
        of_content(0),
        some(rng),
        some(rng),
    ]
}

/// The verdicts with many budgets.
fn verdicts(context: &mut Context, packed: &Packed, wild: &Wild, data: Data) -> Checked {
    for budget in budgets(&mut context.rng, wild.spent()) {
        let expected = wild.expected(budget);
        let verdict = context.judge(packed, &wild.bytes, budget);
        let law = format!("verdict with {budget:?}, fault {:?}", wild.fault);
        same(&law, &expected, &verdict, data)?;
        if let Some(again) = context.program.judge_unpacked(packed, &wild.bytes, budget) {
            same("judging by an unpacked schema", &expected, &again, data)?;
        }
        if expected.number != 0 {
            let read = context.read(packed, &wild.bytes, budget, SIZE_LIMIT);
            same(
                "reading a refused message",
                &(expected, Vec::new()),
                &read,
                data,
            )?;
        }
    }
    Ok(())
}

/// The sheet is the encoder's; writing it back goes by what it holds.
fn sheet_of(
    context: &mut Context,
    schema: &Schema,
    packed: &Packed,
    wild: &Wild,
    data: Data,
) -> Checked {
    let expected = sheet::encode(schema, &wild.value);
    let exact = wild.spent();
    let read = context.read(packed, &wild.bytes, exact, expected.len());
    same(
        "reading an accepted message",
        &wild.expected(exact),
        &read.0,
        data,
    )?;
    same_bytes("the sheet of a wild message", &expected, &read.1, data)?;
    if !expected.is_empty() {
        let read = context.read(packed, &wild.bytes, exact, expected.len() - 1);
        let no_room = Verdict {
            number: 14,
            ..wild.expected(exact)
        };
        same("reading without room", &(no_room, Vec::new()), &read, data)?;
    }
    super::sheets::written(context, schema, packed, &expected)?;
    if !value::writable(schema, &wild.value) {
        context
            .counts
            .note("accepted messages with an unwritable sheet");
    }
    Ok(())
}
