//! Damaged messages: whatever the verdict is, it must be of one piece.

use super::*;
use crate::canonical;
use crate::damage;
use crate::message_gen;
use crate::paths;
use crate::schema::{Schema, SIZE_LIMIT};
use crate::schema_gen;
use crate::sheet;
use crate::value::{has_union_in_place, objects, texts_are_text, writable, Value};
use crate::value_gen::{self, Purpose};

/// One message with several damages of it.
pub fn check(context: &mut Context) -> Checked {
    let schema = schema_gen::lawful_schema(context.coding, &mut context.rng);
    let size = value_gen::some_size(&mut context.rng);
    let value = value_gen::root_value(&schema, &mut context.rng, Purpose::Wild, size);
    let wild = message_gen::lay_out(&schema, &mut context.rng, value, None);
    let packed = schema.pack();
    for _ in 0..3 {
        let bytes = damage::message(context.coding, &mut context.rng, &wild);
        one(context, &schema, &packed, &bytes, &wild.value)?;
    }
    Ok(())
}

/// The verdict, the sheet, the fields and other budgets agree.
fn one(
    context: &mut Context,
    schema: &Schema,
    packed: &Packed,
    bytes: &[u8],
    value: &Value,
) -> Checked {
    let data: Data = &[("schema", packed.bytes()), ("message", bytes)];
    let verdict = context.judge(packed, bytes, AMPLE);
    let (again, given) = context.read(packed, bytes, AMPLE, SIZE_LIMIT);
    same("reading gives the verdict", &verdict, &again, data)?;
    if verdict.number == 4 {
        return visits_spent("visits of a spent budget", AMPLE.visits, verdict, data);
    }
    members_of_refusals(verdict, data)?;
    other_budgets(context, packed, bytes, verdict, data)?;
    if verdict.number != 0 {
        context.counts.note("damaged messages refused");
        same_bytes("no sheet on refusal", &[], &given, data)?;
        return fields_of_refused(context, schema, packed, bytes, verdict, value);
    }
    accepted_one(context, schema, packed, bytes, &given, verdict.visits)
}

/// 8 and 9 are about a member, 10 may be, and nothing else is.
fn members_of_refusals(verdict: Verdict, data: Data) -> Checked {
    let has_one = verdict.member != NO_MEMBER;
    let fits = match verdict.number {
        8 | 9 => has_one,
        10 => true,
        _ => !has_one,
    };
    same("a member of 8, 9 and 10 alone", &true, &fits, data)
}

/// An accepted message: its sheet is lawful and all else agrees with it.
fn accepted_one(
    context: &mut Context,
    schema: &Schema,
    packed: &Packed,
    bytes: &[u8],
    given: &[u8],
    visits: u32,
) -> Checked {
    let data: Data = &[("schema", packed.bytes()), ("message", bytes)];
    context.counts.note("damaged messages accepted");
    let Some(value) = sheet::decode(schema, given) else {
        return fail("the sheet read is lawful", &hex(given), data);
    };
    same_bytes(
        "the sheet is its value's",
        &sheet::encode(schema, &value),
        given,
        data,
    )?;
    same(
        "every text is text",
        &true,
        &texts_are_text(schema, &value),
        data,
    )?;
    same(
        "visits are the objects",
        &(objects(&value) as u32),
        &visits,
        data,
    )?;
    fields::on_accepted(context, schema, packed, bytes, &value, data)?;
    if writable(schema, &value) {
        let message = canonical::message(schema, &value);
        round_trip::writing(context, packed, given, &message, data)?;
    } else if has_union_in_place(schema, &value) && !context.coding.is_older() {
        moving::moved(context, schema, &value, given)?;
    }
    Ok(())
}

/// Fields of a refused message: refused alike before the walk, and each
/// answer of the list reader is that of its element's path.
fn fields_of_refused(
    context: &mut Context,
    schema: &Schema,
    packed: &Packed,
    bytes: &[u8],
    verdict: Verdict,
    value: &Value,
) -> Checked {
    let data: Data = &[("schema", packed.bytes()), ("message", bytes)];
    for _ in 0..2 {
        let path = paths::random_path(schema, &mut context.rng, value);
        let answer = context.field(packed, bytes, &path);
        let number = verdict.number;
        if number <= 3 && path.len() <= paths::PATH_LIMIT {
            same("a field of a bad start", &refused(number, 0), &answer, data)?;
        }
        let Ok(steps) = context.program.list_steps(packed, bytes, &path, 4) else {
            continue;
        };
        let Answer::Object { length, .. } = answer else {
            return fail("a list reader only at a list", &format!("{path:?}"), data);
        };
        for (i, step) in steps.iter().enumerate() {
            let mut element = path.clone();
            element.push((i as u64).min(length) as u32);
            let field = context.field(packed, bytes, &element);
            same("a step of the list reader", &field, step, data)?;
        }
    }
    Ok(())
}

/// A larger budget changes nothing, nor does one just large enough; with less of
/// either allowance that is what is spent.
fn other_budgets(
    context: &mut Context,
    packed: &Packed,
    bytes: &[u8],
    verdict: Verdict,
    data: Data,
) -> Checked {
    let Verdict {
        visits, content, ..
    } = verdict;
    let exact = Budget { visits, content };
    let more = or_more(&mut context.rng, exact);
    for budget in [exact, more, Budget::LARGEST] {
        let other = context.judge(packed, bytes, budget);
        same("budget changed", &verdict, &other, data)?;
    }
    if visits > 0 {
        let some = context.rng.below(visits as usize) as u32;
        for visits in [visits - 1, some] {
            let short = context.judge(packed, bytes, Budget { visits, ..exact });
            visits_spent("too few visits", visits, short, data)?;
        }
    }
    if content > 0 {
        let some = context.rng.below(content as usize) as u64;
        for content in [content - 1, some] {
            let budget = Budget { content, ..exact };
            let short = context.judge(packed, bytes, budget);
            content_spent("too little content", budget, short, data)?;
        }
    }
    Ok(())
}
