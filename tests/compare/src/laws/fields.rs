//! Reading single fields and stepping through lists.

use super::*;
use crate::lookup::Known;
use crate::message_gen::Wild;
use crate::paths;
use crate::schema::Record;
use crate::schema::{Schema, TABLE, TEXT};
use crate::text_gen::is_text;
use crate::value::Value;

/// Fields of a message whose layout is known, fault or not.
pub fn on_wild(
    context: &mut Context,
    schema: &Schema,
    packed: &Packed,
    wild: &Wild,
    data: Data,
) -> Checked {
    let known = Known {
        schema,
        root: &wild.value,
        wild: Some(wild),
    };
    some_fields(context, &known, packed, &wild.bytes, data)?;
    some_lists(context, &known, packed, &wild.bytes, data)
}

/// Fields of an accepted message of which only the value is known.
pub fn on_accepted(
    context: &mut Context,
    schema: &Schema,
    packed: &Packed,
    message: &[u8],
    value: &Value,
    data: Data,
) -> Checked {
    let known = Known {
        schema,
        root: value,
        wild: None,
    };
    some_fields(context, &known, packed, message, data)?;
    some_lists(context, &known, packed, message, data)
}

fn some_fields(
    context: &mut Context,
    known: &Known,
    packed: &Packed,
    message: &[u8],
    data: Data,
) -> Checked {
    for _ in 0..5 {
        let path = paths::random_path(known.schema, &mut context.rng, known.root);
        let answer = context.field(packed, message, &path);
        let Some(hint) = known.answer(&path) else {
            context.counts.note("field answers not foreseen");
            continue;
        };
        if !hint.agrees(&answer, message) {
            let detail = format!("path {path:?}\n  expected {hint:?}\n  given {answer:?}");
            return fail("field answer", &detail, data);
        }
        text_at(context, packed, message, &path, answer, data)?;
    }
    Ok(())
}

/// A text or bytes are had as a part of the message exactly where the field is
/// such, with its length; and a text is text.
fn text_at(
    context: &mut Context,
    packed: &Packed,
    message: &[u8],
    path: &[u32],
    answer: Answer,
    data: Data,
) -> Checked {
    let part = context.program.text(packed, message, path);
    let (kind, expected) = match answer {
        Answer::Object { kind, length, .. } if matches!(kind, 13 | 14) => (kind, Some(length)),
        _ => (0, None),
    };
    let length = part.as_ref().map(|bytes| bytes.len() as u64);
    same("a part where the field has one", &expected, &length, data)?;
    let lawful = kind != 13 || part.is_some_and(|bytes| is_text(&bytes));
    same("a text is text", &true, &lawful, data)
}

fn some_lists(
    context: &mut Context,
    known: &Known,
    packed: &Packed,
    message: &[u8],
    data: Data,
) -> Checked {
    let lists = paths::list_paths(known.schema, known.root);
    if !lists.is_empty() {
        let path = &lists[context.rng.below(lists.len())];
        one_list(context, known, packed, message, path, data)?;
    }
    if lists.is_empty() || context.rng.one_in(3) {
        let path = paths::random_path(known.schema, &mut context.rng, known.root);
        one_list(context, known, packed, message, &path, data)?;
    }
    Ok(())
}

/// The elements' kind and the count of a list at a path.
fn list_at(schema: &Schema, root: &Value, path: &[u32]) -> Option<(u8, usize)> {
    let mut record = Record::plain(TABLE, schema.root);
    let mut value = root;
    for step in path {
        let parts = match value {
            Value::Table(parts) | Value::List(parts) | Value::Struct(parts) => parts,
            _ => return None,
        };
        let part = parts.get(*step as usize)?;
        record = paths::part_record(schema, &record, value, *step as usize);
        value = part;
        if let Value::Union(choice, object) = value {
            let cases = &schema.unions[usize::from(record.argument)];
            record = cases[usize::from(*choice) - 1];
            value = object;
        }
    }
    match value {
        Value::List(parts) => Some((schema.element_of(&record).kind, parts.len())),
        _ => None,
    }
}

/// The list reader at a path answers as the elements' paths do.
fn one_list(
    context: &mut Context,
    known: &Known,
    packed: &Packed,
    message: &[u8],
    path: &[u32],
    data: Data,
) -> Checked {
    if known.answer(path).is_none() {
        return Ok(());
    }
    let start = context.program.field(packed, message, path);
    let list = list_at(known.schema, known.root, path).filter(|(kind, _)| *kind >= TEXT);
    let steps = list.map_or(3, |(_, count)| count + 2);
    let given = context.program.list_steps(packed, message, path, steps);
    let law = format!("list reader at {path:?}");
    let expected = match (start, list) {
        (Answer::Refused { .. }, _) => Err(start),
        (Answer::Object { place, .. }, Some((_, count))) => {
            context.counts.note("list readers stepped through");
            let mut answers = element_answers(context, packed, message, path, count);
            answers.resize(steps, refused(15, place));
            Ok(answers)
        }
        _ => Err(refused(15, 0)),
    };
    if let Err(answer) = &given {
        context.counts.note("list readers refused");
        context.count_field(answer);
    }
    same(&law, &expected, &given, data)
}

fn element_answers(
    context: &mut Context,
    packed: &Packed,
    message: &[u8],
    path: &[u32],
    count: usize,
) -> Vec<Answer> {
    let mut answers = Vec::new();
    for i in 0..count {
        let mut element = path.to_vec();
        element.push(i as u32);
        answers.push(context.field(packed, message, &element));
    }
    answers
}
