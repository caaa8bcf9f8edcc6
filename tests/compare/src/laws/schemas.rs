//! Schemas that are not lawful.

use super::*;
use crate::schema_faults;
use crate::schema_gen;
use crate::schema_rules;
use crate::subjects;

/// A lawful schema, one with a rule broken, and damaged ones.
pub fn check(context: &mut Context) -> Checked {
    let packed = schema_gen::lawful_schema(context.coding, &mut context.rng).pack();
    judged(context, &packed, true)?;
    let rule = context.rng.pick(schema_faults::rules(context.coding));
    context
        .counts
        .note(&format!("schema rule broken: {rule:?}"));
    let broken = schema_faults::breaking(context.coding, &mut context.rng, rule);
    judged(context, &broken, false)?;
    for _ in 0..4 {
        let damaged = schema_faults::damaged(&mut context.rng, &packed);
        let lawful = schema_rules::parse(&damaged).is_some();
        context.counts.note(if lawful {
            "damaged schemas still lawful"
        } else {
            "damaged schemas not lawful"
        });
        judged(context, &damaged, lawful)?;
    }
    let (_, other) = subjects::made_for_the_other(context.coding, &mut context.rng);
    let lawful = schema_rules::parse(&other).is_some();
    context.counts.note(if lawful {
        "the other coding's schemas, lawful"
    } else {
        "the other coding's schemas, not lawful"
    });
    judged(context, &other, lawful)?;
    let length = context.rng.range(0, 12);
    let noise = Packed::new(context.coding, &context.rng.bytes(length));
    judged(context, &noise, schema_rules::parse(&noise).is_some())
}

/// Every function refuses an unlawful schema first.
fn judged(context: &mut Context, packed: &Packed, lawful: bool) -> Checked {
    let data: Data = &[("schema", packed.bytes())];
    let own = schema_rules::parse(packed).is_some();
    same("own rules", &lawful, &own, data)?;
    same("lawful", &lawful, &context.relations.lawful(packed), data)?;
    let length = context.rng.range(0, 60);
    let message = context.rng.bytes(length);
    let verdict = context.judge(packed, &message, AMPLE);
    if lawful {
        let expected = if length < context.coding.header() {
            2
        } else {
            3
        };
        return same("noise is no message", &expected, &verdict.number, data);
    }
    let refused = refused_at_start(1);
    same("judging by an unlawful schema", &refused, &verdict, data)?;
    let read = context.read(packed, &message, AMPLE, 100);
    same(
        "reading by an unlawful schema",
        &(refused, Vec::new()),
        &read,
        data,
    )?;
    let written = context.write(packed, &message, 100);
    same(
        "writing by an unlawful schema",
        &(1, Vec::new()),
        &written,
        data,
    )?;
    fields_refused(context, packed, &message, data)
}

/// Neither a field nor a list is read by an unlawful schema.
fn fields_refused(context: &mut Context, packed: &Packed, message: &[u8], data: Data) -> Checked {
    let answer = refused(1, 0);
    let steps = context.rng.pick(&[0, 3, 97]);
    let path = vec![0; steps];
    let field = context.field(packed, message, &path);
    same("a field by an unlawful schema", &answer, &field, data)?;
    let list = context.program.list_steps(packed, message, &path, 1);
    same("a list by an unlawful schema", &Err(answer), &list, data)
}
