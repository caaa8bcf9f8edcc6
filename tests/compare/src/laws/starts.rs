//! Messages that fail before the walk.

use super::*;
use crate::message_gen;
use crate::schema::SIZE_LIMIT;
use crate::schema_gen;
use crate::value_gen::{self, Purpose};

/// A message too short, and one with a wrong magic.
pub fn check(context: &mut Context) -> Checked {
    let schema = schema_gen::lawful_schema(context.coding, &mut context.rng);
    let size = value_gen::some_size(&mut context.rng);
    let value = value_gen::root_value(&schema, &mut context.rng, Purpose::Wild, size);
    let wild = message_gen::lay_out(&schema, &mut context.rng, value, None);
    let packed = schema.pack();
    let header = context.coding.header();
    for length in [0, header - 1, context.rng.range(0, header - 1)] {
        refused(context, &packed, &wild.bytes[..length], 2)?;
    }
    let mut bytes = wild.bytes;
    let bit = context.rng.below(32);
    bytes[bit / 8] ^= 1 << (bit % 8);
    refused(context, &packed, &bytes, 3)?;
    bytes.truncate(header);
    refused(context, &packed, &bytes, 3)
}

/// Every function refuses the message with this number and nothing else.
pub fn refused(context: &mut Context, packed: &Packed, message: &[u8], number: u32) -> Checked {
    let data: Data = &[("schema", packed.bytes()), ("message", message)];
    let verdict = refused_at_start(number);
    let nothing = Budget {
        visits: 0,
        content: 0,
    };
    for budget in [nothing, Budget::of_visits(5), Budget::LARGEST] {
        let given = context.judge(packed, message, budget);
        same("judging a bad start", &verdict, &given, data)?;
    }
    let read = context.read(packed, message, nothing, SIZE_LIMIT);
    same("reading a bad start", &(verdict, Vec::new()), &read, data)?;
    for (steps, number) in [(0, number), (2, number), (96, number), (97, 15), (300, 15)] {
        let answer = super::refused(number, 0);
        let path = vec![0; steps];
        let field = context.field(packed, message, &path);
        same("a field of a bad start", &answer, &field, data)?;
        let list = context.program.list_steps(packed, message, &path, 1);
        same("a list of a bad start", &Err(answer), &list, data)?;
    }
    Ok(())
}
