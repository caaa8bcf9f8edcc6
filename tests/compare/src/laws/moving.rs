//! Stored messages moved over to a schema without unions in place.

use super::*;
use crate::canonical;
use crate::message_gen;
use crate::schema::Schema;
use crate::schema_faults;
use crate::schema_gen;
use crate::schema_rules;
use crate::sheet;
use crate::subjects;
use crate::value::{self, Value};

/// One stored message, and its schema cleared. "The 32-bit coding keeps them": there the writer
/// keeps its round trip.
pub fn check(context: &mut Context) -> Checked {
    if context.coding.is_older() {
        return round_trip::check(context);
    }
    let (coding, rng) = (context.coding, &mut context.rng);
    let schema = match rng.one_in(4) {
        true => schema_gen::lawful_schema(coding, rng),
        false => schema_gen::with_union_in_place(coding, rng),
    };
    let value = subjects::some_value(rng, &schema, 12);
    let wild = message_gen::lay_out(&schema, rng, value, None);
    let packed = schema.pack();
    clearing(context, &packed, &schema)?;
    if wild.number != 0 {
        return Ok(());
    }
    let exact = wild.spent();
    let expected = sheet::encode(&schema, &wild.value);
    let read = context.read(&packed, &wild.bytes, exact, expected.len());
    let data: Data = &[("schema", packed.bytes()), ("message", &wild.bytes)];
    same_bytes("the sheet to move over", &expected, &read.1, data)?;
    moved(context, &schema, &wild.value, &read.1)
}

/// "only the in-place flag of those unions is cleared", where the schema is lawful and there is
/// room; of a damaged one too.
fn clearing(context: &mut Context, packed: &Packed, schema: &Schema) -> Checked {
    let damaged = schema_faults::damaged(&mut context.rng, packed);
    let parsed = schema_rules::parse(&damaged);
    for (packed, schema) in [(packed, Some(schema)), (&damaged, parsed.as_ref())] {
        let data: Data = &[("schema", packed.bytes())];
        let length = packed.bytes().len();
        let cleared = schema.map(|schema| schema.cleared().pack().bytes().to_vec());
        let with_room = cleared.map_or((1, Vec::new()), |cleared| (0, cleared));
        let without = (if with_room.0 == 0 { 14 } else { 1 }, Vec::new());
        for room in [length, length + 9] {
            let given = context.program.clear_unions(packed.bytes(), room);
            context.counts.answer(given.0);
            same("clearing a schema", &with_room, &given, data)?;
        }
        // Nothing is one too few where nothing is lawful.
        let given = (context.program).clear_unions(packed.bytes(), length.saturating_sub(1));
        context.counts.answer(given.0);
        same("clearing without room", &without, &given, data)?;
    }
    Ok(())
}

/// A sheet that was read from a stored message is written with the cleared schema, unless it could
/// not be written before, and read back.
pub fn moved(context: &mut Context, schema: &Schema, value: &Value, bytes: &[u8]) -> Checked {
    let cleared = schema.cleared();
    let packed = cleared.pack();
    let data: Data = &[("cleared", packed.bytes()), ("sheet", bytes)];
    let encoded = sheet::encode(&cleared, value);
    same_bytes("the sheet by the cleared schema", bytes, &encoded, data)?;
    if !value::was_writable(schema, value) {
        context
            .counts
            .note("stored messages: 12 for an older reason");
        let given = context.write(&packed, bytes, 0);
        return same("12 for an older reason", &(12, Vec::new()), &given, data);
    }
    let message = canonical::message(&cleared, value);
    round_trip::writing(context, &packed, bytes, &message, data)?;
    let spent = value::spent(&cleared, value);
    round_trip::reading(context, &packed, bytes, &message, spent, data)?;
    if value::has_union_in_place(schema, value) {
        context.counts.note("stored messages moved over");
        let given = context.write(&schema.pack(), bytes, message.len());
        let refused = (12, Vec::new());
        return same("a union present in place", &refused, &given, data);
    }
    Ok(())
}
