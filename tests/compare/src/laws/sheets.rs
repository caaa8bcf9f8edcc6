//! Sheets that are not lawful or cannot be written.

use super::*;
use crate::bits;
use crate::canonical;
use crate::damage;
use crate::schema::*;
use crate::schema_gen;
use crate::sheet::{self, MarkSite};
use crate::sheet_faults;
use crate::value::{self, Value};
use crate::value_gen::{self, Purpose, Size};

/// One value, its sheet broken in several ways.
pub fn check(context: &mut Context) -> Checked {
    if context.rng.one_in(12) {
        return too_deep(context);
    }
    let schema = schema_gen::lawful_schema(context.coding, &mut context.rng);
    let size = value_gen::some_size(&mut context.rng);
    let purpose = context.rng.pick(&[Purpose::Writable, Purpose::Wild]);
    let value = value_gen::root_value(&schema, &mut context.rng, purpose, size);
    let packed = schema.pack();
    unlawful(context, &schema, &packed, &value)?;
    if purpose == Purpose::Writable {
        for _ in 0..2 {
            unwritable(context, &schema, &packed, &value)?;
        }
    }
    let sheet = sheet::encode(&schema, &value);
    for _ in 0..3 {
        let damaged = damage::sheet(&mut context.rng, &sheet);
        written(context, &schema, &packed, &damaged)?;
    }
    Ok(())
}

/// Writes any bytes as a sheet; what must come of it is known.
pub fn written(context: &mut Context, schema: &Schema, packed: &Packed, bytes: &[u8]) -> Checked {
    let data: Data = &[("schema", packed.bytes()), ("sheet", bytes)];
    let Some(value) = sheet::decode(schema, bytes) else {
        return refused(context, packed, bytes, 11, "a sheet that is not lawful");
    };
    same_bytes(
        "a lawful sheet is its value's",
        &sheet::encode(schema, &value),
        bytes,
        data,
    )?;
    if !value::writable(schema, &value) {
        return refused(context, packed, bytes, 12, "a sheet that is not writable");
    }
    let message = canonical::message(schema, &value);
    round_trip::writing(context, packed, bytes, &message, data)
}

/// Writing refuses, whatever the room.
fn refused(
    context: &mut Context,
    packed: &Packed,
    bytes: &[u8],
    number: u32,
    law: &str,
) -> Checked {
    let data: Data = &[("schema", packed.bytes()), ("sheet", bytes)];
    for room in [SIZE_LIMIT, 0] {
        let given = context.write(packed, bytes, room);
        same(law, &(number, Vec::new()), &given, data)?;
    }
    Ok(())
}

/// Each way of not being lawful that has a place in this sheet.
fn unlawful(context: &mut Context, schema: &Schema, packed: &Packed, value: &Value) -> Checked {
    let encoded = sheet::encode_with_sites(schema, value);
    let (sheet, used) = (encoded.bytes, encoded.bits);
    if !encoded.marks.is_empty() {
        for _ in 0..2 {
            let site = context.rng.pick(&encoded.marks);
            bad_mark(context, schema, packed, &sheet, site)?;
        }
    }
    if used % 8 != 0 {
        let mut bad = sheet.clone();
        let at = context.rng.range(used, 8 * sheet.len() - 1);
        bits::overwrite(&mut bad, at, 1, 1);
        refused(context, packed, &bad, 11, "padding that is not zero")?;
    }
    let mut longer = sheet.clone();
    longer.push(context.rng.pick(&[0, 0, 1, 255]));
    refused(context, packed, &longer, 11, "a sheet with a byte more")?;
    if let Some((_, shorter)) = sheet.split_last() {
        refused(context, packed, shorter, 11, "a sheet with a byte less")?;
    }
    Ok(())
}

/// A mark, or the number after it, that is not lawful.
fn bad_mark(
    context: &mut Context,
    schema: &Schema,
    packed: &Packed,
    sheet: &[u8],
    site: MarkSite,
) -> Checked {
    let mut bad = sheet.to_vec();
    let kind = site.record.kind;
    let numbered = (kind == ENUM || kind == UNION) && site.mark != 0;
    if numbered && context.rng.coin() {
        let width = if kind == ENUM { 8 } else { 16 };
        let number = wrong_number(context, schema, site);
        bits::overwrite(&mut bad, site.bit + 2, width, u64::from(number));
        return refused(context, packed, &bad, 11, "a number against its mark");
    }
    if kind != ENUM && kind != UNION && context.rng.coin() {
        bits::overwrite(&mut bad, site.bit, 2, 2);
        return refused(context, packed, &bad, 11, "unknown, but no enum or union");
    }
    bits::overwrite(&mut bad, site.bit, 2, 3);
    refused(context, packed, &bad, 11, "mark 3")
}

/// A number that its mark does not allow.
fn wrong_number(context: &mut Context, schema: &Schema, site: MarkSite) -> u16 {
    let rng = &mut context.rng;
    let argument = site.record.argument;
    if site.record.kind == ENUM {
        let known = rng.below(usize::from(argument)) as u16;
        return match (site.mark, rng.coin()) {
            (1, true) if argument < 255 => value_gen::unknown_enum(rng, argument),
            (2, true) => known,
            _ => 255,
        };
    }
    let cases = schema.unions[usize::from(argument)].len();
    match (site.mark, rng.coin()) {
        (1, true) => value_gen::unknown_choice(rng, cases),
        (2, true) => rng.range(1, cases) as u16,
        _ => 0,
    }
}

/// A writable value changed in one place so that it is not.
fn unwritable(context: &mut Context, schema: &Schema, packed: &Packed, value: &Value) -> Checked {
    let Some((value, name)) = sheet_faults::unwritable(schema, &mut context.rng, value) else {
        context
            .counts
            .note("values with nothing to make unwritable");
        return Ok(());
    };
    context.counts.note(name);
    let encoded = sheet::encode_with_sites(schema, &value);
    for bit in encoded.no_texts {
        context.counts.note(&sheet_faults::no_text_from(bit));
    }
    let bytes = encoded.bytes;
    let data: Data = &[("schema", packed.bytes()), ("sheet", &bytes)];
    same(
        "unwritable by own rules",
        &false,
        &value::writable(schema, &value),
        data,
    )?;
    refused(context, packed, &bytes, 12, name)?;
    let mut both = bytes;
    both.push(0);
    refused(
        context,
        packed,
        &both,
        11,
        "not lawful comes before not writable",
    )
}

/// Sheets of depth 32 and 33.
fn too_deep(context: &mut Context) -> Checked {
    let (coding, rng) = (context.coding, &mut context.rng);
    let schema = schema_gen::recursive(coding, rng);
    let depth = DEPTH_LIMIT + rng.range(0, 2) as u32;
    let size = Size {
        objects: rng.range(1, 30),
        depth,
        spine: depth,
    };
    let value = value_gen::root_value(&schema, rng, Purpose::Writable, size);
    let packed = schema.pack();
    let bytes = sheet::encode(&schema, &value);
    if value::depth(&value) > DEPTH_LIMIT {
        context.counts.note("sheets deeper than 32");
        return refused(context, &packed, &bytes, 11, "a sheet deeper than 32");
    }
    context.counts.note("deep sheets of at most 32");
    written(context, &schema, &packed, &bytes)
}
