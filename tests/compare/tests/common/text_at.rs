//! Which texts of a message or a sheet are none, for programs that are wrong about
//! them.

use compare::coding::Coding;
use compare::schema::Packed;
use compare::schema_rules;
use compare::sheet;
use compare::text_gen::is_text;
use compare::value::texts_are_text;

/// The length of the text by offset at this place, if its bytes are no text.
pub fn no_text_at(schema: &Packed, message: &[u8], place: u64) -> Option<u64> {
    let coding = Coding::of(schema.coding())?;
    let object = message.get(place as usize..)?;
    let (magic, rest) = object.split_at_checked(4)?;
    let (length, content) = rest.split_at_checked(coding.offset())?;
    let mut number = [0; 8];
    number[..length.len()].copy_from_slice(length);
    let length = u64::from_le_bytes(number);
    let bytes = content.get(..usize::try_from(length).ok()?)?;
    (magic == 0xD812_C8F5u32.to_le_bytes() && !is_text(bytes)).then_some(length)
}

/// Whether a lawful sheet has a text that is none.
pub fn has_no_text(schema: &Packed, bytes: &[u8]) -> bool {
    let schema = schema_rules::parse(schema);
    let value = schema
        .as_ref()
        .and_then(|schema| sheet::decode(schema, bytes));
    schema
        .zip(value)
        .is_some_and(|(schema, value)| !texts_are_text(&schema, &value))
}
