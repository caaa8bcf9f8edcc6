//! Writing a writable sheet and reading it back.

use super::*;
use crate::canonical;
use crate::schema_gen;
use crate::sheet;
use crate::value;
use crate::value_gen::{self, Purpose};

/// One writable sheet.
pub fn check(context: &mut Context) -> Checked {
    let schema = schema_gen::lawful_schema(context.coding, &mut context.rng);
    let size = value_gen::some_size(&mut context.rng);
    let value = value_gen::root_value(&schema, &mut context.rng, Purpose::Writable, size);
    let packed = schema.pack();
    let sheet = sheet::encode(&schema, &value);
    let message = canonical::message(&schema, &value);
    let spent = value::spent(&schema, &value);
    if crate::value::depth(&value) == 32 {
        context.counts.note("writable values of depth 32");
    }
    let data: Data = &[
        ("schema", packed.bytes()),
        ("sheet", &sheet),
        ("message", &message),
    ];
    writing(context, &packed, &sheet, &message, data)?;
    reading(context, &packed, &sheet, &message, spent, data)
}

/// Writing gives the message where there is room for it.
pub fn writing(
    context: &mut Context,
    packed: &Packed,
    sheet: &[u8],
    message: &[u8],
    data: Data,
) -> Checked {
    let (number, written) = context.write(packed, sheet, message.len());
    same("writing a writable sheet", &0, &number, data)?;
    same_bytes("the written message", message, &written, data)?;
    let refused = context.write(packed, sheet, message.len() - 1);
    same("writing without room", &(14, Vec::new()), &refused, data)
}

/// Judging and reading the message accept it with just enough, and with less of
/// either allowance refuse it.
pub fn reading(
    context: &mut Context,
    packed: &Packed,
    sheet: &[u8],
    message: &[u8],
    exact: Budget,
    data: Data,
) -> Checked {
    let accepted = accepted_with(exact);
    for budget in [exact, Budget::LARGEST] {
        let verdict = context.judge(packed, message, budget);
        same("judging with enough budget", &accepted, &verdict, data)?;
        let (verdict, given) = context.read(packed, message, budget, sheet.len());
        same("reading with enough room", &accepted, &verdict, data)?;
        same_bytes("the sheet read", sheet, &given, data)?;
    }
    let visits = exact.visits - 1;
    let fewer = Budget { visits, ..exact };
    let short = context.judge(packed, message, fewer);
    visits_spent("a visit less", visits, short, data)?;
    let refused = context.read(packed, message, fewer, sheet.len());
    same("a visit less", &(short, Vec::new()), &refused, data)?;
    if let Some(content) = exact.content.checked_sub(1) {
        let less = Budget { content, ..exact };
        let short = context.judge(packed, message, less);
        content_spent("a byte less", less, short, data)?;
        let refused = context.read(packed, message, less, sheet.len());
        same("a byte less", &(short, Vec::new()), &refused, data)?;
    }
    if sheet.is_empty() {
        return Ok(());
    }
    let no_room = Verdict {
        number: 14,
        ..accepted
    };
    let refused = context.read(packed, message, exact, sheet.len() - 1);
    same("no room", &(no_room, Vec::new()), &refused, data)
}
