//! The functions that read messages, by a schema with its own table of positions.

use reference::{positions, Answer, Budget, Lent, ListReader, Verdict};

/// Calls with the schema's table; with none if the schema is not lawful.
fn tabled<T>(coding: u32, schema: &[u8], call: impl FnOnce(Lent) -> T) -> T {
    let (_, positions) = positions(coding, schema, usize::MAX);
    call(Lent {
        coding,
        schema,
        positions: &positions,
    })
}

pub fn judge(coding: u32, schema: &[u8], message: &[u8], budget: Budget) -> Verdict {
    tabled(coding, schema, |lent| {
        reference::judge(lent, message, budget)
    })
}

pub fn read(
    coding: u32,
    schema: &[u8],
    message: &[u8],
    budget: Budget,
    room: usize,
) -> (Verdict, Vec<u8>) {
    tabled(coding, schema, |lent| {
        reference::read(lent, message, budget, room)
    })
}

pub fn field(coding: u32, schema: &[u8], message: &[u8], path: &[u32]) -> Answer {
    tabled(coding, schema, |lent| reference::field(lent, message, path))
}

pub fn text(coding: u32, schema: &[u8], message: &[u8], path: &[u32]) -> Option<(usize, usize)> {
    tabled(coding, schema, |lent| reference::text(lent, message, path))
}

pub fn list_reader<'a>(
    coding: u32,
    schema: &[u8],
    message: &'a [u8],
    path: &[u32],
) -> Result<ListReader<'a>, Answer> {
    tabled(coding, schema, |lent| ListReader::new(lent, message, path))
}
