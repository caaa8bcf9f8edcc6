//! Counts what an accepted wild message has in it.

use crate::counts::Counts;
use crate::message_faults::Held;
use crate::message_gen::{Arrival, Wild};
use crate::schema::*;
use crate::value::Value;

/// Counts a message if it is accepted.
pub fn note(counts: &mut Counts, schema: &Schema, wild: &Wild) {
    if wild.number != 0 {
        return;
    }
    for arrival in &wild.arrivals {
        let kind = usize::from(arrival.kind);
        match arrival.held {
            Held::ByOffset => counts.by_offset[kind] += 1,
            Held::InPlace => counts.in_place[kind] += 1,
            Held::Direct => note_element(counts, schema, arrival),
        }
        match arrival.kind {
            TABLE => note_table(counts, schema, arrival),
            DIRECT => note_direct(counts, arrival),
            _ => {}
        }
    }
    if wild.arrivals.iter().any(|a| a.depth == DEPTH_LIMIT) {
        counts.note("accepted messages of depth 32");
    }
    note_entries(counts, &wild.value);
    note_sharing(counts, schema, wild);
}

fn note_table(counts: &mut Counts, schema: &Schema, arrival: &Arrival) {
    let (slots, full) = schema.slots(arrival.argument);
    let length = arrival.length as usize;
    if length < full {
        counts.note("tables shorter than the schema");
    } else if length > full {
        counts.note("tables longer than the schema");
    }
    if slots.iter().any(|s| s.reach(length) == Reach::FlagOnly) {
        counts.note("flags of 0 with the value past the end");
    }
}

/// The sizes of direct elements, from none to longer than the schema.
fn note_element(counts: &mut Counts, schema: &Schema, arrival: &Arrival) {
    let (_, full) = schema.slots(arrival.argument);
    let length = arrival.length as usize;
    counts.note(match length {
        0 => "direct elements of no bytes",
        _ if length < full => "direct elements shorter than the schema",
        _ if length == full => "direct elements of the full size",
        _ => "direct elements longer than the schema",
    });
}

fn note_direct(counts: &mut Counts, arrival: &Arrival) {
    counts.note(match arrival.length {
        0 => "direct lists of no elements",
        1..=49 => "direct lists of elements",
        _ => "direct lists of 50 or more elements",
    });
}

fn note_entries(counts: &mut Counts, value: &Value) {
    match value {
        Value::Unknown(_) => counts.note("unknown enums and choices"),
        Value::Struct(parts) => {
            counts.note("structs");
            parts.iter().for_each(|part| note_entries(counts, part));
        }
        Value::Table(parts) | Value::List(parts) => {
            parts.iter().for_each(|part| note_entries(counts, part));
        }
        Value::Union(_, object) => {
            counts.note("unions with an object");
            note_entries(counts, object);
        }
        _ => {}
    }
}

/// The bytes of an object held by offset, without what it holds in place.
fn extent(schema: &Schema, arrival: &Arrival) -> (u64, u64) {
    let content = schema.content(arrival.kind, arrival.argument, arrival.length);
    let more = match arrival.kind {
        TEXT => 1,
        DIRECT => arrival.length * arrival.size,
        _ => 0,
    };
    let start = arrival.place + schema.header(arrival.kind) as u64;
    (arrival.place, start + content + more)
}

/// Counts objects that are reached again, and those that overlap others.
fn note_sharing(counts: &mut Counts, schema: &Schema, wild: &Wild) {
    let mut extents: Vec<(u64, u64)> = (wild.arrivals.iter())
        .filter(|arrival| arrival.held == Held::ByOffset)
        .map(|arrival| extent(schema, arrival))
        .collect();
    let arrivals = extents.len();
    extents.sort_unstable();
    extents.dedup();
    let again = arrivals - extents.len();
    counts.add("arrivals at shared objects", again as u64);
    if again >= 50 {
        counts.note("messages with 50 or more shared arrivals");
    }
    let mut end = 0;
    for (from, to) in extents {
        if from < end {
            counts.note("objects that overlap others");
        }
        end = end.max(to);
    }
}
