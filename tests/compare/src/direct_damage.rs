//! One number of a direct list's header changed.

use crate::message_gen::{over_count, Arrival, Wild};
use crate::rng::Rng;
use crate::schema::{Schema, Slot};
use crate::subjects::Sort;

/// The message with one number of a direct list changed, as the sort says.
pub fn changed(schema: &Schema, rng: &mut Rng, wild: &Wild, list: &Arrival, sort: Sort) -> Vec<u8> {
    let mut message = wild.bytes.clone();
    let (slots, full) = schema.slots(list.argument);
    let full = full as u64;
    let (at, number, width) = match sort {
        Sort::DirectMagic => (0, other_id(schema, rng, 0xE2C6_CC05), 4),
        Sort::DirectId => {
            let id = schema.tables[usize::from(list.argument)].id;
            (10, other_id(schema, rng, id), 4)
        }
        Sort::DirectCountOver => (4, over_count(rng), 6),
        Sort::DirectCount => (4, other_count(rng, list, message.len()), 6),
        Sort::DirectCutSize => (14, cut_size(rng, &slots, full), 4),
        Sort::DirectFullSize => (14, full, 4),
        Sort::DirectLongerSize => (14, full + 1 + rng.small(20) as u64, 4),
        Sort::DirectLargeSize => (14, large_size(rng, message.len()), 4),
        _ => (14, 0, 4),
    };
    let start = list.place as usize + at;
    message[start..start + width].copy_from_slice(&number.to_le_bytes()[..width]);
    // With as many bytes as the elements now take, more of them are judged.
    if rng.one_in(3) {
        let more = rng.range(1, 200);
        message.extend(if rng.coin() {
            vec![0; more]
        } else {
            rng.bytes(more)
        });
    }
    message
}

/// A table's id, another object's magic or a number near the right one.
fn other_id(schema: &Schema, rng: &mut Rng, right: u32) -> u64 {
    let table = schema.tables[rng.below(schema.tables.len())].id;
    let near = right ^ 1 << rng.below(32);
    let other = rng.pick(&[table, 0x3400_BB46, near, near]);
    u64::from(if other == right { near } else { other })
}

/// A count near the right one, near what fits, or as large as may be.
fn other_count(rng: &mut Rng, list: &Arrival, length: usize) -> u64 {
    let right = list.length;
    let fits = length as u64 / list.size.max(1);
    rng.pick(&[
        0,
        right + 1,
        right.saturating_sub(1),
        right + 7,
        fits,
        65_536,
        1 << 31,
        u64::from(u32::MAX) - 1,
        u64::from(u32::MAX),
    ])
}

/// A size that ends inside a member that has two bytes or more.
fn cut_size(rng: &mut Rng, slots: &[Slot], full: u64) -> u64 {
    let long: Vec<&Slot> = (slots.iter())
        .filter(|slot| slot.end() - slot.first() >= 2)
        .collect();
    if long.is_empty() {
        return rng.below(full as usize) as u64;
    }
    let slot = long[rng.below(long.len())];
    rng.range(slot.first() + 1, slot.end() - 1) as u64
}

/// A size that is larger than the message, or that makes a product that is.
fn large_size(rng: &mut Rng, length: usize) -> u64 {
    let largest = u64::from(u32::MAX);
    rng.pick(&[
        length as u64,
        65_536,
        1 << 24,
        1 << 31,
        largest - 1,
        largest,
    ])
}
