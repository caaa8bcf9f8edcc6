//! Texts and bytes that are wholly lawful and within what is left: what is judged in loops, without a
//! word on why another is refused.

use crate::text::is_text;
use crate::wire::{header_at, Coding, BYTES_MAGIC, TEXT_MAGIC};
use crate::Budget;

/// What is left after a visit with so much content, if it is enough.
#[inline(always)]
pub fn less(left: Budget, content: usize) -> Option<Budget> {
    Some(Budget {
        visits: left.visits.checked_sub(1)?,
        content: left.content.checked_sub(content as u64)?,
    })
}

/// What is left after the text at a place, if it is lawful.
#[inline(always)]
pub fn after_text<C: Coding>(message: &[u8], place: usize, left: Budget) -> Option<Budget> {
    let (magic, length) = header_at::<C>(message, place)?;
    let end = place + C::HEADER + length;
    if magic != TEXT_MAGIC || message.get(end) != Some(&0) {
        return None;
    }
    // What is not within the allowance is not looked at.
    let left = less(left, length)?;
    is_text(&message[..end], length).then_some(left)
}

/// What is left after the bytes at a place, if they are lawful.
#[inline(always)]
pub fn after_bytes<C: Coding>(message: &[u8], place: usize, left: Budget) -> Option<Budget> {
    let (magic, length) = header_at::<C>(message, place)?;
    let fits = place + C::HEADER + length <= message.len();
    less(left, length).filter(|_| magic == BYTES_MAGIC && fits)
}
