//! Random damage to messages and sheets.

use crate::canvas::Spot;
use crate::coding::Coding;
use crate::message_gen::Wild;
use crate::rng::Rng;
use crate::text_gen;

/// A damaged message of a coding.
pub fn message(coding: Coding, rng: &mut Rng, wild: &Wild) -> Vec<u8> {
    let (spots, texts) = (&wild.spots, &wild.texts);
    let mut out = wild.bytes.clone();
    if !texts.is_empty() && rng.one_in(6) {
        let text = texts[rng.below(texts.len())];
        in_text(rng, &mut out, text);
        return out;
    }
    if !out.is_empty() && rng.one_in(3) {
        // A single bit: the gentlest, so that many stay accepted.
        let at = rng.below(out.len());
        out[at] ^= 1 << rng.below(8);
        return out;
    }
    let times = if rng.coin() { 1 } else { rng.range(2, 4) };
    for _ in 0..times {
        if !spots.is_empty() && rng.coin() {
            let spot = spots[rng.below(spots.len())];
            at_spot(coding, rng, &mut out, spot);
        } else {
            anywhere(coding, rng, &mut out);
        }
    }
    out
}

/// Damage inside a text, which is behind it another byte: its end byte.
pub fn in_text(rng: &mut Rng, out: &mut [u8], text: Spot) {
    let (content, end) = out[text.position..].split_at_mut(text.width);
    let at = rng.below(content.len());
    let mut put = |bytes: &[u8]| {
        let end = (at + bytes.len()).min(content.len());
        content[at..end].copy_from_slice(&bytes[..end - at]);
    };
    match rng.below(8) {
        0 => put(&[rng.bits() as u8]),
        1 => put(&[rng.pick(&[0x80, 0xBF, 0xC0, 0xC2, 0xE0, 0xED, 0xF0, 0xF4, 0xF5, 0xFF])]),
        2 | 3 => put(&text_gen::no_text_of(rng, 1)),
        // A text in a text: it may cut characters before and behind it.
        4 => put(&text_gen::text(rng, 4)),
        5 => {
            let last = content.len() - 1;
            content[last] |= 0xC0;
        }
        6 => {
            content[at] |= 0x80;
            end[0] = rng.pick(&[0, 0, 1, 0x80]);
        }
        _ => content[at] ^= 0x80,
    }
}

/// A number at an edge, for a message of `length` bytes.
fn edge(coding: Coding, rng: &mut Rng, length: usize) -> u64 {
    let (length, header) = (length as u64, coding.header() as u64);
    let near = (length + 14).saturating_sub(rng.below(30) as u64);
    let edges = [
        0,
        1,
        header - 1,
        header,
        header + 1,
        length.saturating_sub(header),
        length.saturating_sub(1),
        length,
        length + 1,
        near,
        0xFFFF,
        0x1_0000,
        (1 << 24) - 1,
        1 << 24,
        (1 << 32) - 1,
        coding.largest() / 65_536 + 1,
        coding.largest() / 8 + 1,
        coding.largest(),
    ];
    rng.pick(&edges)
}

fn at_spot(coding: Coding, rng: &mut Rng, out: &mut [u8], spot: Spot) {
    let end = (spot.position + spot.width).min(out.len());
    if spot.position >= end {
        return;
    }
    let field = &out[spot.position..end];
    let mut old = [0; 8];
    old[..field.len()].copy_from_slice(field);
    let old = u64::from_le_bytes(old);
    let new = match rng.below(6) {
        0 => old.wrapping_add(1),
        1 => old.wrapping_sub(1),
        2 => old ^ 1 << rng.below(8 * spot.width),
        3 => rng.below(out.len() + 1) as u64,
        4 => rng.below(8) as u64,
        _ => edge(coding, rng, out.len()),
    };
    let width = end - spot.position;
    out[spot.position..end].copy_from_slice(&new.to_le_bytes()[..width]);
}

/// Damage at a random place.
fn anywhere(coding: Coding, rng: &mut Rng, out: &mut Vec<u8>) {
    if out.is_empty() {
        return;
    }
    let at = rng.below(out.len());
    match rng.below(9) {
        0 => out.truncate(at),
        1 => out.truncate(out.len() - 1),
        2 => {
            let count = rng.range(1, 8);
            out.splice(at..at, rng.bytes(count));
        }
        3 => {
            let end = (at + rng.range(1, 8)).min(out.len());
            out.drain(at..end);
        }
        4 => {
            let number = edge(coding, rng, out.len()).to_le_bytes();
            let end = (at + coding.offset()).min(out.len());
            out[at..end].copy_from_slice(&number[..end - at]);
        }
        5 => out[at] = rng.bits() as u8,
        _ => out[at] ^= 1 << rng.below(8),
    }
}

/// A damaged sheet.
pub fn sheet(rng: &mut Rng, sheet: &[u8]) -> Vec<u8> {
    let mut out = sheet.to_vec();
    for _ in 0..rng.range(1, 2) {
        match rng.below(6) {
            0 => out.push(0),
            1 => out.truncate(rng.below(out.len() + 1)),
            2 => {
                out.pop();
            }
            _ if out.is_empty() => out.push(rng.bits() as u8),
            3 => {
                let last = out.len() - 1;
                out[last] ^= 1 << rng.below(7);
            }
            _ => {
                let at = rng.below(out.len());
                out[at] ^= 1 << rng.below(8);
            }
        }
    }
    out
}
