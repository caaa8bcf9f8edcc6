//! Random texts, and bytes that are none, each flawed in one way.

use crate::rng::Rng;

/// Whether bytes are text, as Rust's standard library has it: an opinion of its
/// own beside those of the two programs.
pub fn is_text(bytes: &[u8]) -> bool {
    std::str::from_utf8(bytes).is_ok()
}

/// Why bytes are no text.
#[derive(Clone, Copy, Debug, PartialEq, Eq)]
pub enum Flaw {
    /// A character in more bytes than it takes.
    Overlong,
    /// A character from U+D800 to U+DFFF.
    Surrogate,
    /// A character above U+10FFFF, of four bytes or more.
    Above,
    /// A byte that no character has: C0, C1, F5 to FF.
    NoByte,
    /// A tail without a lead before it.
    Tail,
    /// A character with another byte in place of one of its tails.
    NoTail,
    /// A character without its last bytes, and another behind it.
    Cut,
    /// A character without its last bytes at the text's end.
    CutByEnd,
}

/// Every flaw.
pub const FLAWS: [Flaw; 8] = [
    Flaw::Overlong,
    Flaw::Surrogate,
    Flaw::Above,
    Flaw::NoByte,
    Flaw::Tail,
    Flaw::NoTail,
    Flaw::Cut,
    Flaw::CutByEnd,
];

/// The bytes of a character's number in so many bytes, whether that is the right
/// number of them or not.
fn encoded(number: u32, bytes: u32) -> Vec<u8> {
    if bytes == 1 {
        return vec![number as u8];
    }
    let lead = !(0xFFu8 >> bytes);
    let part = |rest: u32| number.checked_shr(6 * rest).unwrap_or(0) as u8 & 0x3F;
    let mut out = vec![lead | part(bytes - 1)];
    out.extend((0..bytes - 1).rev().map(|rest| 0x80 | part(rest)));
    out
}

/// The numbers of characters of one, two, three and four bytes: the least and the
/// greatest.
const RANGES: [(u32, u32); 4] = [
    (0, 0x7F),
    (0x80, 0x7FF),
    (0x800, 0xFFFF),
    (0x1_0000, 0x10_FFFF),
];

/// Numbers at the edges of the grammar's rows.
const EDGES: [u32; 22] = [
    0, 1, 0x7F, 0x80, 0x7FF, 0x800, 0xFFF, 0x1000, 0xCFFF, 0xD000, 0xD7FF, 0xE000, 0xFEFF, 0xFFFD,
    0xFFFE, 0xFFFF, 0x1_0000, 0x3_FFFF, 0x4_0000, 0xF_FFFF, 0x10_0000, 0x10_FFFF,
];

/// The number of a character of so many bytes.
fn character(rng: &mut Rng, bytes: usize) -> u32 {
    let (first, last) = RANGES[bytes - 1];
    if rng.one_in(3) {
        let edges: Vec<u32> = (EDGES.into_iter())
            .filter(|edge| (first..=last).contains(edge))
            .collect();
        return rng.pick(&edges);
    }
    let number = rng.range(first as usize, last as usize) as u32;
    match number {
        0xD800..=0xDFFF => number - 0x800,
        _ => number,
    }
}

/// A length of a text: mostly short, often around 8 and 64, where a checker may
/// take a block at once, and now and then some thousand.
pub fn some_length(rng: &mut Rng) -> usize {
    match rng.below(160) {
        0..=29 => 0,
        30..=109 => rng.range(1, 12),
        110..=129 => rng.range(5, 18),
        130..=147 => rng.range(60, 70),
        148..=153 => rng.range(120, 136),
        154..=158 => rng.range(20, 300),
        _ => rng.range(300, 4000),
    }
}

/// A text of so many bytes.
pub fn text(rng: &mut Rng, length: usize) -> Vec<u8> {
    // Which characters there are: ASCII alone, of one number of bytes, or all.
    let style = rng.below(8);
    let mut out = Vec::with_capacity(length);
    while out.len() < length {
        let left = length - out.len();
        let bytes = match style {
            0..=2 => 1,
            3..=5 => style - 1,
            _ => rng.range(1, 4),
        };
        if bytes > left || style == 0 {
            out.push(b"seat "[out.len() % 5]);
        } else {
            out.extend(encoded(character(rng, bytes), bytes as u32));
        }
    }
    out
}

/// Bytes that have a flaw wherever they stand between characters.
fn flawed(rng: &mut Rng, flaw: Flaw) -> Vec<u8> {
    match flaw {
        Flaw::Overlong => {
            let bytes = rng.range(1, 3);
            let number = character(rng, bytes);
            encoded(number, rng.range(bytes + 1, 4) as u32)
        }
        Flaw::Surrogate => {
            let number = match rng.coin() {
                true => rng.pick(&[0xD800, 0xDBFF, 0xDC00, 0xDFFF]),
                false => rng.range(0xD800, 0xDFFF) as u32,
            };
            encoded(number, 3)
        }
        Flaw::Above => above(rng),
        Flaw::NoByte => {
            let others = [0xC0, 0xC1, 0xF5, 0xF7, 0xF8, 0xFB, 0xFC, 0xFD, 0xFE, 0xFF];
            vec![rng.pick(&others)]
        }
        Flaw::Tail => {
            let count = rng.range(1, 4);
            (0..count).map(|_| 0x80 | rng.below(64) as u8).collect()
        }
        Flaw::NoTail => {
            let bytes = rng.range(2, 4);
            let mut out = encoded(character(rng, bytes), bytes as u32);
            out[rng.range(1, bytes - 1)] = rng.pick(&[0x00, 0x7F, 0xC0, 0xC2, 0xFF]);
            out
        }
        Flaw::Cut | Flaw::CutByEnd => {
            let bytes = rng.range(2, 4);
            let mut out = encoded(character(rng, bytes), bytes as u32);
            out.truncate(rng.range(1, bytes - 1));
            out
        }
    }
}

/// A number above U+10FFFF in four to six bytes.
fn above(rng: &mut Rng) -> Vec<u8> {
    match rng.below(6) {
        0 => encoded(0x11_0000, 4),
        1 => encoded(0x13_FFFF, 4),
        2 => encoded(rng.range(0x11_0000, 0x1F_FFFF) as u32, 4),
        3 => encoded(rng.range(0x20_0000, 0x3FF_FFFF) as u32, 5),
        4 => encoded(rng.range(0x400_0000, 0x7FFF_FFFF) as u32, 6),
        _ => encoded(0x14_0000, 4),
    }
}

/// Bytes with this flaw somewhere in a text of about so many bytes.
pub fn with_flaw(rng: &mut Rng, flaw: Flaw, length: usize) -> Vec<u8> {
    let flawed = flawed(rng, flaw);
    let rest = length.saturating_sub(flawed.len());
    let before = match flaw {
        Flaw::CutByEnd => rest,
        _ => rng.range(0, rest),
    };
    let mut out = text(rng, before);
    out.extend(flawed);
    let after = match flaw {
        // Something stands behind it that is no tail.
        Flaw::Cut => (rest - before).max(1),
        _ => rest - before,
    };
    out.extend(text(rng, after));
    out
}

/// Bytes of any length that are no text.
pub fn no_text(rng: &mut Rng) -> Vec<u8> {
    let length = some_length(rng);
    no_text_of(rng, length)
}

/// About so many bytes that are no text.
pub fn no_text_of(rng: &mut Rng, length: usize) -> Vec<u8> {
    let flaw = rng.pick(&FLAWS);
    with_flaw(rng, flaw, length)
}

#[cfg(test)]
mod tests {
    use super::*;

    #[test]
    fn texts_are_text() {
        let mut rng = Rng::new(1);
        let mut seen = [0; 5];
        for _ in 0..50_000 {
            let length = some_length(&mut rng);
            let bytes = text(&mut rng, length);
            assert_eq!((is_text(&bytes), bytes.len()), (true, length));
            let text = std::str::from_utf8(&bytes).expect("text");
            for character in text.chars() {
                seen[character.len_utf8()] += 1;
            }
            seen[0] += usize::from(bytes.contains(&0));
        }
        assert!(seen.iter().all(|count| *count > 5000), "{seen:?}");
    }

    #[test]
    fn every_flaw_is_no_text_at_every_length() {
        let mut rng = Rng::new(2);
        for flaw in FLAWS {
            for length in (0..200).cycle().take(20_000) {
                let bytes = with_flaw(&mut rng, flaw, length);
                assert!(!is_text(&bytes), "{flaw:?} {bytes:02X?}");
            }
        }
    }

    #[test]
    fn edges_are_in_their_own_bytes() {
        for edge in EDGES {
            let own = char::from_u32(edge).expect("a character").to_string();
            assert_eq!(encoded(edge, own.len() as u32), own.as_bytes());
        }
    }
}
