//! Whether bytes are UTF-8. ASCII is told by its high bits, many bytes at a time; the standard
//! library judges the rest.

use std::str::from_utf8;

/// The bits that no ASCII byte has.
const HIGH: u64 = 0x8080_8080_8080_8080;

/// The bytes of a long text that are looked at in one go.
const BLOCK: usize = 64;

/// Whether the last `length` of these bytes are text by RFC 3629. There are eight more at least: the
/// shortest texts are told by one word, into which the bytes before may come.
#[inline(always)]
pub fn is_text(through: &[u8], length: usize) -> bool {
    let text = &through[through.len() - length..];
    let ascii = match length {
        0..=8 => last_are_ascii(through, length),
        9..=16 => ends_are_ascii::<8>(text),
        17..=32 => ends_are_ascii::<16>(text),
        _ => return is_long_text(text),
    };
    ascii || is_other_text(text)
}

/// Whether the last bytes, eight at most, are ASCII.
#[inline(always)]
fn last_are_ascii(through: &[u8], length: usize) -> bool {
    let others = 8 * (8 - length as u32);
    let of_text = HIGH.checked_shl(others).unwrap_or(0);
    (through.last_chunk()).is_some_and(|word| u64::from_le_bytes(*word) & of_text == 0)
}

/// Whether the first and the last `N` bytes, which may overlap, are ASCII.
#[inline(always)]
fn ends_are_ascii<const N: usize>(text: &[u8]) -> bool {
    let ends = text.first_chunk::<N>().zip(text.last_chunk::<N>());
    ends.is_some_and(|(first, last)| (joined(first) | joined(last)) & HIGH == 0)
}

/// The words of a block, one over the other.
#[inline(always)]
fn joined<const N: usize>(block: &[u8; N]) -> u64 {
    let (words, _) = block.as_chunks::<8>();
    (words.iter()).fold(0, |joined, word| joined | u64::from_le_bytes(*word))
}

/// Text that is not all ASCII. Cold, so that nothing is kept for it in the loops over short ASCII.
#[cold]
fn is_other_text(text: &[u8]) -> bool {
    from_utf8(text).is_ok()
}

/// A text of more than 32 bytes: blocks of ASCII are passed over, up to the last bytes.
#[inline(never)]
fn is_long_text(text: &[u8]) -> bool {
    if text.len() <= BLOCK {
        return ends_are_ascii::<32>(text) || is_other_text(text);
    }
    let (blocks, _) = text.as_chunks::<BLOCK>();
    let ascii = (blocks.iter()).take_while(|block| block.is_ascii()).count();
    let rest = &text[BLOCK * ascii..];
    // What is less than a block is looked at with bytes before it.
    let last = text.last_chunk::<BLOCK>();
    let last = last.filter(|_| rest.len() < BLOCK);
    last.is_some_and(|last| last.is_ascii()) || is_other_text(rest)
}

#[cfg(test)]
mod tests {
    use super::is_text;
    use std::str::from_utf8;

    /// What stands before a text decides nothing, and one byte that is not ASCII is seen wherever
    /// it stands.
    #[test]
    fn the_same_as_from_utf8() {
        let odd: [&[u8]; 7] = [
            b"",
            b"\x80",
            b"\xFF",
            b"\xC3\xA4",
            b"\xE6\x97\xA5",
            b"\xE6\x97",
            b"\xF0\x9F\xA6\x8A",
        ];
        for before in [0x00, 0x61, 0xC3, 0xFF] {
            for length in 0..200 {
                for odd in odd.into_iter().filter(|odd| odd.len() <= length) {
                    for at in 0..=length - odd.len() {
                        let mut bytes = vec![b'a'; length];
                        bytes[at..at + odd.len()].copy_from_slice(odd);
                        let through = [&[before; 8][..], &bytes].concat();
                        assert_eq!(
                            is_text(&through, length),
                            from_utf8(&bytes).is_ok(),
                            "{bytes:X?}"
                        );
                    }
                }
            }
        }
    }
}
