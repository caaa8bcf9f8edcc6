//! Which bytes are text: "a text is lawful only if RFC 3629 allows it: no
//! overlong forms, no surrogates, nothing above U+10FFFF."

/// The grammar of RFC 3629, section 4: `UTF8-octets = *( UTF8-char )`.
pub fn is_text(mut bytes: &[u8]) -> bool {
    while !bytes.is_empty() {
        match after_character(bytes) {
            Some(rest) => bytes = rest,
            None => return false,
        }
    }
    true
}

/// What stands behind the first character, `UTF8-char = UTF8-1 / UTF8-2 / UTF8-3 /
/// UTF8-4`; none where the bytes start with no character. `UTF8-tail = %x80-BF`.
fn after_character(bytes: &[u8]) -> Option<&[u8]> {
    match bytes {
        // UTF8-1 = %x00-7F
        [0x00..=0x7F, rest @ ..]
        // UTF8-2 = %xC2-DF UTF8-tail
        | [0xC2..=0xDF, 0x80..=0xBF, rest @ ..]
        // UTF8-3 = %xE0 %xA0-BF UTF8-tail / %xE1-EC 2( UTF8-tail ) /
        //          %xED %x80-9F UTF8-tail / %xEE-EF 2( UTF8-tail )
        | [0xE0, 0xA0..=0xBF, 0x80..=0xBF, rest @ ..]
        | [0xE1..=0xEC, 0x80..=0xBF, 0x80..=0xBF, rest @ ..]
        | [0xED, 0x80..=0x9F, 0x80..=0xBF, rest @ ..]
        | [0xEE..=0xEF, 0x80..=0xBF, 0x80..=0xBF, rest @ ..]
        // UTF8-4 = %xF0 %x90-BF 2( UTF8-tail ) / %xF1-F3 3( UTF8-tail ) /
        //          %xF4 %x80-8F 2( UTF8-tail )
        | [0xF0, 0x90..=0xBF, 0x80..=0xBF, 0x80..=0xBF, rest @ ..]
        | [0xF1..=0xF3, 0x80..=0xBF, 0x80..=0xBF, 0x80..=0xBF, rest @ ..]
        | [0xF4, 0x80..=0x8F, 0x80..=0xBF, 0x80..=0xBF, rest @ ..] => Some(rest),
        _ => None,
    }
}

#[cfg(test)]
mod tests {
    use super::is_text;

    /// Alike by the standard library; gives whether it is text.
    fn alike(bytes: &[u8]) -> bool {
        let expected = std::str::from_utf8(bytes).is_ok();
        assert_eq!(is_text(bytes), expected, "{bytes:02X?}");
        expected
    }

    #[test]
    fn every_sequence_of_up_to_two_bytes() {
        assert!(alike(&[]));
        let bytes = || 0..=255u8;
        assert_eq!(bytes().filter(|&first| alike(&[first])).count(), 128);
        let pairs = bytes().flat_map(|first| bytes().map(move |second| [first, second]));
        // Two of one byte, or one of two: 30 leads with 64 tails.
        let texts = pairs.filter(|pair| alike(pair)).count();
        assert_eq!(texts, 128 * 128 + 30 * 64);
    }

    /// A small generator (xorshift64*), so that the same sequences are tried at
    /// each run.
    struct Random(u64);

    impl Random {
        fn below(&mut self, n: usize) -> usize {
            self.0 ^= self.0 >> 12;
            self.0 ^= self.0 << 25;
            self.0 ^= self.0 >> 27;
            let bits = self.0.wrapping_mul(0x2545_F491_4F6C_DD1D);
            (bits >> 32) as usize % n
        }

        /// Any byte, or one at an edge of the grammar's ranges.
        fn byte(&mut self) -> u8 {
            const EDGES: [u8; 27] = [
                0x00, 0x7F, 0x80, 0x8F, 0x90, 0x9F, 0xA0, 0xBF, 0xC0, 0xC1, 0xC2, 0xDF, 0xE0, 0xE1,
                0xEC, 0xED, 0xEE, 0xEF, 0xF0, 0xF1, 0xF3, 0xF4, 0xF5, 0xF7, 0xF8, 0xFE, 0xFF,
            ];
            match self.below(3) {
                0 => self.below(256) as u8,
                1 => 0x80 | self.below(64) as u8,
                _ => EDGES[self.below(EDGES.len())],
            }
        }
    }

    #[test]
    fn random_sequences_of_three_to_eight_bytes() {
        let mut random = Random(7);
        for length in 3..=8 {
            let mut texts = 0;
            for _ in 0..500_000 {
                let bytes: Vec<u8> = (0..length).map(|_| random.byte()).collect();
                texts += usize::from(alike(&bytes));
            }
            assert!(texts > 50, "{texts} texts of {length} bytes");
        }
    }

    /// Long texts with one byte changed, at every place.
    #[test]
    fn one_byte_changed() {
        let text = "aß€𐍈\u{0}\u{D7FF}\u{E000}\u{10FFFF}".repeat(4);
        let mut random = Random(9);
        assert!(alike(text.as_bytes()));
        for at in 0..text.len() {
            for _ in 0..100 {
                let mut bytes = text.as_bytes().to_vec();
                bytes[at] = random.byte();
                alike(&bytes);
            }
            alike(&text.as_bytes()[..at]);
            alike(&text.as_bytes()[at..]);
        }
    }
}
