//! Every text of up to three bytes, and random longer ones, in a message with one
//! text: the library's judging, the second program and Rust's standard library.
//!
//! The grammar has 1 text of no bytes, 128 of one, 128 * 128 + 1920 of two, and
//! 128 * 128 * 128 + 2 * 128 * 1920 + 61,440 of three: characters of two bytes are
//! 1920, of three 63,488 less 2048 surrogates.

use crate::coding::Coding;
use crate::held_text::{HeldText, Way};
use crate::laws::hex;
use crate::program::{verdict, Budget, Judge, Verdict};
use crate::rng::Rng;
use crate::text_gen::{self, is_text, FLAWS};
use std::fmt::Write;

/// How many texts of each length the grammar has.
pub const TEXTS: [u64; 4] = [1, 128, 18_304, 2_650_112];

/// A message whose text is put in place of another of the same length.
struct Message {
    held: HeldText,
    schema: reference::Schema,
}

impl Message {
    fn new(coding: Coding, length: usize) -> Message {
        let held = HeldText::new(coding, Way::Member, 0, &vec![b'x'; length]);
        let schema = reference::Schema::parse(held.schema.coding(), held.schema.bytes());
        Message {
            held,
            schema: schema.expect("a lawful schema"),
        }
    }

    /// Where the text's bytes stand.
    fn text(&mut self) -> &mut [u8] {
        let start = self.held.start;
        &mut self.held.message[start..start + self.held.length]
    }

    /// Judged with the present bytes; says whether they are text.
    fn judged(&mut self, library: &dyn Judge) -> Result<bool, String> {
        let lawful = is_text(self.text());
        let (held, budget) = (&self.held, Budget::LARGEST);
        let expected = match lawful {
            true => held.verdict(),
            false => verdict(16, held.place, held.spent.visits, held.spent.content),
        };
        let one = library.judge(&held.schema, &held.message, budget);
        let two = reference::judge_parsed(&self.schema, &held.message, budget);
        if one == expected && two == expected {
            return Ok(lawful);
        }
        Err(self.report(library, [expected, one, two]))
    }

    fn report(&self, library: &dyn Judge, [expected, one, two]: [Verdict; 3]) -> String {
        format!(
            "by the standard library: {expected:?}\n  {}: {one:?}\n  second program: {two:?}\n  \
             schema: {}\n  message: {}",
            library.name(),
            self.held.schema,
            hex(&self.held.message)
        )
    }
}

/// Every text of up to so many bytes, three at most.
pub fn exhaustive(library: &dyn Judge, coding: Coding, most: usize) -> Result<String, String> {
    let mut seen = String::new();
    for (length, known) in TEXTS.into_iter().enumerate().take(most + 1) {
        let mut message = Message::new(coding, length);
        let all = 1u32 << (8 * length);
        let mut texts = 0;
        for number in 0..all {
            message
                .text()
                .copy_from_slice(&number.to_be_bytes()[4 - length..]);
            texts += u64::from(message.judged(library)?);
        }
        if texts != known {
            return Err(format!("{texts} texts of {length} bytes, not {known}"));
        }
        let _ = writeln!(
            seen,
            "{coding:?}: {all} of {length} bytes, {texts} are text"
        );
    }
    Ok(seen)
}

/// Four bytes: any, or a character of four bytes with one of them changed or not.
fn four_bytes(rng: &mut Rng) -> [u8; 4] {
    let mut bytes = (rng.bits() as u32).to_be_bytes();
    match rng.below(3) {
        0 => {}
        1 => {
            bytes[0] = 0xF0 | bytes[0] & 0x07;
            bytes[1..]
                .iter_mut()
                .for_each(|byte| *byte = 0x80 | *byte & 0x3F);
        }
        _ => {
            let text = text_gen::text(rng, 4);
            bytes.copy_from_slice(&text);
            if rng.coin() {
                bytes[rng.below(4)] = rng.bits() as u8;
            }
        }
    }
    bytes
}

/// Random texts of four bytes, of a block's length and around it, and longer.
const LENGTHS: [usize; 22] = [
    4, 5, 7, 8, 9, 12, 15, 16, 17, 24, 31, 32, 33, 63, 64, 65, 127, 128, 129, 255, 1000, 4096,
];

/// So many random sequences of four bytes, and a tenth as many longer ones.
pub fn random(
    library: &dyn Judge,
    coding: Coding,
    seed: u64,
    cases: u64,
) -> Result<String, String> {
    let mut seen = String::new();
    for length in LENGTHS {
        let mut rng = Rng::for_case(seed, length as u64);
        let mut message = Message::new(coding, length);
        let tries = match length {
            4 => cases,
            _ => cases / 10 / LENGTHS.len() as u64,
        };
        let mut texts = 0;
        for _ in 0..tries {
            if length == 4 {
                message.text().copy_from_slice(&four_bytes(&mut rng));
            } else {
                longer(&mut rng, message.text());
            }
            texts += u64::from(message.judged(library)?);
        }
        let _ = writeln!(
            seen,
            "{coding:?}: {tries} of {length} bytes, {texts} are text"
        );
    }
    Ok(seen)
}

/// A text, with a flaw or a byte changed at any place, or as it is.
fn longer(rng: &mut Rng, out: &mut [u8]) {
    out.copy_from_slice(&text_gen::text(rng, out.len()));
    let at = rng.below(out.len());
    match rng.below(4) {
        0 => {}
        1 => out[at] = rng.bits() as u8,
        2 => out[at] |= 0x80,
        _ => {
            let flaw = rng.pick(&FLAWS);
            let flawed = text_gen::with_flaw(rng, flaw, 1);
            let end = (at + flawed.len()).min(out.len());
            out[at..end].copy_from_slice(&flawed[..end - at]);
        }
    }
}
