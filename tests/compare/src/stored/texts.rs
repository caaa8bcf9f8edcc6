//! Texts, and bytes that are none, in every way that a text is held: each row of
//! the grammar at its edges, and what is tried before and after.

use super::builder::{ways, Setup, Way};
use super::objects::AMPLE;
use super::Case;
use crate::coding::Coding;
use crate::schema::TEXT;

/// The first and the last character of each row.
const TEXTS: [&[u8]; 14] = [
    b"\x00",
    b"\x7F",
    b"\xC2\x80",
    b"\xDF\xBF",
    b"\xE0\xA0\x80",
    b"\xE0\xBF\xBF",
    b"\xE1\x80\x80",
    b"\xED\x9F\xBF",
    b"\xEE\x80\x80",
    b"\xEF\xBF\xBF",
    b"\xF0\x90\x80\x80",
    b"\xF3\xBF\xBF\xBF",
    b"\xF4\x8F\xBF\xBF",
    b"a\xC3\xA4\xE2\x82\xAC\xF0\x9D\x84\x9Ez",
];

/// Overlong forms, surrogates, what is above U+10FFFF, tails without a lead, leads
/// without their tails.
const OTHERS: [&[u8]; 28] = [
    b"\xC0\x80",
    b"\xC1\xBF",
    b"\xE0\x80\x80",
    b"\xE0\x9F\xBF",
    b"\xF0\x80\x80\x80",
    b"\xF0\x8F\xBF\xBF",
    b"\xED\xA0\x80",
    b"\xED\xBF\xBF",
    b"\xF4\x90\x80\x80",
    b"\xF5\x80\x80\x80",
    b"\xF8\x88\x80\x80\x80",
    b"\xFF",
    b"\x80",
    b"a\xBF",
    b"\xC2\x80\x80",
    b"\xC2",
    b"\xE1\x80",
    b"\xF1\x80\x80",
    b"\xC2a",
    b"\xE1\x80a",
    b"\xF1\x80\x80a",
    b"\xC2\xC2\x80",
    b"\xE1\x80\xC0",
    b"\xE1\x7F\x80",
    b"\xF1\x80\x7F\x80",
    b"\xC2\x7F",
    b"\xC2\xC0",
    b"\xF1\x80\x80\xC0",
];

/// Adds the cases.
pub fn add(coding: Coding, cases: &mut Vec<Case>) {
    for (way, _) in ways(coding).filter(|(_, kind)| *kind == TEXT) {
        let setup = Setup::new(coding, way, TEXT, 1);
        for text in TEXTS.into_iter().chain(OTHERS) {
            let name = format!("text {text:02X?}");
            cases.push(setup.with_text(text).case(&name, AMPLE));
        }
        in_turn(cases, &setup);
        let above = if way.element() { 2 } else { 1 };
        for depth in [32, 33] {
            let deep = Setup::new(coding, way, TEXT, depth - above);
            let name = format!("no text at depth {depth}");
            cases.push(deep.with_text(b"\xFF").case(&name, AMPLE));
        }
    }
    long(cases, &Setup::new(coding, Way::Member, TEXT, 1));
}

/// What comes before: the budget, the offset, the magic, the content's fit and the
/// end byte.
fn in_turn(cases: &mut Vec<Case>, setup: &Setup) {
    let bad = setup.with_text(b"a\xE2\x82");
    let end = bad.message.len() - 1;
    let visits = if setup.way.element() { 3 } else { 2 };
    for budget in [visits - 1, visits] {
        cases.push(bad.case(&format!("no text, budget {budget}"), budget));
    }
    for byte in [1, 0xAC, 0xFF] {
        let name = format!("no text, end byte {byte}");
        cases.push(bad.with_byte(end, byte).case(&name, AMPLE));
    }
    cases.push(bad.sized(end).case("no text, end byte missing", AMPLE));
    let behind = bad.sized(end + 9);
    cases.push(behind.case("no text, message goes on behind it", AMPLE));
    for length in [0, 1, 2, 4] {
        let name = format!("no text, length {length}");
        let case = behind.with(bad.length, length);
        cases.push(case.case(&name, AMPLE));
    }
    if !setup.way.in_place() {
        let magic = bad.with_byte(bad.object, 0);
        cases.push(magic.case("no text, magic wrong", AMPLE));
        let near = bad.with(bad.reference, 1);
        cases.push(near.case("no text, offset 1", AMPLE));
    }
}

/// Texts around the lengths that may be taken at once, with a byte that is none's
/// at the first, the last and other places.
fn long(cases: &mut Vec<Case>, setup: &Setup) {
    for length in [7, 8, 9, 16, 17, 32, 33, 63, 64, 65, 128, 129, 1000] {
        let mut text = vec![b'x'; length];
        let name = format!("text of {length} bytes");
        cases.push(setup.with_text(&text).case(&name, AMPLE));
        for at in [0, length / 2, length - 2, length - 1] {
            for byte in [0x80, 0xF1] {
                text[at] = byte;
                let name = format!("text of {length} bytes, byte {at} is {byte}");
                cases.push(setup.with_text(&text).case(&name, AMPLE));
            }
            text[at] = b'x';
        }
        // A character that stands across the middle, and one that ends the text.
        let middle = length / 2 - 1;
        for at in [middle, length - 3] {
            text[at..at + 3].copy_from_slice("€".as_bytes());
            let name = format!("text of {length} bytes, a character at {at}");
            cases.push(setup.with_text(&text).case(&name, AMPLE));
            text[at + 2] = b'x';
            let name = format!("text of {length} bytes, a character at {at} cut");
            cases.push(setup.with_text(&text).case(&name, AMPLE));
            text[at..at + 3].fill(b'x');
        }
    }
}
