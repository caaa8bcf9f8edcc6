//! Objects of every kind in every way: header, magic, content, end byte.

use super::builder::{ways, Setup, Way, OBJECTS};
use super::Case;
use crate::coding::Coding;
use crate::schema::{DIRECT, LIST, TEXT};

/// A budget that no case here spends.
pub const AMPLE: u32 = 1000;

/// Adds the cases.
pub fn add(coding: Coding, cases: &mut Vec<Case>) {
    for (way, kind) in ways(coding) {
        let setup = Setup::new(coding, way, kind, 1);
        budgets(cases, &setup);
        lengths(cases, &setup);
        sizes(cases, &setup);
        if !way.in_place() {
            offsets(cases, &setup);
            magics(cases, &setup);
        }
        if way.union() {
            choices(cases, &setup);
        }
        if kind == TEXT {
            ends(cases, &setup);
        }
        if kind == DIRECT {
            ids(cases, &setup);
            element_sizes(cases, &setup);
            direct_headers(cases, &setup);
        }
    }
}

fn budgets(cases: &mut Vec<Case>, setup: &Setup) {
    let visits = if setup.way.element() { 3 } else { 2 };
    // A direct list has two elements.
    let below = if setup.kind == DIRECT { 2 } else { 0 };
    for budget in 0..=visits + below + 1 {
        cases.push(setup.case(&format!("budget {budget}"), budget));
    }
    cases.push(setup.case("largest budget", u32::MAX));
    let nowhere = setup.sized(setup.object);
    cases.push(nowhere.case("budget spent before a bad object", visits - 1));
}

/// The longest length that fits, and the shortest that does not.
fn longest(setup: &Setup) -> u64 {
    let room = (setup.message.len() - setup.content) as u64;
    match setup.kind {
        TEXT => room - 1,
        LIST => room / 2,
        DIRECT => room / 3,
        _ => room,
    }
}

fn lengths(cases: &mut Vec<Case>, setup: &Setup) {
    let most = longest(setup);
    for length in 0..=most + 1 {
        let case = setup.with(setup.length, length);
        cases.push(case.case(&format!("length {length}"), AMPLE));
    }
    let largest = setup.coding().largest();
    let far = [
        most + 256,
        1 << 24,
        1 << 32,
        largest / 2 + 1,
        largest - 1,
        largest,
    ];
    for length in far.into_iter().filter(|length| *length <= largest) {
        let case = setup.with(setup.length, length);
        cases.push(case.case(&format!("length {length}"), AMPLE));
    }
    let one = if setup.kind == DIRECT { 3 } else { 1 };
    let longer = setup
        .sized(setup.message.len() + one)
        .with(setup.length, most + 1);
    cases.push(longer.case("one longer in a message one longer", AMPLE));
}

/// The message cut at every byte of the object, and longer.
fn sizes(cases: &mut Vec<Case>, setup: &Setup) {
    for size in setup.object..setup.message.len() {
        let from = size - setup.object;
        let name = format!("message ends after {from} bytes of it");
        cases.push(setup.sized(size).case(&name, AMPLE));
    }
    let longer = setup.sized(setup.message.len() + 3);
    cases.push(longer.case("message goes on behind it", AMPLE));
    let empty = setup.with(setup.length, 0).sized(setup.content);
    cases.push(empty.case("length 0 at the message's end", AMPLE));
    if setup.kind == TEXT {
        let empty = setup.with(setup.length, 0).sized(setup.content + 1);
        cases.push(empty.case("length 0 and its end byte", AMPLE));
    }
}

fn offsets(cases: &mut Vec<Case>, setup: &Setup) {
    let size = setup.message.len() as u64;
    let object = setup.object as u64;
    let (first, largest) = (setup.coding().header() as u64, setup.coding().largest());
    let header = setup.header_size() as u64;
    let edges = [size - header, size + 1 - header, size - 1, size, size + 1];
    let near = [0, 1, first - 1, first, first + 1, object - 1, object + 1];
    let far = [1 << 24, 1 << 32, largest + 1 - header, largest];
    let every = near.into_iter().chain(edges).chain(far);
    for offset in every.filter(|offset| *offset <= largest) {
        let case = setup.with(setup.reference, offset);
        cases.push(case.case(&format!("offset {offset}"), AMPLE));
    }
}

/// Each byte of the magic changed; header and magic, magic and content.
fn magics(cases: &mut Vec<Case>, setup: &Setup) {
    for i in 0..4 {
        let byte = setup.message[setup.object + i] ^ 0x10;
        let case = setup.with_byte(setup.object + i, byte);
        cases.push(case.case(&format!("magic's byte {i} wrong"), AMPLE));
    }
    for other in OBJECTS {
        let at = Setup::new(setup.coding(), Way::Member, other, 1);
        let mut case = setup.clone();
        let magic = &at.message[at.object..at.object + 4];
        case.message[setup.object..setup.object + 4].copy_from_slice(magic);
        cases.push(case.case(&format!("magic of kind {other}"), AMPLE));
    }
    let wrong = setup.with_byte(setup.object, 0);
    let long = wrong.with(setup.length, setup.coding().largest());
    cases.push(long.case("magic wrong and length too large", AMPLE));
    let cut = wrong.sized(setup.object + setup.header_size() - 1);
    cases.push(cut.case("magic wrong and header cut", AMPLE));
}

/// Where a direct list's table id and element size stand.
fn direct_parts(setup: &Setup) -> (usize, usize) {
    (setup.object + 10, setup.object + 14)
}

/// Each byte of a direct list's table id changed; the first table's id; id and
/// count, id and content.
fn ids(cases: &mut Vec<Case>, setup: &Setup) {
    let (id, size) = direct_parts(setup);
    for i in 0..4 {
        let case = setup.with_byte(id + i, setup.message[id + i] ^ 0x10);
        cases.push(case.case(&format!("id's byte {i} wrong"), AMPLE));
    }
    let mut first = setup.clone();
    let other = setup.schema.tables[0].id.to_le_bytes();
    first.message[id..id + 4].copy_from_slice(&other);
    cases.push(first.case("id of another table", AMPLE));
    let over = first.with(setup.length, 1 << 32);
    cases.push(over.case("id wrong and count too large", AMPLE));
    let long = first.with_byte(size + 3, 1);
    cases.push(long.case("id wrong and size too large", AMPLE));
    let magic = first.with_byte(setup.object, 0);
    cases.push(magic.case("id and magic wrong", AMPLE));
    let cut = first.sized(setup.content - 1);
    cases.push(cut.case("id wrong and header cut", AMPLE));
}

/// Element sizes from none to longer than the schema's, with as many bytes as the
/// two elements take and with one less.
fn element_sizes(cases: &mut Vec<Case>, setup: &Setup) {
    let (_, at) = direct_parts(setup);
    for size in 0..=6 {
        let sized = setup.with_byte(at, size);
        let end = setup.content + 2 * usize::from(size);
        let whole = sized.sized(end);
        cases.push(whole.case(&format!("elements of {size} bytes"), AMPLE));
        let fewer = sized.sized(end - 1);
        cases.push(fewer.case(&format!("elements of {size} bytes, one missing"), AMPLE));
        let name = format!("elements of {size} bytes, budget 3");
        cases.push(whole.case(&name, 3));
    }
}

/// Counts and sizes whose product has many bits, and counts of elements without
/// bytes.
fn direct_headers(cases: &mut Vec<Case>, setup: &Setup) {
    let (_, at) = direct_parts(setup);
    let largest = u32::MAX;
    for (count, size) in [
        (1 << 31, 2),
        (2, 1 << 31),
        (65_536, 65_536),
        (u64::from(largest), largest),
        (u64::from(largest), 1),
        (u64::from(largest), 0),
        (1 << 32, 0),
        (1 << 47, 0),
        ((1 << 48) - 1, 0),
        (0, largest),
        (0, 0),
    ] {
        let mut case = setup.with(setup.length, count);
        case.message[at..at + 4].copy_from_slice(&size.to_le_bytes());
        cases.push(case.case(&format!("{count} of {size} bytes"), AMPLE));
    }
}

/// None, every known choice and unknown ones, with an offset or without.
fn choices(cases: &mut Vec<Case>, setup: &Setup) {
    for (choice, bytes) in [
        (0, [0, 0]),
        (1, [1, 0]),
        (2, [2, 0]),
        (3, [3, 0]),
        (256, [0, 1]),
        (257, [1, 1]),
        (65535, [255, 255]),
    ] {
        let at = setup.reference - 2;
        let case = setup.with_byte(at, bytes[0]).with_byte(at + 1, bytes[1]);
        cases.push(case.case(&format!("choice {choice}"), AMPLE));
        let none = case.with(setup.reference, 0);
        cases.push(none.case(&format!("choice {choice}, number 0"), AMPLE));
        let largest = setup.coding().largest();
        let large = case.with(setup.reference, largest);
        cases.push(large.case(&format!("choice {choice}, number {largest}"), AMPLE));
    }
}

fn ends(cases: &mut Vec<Case>, setup: &Setup) {
    let end = setup.message.len() - 1;
    for byte in [1, 0x80, 0xFF] {
        let case = setup.with_byte(end, byte);
        cases.push(case.case(&format!("end byte {byte}"), AMPLE));
    }
    let inner = setup.with_byte(setup.content, 0);
    cases.push(inner.case("a zero inside", AMPLE));
    let both = setup.with_byte(end, 1).sized(end);
    cases.push(both.case("end byte missing", AMPLE));
}
