//! Messages and sheets with one text, held in every way, put to both; what must
//! come of each is known, for Rust's standard library says what is text.

use super::{Output, Read, Writes};
use crate::coding::Coding;
use crate::counts::Counts;
use crate::held_text::{HeldText, Way};
use crate::laws::hex;
use crate::program::{refused, verdict, Answer, Budget, Verdict, AMPLE};
use crate::rng::Rng;
use crate::text_gen::{self, FLAWS};
use std::fmt::Debug;

/// Two programs, and what was seen of them.
pub type Run<'a> = super::Run<'a, dyn Writes + 'a>;

/// What the texts are counted as.
pub const TEXTS: &str = "held texts";

/// Puts texts to both until so many were tried.
pub fn run(
    first: &dyn Writes,
    second: &dyn Writes,
    coding: Coding,
    seed: u64,
    texts: u64,
) -> Result<Counts, String> {
    let ways = Way::of(coding);
    let run = Run::new(first, second, coding);
    run.until(TEXTS, texts, |run, round| {
        let mut rng = Rng::for_case(seed, round);
        for way in &ways {
            on_text(run, &mut rng, *way)
                .map_err(|report| format!("seed {seed} round {round}: {report}"))?;
        }
        Ok(())
    })
}

/// A length: of many near a block's, and now and then some thousand.
fn some_length(rng: &mut Rng) -> usize {
    match rng.below(40) {
        0..=14 => rng.range(0, 20),
        15..=19 => rng.range(28, 36),
        20..=27 => rng.range(56, 72),
        28..=33 => rng.range(120, 136),
        34 => rng.range(250, 260),
        35..=37 => rng.range(0, 600),
        _ => rng.range(600, 4000),
    }
}

/// A text, or bytes with one flaw, or a text with one byte changed.
fn some_bytes(run: &mut Run, rng: &mut Rng, way: Way) -> Vec<u8> {
    let length = some_length(rng).max(usize::from(way.empty_is_absent()));
    match rng.below(4) {
        0 | 1 => text_gen::text(rng, length),
        2 => {
            let flaw = rng.pick(&FLAWS);
            run.counts.note(&format!("held texts: {flaw:?}"));
            text_gen::with_flaw(rng, flaw, length)
        }
        _ => {
            let mut text = text_gen::text(rng, length.max(1));
            let at = rng.below(text.len());
            text[at] = match rng.coin() {
                true => 0x80 | rng.bits() as u8,
                false => rng.bits() as u8,
            };
            text
        }
    }
}

/// One text in one way, by every call.
fn on_text(run: &mut Run, rng: &mut Rng, way: Way) -> Result<(), String> {
    let (bytes, bools) = (some_bytes(run, rng, way), rng.below(8));
    let held = HeldText::new(run.coding, way, bools, &bytes);
    run.counts.note(TEXTS);
    let text = if held.is_text { "text" } else { "no text" };
    let blocks = match bytes.len() {
        0..=7 => "0 to 7",
        8..=63 => "8 to 63",
        64..=599 => "64 to 599",
        _ => "600 or more",
    };
    run.counts
        .note(&format!("held texts: {text} of {blocks} bytes"));
    run.counts
        .note(&format!("held texts: {text} behind {bools} bools"));
    judges(run, &held)?;
    ends(run, rng, &held)?;
    fields(run, &held)?;
    reads(run, rng, &held)?;
    writes(run, rng, &held)
}

/// Fails unless both answered what was expected; counts the answer's number.
fn same<T: PartialEq + Debug>(
    run: &mut Run,
    held: &HeldText,
    call: &str,
    number: u64,
    [expected, one, two]: [T; 3],
) -> Result<(), String> {
    let name = format!("{:?}: {call}, answer {number}", held.way);
    run.counts.note(&name);
    if one == expected && two == expected {
        return Ok(());
    }
    Err(format!(
        "{name}\n  expected: {expected:?}\n  {}: {one:?}\n  {}: {two:?}\n  schema: {}\n  \
         message: {}\n  sheet: {}",
        run.first.name(),
        run.second.name(),
        held.schema,
        hex(&held.message),
        hex(&held.sheet),
    ))
}

/// Judged by both with a budget.
fn judged(
    run: &mut Run,
    held: &HeldText,
    message: &[u8],
    budget: Budget,
    expected: Verdict,
) -> Result<(), String> {
    let one = run.first.judge(&held.schema, message, budget);
    let two = run.second.judge(&held.schema, message, budget);
    let number = expected.number;
    run.counts.answer(number);
    same(run, held, "judge", number.into(), [expected, one, two])
}

/// With enough, and with less of either allowance: 17 and 4 come before 16, and
/// what is no text has added its length.
fn judges(run: &mut Run, held: &HeldText) -> Result<(), String> {
    let Budget { visits, content } = held.spent;
    let before = content - held.length as u64;
    for budget in [AMPLE, held.spent, Budget::LARGEST] {
        judged(run, held, &held.message, budget, held.verdict())?;
    }
    let fewer = Budget::of_visits(visits - 1);
    let spent = verdict(4, held.place, visits - 1, before);
    judged(run, held, &held.message, fewer, spent)?;
    if held.length > 0 {
        for content in [before, content - 1] {
            let spent = verdict(17, held.place, visits, before);
            judged(run, held, &held.message, Budget { visits, content }, spent)?;
        }
    }
    Ok(())
}

/// Another end byte: 10, whether it is text or not.
fn ends(run: &mut Run, rng: &mut Rng, held: &HeldText) -> Result<(), String> {
    let mut message = held.message.clone();
    let end = message.len() - 1;
    message[end] = rng.pick(&[1, 0x7F, 0x80, 0xBF, 0xC2, 0xFF]);
    let Budget { visits, content } = held.spent;
    let refused = verdict(10, held.place, visits, content);
    judged(run, held, &message, held.spent, refused)?;
    let refused = super::second::numbers(crate::program::refused(10, held.place));
    field(run, held, &message, refused)
}

/// The text's field, and the list reader's step where a list holds it.
fn field(run: &mut Run, held: &HeldText, message: &[u8], expected: [u64; 4]) -> Result<(), String> {
    let (schema, path) = (&held.schema, &held.path);
    let one = run.first.field(schema, message, path);
    let two = run.second.field(schema, message, path);
    let number = if expected[0] == 7 { expected[1] } else { 0 };
    same(run, held, "field", number, [expected, one, two])?;
    if !held.way.in_list() {
        return Ok(());
    }
    let (list, last) = path.split_at(path.len() - 1);
    let step = |program: &dyn Writes| {
        let mut case = [9; 4];
        let count = program.list(schema, message, list, u64::from(last[0]), &mut case);
        (count, case)
    };
    let expected = (u64::from(last[0]) + 1, expected);
    let answers = [expected, step(run.first), step(run.second)];
    same(run, held, "list", number, answers)
}

/// The field and the part of the message: there is none where it is no text.
fn fields(run: &mut Run, held: &HeldText) -> Result<(), String> {
    let (start, length) = (held.start as u64, held.length as u64);
    let object = Answer::Object {
        kind: 13,
        place: held.place,
        length,
    };
    let (answer, part) = match held.is_text {
        true => (object, [1, start, length]),
        false => (refused(16, held.place), [0; 3]),
    };
    field(run, held, &held.message, super::second::numbers(answer))?;
    let (schema, message, path) = (&held.schema, &held.message, &held.path);
    let one = run.first.text(schema, message, path);
    let two = run.second.text(schema, message, path);
    same(run, held, "text", part[0], [part, one, two])
}

/// Reading to a sheet with just enough room: the sheet, or an output as it was.
fn reads(run: &mut Run, rng: &mut Rng, held: &HeldText) -> Result<(), String> {
    let (room, fill) = (held.sheet.len() + rng.below(3), rng.bits() as u8);
    let read = |program: &dyn Writes| {
        let mut output = Output::new(room, fill);
        let read = program.read(&held.schema, &held.message, AMPLE, output.lent());
        (read, output.whole().to_vec())
    };
    let mut expected = Output::new(room, fill);
    let mut length = 0;
    if held.is_text {
        length = held.sheet.len();
        expected.lent()[..length].copy_from_slice(&held.sheet);
    }
    let (verdict, length) = (held.verdict(), length as u64);
    let expected = (Read { verdict, length }, expected.whole().to_vec());
    let answers = [expected, read(run.first), read(run.second)];
    run.counts.answer(verdict.number);
    same(run, held, "read", verdict.number.into(), answers)
}

/// Writing the sheet with just enough room, and where it is no text, or is held by a union in
/// place, with none too: the message, or 12 and an output as it was.
fn writes(run: &mut Run, rng: &mut Rng, held: &HeldText) -> Result<(), String> {
    let fill = rng.bits() as u8;
    let write = |program: &dyn Writes, room| {
        let mut output = Output::new(room, fill);
        let answer = program.write(&held.schema, &held.sheet, output.lent());
        (answer, output.whole().to_vec())
    };
    let length = held.message.len();
    let mut expected = Output::new(length, fill);
    if held.is_text && held.is_written {
        expected.lent().copy_from_slice(&held.message);
        let expected = ([0, length as u64], expected.whole().to_vec());
        let answers = [
            expected,
            write(run.first, length),
            write(run.second, length),
        ];
        return same(run, held, "write", 0, answers);
    }
    for room in [length, 0] {
        let expected = ([12, 0], Output::new(room, fill).whole().to_vec());
        let answers = [expected, write(run.first, room), write(run.second, room)];
        same(run, held, "write", 12, answers)?;
    }
    Ok(())
}
