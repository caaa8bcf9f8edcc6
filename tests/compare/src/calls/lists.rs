//! The list reader put to both, and beside it the answers of its elements'
//! own paths.

use super::fields::{sort_of, Place, Run};
use super::second::numbers;
use crate::canvas::Spot;
use crate::damage;
use crate::program::refused;
use crate::rng::Rng;
use crate::subjects::Subject;

/// What the calls of the list reader are counted as, and those of an unlawful schema.
pub const CALLS: &str = "list calls";
pub const REFUSED_1: &str = "list calls refused by 1";

/// What the numbers hold before a call.
const UNSET: u64 = 0xA5A5_A5A5_A5A5_A5A5;

/// The list reader at a path whose own answer is `whole`.
pub fn at_list(
    run: &mut Run,
    rng: &mut Rng,
    place: &Place,
    path: &[u32],
    whole: [u64; 4],
) -> Result<(), String> {
    let is_list = matches!(whole, [3, 15 | 18, ..]);
    let length = if is_list { whole[3] } else { 3 };
    let from = first_element(rng, length);
    let left = length.saturating_sub(from).min(12) as usize;
    let steps = rng.range(0, left + 2);
    // Up to three numbers more than fit an answer stay as they are.
    let mut cases = vec![UNSET; 4 * steps + rng.below(4)];
    let mut second = cases.clone();
    let (schema, message) = (&place.subject.schema, &place.subject.message);
    let count = run.first.list(schema, message, path, from, &mut cases);
    let other = run.second.list(schema, message, path, from, &mut second);
    if (count, &cases) != (other, &second) {
        let call = format!("list from {from}");
        let (one, two) = (format!("{count} {cases:?}"), format!("{other} {second:?}"));
        return Err(place.report(&call, path, &one, &two));
    }
    run.counts.note(CALLS);
    if whole[..2] == [7, 1] {
        run.counts.note(REFUSED_1);
    }
    let answers: Vec<[u64; 4]> = (cases.chunks_exact(4))
        .map(|case| [case[0], case[1], case[2], case[3]])
        .collect();
    if count == 0 {
        return started_nowhere(run, place, path, whole, &answers);
    }
    run.counts.note(match (whole[1], length) {
        (18, 0..=0x100_0000) => "direct lists",
        (18, _) => "direct lists of over 16,777,216 elements",
        _ => "lists",
    });
    by_elements(run, place, path, whole, from, &answers)
}

/// The list reader where some of the list's bytes were changed, so that
/// elements between others are refused.
pub fn damaged(
    run: &mut Run,
    rng: &mut Rng,
    place: &Place,
    path: &[u32],
    whole: [u64; 4],
) -> Result<(), String> {
    let mut subject = place.subject.clone();
    if !rng.one_in(4) && in_texts(run, rng, &mut subject, path, whole[3]) {
        return again(run, rng, place, &subject, path);
    }
    let message = &mut subject.message;
    let (at, length) = (whole[2] as usize, whole[3] as usize);
    if whole[1] == 18 {
        direct_header(rng, message, at);
        return again(run, rng, place, &subject, path);
    }
    // A union has a choice before its offset; in place there is no header.
    let (offset, header) = (run.coding.offset(), run.coding.header());
    let start = at + rng.pick(&[header, header, header, 0]);
    let union = run.coding.union();
    let (size, skipped) = rng.pick(&[(offset, 0), (union, 0), (union, 2)]);
    for _ in 0..rng.range(1, 3) {
        let element = start + size * rng.below(length.max(1)) + skipped;
        let near = rng.below(message.len() + 20) as u64;
        let (first, far) = (header as u64, run.coding.largest() / 256 + 1);
        let number = rng.pick(&[0, 1, first - 1, first, at as u64, near, near, far]);
        if let Some(bytes) = message.get_mut(element..element + offset) {
            bytes.copy_from_slice(&run.coding.bytes(number));
        }
    }
    again(run, rng, place, &subject, path)
}

/// Damages texts among a list's elements; says whether there were any.
fn in_texts(run: &Run, rng: &mut Rng, subject: &mut Subject, path: &[u32], length: u64) -> bool {
    let mut found = false;
    for _ in 0..3 {
        let element = [path, &[rng.below(length as usize) as u32]].concat();
        let (schema, message) = (&subject.schema, &subject.message);
        let is_text = matches!(run.second.field(schema, message, &element), [3, 13, ..]);
        let [_, start, width] = run.second.text(schema, message, &element);
        if is_text && width > 0 {
            let (position, width) = (start as usize, width as usize);
            damage::in_text(rng, &mut subject.message, Spot { position, width });
            found = true;
        }
    }
    found
}

/// The list reader at the same path of another message.
fn again(
    run: &mut Run,
    rng: &mut Rng,
    place: &Place,
    subject: &Subject,
    path: &[u32],
) -> Result<(), String> {
    let place = place.with(subject);
    let (schema, message) = (&subject.schema, &subject.message);
    let whole = run.first.field(schema, message, path);
    at_list(run, rng, &place, path, whole)
}

/// Changes the size of a direct list's elements, or their count, or both: with no
/// bytes in an element any count up to 4,294,967,295 fits.
fn direct_header(rng: &mut Rng, message: &mut [u8], at: usize) {
    let counts = [0, 1, 5, 1000, 1 << 31, u64::from(u32::MAX), 1 << 32];
    let count = rng.pick(&counts).to_le_bytes();
    let size = (rng.pick(&[0, 0, 0, 1, 2, 7, 100]) as u32).to_le_bytes();
    let which = rng.below(3);
    if which != 0 {
        message[at + 4..at + 10].copy_from_slice(&count[..6]);
    }
    if which != 1 {
        message[at + 14..at + 18].copy_from_slice(&size);
    }
}

/// Mostly the first, and every sort of place around the end.
fn first_element(rng: &mut Rng, length: u64) -> u64 {
    match rng.below(8) {
        0 => length,
        1 => length + 1,
        2 => rng.pick(&[u64::MAX, u64::MAX - 3, 1 << 32, 1 << 61, 1 << 62, 1 << 63]),
        3 | 4 => rng.below(length as usize + 1) as u64,
        _ => 0,
    }
}

/// "a refused path gives its own refusal, any other answer is 15 at 0"; a list
/// without elements answers 15 at itself.
fn started_nowhere(
    run: &mut Run,
    place: &Place,
    path: &[u32],
    whole: [u64; 4],
    answers: &[[u64; 4]],
) -> Result<(), String> {
    let no_part = |at: u64| numbers(refused(15, at));
    let allowed: &[[u64; 4]] = match whole {
        [7, ..] => &[whole],
        [3, 15, at, 0] => &[no_part(at), no_part(0)],
        [3, 18, at, 0] => &[no_part(at)],
        _ => &[no_part(0)],
    };
    for answer in answers {
        if !allowed.contains(answer) {
            let (one, two) = (format!("{answer:?}"), format!("one of {allowed:?}"));
            return Err(place.report("list that is none", path, &one, &two));
        }
        run.counts.note("answers of lists that are none");
    }
    run.counts.note(&match (whole, answers.first()) {
        ([3, 15, ..], Some([_, _, 0, _])) => "list starts: plain elements".to_string(),
        ([3, 15, _, 0], Some(_)) => "list starts: no elements".to_string(),
        ([3, 15, ..], _) => "list starts: a list, no step".to_string(),
        ([3, 18, ..], Some(_)) => "list starts: no direct elements".to_string(),
        ([3, 18, ..], _) => "list starts: a direct list, no step".to_string(),
        _ => format!("list starts: {}", sort_of(whole)),
    });
    Ok(())
}

/// "Each step answers as that element's path would and moves on, refused or
/// not; after the last it answers 15 at the list and stays."
fn by_elements(
    run: &mut Run,
    place: &Place,
    path: &[u32],
    whole: [u64; 4],
    from: u64,
    answers: &[[u64; 4]],
) -> Result<(), String> {
    let [_, _, at, length] = whole;
    for (step, answer) in answers.iter().enumerate() {
        let number = from.saturating_add(step as u64).min(length);
        let mut element = path.to_vec();
        element.push(number as u32);
        let (schema, message) = (&place.subject.schema, &place.subject.message);
        let own = run.first.field(schema, message, &element);
        let ended = number == length && own != numbers(refused(15, at));
        if own != *answer || ended {
            let (one, two) = (format!("{answer:?}"), format!("its own path: {own:?}"));
            return Err(place.report(&format!("step {step} from {from}"), path, &one, &two));
        }
        run.counts.note(&if number == length {
            "list steps: after the last".to_string()
        } else {
            format!("list steps: {}", sort_of(own))
        });
    }
    Ok(())
}
