//! Random paths, every step of them put to both: the case and its numbers, the
//! part of a text, and the list reader at lists and at what is none.

use super::lists;
use super::Calls;
use crate::coding::Coding;
use crate::counts::Counts;
use crate::laws::hex;
use crate::paths::PATH_LIMIT;
use crate::rng::Rng;
use crate::schema::Schema;
use crate::schema_rules;
use crate::subjects::{self, Subject};

/// What the answers of fields are counted as.
pub const ANSWERS: &str = "field answers";

/// The paths followed into one message.
const PATHS: usize = 4;

/// Two programs, and what was seen of them.
pub type Run<'a> = super::Run<'a, dyn Calls + 'a>;

/// What is asked about: a message, and its schema where that is lawful.
pub struct Place<'a> {
    pub subject: &'a Subject,
    schema: Option<Schema>,
}

impl<'a> Place<'a> {
    /// The same schema with another message.
    pub fn with<'b>(&self, subject: &'b Subject) -> Place<'b> {
        Place {
            subject,
            schema: self.schema.clone(),
        }
    }

    fn new(subject: &'a Subject) -> Place<'a> {
        Place {
            subject,
            schema: schema_rules::parse(&subject.schema),
        }
    }

    /// How many members the table at a place has, as far as its id says; an element
    /// of a direct list has none, so that any table's are taken for its.
    fn members(&self, rng: &mut Rng, at: u64) -> usize {
        let Some(schema) = &self.schema else {
            return 3;
        };
        let id = self.subject.message.get(at as usize..at as usize + 4);
        let known = schema
            .tables
            .iter()
            .find(|table| id == Some(&table.id.to_le_bytes()));
        match known {
            Some(table) => table.members.len(),
            None => schema.tables[rng.below(schema.tables.len())].members.len(),
        }
    }

    /// How many members a struct of the schema has at most.
    fn struct_members(&self) -> usize {
        let structs = self.schema.iter().flat_map(|schema| &schema.structs);
        structs.map(Vec::len).max().unwrap_or(0)
    }

    /// A difference, with all that is needed to see it again.
    pub fn report(&self, call: &str, path: &[u32], one: &str, two: &str) -> String {
        format!(
            "{:?}: {call} at {path:?}\n  {one}\n  {two}\n  schema: {}\n  message: {}",
            self.subject.sort,
            self.subject.schema,
            hex(&self.subject.message),
        )
    }
}

/// Puts paths to both until at least so many answers were compared.
pub fn run(
    first: &dyn Calls,
    second: &dyn Calls,
    coding: Coding,
    seed: u64,
    answers: u64,
) -> Result<Counts, String> {
    let run = Run::new(first, second, coding);
    run.until(ANSWERS, answers, |run, round| on_round(run, seed, round))
}

/// One numbered round of a seeded run.
pub fn on_round(run: &mut Run, seed: u64, round: u64) -> Result<(), String> {
    let mut rng = Rng::for_case(seed, round);
    for subject in subjects::of_round(run.coding, &mut rng) {
        on_subject(run, &mut rng, &subject)
            .map_err(|report| format!("seed {seed} round {round}: {report}"))?;
        run.counts.note(&format!("messages: {:?}", subject.sort));
    }
    Ok(())
}

/// Paths into one message; few where no path leads on.
fn on_subject(run: &mut Run, rng: &mut Rng, subject: &Subject) -> Result<(), String> {
    let place = Place::new(subject);
    let root = ask(run, rng, &place, &[])?;
    let paths = if root[0] == 7 { 1 } else { PATHS };
    for _ in 0..paths {
        follow(run, rng, &place, root)?;
    }
    Ok(())
}

/// Follows one path to an end, asking at every step, and now and then far on.
fn follow(run: &mut Run, rng: &mut Rng, place: &Place, root: [u64; 4]) -> Result<(), String> {
    let deep = rng.coin();
    let (mut path, mut answer) = (Vec::new(), root);
    while path.len() < PATH_LIMIT {
        let Some(step) = next_step(rng, place, answer) else {
            break;
        };
        let holder = answer;
        path.push(step);
        answer = ask(run, rng, place, &path)?;
        // Other steps instead, so that more paths go far down.
        for _ in 0..if deep { 5 } else { 0 } {
            let Some(step) = next_step(rng, place, holder) else {
                break;
            };
            if leads_on(answer) {
                break;
            }
            path.pop();
            path.push(step);
            answer = ask(run, rng, place, &path)?;
        }
    }
    if rng.one_in(8) {
        let length = rng.pick(&[PATH_LIMIT, PATH_LIMIT, PATH_LIMIT + 1, PATH_LIMIT + 2, 300]);
        path.resize(length, rng.below(2) as u32);
        ask(run, rng, place, &path)?;
    }
    Ok(())
}

/// Whether an answer is an object with parts, or its refusal as too deep.
fn leads_on(answer: [u64; 4]) -> bool {
    matches!(answer, [3, 15 | 16 | 18, ..] | [7, 5, ..])
}

/// The next step after an answer; none where the path is to end.
fn next_step(rng: &mut Rng, place: &Place, answer: [u64; 4]) -> Option<u32> {
    match answer {
        [3, 15 | 18, _, length] => Some(part_of(rng, length as usize)),
        [3, 16, at, _] => {
            let count = place.members(rng, at);
            Some(part_of(rng, count))
        }
        [4, ..] => Some(part_of(rng, place.struct_members())),
        _ if rng.one_in(8) => Some(rng.below(3) as u32),
        _ => None,
    }
}

/// A part of so many, or past them.
fn part_of(rng: &mut Rng, count: usize) -> u32 {
    if count > 0 && !rng.one_in(20) {
        return rng.below(count) as u32;
    }
    match rng.below(4) {
        0 => u32::MAX,
        1 => 1 << rng.range(0, 31),
        2 => (count as u32).saturating_add(rng.below(100) as u32),
        _ => count as u32,
    }
}

/// Puts one path to both; gives what both answered.
fn ask(run: &mut Run, rng: &mut Rng, place: &Place, path: &[u32]) -> Result<[u64; 4], String> {
    let (schema, message) = (&place.subject.schema, &place.subject.message);
    let one = run.first.field(schema, message, path);
    let two = run.second.field(schema, message, path);
    if one != two {
        return Err(place.report("field", path, &format!("{one:?}"), &format!("{two:?}")));
    }
    let part = run.first.text(schema, message, path);
    let second = run.second.text(schema, message, path);
    if part != second {
        return Err(place.report("text", path, &format!("{part:?}"), &format!("{second:?}")));
    }
    note(&mut run.counts, path, one, part);
    if matches!(one, [3, 15 | 18, ..]) {
        // Few lists are so deep that their elements are too deep.
        for _ in 0..if path.len() < 30 { 2 } else { 8 } {
            lists::at_list(run, rng, place, path, one)?;
            lists::damaged(run, rng, place, path, one)?;
        }
    } else if rng.one_in(5) {
        lists::at_list(run, rng, place, path, one)?;
    }
    Ok(one)
}

/// Counts an answer.
fn note(counts: &mut Counts, path: &[u32], answer: [u64; 4], part: [u64; 3]) {
    counts.note(ANSWERS);
    counts.note(&sort_of(answer));
    if let [7, number, _, member] = answer {
        counts.member(number as u32, member as u32);
    }
    match path.len() {
        0 => counts.note("paths: empty"),
        1..=31 => {}
        32..=95 => counts.note("paths: 32 to 95 numbers"),
        96 => counts.note("paths: 96 numbers"),
        97 => counts.note("paths: 97 numbers"),
        _ => counts.note("paths: over 97 numbers"),
    }
    if part[0] == 1 {
        let empty = part[2] == 0;
        counts.note(if empty {
            "parts: empty"
        } else {
            "parts: bytes"
        });
    }
}

/// What sort of answer it is.
pub fn sort_of(answer: [u64; 4]) -> String {
    match answer {
        [0, value, ..] => format!("boolean {value}"),
        [1, _, width, signed] => format!("number of {width}, signed {signed}"),
        [2, _, width, _] => format!("float of {width}"),
        [3, kind, ..] => format!("object {kind}"),
        [4, ..] => "struct".to_string(),
        [5, ..] => "absent".to_string(),
        [6, number, ..] if number < 256 => "unknown below 256".to_string(),
        [6, ..] => "unknown from 256".to_string(),
        [_, number, ..] => format!("refused {number}"),
    }
}
