//! Writing a sheet put to both: the number, the length, and the whole output
//! with its surroundings; and what was written read back.

use super::{Output, Writes};
use crate::coding::Coding;
use crate::counts::Counts;
use crate::damage;
use crate::laws::hex;
use crate::message_gen;
use crate::program::{accepted, Budget, AMPLE};
use crate::rng::Rng;
use crate::schema::{Packed, Schema, SIZE_LIMIT};
use crate::schema_faults;
use crate::sheet;
use crate::sheet_faults;
use crate::subjects;
use crate::value::{has_direct_elements, Value};
use crate::value_gen::{self, Purpose};

/// Two programs, and what was seen of them.
pub type Run<'a> = super::Run<'a, dyn Writes + 'a>;

/// What the calls are counted as.
pub const CALLS: &str = "writes";

/// Any bytes as a sheet, and the schema they are written by.
struct Subject {
    sort: &'static str,
    schema: Packed,
    sheet: Vec<u8>,
    /// Made from values with elements of direct lists.
    direct: bool,
}

/// Writes sheets with both until at least so many calls were compared.
pub fn run(
    first: &dyn Writes,
    second: &dyn Writes,
    coding: Coding,
    seed: u64,
    calls: u64,
) -> Result<Counts, String> {
    let run = Run::new(first, second, coding);
    run.until(CALLS, calls, |run, round| on_round(run, seed, round))
}

/// One numbered round of a seeded run.
pub fn on_round(run: &mut Run, seed: u64, round: u64) -> Result<(), String> {
    let mut rng = Rng::for_case(seed, round);
    for subject in of_round(run.coding, &mut rng) {
        on_subject(run, &mut rng, &subject)
            .map_err(|report| format!("seed {seed} round {round}: {report}"))?;
    }
    Ok(())
}

/// The sheets of one random schema.
fn of_round(coding: Coding, rng: &mut Rng) -> Vec<Subject> {
    let schema = subjects::some_schema(coding, rng, 10);
    let size = value_gen::some_size(rng);
    let writable = value_gen::root_value(&schema, rng, Purpose::Writable, size);
    let any = subjects::some_value(rng, &schema, 12);
    let mut sheets = vec![
        ("of a writable value", sheet::encode(&schema, &writable)),
        ("of any value", sheet::encode(&schema, &any)),
    ];
    if let Some((spoiled, _)) = sheet_faults::unwritable(&schema, rng, &writable) {
        sheets.push(("made unwritable", sheet::encode(&schema, &spoiled)));
    }
    if let Some(spoiled) = value_gen::with_bad_texts(&schema, rng, &writable) {
        sheets.push(("with no text", sheet::encode(&schema, &spoiled)));
    }
    for at in [0, 0, 1] {
        let damaged = damage::sheet(rng, &sheets[at].1);
        sheets.push(("damaged", damaged));
    }
    if let Some(read) = read_from_damaged(rng, &schema, any.clone()) {
        sheets.push(("read from a damaged message", read));
    }
    let length = rng.range(0, 30);
    sheets.push(("random bytes", rng.bytes(length)));
    let mut out = Vec::new();
    let packed = schema.pack();
    let broken = schema_faults::damaged(rng, &packed);
    let direct = has_direct_elements(&schema, &writable) && has_direct_elements(&schema, &any);
    for (sort, sheet) in sheets {
        let (sort, schema) = match rng.one_in(12) {
            true => ("by a damaged schema", broken.clone()),
            false => (sort, packed.clone()),
        };
        out.push(Subject {
            sort,
            schema,
            sheet,
            direct,
        });
    }
    other_codings(coding, rng, &packed, &mut out);
    out
}

/// A sheet by a schema made for the other coding; now and then one under a number that is no
/// coding's.
fn other_codings(coding: Coding, rng: &mut Rng, own: &Packed, out: &mut Vec<Subject>) {
    let (schema, packed) = subjects::made_for_the_other(coding, rng);
    let size = value_gen::some_size(rng);
    let value = value_gen::root_value(&schema, rng, Purpose::Writable, size);
    out.push(Subject {
        sort: "by the other coding's schema",
        schema: packed,
        sheet: sheet::encode(&schema, &value),
        direct: false,
    });
    if rng.one_in(8) {
        let schema = own.under(subjects::no_coding(rng));
        out.push(Subject {
            sort: "under no coding",
            schema,
            sheet: out[0].sheet.clone(),
            direct: false,
        });
    }
}

/// The sheet of a damaged message that is still accepted.
fn read_from_damaged(rng: &mut Rng, schema: &Schema, value: Value) -> Option<Vec<u8>> {
    let wild = message_gen::lay_out(schema, rng, value, None);
    let bytes = damage::message(schema.coding, rng, &wild);
    let packed = schema.pack();
    let (verdict, sheet) = reference::read(packed.lent(), &bytes, AMPLE, 1 << 16);
    (verdict.number == 0).then_some(sheet)
}

/// A sheet with rooms around the one that it needs.
fn on_subject(run: &mut Run, rng: &mut Rng, subject: &Subject) -> Result<(), String> {
    let schema = &subject.schema;
    let (number, message) =
        reference::write(schema.coding(), schema.bytes(), &subject.sheet, SIZE_LIMIT);
    let name = format!("sheets {}, answer {number}", subject.sort);
    run.counts.note(&name);
    if subject.direct {
        let name = format!("sheets with direct elements, answer {number}");
        run.counts.note(&name);
    }
    if number == 12 {
        let (before, _) =
            reference::write_stored(schema.coding(), schema.bytes(), &subject.sheet, 0);
        run.counts.note(match before {
            12 => "sheets refused for an older reason",
            _ => "sheets refused for a union in place alone",
        });
    }
    let length = message.len();
    if number != 0 {
        let room = rng.below(200);
        one(run, rng, subject, room, "room: some")?;
        return one(run, rng, subject, 0, "room: none").map(|_| ());
    }
    let (larger, less) = (length + 1 + rng.below(40), rng.below(length));
    one(run, rng, subject, larger, "room: larger")?;
    one(run, rng, subject, length - 1, "room: one less")?;
    one(run, rng, subject, less, "room: some less")?;
    one(run, rng, subject, 0, "room: none")?;
    let written = one(run, rng, subject, length, "room: exact")?;
    read_back(run, subject, written.front(length))
}

/// One call of both with a room; gives the first's output.
fn one(
    run: &mut Run,
    rng: &mut Rng,
    subject: &Subject,
    room: usize,
    sort: &str,
) -> Result<Output, String> {
    let fill = rng.bits() as u8;
    let (mut message, mut expected) = (Output::new(room, fill), Output::new(room, fill));
    let (schema, sheet) = (&subject.schema, &subject.sheet);
    let given = run.first.write(schema, sheet, message.lent());
    let second = run.second.write(schema, sheet, expected.lent());
    run.counts.note(CALLS);
    run.counts.note(&format!("{sort}, answer {}", given[0]));
    run.counts.answer(given[0] as u32);
    if given == second && message.whole() == expected.whole() {
        return Ok(message);
    }
    Err(format!(
        "{}, room {room}\n  {}: {given:?}\n  {}: {second:?}\n  \
         output:   {}\n  expected: {}\n  schema: {}\n  sheet: {}",
        subject.sort,
        run.first.name(),
        run.second.name(),
        hex(message.whole()),
        hex(expected.whole()),
        schema,
        hex(sheet),
    ))
}

/// The round trip: what the first has written, the first reads as the sheet.
fn read_back(run: &mut Run, subject: &Subject, message: &[u8]) -> Result<(), String> {
    let length = subject.sheet.len();
    let mut back = Output::new(length, 0);
    let read = run
        .first
        .read(&subject.schema, message, Budget::LARGEST, back.lent());
    run.counts.note("round trips");
    let verdict = read.verdict;
    let whole = read.length == length as u64 && back.front(length) == subject.sheet;
    let spent = accepted(verdict.visits, verdict.content);
    if verdict == spent && verdict.visits > 0 && whole {
        return Ok(());
    }
    Err(format!(
        "{}: read back as {read:?}\n  \
         sheet read: {}\n  sheet: {}\n  schema: {}\n  message: {}",
        subject.sort,
        hex(back.front(length)),
        hex(&subject.sheet),
        subject.schema,
        hex(message),
    ))
}
