//! Clearing a schema put to both: the number, the length, and the whole output
//! with its surroundings. What must come of it is known by this crate's own rules.

use super::{Output, Writes};
use crate::coding::Coding;
use crate::counts::Counts;
use crate::laws::hex;
use crate::rng::Rng;
use crate::schema::{Packed, Schema, UNION};
use crate::schema_faults;
use crate::schema_gen;
use crate::schema_rules;
use crate::subjects;

/// Two programs, and what was seen of them.
pub type Run<'a> = super::Run<'a, dyn Writes + 'a>;

/// What the calls are counted as.
pub const CALLS: &str = "clears";

/// Clears schemas with both until at least so many calls were compared. The
/// schemas are made for a coding; both judge them under 48 bits.
pub fn run(
    first: &dyn Writes,
    second: &dyn Writes,
    coding: Coding,
    seed: u64,
    calls: u64,
) -> Result<Counts, String> {
    let run = Run::new(first, second, coding);
    run.until(CALLS, calls, |run, round| {
        let mut rng = Rng::for_case(seed, round);
        for (sort, schema) in of_round(run.coding, &mut rng) {
            on_schema(run, &mut rng, sort, &schema)
                .map_err(|report| format!("seed {seed} round {round}: {report}"))?;
        }
        Ok(())
    })
}

/// Any bytes as schemas.
fn of_round(coding: Coding, rng: &mut Rng) -> Vec<(&'static str, Vec<u8>)> {
    let held = schema_gen::with_union_in_place(coding, rng).pack();
    let any = subjects::some_schema(coding, rng, 10).pack();
    let rule = rng.pick(schema_faults::rules(coding));
    let length = rng.range(0, 30);
    let mut out = vec![
        ("random bytes", rng.bytes(length)),
        (
            "with a rule broken",
            schema_faults::breaking(coding, rng, rule).bytes().to_vec(),
        ),
        (
            "of the other coding",
            schema_gen::with_union_in_place(coding.other(), rng)
                .pack()
                .bytes()
                .to_vec(),
        ),
    ];
    for schema in [&held, &held, &held, &any] {
        let damaged = schema_faults::damaged(rng, schema);
        out.push(("damaged", damaged.bytes().to_vec()));
    }
    out.push(("with a union in place", held.bytes().to_vec()));
    out.push(("of any sort", any.bytes().to_vec()));
    out
}

/// The schema as this crate reads it under 48 bits, if it is lawful.
fn parsed(schema: &[u8]) -> Option<Schema> {
    schema_rules::parse(&Packed::new(Coding::Bits48, schema))
}

/// How many unions a schema's tables hold in place.
fn unions_in_place(schema: &Schema) -> usize {
    let members = schema.tables.iter().flat_map(|table| &table.members);
    let held = members.filter(|member| member.kind == UNION && member.in_place);
    held.count()
}

/// A schema with rooms around the one that it needs.
fn on_schema(run: &mut Run, rng: &mut Rng, sort: &str, schema: &[u8]) -> Result<(), String> {
    let parsed = parsed(schema);
    let cleared = parsed
        .as_ref()
        .map(|schema| schema.cleared().pack().bytes().to_vec());
    run.counts.note(&match &parsed {
        Some(_) => format!("schemas {sort}, lawful"),
        None => format!("schemas {sort}, not lawful"),
    });
    if let Some(schema) = &parsed {
        let flags = unions_in_place(schema);
        run.counts.note(match flags {
            0 => "flags cleared: none",
            1 => "flags cleared: one",
            _ => "flags cleared: several",
        });
    }
    let length = schema.len();
    let rooms = [
        ("exact", length),
        ("larger", length + 1 + rng.below(40)),
        ("one less", length.saturating_sub(1)),
        ("some less", rng.below(length.max(1))),
        ("none", 0),
    ];
    for (name, room) in rooms {
        one(run, rng, schema, cleared.as_deref(), (name, room))
            .map_err(|report| format!("{sort}, {report}"))?;
    }
    Ok(())
}

/// One call of both with a room.
fn one(
    run: &mut Run,
    rng: &mut Rng,
    schema: &[u8],
    cleared: Option<&[u8]>,
    (name, room): (&str, usize),
) -> Result<(), String> {
    let fill = rng.bits() as u8;
    let mut expected = Output::new(room, fill);
    let number = match cleared {
        None => 1,
        Some(_) if room < schema.len() => 14,
        Some(cleared) => {
            expected.lent()[..cleared.len()].copy_from_slice(cleared);
            0
        }
    };
    let length = if number == 0 { schema.len() } else { 0 };
    let answer = [number, length as u64];
    run.counts.note(CALLS);
    run.counts.note(&format!("room: {name}, answer {number}"));
    run.counts.answer(number as u32);
    for program in [run.first, run.second] {
        let mut given = Output::new(room, fill);
        let answered = program.clear(schema, given.lent());
        if answered != answer || given.whole() != expected.whole() {
            return Err(format!(
                "room {room}\n  {}: {answered:?}\n  expected: {answer:?}\n  \
                 output:   {}\n  expected: {}\n  schema:   {}",
                program.name(),
                hex(given.whole()),
                hex(expected.whole()),
                hex(schema),
            ));
        }
    }
    Ok(())
}
