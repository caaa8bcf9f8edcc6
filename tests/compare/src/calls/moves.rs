//! Moving stored messages over put to both: a message that is accepted is read to
//! its sheet, its schema is cleared, the sheet is written with that, and what was
//! written is read back. "12 for an older reason" is what the writer gave while unions
//! in place were written, which the second program still can say.

use super::{Output, Writes};
use crate::canonical;
use crate::coding::Coding;
use crate::counts::Counts;
use crate::damage;
use crate::laws::hex;
use crate::message_gen;
use crate::program::{accepted, Budget, AMPLE};
use crate::rng::Rng;
use crate::schema::{Packed, Schema, SIZE_LIMIT};
use crate::schema_gen;
use crate::sheet;
use crate::subjects;
use crate::value::{has_union_in_place, was_writable};
use crate::value_gen::{self, Purpose};

/// Two programs, and what was seen of them.
pub type Run<'a> = super::Run<'a, dyn Writes + 'a>;

/// What the messages are counted as that are accepted, and so moved or not.
pub const MOVES: &str = "messages to move over";

/// Moves messages over with both until so many were accepted.
pub fn run(
    first: &dyn Writes,
    second: &dyn Writes,
    seed: u64,
    messages: u64,
) -> Result<Counts, String> {
    let run = Run::new(first, second, Coding::Bits48);
    run.until(MOVES, messages, |run, round| {
        let mut rng = Rng::for_case(seed, round);
        let schema = match rng.one_in(4) {
            true => subjects::some_schema(Coding::Bits48, &mut rng, 10),
            false => schema_gen::with_union_in_place(Coding::Bits48, &mut rng),
        };
        for (sort, message) in messages_of(&mut rng, &schema) {
            on_message(run, &mut rng, &schema, sort, &message)
                .map_err(|report| format!("seed {seed} round {round}: {sort}: {report}"))?;
        }
        Ok(())
    })
}

/// Stored messages of a schema: as the writer laid them out, at random, and damaged.
fn messages_of(rng: &mut Rng, schema: &Schema) -> Vec<(&'static str, Vec<u8>)> {
    let mut out = Vec::new();
    let size = value_gen::some_size(rng);
    let stored = value_gen::root_value(schema, rng, Purpose::Stored, size);
    out.push(("as written", canonical::message(schema, &stored)));
    let any = subjects::some_value(rng, schema, 12);
    for (sort, value) in [("laid out", stored), ("wild", any)] {
        let laid = message_gen::lay_out(schema, rng, value, None);
        for _ in 0..3 {
            out.push(("damaged", damage::message(schema.coding, rng, &laid)));
        }
        out.push((sort, laid.bytes));
    }
    out
}

/// A message that is accepted, with what was found out about it.
struct Moving<'a> {
    stored: &'a Packed,
    cleared: Packed,
    message: &'a [u8],
    sheet: Vec<u8>,
}

/// Reads a message and moves it over, if it is accepted.
fn on_message(
    run: &mut Run,
    rng: &mut Rng,
    schema: &Schema,
    sort: &str,
    message: &[u8],
) -> Result<(), String> {
    let stored = &schema.pack();
    let verdict = run.first.judge(stored, message, AMPLE);
    if verdict.number != 0 {
        run.counts.note(&format!(
            "messages {sort}, not accepted: {}",
            verdict.number
        ));
        return Ok(());
    }
    run.counts.note(MOVES);
    let sheet = read(run, stored, message)?;
    let cleared = Packed::new(Coding::Bits48, &cleared(run, stored)?);
    let moving = Moving {
        stored,
        cleared,
        message,
        sheet,
    };
    let number = moved(run, rng, &moving)?;
    reasons(run, schema, &moving, number)?;
    run.counts.note(&format!("messages {sort}, moved {number}"));
    Ok(())
}

/// Fails with the bytes that are needed to see it again.
fn failed(moving: &Moving, what: &str) -> String {
    format!(
        "{what}\n  schema: {}\n  cleared: {}\n  message: {}\n  sheet: {}",
        moving.stored,
        moving.cleared,
        hex(moving.message),
        hex(&moving.sheet),
    )
}

/// The sheet of an accepted message, which is the same for both.
fn read(run: &Run, schema: &Packed, message: &[u8]) -> Result<Vec<u8>, String> {
    let (_, sheet) = reference::read(schema.lent(), message, AMPLE, SIZE_LIMIT);
    let mut given = Output::new(sheet.len(), 3);
    let answer = run.first.read(schema, message, AMPLE, given.lent());
    let whole = answer.length == sheet.len() as u64 && given.front(sheet.len()) == sheet;
    if answer.verdict.number == 0 && whole {
        return Ok(sheet);
    }
    Err(format!(
        "read as {answer:?}\n  sheet: {}\n  expected: {}\n  schema: {schema}\n  message: {}",
        hex(given.whole()),
        hex(&sheet),
        hex(message),
    ))
}

/// The cleared schema, which is the same for both.
fn cleared(run: &Run, schema: &Packed) -> Result<Vec<u8>, String> {
    let length = schema.bytes().len();
    let clear = |program: &dyn Writes| {
        let mut output = Output::new(length, 5);
        let answer = program.clear(schema.bytes(), output.lent());
        (answer, output.front(length).to_vec())
    };
    let (one, two) = (clear(run.first), clear(run.second));
    match one == two && one.0 == [0, length as u64] {
        true => Ok(one.1),
        false => Err(format!("cleared {one:?}\n  {two:?}\n  schema: {schema}")),
    }
}

/// Writes the sheet with the cleared schema and rooms around the one that it needs;
/// gives the number with room enough.
fn moved(run: &mut Run, rng: &mut Rng, moving: &Moving) -> Result<u64, String> {
    let cleared = &moving.cleared;
    let (number, message) =
        reference::write(cleared.coding(), cleared.bytes(), &moving.sheet, SIZE_LIMIT);
    let length = message.len();
    let mut rooms = vec![rng.below(200), 0];
    if number == 0 {
        rooms = vec![length + 1 + rng.below(40), length - 1, 0, length];
    }
    for room in rooms {
        let fill = rng.bits() as u8;
        let write = |program: &dyn Writes| {
            let mut output = Output::new(room, fill);
            let answer = program.write(&moving.cleared, &moving.sheet, output.lent());
            (answer, output.whole().to_vec())
        };
        let (one, two) = (write(run.first), write(run.second));
        run.counts.note("moving writes");
        run.counts.answer(one.0[0] as u32);
        if one != two {
            let what = format!("room {room}: written {:?} and {:?}", one.0, two.0);
            return Err(failed(moving, &what));
        }
    }
    if number == 0 {
        read_back(run, moving, length)?;
    }
    Ok(number.into())
}

/// "the sheet read back with enough allowance and room is the same".
fn read_back(run: &mut Run, moving: &Moving, length: usize) -> Result<(), String> {
    let mut message = Output::new(length, 0);
    run.first
        .write(&moving.cleared, &moving.sheet, message.lent());
    let room = moving.sheet.len();
    let mut back = Output::new(room, 0);
    let (schema, message) = (&moving.cleared, message.front(length));
    let read = run
        .first
        .read(schema, message, Budget::LARGEST, back.lent());
    let spent = accepted(read.verdict.visits, read.verdict.content);
    if read.verdict == spent && read.length == room as u64 && back.front(room) == moving.sheet {
        run.counts.note("read back");
        return Ok(());
    }
    Err(failed(moving, &format!("read back as {read:?}")))
}

/// The move is refused by 12 exactly where the stored schema's write was for an older
/// reason; that write is now refused by 12 there and where a union is present in place.
fn reasons(run: &mut Run, schema: &Schema, moving: &Moving, number: u64) -> Result<(), String> {
    let (packed, sheet) = (moving.stored, &moving.sheet);
    let Some(value) = sheet::decode(schema, sheet) else {
        return Err(failed(moving, "the sheet is not lawful"));
    };
    let (stored, _) = reference::write_stored(packed.coding(), packed.bytes(), sheet, SIZE_LIMIT);
    let held = has_union_in_place(schema, &value);
    run.counts.note(&format!(
        "moved {number}, {} a union in place",
        if held { "with" } else { "without" }
    ));
    let older = stored == 12;
    if older == was_writable(schema, &value) || older != (number == 12) {
        return Err(failed(moving, &format!("moved {number}, before {stored}")));
    }
    let refused = older || held;
    for program in [run.first, run.second] {
        let [now, _] = program.write(moving.stored, sheet, &mut []);
        let expected = match (refused, stored) {
            (true, _) => 12,
            // There is no room.
            (false, 0) => 14,
            (false, number) => u64::from(number),
        };
        if now != expected {
            let what = format!("{}: by its own schema {now}", program.name());
            return Err(failed(moving, &what));
        }
    }
    Ok(())
}
