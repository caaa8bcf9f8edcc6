//! Programs under test, and running two of them side by side.

use crate::schema::Packed;
pub use reference::{Answer, Budget, Verdict, NO_MEMBER};
use scalgo::NotLawful;
use std::cell::RefCell;

/// Enough for all but walks that grow without end, since damage may share objects.
pub const AMPLE: Budget = Budget::of_visits(3000);

/// A verdict without a member.
pub fn verdict(number: u32, place: u64, visits: u32, content: u64) -> Verdict {
    Verdict {
        number,
        place,
        member: NO_MEMBER,
        visits,
        content,
    }
}

/// The verdict of an accepted message.
pub fn accepted(visits: u32, content: u64) -> Verdict {
    verdict(0, 0, visits, content)
}

/// The verdict of a message refused before the walk.
pub fn refused_at_start(number: u32) -> Verdict {
    verdict(number, 0, 0, 0)
}

/// The refusal of a field without a member.
pub fn refused(number: u32, place: u64) -> Answer {
    Answer::Refused {
        number,
        place,
        member: NO_MEMBER,
    }
}

/// A program that judges.
pub trait Judge {
    /// What reports call it.
    fn name(&self) -> &'static str;
    /// Judges a message.
    fn judge(&self, schema: &Packed, message: &[u8], budget: Budget) -> Verdict;
    /// Judges by a schema unpacked beforehand, where the program can.
    fn judge_unpacked(
        &self,
        _schema: &Packed,
        _message: &[u8],
        _budget: Budget,
    ) -> Option<Verdict> {
        None
    }
}

/// A program that judges, reads, writes and answers fields.
pub trait Program: Judge {
    /// Reads a message to a sheet; no bytes on refusal.
    fn read(
        &self,
        schema: &Packed,
        message: &[u8],
        budget: Budget,
        room: usize,
    ) -> (Verdict, Vec<u8>);
    /// Writes a sheet to a message; no bytes on refusal.
    fn write(&self, schema: &Packed, sheet: &[u8], room: usize) -> (u32, Vec<u8>);
    /// Clears the in-place flag of a schema's unions; no bytes on refusal. It takes no coding.
    fn clear_unions(&self, schema: &[u8], room: usize) -> (u32, Vec<u8>);
    /// Answers one field.
    fn field(&self, schema: &Packed, message: &[u8], path: &[u32]) -> Answer;
    /// The bytes of a text or of bytes, where the path leads to such.
    fn text(&self, schema: &Packed, message: &[u8], path: &[u32]) -> Option<Vec<u8>>;
    /// Starts a list reader and takes so many steps.
    fn list_steps(
        &self,
        schema: &Packed,
        message: &[u8],
        path: &[u32],
        steps: usize,
    ) -> Result<Vec<Answer>, Answer>;
}

/// What one schema is to another, and to its sheets.
pub trait Relations {
    /// Whether a packed schema is lawful.
    fn lawful(&self, schema: &Packed) -> bool;
    /// Whether the newer appends to the older.
    fn appends(&self, older: &Packed, newer: &Packed) -> bool;
    /// The newer sheet without the appended members.
    fn without_appended(&self, older: &Packed, newer: &Packed, sheet: &[u8]) -> Option<Vec<u8>>;
    /// The older sheet with the added members.
    fn with_added(&self, older: &Packed, newer: &Packed, sheet: &[u8]) -> Option<Vec<u8>>;
}

/// The proved library, called through its Rust wrapper.
pub struct Library;

/// The wrapper's schema, where it is lawful; the wrapper takes no number that is no coding's.
fn by(schema: &Packed) -> Result<scalgo::Schema, NotLawful> {
    let coding = scalgo::Coding::of(schema.coding()).expect("a number of a coding");
    scalgo::Schema::new(coding, schema.bytes())
}

impl Judge for Library {
    fn name(&self) -> &'static str {
        "proved library"
    }

    fn judge(&self, schema: &Packed, message: &[u8], budget: Budget) -> Verdict {
        let judged = |schema: scalgo::Schema| schema.judge(message, to_wrapper(budget));
        of_wrapper(by(schema).map_or_else(NotLawful::into, judged))
    }
}

/// The second program's budget as the wrapper's.
fn to_wrapper(Budget { visits, content }: Budget) -> scalgo::Budget {
    scalgo::Budget { visits, content }
}

/// The wrapper's verdict as the second program's.
fn of_wrapper(verdict: scalgo::Verdict) -> Verdict {
    Verdict {
        number: verdict.number,
        place: verdict.place,
        member: verdict.member.unwrap_or(NO_MEMBER),
        visits: verdict.visits,
        content: verdict.content,
    }
}

thread_local! {
    /// What the library reads and writes into, as large as was ever asked for.
    static OUTPUT: RefCell<Vec<u8>> = const { RefCell::new(Vec::new()) };
}

/// Lends a call so much room; gives its answer and the bytes it says it wrote.
fn with_room<T>(room: usize, call: impl FnOnce(&mut [u8]) -> (T, usize)) -> (T, Vec<u8>) {
    OUTPUT.with_borrow_mut(|output| {
        if output.len() < room {
            output.resize(room, 0);
        }
        let (answer, length) = call(&mut output[..room]);
        (answer, output[..length].to_vec())
    })
}

/// The wrapper's answer as the second program's.
fn answer(answer: scalgo::Answer) -> Answer {
    match answer {
        scalgo::Answer::Boolean(value) => Answer::Boolean(value),
        scalgo::Answer::Number {
            bits,
            width,
            signed,
        } => Answer::Number {
            bits,
            width,
            signed,
        },
        scalgo::Answer::Float { bits, width } => Answer::Float { bits, width },
        scalgo::Answer::Object {
            kind,
            place,
            length,
        } => Answer::Object {
            kind: u32::from(kind),
            place,
            length,
        },
        scalgo::Answer::Struct { place } => Answer::Struct { place },
        scalgo::Answer::Absent => Answer::Absent,
        scalgo::Answer::Unknown(number) => Answer::Unknown(u64::from(number)),
        scalgo::Answer::Refused {
            number,
            place,
            member,
        } => Answer::Refused {
            number,
            place,
            member: member.unwrap_or(NO_MEMBER),
        },
    }
}

impl Program for Library {
    fn read(
        &self,
        schema: &Packed,
        message: &[u8],
        budget: Budget,
        room: usize,
    ) -> (Verdict, Vec<u8>) {
        let (verdict, sheet) = with_room(room, |sheet| match by(schema) {
            Ok(schema) => {
                let answer = schema.read(message, to_wrapper(budget), sheet);
                (answer.verdict, answer.length)
            }
            Err(refusal) => (refusal.into(), 0),
        });
        (of_wrapper(verdict), sheet)
    }

    fn write(&self, schema: &Packed, sheet: &[u8], room: usize) -> (u32, Vec<u8>) {
        with_room(room, |message| match by(schema) {
            Ok(schema) => {
                let answer = schema.write(sheet, message);
                (answer.number, answer.length)
            }
            Err(_) => (NotLawful::NUMBER, 0),
        })
    }

    fn clear_unions(&self, schema: &[u8], room: usize) -> (u32, Vec<u8>) {
        with_room(room, |cleared| {
            let answer = scalgo::clear_unions(schema, cleared);
            (answer.number, answer.length)
        })
    }

    fn field(&self, schema: &Packed, message: &[u8], path: &[u32]) -> Answer {
        let field = |schema: scalgo::Schema| schema.field(message, path);
        answer(by(schema).map_or_else(NotLawful::into, field))
    }

    fn text(&self, schema: &Packed, message: &[u8], path: &[u32]) -> Option<Vec<u8>> {
        let text = by(schema).ok()?.text(message, path);
        text.map(<[u8]>::to_vec)
    }

    fn list_steps(
        &self,
        schema: &Packed,
        message: &[u8],
        path: &[u32],
        steps: usize,
    ) -> Result<Vec<Answer>, Answer> {
        let wrapped = by(schema).map_err(|refusal| answer(refusal.into()))?;
        let list = wrapped.list(message, path).map_err(answer)?;
        let mut answers: Vec<Answer> = list.take(steps).map(answer).collect();
        // The iterator has an end where the list reader says 15 at the list.
        if let Answer::Object { place, .. } = self.field(schema, message, path) {
            answers.resize(steps, refused(15, place));
        }
        Ok(answers)
    }
}

/// The independent second program.
pub struct Second;

impl Judge for Second {
    fn name(&self) -> &'static str {
        "second program"
    }

    fn judge(&self, schema: &Packed, message: &[u8], budget: Budget) -> Verdict {
        reference::judge(schema.lent(), message, budget)
    }

    fn judge_unpacked(&self, schema: &Packed, message: &[u8], budget: Budget) -> Option<Verdict> {
        let schema = reference::Schema::parse(schema.coding(), schema.bytes())?;
        Some(reference::judge_parsed(&schema, message, budget))
    }
}

impl Program for Second {
    fn read(
        &self,
        schema: &Packed,
        message: &[u8],
        budget: Budget,
        room: usize,
    ) -> (Verdict, Vec<u8>) {
        reference::read(schema.lent(), message, budget, room)
    }

    fn write(&self, schema: &Packed, sheet: &[u8], room: usize) -> (u32, Vec<u8>) {
        reference::write(schema.coding(), schema.bytes(), sheet, room)
    }

    fn clear_unions(&self, schema: &[u8], room: usize) -> (u32, Vec<u8>) {
        reference::clear_unions(schema, room)
    }

    fn field(&self, schema: &Packed, message: &[u8], path: &[u32]) -> Answer {
        reference::field(schema.lent(), message, path)
    }

    fn text(&self, schema: &Packed, message: &[u8], path: &[u32]) -> Option<Vec<u8>> {
        let (start, length) = reference::text(schema.lent(), message, path)?;
        Some(message[start..start + length].to_vec())
    }

    fn list_steps(
        &self,
        schema: &Packed,
        message: &[u8],
        path: &[u32],
        steps: usize,
    ) -> Result<Vec<Answer>, Answer> {
        let mut reader = reference::ListReader::new(schema.lent(), message, path)?;
        Ok((0..steps).map(|_| reader.step()).collect())
    }
}

impl Relations for Second {
    fn lawful(&self, schema: &Packed) -> bool {
        reference::lawful(schema.coding(), schema.bytes())
    }

    fn appends(&self, older: &Packed, newer: &Packed) -> bool {
        reference::appends(older.coding(), older.bytes(), newer.bytes())
    }

    fn without_appended(&self, older: &Packed, newer: &Packed, sheet: &[u8]) -> Option<Vec<u8>> {
        reference::without_appended(older.coding(), older.bytes(), newer.bytes(), sheet)
    }

    fn with_added(&self, older: &Packed, newer: &Packed, sheet: &[u8]) -> Option<Vec<u8>> {
        reference::with_added(older.coding(), older.bytes(), newer.bytes(), sheet)
    }
}
