//! The laws a program must keep on random cases.

mod append;
mod census;
mod damaged;
mod fields;
mod large;
mod moving;
mod round_trip;
mod schemas;
mod sheets;
mod starts;
mod wild;

use crate::coding::Coding;
use crate::counts::Counts;
use crate::program::{accepted, refused, refused_at_start, verdict, NO_MEMBER};
use crate::program::{Answer, Budget, Program, Relations, Verdict, AMPLE};
use crate::rng::Rng;
use crate::schema::Packed;
use std::fmt::{Debug, Write};
use std::panic::{catch_unwind, AssertUnwindSafe};

pub use large::run as run_large;

/// The program whose calls the laws are about, and the one that says what a
/// schema is to another.
#[derive(Clone, Copy)]
pub struct Programs<'a> {
    pub program: &'a dyn Program,
    pub relations: &'a dyn Relations,
}

impl<'a> Programs<'a> {
    /// One program for both.
    pub fn one<P: Program + Relations>(program: &'a P) -> Programs<'a> {
        Programs {
            program,
            relations: program,
        }
    }
}

/// A law that did not hold, with all that is needed to see it again.
pub struct Failure {
    pub text: String,
}

/// Whether a law held.
pub type Checked = Result<(), Failure>;

/// The bytes and numbers a failing case prints.
pub type Data<'a> = &'a [(&'static str, &'a [u8])];

/// What a case runs with.
pub struct Context<'a> {
    pub coding: Coding,
    pub rng: Rng,
    pub counts: &'a mut Counts,
    pub program: &'a dyn Program,
    pub relations: &'a dyn Relations,
}

impl Context<'_> {
    fn judge(&mut self, schema: &Packed, message: &[u8], budget: Budget) -> Verdict {
        let verdict = self.program.judge(schema, message, budget);
        self.counts.answer(verdict.number);
        verdict
    }

    fn read(
        &mut self,
        s: &Packed,
        message: &[u8],
        budget: Budget,
        room: usize,
    ) -> (Verdict, Vec<u8>) {
        let (verdict, sheet) = self.program.read(s, message, budget, room);
        self.counts.answer(verdict.number);
        (verdict, sheet)
    }

    fn write(&mut self, schema: &Packed, sheet: &[u8], room: usize) -> (u32, Vec<u8>) {
        let (number, message) = self.program.write(schema, sheet, room);
        self.counts.answer(number);
        (number, message)
    }

    fn field(&mut self, schema: &Packed, message: &[u8], path: &[u32]) -> Answer {
        let answer = self.program.field(schema, message, path);
        self.count_field(&answer);
        answer
    }

    fn count_field(&mut self, answer: &Answer) {
        let name = match answer {
            Answer::Boolean(_) => "field answers: boolean",
            Answer::Number { .. } => "field answers: number",
            Answer::Float { .. } => "field answers: float",
            Answer::Object { .. } => "field answers: object",
            Answer::Struct { .. } => "field answers: struct",
            Answer::Absent => "field answers: absent",
            Answer::Unknown(_) => "field answers: unknown",
            Answer::Refused { number, .. } => {
                self.counts.answer(*number);
                "field answers: refused"
            }
        };
        self.counts.note(name);
    }
}

/// Bytes as hexadecimal digits, cut after a limit.
pub fn hex(bytes: &[u8]) -> String {
    const LIMIT: usize = 3000;
    let mut out = String::new();
    for byte in bytes.iter().take(LIMIT) {
        let _ = write!(out, "{byte:02X}");
    }
    if bytes.len() > LIMIT {
        let _ = write!(out, "... ({} bytes)", bytes.len());
    }
    out
}

/// Fails unless both are equal.
pub fn same<T: PartialEq + Debug>(law: &str, expected: &T, given: &T, data: Data) -> Checked {
    if expected == given {
        return Ok(());
    }
    fail(
        law,
        &format!("expected {expected:?}\n  given {given:?}"),
        data,
    )
}

/// The same or somewhat more of both allowances.
pub fn or_more(rng: &mut Rng, budget: Budget) -> Budget {
    Budget {
        visits: budget.visits + rng.range(0, 200) as u32,
        content: budget.content + rng.range(0, 200) as u64,
    }
}

/// The verdict of a message that is accepted and spends this.
pub fn accepted_with(spent: Budget) -> Verdict {
    accepted(spent.visits, spent.content)
}

/// Fails unless a verdict is that of spent visits, wherever that shows.
pub fn visits_spent(law: &str, visits: u32, given: Verdict, data: Data) -> Checked {
    let expected = verdict(4, given.place, visits, given.content);
    same(law, &expected, &given, data)
}

/// Fails unless a verdict is that of spent content, wherever that shows: no more
/// is spent than is allowed, and no more visits than with enough.
pub fn content_spent(law: &str, budget: Budget, given: Verdict, data: Data) -> Checked {
    let expected = verdict(17, given.place, given.visits, given.content);
    same(law, &expected, &given, data)?;
    let within = given.content <= budget.content && given.visits <= budget.visits;
    same(law, &true, &within, data)
}

/// Fails unless both are the same bytes.
pub fn same_bytes(law: &str, expected: &[u8], given: &[u8], data: Data) -> Checked {
    if expected == given {
        return Ok(());
    }
    let detail = format!("expected {}\n  given    {}", hex(expected), hex(given));
    fail(law, &detail, data)
}

/// Fails.
pub fn fail(law: &str, detail: &str, data: Data) -> Checked {
    let mut text = format!("law: {law}\n  {detail}\n");
    for (name, bytes) in data {
        let _ = writeln!(text, "  {name}: {}", hex(bytes));
    }
    Err(Failure { text })
}

type Law = fn(&mut Context) -> Checked;

/// The laws, each with its share of a hundred cases.
const LAWS: [(usize, &str, Law); 8] = [
    (17, "cases: round trip", round_trip::check),
    (24, "cases: wild messages", wild::check),
    (18, "cases: damaged messages", damaged::check),
    (14, "cases: sheets", sheets::check),
    (15, "cases: appended schemas", append::check),
    (5, "cases: messages moved over", moving::check),
    (5, "cases: schemas", schemas::check),
    (2, "cases: message starts", starts::check),
];

/// Runs one numbered case of a seeded run.
pub fn run_case(
    programs: &Programs,
    coding: Coding,
    (seed, case): (u64, u64),
    counts: &mut Counts,
) -> Result<(), String> {
    let mut context = Context {
        coding,
        rng: Rng::for_case(seed, case),
        counts,
        program: programs.program,
        relations: programs.relations,
    };
    let mut draw = context.rng.below(100);
    let mut chosen = LAWS[0];
    for law in LAWS {
        chosen = law;
        if draw < law.0 {
            break;
        }
        draw -= law.0;
    }
    context.counts.note(chosen.1);
    let outcome = catch_unwind(AssertUnwindSafe(|| (chosen.2)(&mut context)));
    let text = match outcome {
        Ok(Ok(())) => return Ok(()),
        Ok(Err(failure)) => failure.text,
        Err(_) => "a panic, reported above".to_string(),
    };
    Err(format!(
        "{coding:?} seed {seed} case {case} ({}): {text}",
        chosen.1
    ))
}

/// Runs cases 0 to `cases`, then the large ones; stops at the first failure.
pub fn run(programs: &Programs, coding: Coding, seed: u64, cases: u64) -> Result<Counts, String> {
    let mut counts = Counts::default();
    for case in 0..cases {
        run_case(programs, coding, (seed, case), &mut counts)?;
    }
    run_large(programs, coding, &mut counts)?;
    Ok(counts)
}
