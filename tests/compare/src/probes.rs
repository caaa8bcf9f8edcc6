//! Single calls with random arguments, to be put to any program.

use crate::coding::Coding;
use crate::damage;
use crate::message_faults;
use crate::message_gen::{self, Wild};
use crate::paths;
use crate::program::{Answer, Budget, Program, Verdict, AMPLE};
use crate::rng::Rng;
use crate::schema::{Packed, Schema, SIZE_LIMIT};
use crate::schema_faults;
use crate::sheet;
use crate::sheet_faults;
use crate::subjects;
use crate::value::{objects, Value};
use crate::value_gen;

/// What is asked of a program about a schema and a message or a sheet.
#[derive(Clone, Debug)]
pub enum Question {
    Judge { budget: Budget },
    Read { budget: Budget, room: usize },
    Write { room: usize },
    Clear { room: usize },
    Field { path: Vec<u32> },
    Text { path: Vec<u32> },
    List { path: Vec<u32>, steps: usize },
}

/// One call: the schema, the message or the sheet, and the question.
#[derive(Clone, Debug)]
pub struct Probe {
    pub schema: Packed,
    pub bytes: Vec<u8>,
    pub question: Question,
}

/// What came back.
#[derive(Clone, Debug, PartialEq, Eq)]
pub enum Outcome {
    Judged(Verdict),
    Read(Verdict, Vec<u8>),
    Written(u32, Vec<u8>),
    Cleared(u32, Vec<u8>),
    Field(Answer),
    Text(Option<Vec<u8>>),
    List(Result<Vec<Answer>, Answer>),
}

impl Probe {
    /// Puts the question to a program.
    pub fn put_to(&self, program: &dyn Program) -> Outcome {
        let (schema, bytes) = (&self.schema, &self.bytes[..]);
        match &self.question {
            Question::Judge { budget } => Outcome::Judged(program.judge(schema, bytes, *budget)),
            Question::Read { budget, room } => {
                let (verdict, sheet) = program.read(schema, bytes, *budget, *room);
                Outcome::Read(verdict, sheet)
            }
            Question::Write { room } => {
                let (number, message) = program.write(schema, bytes, *room);
                Outcome::Written(number, message)
            }
            Question::Clear { room } => {
                let (number, cleared) = program.clear_unions(schema.bytes(), *room);
                Outcome::Cleared(number, cleared)
            }
            Question::Field { path } => Outcome::Field(program.field(schema, bytes, path)),
            Question::Text { path } => Outcome::Text(program.text(schema, bytes, path)),
            Question::List { path, steps } => {
                Outcome::List(program.list_steps(schema, bytes, path, *steps))
            }
        }
    }
}

/// Probes of one random schema and value.
pub fn random_probes(coding: Coding, rng: &mut Rng) -> Vec<Probe> {
    let schema = subjects::some_schema(coding, rng, 12);
    let mut value = subjects::some_value(rng, &schema, 20);
    if rng.one_in(4) {
        value = value_gen::with_bad_texts(&schema, rng, &value).unwrap_or(value);
    }
    let packed = match rng.below(20) {
        0 => schema_faults::damaged(rng, &schema.pack()),
        1 => {
            let rule = rng.pick(schema_faults::rules(coding));
            schema_faults::breaking(coding, rng, rule)
        }
        _ => schema.pack(),
    };
    let mut probes = Vec::new();
    for (bytes, budgets) in some_messages(rng, &schema, &value) {
        let ask = |question| Probe {
            schema: packed.clone(),
            bytes: bytes.clone(),
            question,
        };
        probes.extend(
            questions(rng, &schema, &value, &budgets)
                .into_iter()
                .map(ask),
        );
    }
    for (bytes, room) in some_sheets(rng, &schema, &value) {
        let question = Question::Write { room };
        let schema = packed.clone();
        probes.push(Probe {
            schema,
            bytes,
            question,
        });
    }
    let length = packed.bytes().len();
    for room in [length, length.saturating_sub(1), length + rng.below(9)] {
        probes.push(Probe {
            schema: packed.clone(),
            bytes: Vec::new(),
            question: Question::Clear { room },
        });
    }
    probes
}

/// Messages near a value, with budgets that walk them to the end or nearly.
fn some_messages(rng: &mut Rng, schema: &Schema, value: &Value) -> Vec<(Vec<u8>, Vec<Budget>)> {
    let whole = message_gen::lay_out(schema, rng, value.clone(), None);
    let sites = message_faults::sites(schema, value);
    let fault = Some(rng.pick(&sites));
    let faulty = message_gen::lay_out(schema, rng, value.clone(), fault);
    let mut out = Vec::new();
    for wild in [whole, faulty] {
        let exact = wild.spent();
        let Budget { visits, content } = exact;
        let fewer = Budget::of_visits(visits.saturating_sub(1));
        let less = Budget {
            content: content.saturating_sub(1),
            ..AMPLE
        };
        for bytes in damaged(schema.coding, rng, &wild) {
            let budget = Budget {
                visits: rng.pick(&[0, 1, 50, 3000]),
                content: rng.pick(&[0, content, less.content, u64::MAX, u64::MAX]),
            };
            out.push((bytes, vec![budget, exact]));
        }
        let budgets = vec![fewer, less, exact, Budget::LARGEST];
        out.push((wild.bytes, budgets));
    }
    out
}

fn damaged(coding: Coding, rng: &mut Rng, wild: &Wild) -> Vec<Vec<u8>> {
    let mut damaged = || damage::message(coding, rng, wild);
    (0..3).map(|_| damaged()).collect()
}

fn questions(rng: &mut Rng, schema: &Schema, value: &Value, budgets: &[Budget]) -> Vec<Question> {
    let length = sheet::encode(schema, value).len();
    let mut out = Vec::new();
    for &budget in budgets {
        out.push(Question::Judge { budget });
        let room = rng.pick(&[0, length.saturating_sub(1), length, 2 * length, 1 << 20]);
        out.push(Question::Read { budget, room });
    }
    for _ in 0..4 {
        let path = paths::random_path(schema, rng, value);
        out.push(Question::Text { path: path.clone() });
        out.push(Question::Field { path });
    }
    let lists = paths::list_paths(schema, value);
    let path = if lists.is_empty() || rng.one_in(4) {
        paths::random_path(schema, rng, value)
    } else {
        lists[rng.below(lists.len())].clone()
    };
    let steps = rng.range(1, 14);
    out.push(Question::List { path, steps });
    out
}

/// Sheets near a value, with rooms.
fn some_sheets(rng: &mut Rng, schema: &Schema, value: &Value) -> Vec<(Vec<u8>, usize)> {
    let whole = sheet::encode(schema, value);
    let mut sheets = vec![whole.clone()];
    if let Some((spoiled, _)) = sheet_faults::unwritable(schema, rng, value) {
        sheets.push(sheet::encode(schema, &spoiled));
    }
    for _ in 0..3 {
        sheets.push(damage::sheet(rng, &whole));
    }
    // A message is at most 8 bytes for 2 bits of its sheet and the headers.
    let most = (32 * whole.len() + 20 * objects(value) + 5000).min(SIZE_LIMIT);
    let rooms = [most, rng.below(200)];
    let mut out = Vec::new();
    for sheet in sheets {
        for room in rooms {
            out.push((sheet.clone(), room));
        }
    }
    out
}
