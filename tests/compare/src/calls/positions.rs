//! Tables of positions put to both: made with every sort of room, and lent to every
//! call that reads, the schema's own and others, of which each must be refused by 1.

use super::second::numbers;
use super::{Calls, Output, Read};
use crate::coding::Coding;
use crate::counts::Counts;
use crate::laws::hex;
use crate::paths::PATH_LIMIT;
use crate::program::{refused, refused_at_start, Budget, Verdict, AMPLE};
use crate::rng::Rng;
use crate::schema::{Packed, Schema};
use crate::schema_rules;
use crate::subjects::{self, Subject};

/// What the tables made and the tables lent are counted as, together and each.
pub const TABLES: &str = "tables";
pub const MADE: &str = "tables made";
pub const LENT: &str = "tables lent";

/// Two programs, and what was seen of them.
pub type Run<'a> = super::Run<'a, dyn Calls + 'a>;

/// Makes and lends tables with both until at least so many were tried.
pub fn run(
    first: &dyn Calls,
    second: &dyn Calls,
    coding: Coding,
    seed: u64,
    tables: u64,
) -> Result<Counts, String> {
    let run = Run::new(first, second, coding);
    run.until(TABLES, tables, |run, round| {
        on_round(run, seed, round).map_err(|report| format!("seed {seed} round {round}: {report}"))
    })
}

/// One numbered round of a seeded run: each schema's table is made, and with each
/// message its own and others are lent.
fn on_round(run: &mut Run, seed: u64, round: u64) -> Result<(), String> {
    let mut rng = Rng::for_case(seed, round);
    let subjects = subjects::of_round(run.coding, &mut rng);
    let mut made: Vec<&Packed> = Vec::new();
    for subject in &subjects {
        if !made.contains(&&subject.schema) {
            made.push(&subject.schema);
            make(run, &mut rng, &subject.schema)?;
        }
    }
    for subject in &subjects {
        lend(run, &mut rng, subject, "own", subject.schema.positions())?;
        for _ in 0..2 {
            let (sort, table) = other_table(&mut rng, &subject.schema, &made);
            lend(run, &mut rng, subject, sort, &table)?;
        }
    }
    Ok(())
}

/// A schema's table with rooms around the one that it needs.
fn make(run: &mut Run, rng: &mut Rng, schema: &Packed) -> Result<(), String> {
    let no_coding = Coding::of(schema.coding()).is_none();
    run.counts
        .add("schemas under no coding", u64::from(no_coding));
    let Some(parsed) = schema_rules::parse(schema) else {
        let room = rng.below(100);
        make_one(run, rng, schema, None, (room, "room: some"))?;
        return make_one(run, rng, schema, None, (0, "room: none"));
    };
    let table = table_of(&parsed);
    let length = table.len();
    run.counts.note(match length / 12 {
        0 => "schemas of no members",
        1..=63 => "schemas of 1 to 63 members",
        64..=999 => "schemas of 64 to 999 members",
        _ => "schemas of 1000 members or more",
    });
    let larger = length + 1 + rng.below(40);
    let mut rooms = vec![
        (length, "room: exact"),
        (larger, "room: larger"),
        (0, "room: none"),
    ];
    if length > 0 {
        let less = rng.below(length);
        rooms.extend([(length - 1, "room: one less"), (less, "room: some less")]);
    }
    for room in rooms {
        make_one(run, rng, schema, Some(&table), room)?;
    }
    Ok(())
}

/// The table by this crate's own model: "for each table member in schema order three
/// little-endian U32s, its value's first bit in the fixed part, its flag's
/// (4,294,967,295 if none) and its size in bits".
pub fn table_of(schema: &Schema) -> Vec<u8> {
    let tables = 0..schema.tables.len() as u8;
    let slots = tables.flat_map(|table| schema.slots(table).0);
    let rows = slots.map(|slot| {
        let flag = slot.flag.map_or(u32::MAX, |flag| flag as u32);
        [slot.value as u32, flag, slot.bits as u32]
    });
    rows.flatten().flat_map(u32::to_le_bytes).collect()
}

/// One table made by both with a room: the one expected, or else 1.
fn make_one(
    run: &mut Run,
    rng: &mut Rng,
    schema: &Packed,
    table: Option<&[u8]>,
    (room, sort): (usize, &str),
) -> Result<(), String> {
    let fill = rng.bits() as u8;
    let outputs = [(); 3].map(|_| Output::new(room, fill));
    let [mut expected, mut one, mut two] = outputs;
    let numbers = match table {
        None => [1, 0],
        Some(table) if table.len() > room => [14, 0],
        Some(table) => {
            expected.lent()[..table.len()].copy_from_slice(table);
            [0, table.len() as u64]
        }
    };
    let first = run.first.positions(schema, one.lent());
    let second = run.second.positions(schema, two.lent());
    run.counts.note(TABLES);
    run.counts.note(MADE);
    run.counts.note(&format!("{sort}, answer {}", numbers[0]));
    let whole = expected.whole();
    if [first, second] == [numbers; 2] && [one.whole(), two.whole()] == [whole; 2] {
        return Ok(());
    }
    Err(format!(
        "positions, room {room}, expected {numbers:?}\n  {}: {first:?}\n  {}: {second:?}\n  \
         expected: {}\n  first:  {}\n  second: {}\n  schema: {schema}",
        run.first.name(),
        run.second.name(),
        hex(whole),
        hex(one.whole()),
        hex(two.whole()),
    ))
}

/// What every call that reads is asked of a message.
#[derive(Debug)]
struct Asked<'a> {
    message: &'a [u8],
    path: Vec<u32>,
    budget: Budget,
    /// The steps of a list.
    steps: usize,
    /// The room for a sheet.
    room: usize,
    fill: u8,
}

/// What every call that reads answers, and the outputs after it.
#[derive(Debug, PartialEq)]
struct Answers {
    verdict: Verdict,
    field: [u64; 4],
    text: [u64; 3],
    list: (u64, Vec<u64>),
    read: Read,
    sheet: Vec<u8>,
}

impl<'a> Asked<'a> {
    fn new(rng: &mut Rng, message: &'a [u8]) -> Asked<'a> {
        let length = rng.pick(&[0, 1, 1, 1, 2, 2, 3, PATH_LIMIT, PATH_LIMIT + 1]);
        let fewer = Budget::of_visits(rng.below(3) as u32);
        let content = rng.below(40) as u64;
        let less = Budget { content, ..AMPLE };
        Asked {
            message,
            path: (0..length).map(|_| rng.small(12) as u32).collect(),
            budget: rng.pick(&[AMPLE, AMPLE, fewer, less]),
            steps: rng.below(3),
            room: rng.pick(&[0, 8, 200]),
            fill: rng.bits() as u8,
        }
    }

    fn answers(&self, program: &dyn Calls, schema: &Packed) -> Answers {
        let (message, path) = (self.message, &self.path);
        let mut cases = vec![u64::from(self.fill); 4 * self.steps + 1];
        let mut sheet = Output::new(self.room, self.fill);
        Answers {
            verdict: program.judge(schema, message, self.budget),
            field: program.field(schema, message, path),
            text: program.text(schema, message, path),
            list: (program.list(schema, message, path, 0, &mut cases), cases),
            read: program.read(schema, message, self.budget, sheet.lent()),
            sheet: sheet.whole().to_vec(),
        }
    }

    /// "Any other table handed in gets refusal 1, tried with the schema."
    fn refused(&self) -> Answers {
        let (verdict, field) = (refused_at_start(1), numbers(refused(1, 0)));
        let mut cases = field.repeat(self.steps);
        cases.push(u64::from(self.fill));
        Answers {
            verdict,
            field,
            text: [0; 3],
            list: (0, cases),
            read: Read { verdict, length: 0 },
            sheet: Output::new(self.room, self.fill).whole().to_vec(),
        }
    }
}

/// One table lent with a message to every call of both.
fn lend(
    run: &mut Run,
    rng: &mut Rng,
    subject: &Subject,
    sort: &str,
    table: &[u8],
) -> Result<(), String> {
    let lawful = schema_rules::parse(&subject.schema).is_some();
    let right = lawful && table == subject.schema.positions();
    let schema = subject.schema.lending(table.to_vec());
    let asked = Asked::new(rng, &subject.message);
    let one = asked.answers(run.first, &schema);
    let two = asked.answers(run.second, &schema);
    run.counts.note(TABLES);
    run.counts.note(LENT);
    let by = if lawful { "" } else { ", schema not lawful" };
    run.counts.note(&match (right, sort) {
        (true, "own") | (false, _) => format!("lent: {sort}{by}"),
        (true, _) => "lent: another that is the same".to_string(),
    });
    if right {
        note_right(&mut run.counts, &asked, &one);
    }
    if one == two && (right || one == asked.refused()) {
        return Ok(());
    }
    let (first, second) = (run.first.name(), run.second.name());
    Err(format!(
        "{:?}, {asked:?}, table {sort} {}\n  {first}: {one:?}\n  {second}: {two:?}\n  \
         schema: {schema}\n  message: {}",
        subject.sort,
        hex(table),
        hex(&subject.message),
    ))
}

/// Counts what is answered with the schema's own table.
fn note_right(counts: &mut Counts, asked: &Asked, answers: &Answers) {
    counts.answer(answers.verdict.number);
    let long = answers.field[..3] == [7, 15, 0] && asked.path.len() > PATH_LIMIT;
    counts.add("lent: own, a path too long", u64::from(long));
}

/// A table that is mostly not the schema's, and of which sort.
fn other_table(rng: &mut Rng, schema: &Packed, others: &[&Packed]) -> (&'static str, Vec<u8>) {
    match rng.below(11) {
        0 => ("empty", Vec::new()),
        1 => {
            let coding = Coding::of(schema.coding()).unwrap_or(Coding::Bits48);
            let other = schema.under(coding.other().number());
            ("the other coding's", other.positions().to_vec())
        }
        2 | 3 => {
            let other = others[rng.below(others.len())];
            ("another schema's", other.positions().to_vec())
        }
        4 => ("random bytes", rng.bytes(schema.positions().len())),
        _ => changed(rng, schema.positions().to_vec()),
    }
}

/// A table with some of its bytes changed, or more or less of them.
fn changed(rng: &mut Rng, mut table: Vec<u8>) -> (&'static str, Vec<u8>) {
    let rows = table.len() / 12;
    let sort = match rng.below(6) {
        0 | 1 if rows > 0 => {
            let bit = rng.below(8 * table.len());
            table[bit / 8] ^= 1 << (bit % 8);
            "one bit changed"
        }
        2 if rows > 1 => {
            let (one, two) = (rng.below(rows), rng.below(rows));
            (0..12).for_each(|at| table.swap(12 * one + at, 12 * two + at));
            "two rows exchanged"
        }
        3 if rows > 0 => {
            let row = 12 * rng.below(rows);
            match rng.coin() {
                true => table.extend_from_within(row..),
                false => table.truncate(row),
            }
            "rows more or less"
        }
        4 => {
            table.pop();
            "one byte shorter"
        }
        _ => {
            let any = rng.bits() as u8;
            table.push(rng.pick(&[0, 255, any]));
            "one byte longer"
        }
    };
    (sort, table)
}
