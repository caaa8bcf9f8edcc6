//! Reading to a sheet put to both: the numbers, and the whole output with its
//! surroundings.

use super::{Calls, Output};
use crate::coding::Coding;
use crate::counts::Counts;
use crate::laws::hex;
use crate::program::{Budget, AMPLE};
use crate::rng::Rng;
use crate::schema::SIZE_LIMIT;
use crate::subjects::{self, Subject};

/// What the calls are counted as.
pub const CALLS: &str = "reads";

/// Two programs, and what was seen of them.
pub type Run<'a> = super::Run<'a, dyn Calls + 'a>;

/// Reads messages with both until at least so many calls were compared.
pub fn run(
    first: &dyn Calls,
    second: &dyn Calls,
    coding: Coding,
    seed: u64,
    calls: u64,
) -> Result<Counts, String> {
    let run = Run::new(first, second, coding);
    run.until(CALLS, calls, |run, round| on_round(run, seed, round))
}

/// One numbered round of a seeded run.
pub fn on_round(run: &mut Run, seed: u64, round: u64) -> Result<(), String> {
    let mut rng = Rng::for_case(seed, round);
    for subject in subjects::of_round(run.coding, &mut rng) {
        on_subject(run, &mut rng, &subject)
            .map_err(|report| format!("seed {seed} round {round}: {report}"))?;
    }
    Ok(())
}

/// A message with budgets and rooms around those that it needs.
fn on_subject(run: &mut Run, rng: &mut Rng, subject: &Subject) -> Result<(), String> {
    let (verdict, sheet) =
        reference::read(subject.schema.lent(), &subject.message, AMPLE, SIZE_LIMIT);
    let (length, visits, content) = (sheet.len(), verdict.visits, verdict.content);
    let exact = Budget { visits, content };
    if verdict.number != 0 {
        run.counts.note(&format!("refused: {:?}", subject.sort));
        let room = rng.below(80);
        one(run, rng, subject, (AMPLE, room), "room: some")?;
        let budgets = [exact, less_visits(rng, exact), less_content(rng, exact)];
        let budget = rng.pick(&budgets);
        return one(run, rng, subject, (budget, 0), "room: none");
    }
    run.counts.note(&format!("accepted: {:?}", subject.sort));
    let larger = length + 1 + rng.below(40);
    one(run, rng, subject, (exact, length), "room: exact")?;
    one(run, rng, subject, (AMPLE, larger), "room: larger")?;
    one(run, rng, subject, (Budget::LARGEST, 0), "room: none")?;
    if length > 0 {
        one(run, rng, subject, (exact, length - 1), "room: one less")?;
        let less = rng.below(length);
        one(
            run,
            rng,
            subject,
            (Budget::LARGEST, less),
            "room: some less",
        )?;
    }
    let rooms = [0, length, larger];
    let fewer = (less_visits(rng, exact), rng.pick(&rooms));
    one(run, rng, subject, fewer, "visits: less")?;
    let less = (less_content(rng, exact), rng.pick(&rooms));
    one(run, rng, subject, less, "content: less")
}

/// Fewer visits than it takes, or none where it takes none, and all content.
fn less_visits(rng: &mut Rng, exact: Budget) -> Budget {
    let visits = exact.visits;
    Budget::of_visits(rng.pick(&[0, 1.min(visits), visits.saturating_sub(1), visits / 2]))
}

/// Less content than it takes, or none where it takes none, and enough visits.
fn less_content(rng: &mut Rng, exact: Budget) -> Budget {
    let most = exact.content.saturating_sub(1);
    let content = rng.pick(&[0, most, most, most / 2]);
    Budget { content, ..AMPLE }
}

/// One call of both with a budget and a room.
fn one(
    run: &mut Run,
    rng: &mut Rng,
    subject: &Subject,
    (budget, room): (Budget, usize),
    sort: &str,
) -> Result<(), String> {
    let fill = rng.bits() as u8;
    let (mut sheet, mut expected) = (Output::new(room, fill), Output::new(room, fill));
    let (schema, message) = (&subject.schema, &subject.message);
    let given = run.first.read(schema, message, budget, sheet.lent());
    let second = run.second.read(schema, message, budget, expected.lent());
    run.counts.note(CALLS);
    let number = given.verdict.number;
    run.counts.note(&format!("{sort}, answer {number}"));
    run.counts.answer(number);
    run.counts.member(number, given.verdict.member);
    if given == second && sheet.whole() == expected.whole() {
        return Ok(());
    }
    Err(format!(
        "{:?}, {budget:?}, room {room}\n  {}: {given:?}\n  {}: {second:?}\n  \
         output:   {}\n  expected: {}\n  schema: {}\n  message: {}",
        subject.sort,
        run.first.name(),
        run.second.name(),
        hex(sheet.whole()),
        hex(expected.whole()),
        schema,
        hex(message),
    ))
}
