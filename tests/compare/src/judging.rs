//! Two judges given the same messages with the same budgets: number, place,
//! member, visits and content must be equal.

use crate::coding::Coding;
use crate::laws::hex;
use crate::program::{Budget, Judge, Verdict, AMPLE};
use crate::rng::Rng;
use crate::subjects::{self, Subject};
use crate::tally::{Allowed, Tally};

/// Judges a subject with both; gives the verdict of both.
pub fn same_verdict(
    first: &dyn Judge,
    second: &dyn Judge,
    subject: &Subject,
    budget: Budget,
) -> Result<Verdict, String> {
    let one = first.judge(&subject.schema, &subject.message, budget);
    let two = second.judge(&subject.schema, &subject.message, budget);
    if one == two {
        return Ok(one);
    }
    Err(format!(
        "{:?}, {budget:?}\n  {}: {one:?}\n  {}: {two:?}\n  schema: {}\n  message: {}",
        subject.sort,
        first.name(),
        second.name(),
        subject.schema,
        hex(&subject.message),
    ))
}

/// The budgets to try where an ample one gave this verdict: either allowance
/// around what it spent, with enough of the other, and some of both.
fn budgets(rng: &mut Rng, verdict: Verdict) -> Vec<(Allowed, Budget)> {
    let Verdict {
        visits, content, ..
    } = verdict;
    let of_content = |content| Budget { content, ..AMPLE };
    let some = Budget {
        visits: rng.below(visits as usize + 2) as u32,
        content: rng.below(content as usize + 2) as u64,
    };
    let mut out = vec![
        (Allowed::NoVisit, Budget::of_visits(0)),
        (Allowed::OneVisit, Budget::of_visits(1)),
        (Allowed::NoContent, of_content(0)),
        (Allowed::Some, some),
    ];
    if visits > 0 {
        out.push((Allowed::VisitLess, Budget::of_visits(visits - 1)));
    }
    if content > 0 {
        out.push((Allowed::ByteLess, of_content(content - 1)));
    }
    if verdict.number != 4 {
        out.push((Allowed::Exact, Budget { visits, content }));
        out.push((Allowed::Largest, Budget::LARGEST));
    }
    out
}

/// Compares both judges on one subject with every budget.
pub fn on_subject(
    first: &dyn Judge,
    second: &dyn Judge,
    rng: &mut Rng,
    subject: &Subject,
    tally: &mut Tally,
) -> Result<(), String> {
    let verdict = same_verdict(first, second, subject, AMPLE)?;
    tally.message(subject.sort, verdict);
    tally.call(Allowed::Ample, verdict);
    for (allowed, budget) in budgets(rng, verdict) {
        let verdict = same_verdict(first, second, subject, budget)?;
        tally.call(allowed, verdict);
    }
    Ok(())
}

/// Compares both judges on one numbered round of a seeded run.
pub fn on_round(
    first: &dyn Judge,
    second: &dyn Judge,
    coding: Coding,
    (seed, round): (u64, u64),
    tally: &mut Tally,
) -> Result<(), String> {
    let mut rng = Rng::for_case(seed, round);
    for subject in subjects::of_round(coding, &mut rng) {
        on_subject(first, second, &mut rng, &subject, tally)
            .map_err(|report| format!("seed {seed} round {round}: {report}"))?;
    }
    Ok(())
}

/// Compares both judges on rounds of a seeded run until at least so many
/// messages were judged; gives what was seen, or the first difference.
pub fn run(
    first: &dyn Judge,
    second: &dyn Judge,
    coding: Coding,
    seed: u64,
    messages: u64,
) -> Result<Tally, String> {
    let mut tally = Tally::default();
    let mut round = 0;
    while tally.messages < messages {
        on_round(first, second, coding, (seed, round), &mut tally)?;
        round += 1;
    }
    Ok(tally)
}
