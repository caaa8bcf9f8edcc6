//! Two programs given the same calls.

use crate::coding::Coding;
use crate::laws::hex;
use crate::probes::{random_probes, Outcome, Probe};
use crate::program::Program;
use crate::rng::Rng;

/// Puts one probe to both programs; gives what both answered.
pub fn compare(
    first: &dyn Program,
    second: &dyn Program,
    probe: &Probe,
) -> Result<Outcome, String> {
    let (one, two) = (probe.put_to(first), probe.put_to(second));
    if one == two {
        return Ok(one);
    }
    Err(format!(
        "{:?}\n  {}: {one:?}\n  {}: {two:?}\n  schema: {}\n  message or sheet: {}",
        probe.question,
        first.name(),
        second.name(),
        probe.schema,
        hex(&probe.bytes),
    ))
}

/// Runs numbered cases of a seeded run on both programs; gives the number of
/// calls compared, or the first difference.
pub fn side_by_side(
    first: &dyn Program,
    second: &dyn Program,
    coding: Coding,
    seed: u64,
    cases: u64,
) -> Result<u64, String> {
    let mut calls = 0;
    for case in 0..cases {
        let mut rng = Rng::for_case(seed, case);
        for probe in random_probes(coding, &mut rng) {
            compare(first, second, &probe)
                .map_err(|report| format!("side by side, seed {seed} case {case}: {report}"))?;
            calls += 1;
        }
    }
    Ok(calls)
}
