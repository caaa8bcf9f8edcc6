//! The program that judges stored cases, run on whole files and on cut ones.

mod common;

use common::{folder, run_in};
use compare::stored::{self, Case};
use std::fs;

/// What the program prints of a file with these bytes.
fn printed(bytes: &[u8]) -> String {
    let folder = folder();
    fs::write(folder.join("cases.bin"), bytes).expect("cases.bin is written");
    run_in(&folder, "cases")
}

fn some() -> Vec<Case> {
    let mut cases = stored::cases();
    cases.truncate(3);
    cases
}

#[test]
fn every_stored_case() {
    let cases = stored::cases();
    let given = printed(&stored::packed(&cases));
    assert!(
        given == stored::answers(&cases),
        "see `rt run` in crates/cases"
    );
}

/// A case that the file does not hold whole ends the run.
#[test]
fn cut_files() {
    let cases = some();
    let whole = stored::packed(&cases);
    let ends: Vec<usize> = (0..=cases.len())
        .map(|count| stored::packed(&cases[..count]).len())
        .collect();
    for size in 0..=whole.len() {
        let held = ends.iter().filter(|end| **end <= size).count() - 1;
        let expected = stored::answers(&cases[..held]);
        assert_eq!(printed(&whole[..size]), expected, "{size} bytes");
    }
}

/// A length over 64 KiB ends the run; one of just so much does not.
#[test]
fn large_lengths() {
    let mut case = some().swap_remove(0);
    case.message.resize(65_536, 0);
    let good = stored::packed(std::slice::from_ref(&case));
    assert_eq!(printed(&good), "0 0 2\n");
    case.message.push(0);
    let long = stored::packed(std::slice::from_ref(&case));
    assert_eq!(printed(&[&good[..], &long[..]].concat()), "0 0 2\n");
    assert_eq!(printed(&[&good[..], &[0xFF; 100_000]].concat()), "0 0 2\n");
}

#[test]
fn no_file() {
    assert_eq!(run_in(&folder(), "cases"), "");
}
