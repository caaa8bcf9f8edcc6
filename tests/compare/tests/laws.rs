//! The laws on 100,000 random cases of a fixed seed under either coding, and on
//! fewer of others: first on the second program, then on the proved library.

use compare::coding::{Coding, CODINGS};
use compare::counts::Counts;
use compare::laws::{self, Programs};
use compare::minimums;
use compare::program::{Library, Second};

/// The laws hold, and the run reaches everything.
fn hold(programs: &Programs, coding: Coding, seed: u64) {
    match laws::run(programs, coding, seed, minimums::CASES) {
        Ok(counts) => {
            println!("{counts}");
            let short = minimums::shortfalls(coding, &counts);
            assert!(short.is_empty(), "not reached often enough: {short:#?}");
        }
        Err(report) => panic!("{report}"),
    }
}

#[test]
fn laws_hold_and_the_run_reaches_everything() {
    hold(&Programs::one(&Second), Coding::Bits48, 1);
}

#[test]
fn laws_hold_under_32_bits_and_the_run_reaches_everything() {
    hold(&Programs::one(&Second), Coding::Bits32, 1);
}

/// What one schema is to another the library does not say.
const OF_THE_LIBRARY: Programs = Programs {
    program: &Library,
    relations: &Second,
};

#[test]
fn laws_hold_of_the_library() {
    hold(&OF_THE_LIBRARY, Coding::Bits48, 11);
}

#[test]
fn laws_hold_of_the_library_under_32_bits() {
    hold(&OF_THE_LIBRARY, Coding::Bits32, 11);
}

#[test]
fn laws_hold_with_other_seeds() {
    let programs = Programs::one(&Second);
    for coding in CODINGS {
        for seed in 2..7 {
            let mut counts = Counts::default();
            for case in 0..4000 {
                if let Err(report) = laws::run_case(&programs, coding, (seed, case), &mut counts) {
                    panic!("{report}");
                }
            }
        }
    }
}
