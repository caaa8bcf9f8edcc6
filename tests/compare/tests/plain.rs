//! The plain Rust program and the second program side by side: number, place,
//! member, visits and content are equal on every message with every budget.
//!
//! A longer run: `compare plain --cases 10000000 --seed S`, and with
//! `--coding 32` under the older coding.

use compare::canonical;
use compare::coding::{Coding, CODINGS};
use compare::doubling;
use compare::judging::{self, same_verdict};
use compare::plain_program::Plain;
use compare::program::{accepted, verdict, Budget, Judge, Second};
use compare::schema::{root_with, Record, SIZE_LIMIT, TEXT};
use compare::stored;
use compare::subjects::{Sort, Subject, DIRECT_SORTS, SORTS};
use compare::tally::{Allowed, Tally, NUMBERS};
use compare::value::Value;

/// Of each coding.
const MESSAGES: u64 = 150_000;

/// At least so many of each sort and number that a coding has.
const LEAST: u64 = 500;

/// Both judge alike, and the run reaches every sort and every number.
fn agree(coding: Coding) {
    let tally = match judging::run(&Plain, &Second, coding, 14, MESSAGES) {
        Ok(tally) => tally,
        Err(report) => panic!("{report}"),
    };
    println!("{tally}");
    for sort in SORTS {
        let least = match coding.is_older() && DIRECT_SORTS.contains(&sort) {
            true => 0,
            false => LEAST,
        };
        assert!(tally.of_sort(sort) >= least, "{sort:?}");
    }
    for number in NUMBERS {
        // Unions of the older coding have no offset that could be 0.
        let possible = !(coding.is_older() && number == 9);
        assert!(!possible || seen(&tally, number) >= LEAST, "{number}");
    }
}

/// How often a number was answered: the allowances are spent where they are small.
fn seen(tally: &Tally, number: u32) -> u64 {
    match number {
        4 => tally.with(Allowed::VisitLess, 4),
        17 => tally.with(Allowed::ByteLess, 17),
        _ => tally.of_number(number),
    }
}

#[test]
fn plain_and_second_program_agree() {
    agree(Coding::Bits48);
}

#[test]
fn plain_and_second_program_agree_under_32_bits() {
    agree(Coding::Bits32);
}

#[test]
fn plain_program_answers_the_stored_cases_alike() {
    for case in stored::cases() {
        let budget = Budget::of_visits(case.budget);
        let given = Plain.judge(&case.schema, &case.message, budget);
        assert_eq!(given, case.verdict(), "{}: {}", case.group, case.name);
    }
}

/// A message of the largest size, and one of a byte more.
#[test]
fn the_largest_message() {
    for coding in CODINGS {
        let schema = root_with(coding, Record::plain(TEXT, 0));
        let empty = Value::Table(vec![Value::Absent]);
        let mut subject = Subject {
            sort: Sort::Written,
            schema: schema.pack(),
            message: canonical::message(&schema, &empty),
        };
        subject.message.resize(SIZE_LIMIT, 0);
        let judged = |subject: &Subject| same_verdict(&Plain, &Second, subject, Budget::LARGEST);
        let root = accepted(1, coding.offset() as u64);
        assert_eq!(judged(&subject), Ok(root));
        subject.message.push(0);
        assert_eq!(judged(&subject), Ok(verdict(2, 0, 0, 0)));
    }
}

/// Lists that each name the next table twice, with just enough and with less.
#[test]
fn walks_that_double() {
    let levels = 15;
    for coding in CODINGS {
        let schema = doubling::schema(coding);
        let subject = Subject {
            sort: Sort::Written,
            schema: schema.pack(),
            message: doubling::message(&schema, levels),
        };
        let judged = |budget| same_verdict(&Plain, &Second, &subject, budget);
        let exact = doubling::spent(coding, levels);
        let Budget { visits, content } = exact;
        assert_eq!(judged(exact), Ok(accepted(visits, content)));
        let last = doubling::table_at(coding, levels);
        let before = content - coding.offset() as u64;
        let short = judged(Budget::of_visits(visits - 1));
        assert_eq!(short, Ok(verdict(4, last, visits - 1, before)));
        let less = judged(Budget {
            content: content - 1,
            ..exact
        });
        assert_eq!(less, Ok(verdict(17, last, visits, before)));
    }
}
