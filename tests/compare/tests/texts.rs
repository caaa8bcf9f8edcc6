//! The library's C interface and the second program side by side on texts, each
//! held in every way there is; Rust's standard library says what is text.
//!
//! A longer run: `compare texts --cases 10000000 --seed S`; every text of up to
//! three bytes: `compare utf8`. Both with `--coding 32` under the older coding.

use compare::calls::{texts, LibraryCalls, SecondCalls};
use compare::coding::{Coding, CODINGS};
use compare::counts::Counts;
use compare::every_text;
use compare::held_text::{Way, WAYS};
use compare::text_gen::FLAWS;

/// At least so many answers of a call in each way.
const ANSWERS: [(&str, u64); 17] = [
    ("judge, answer 0", 5000),
    ("judge, answer 4", 3000),
    ("judge, answer 10", 3000),
    ("judge, answer 16", 4000),
    ("judge, answer 17", 5000),
    ("field, answer 0", 1500),
    ("field, answer 10", 3000),
    ("field, answer 16", 1500),
    ("text, answer 0", 1500),
    ("text, answer 1", 1500),
    ("read, answer 0", 1500),
    ("read, answer 16", 1500),
    ("write, answer 0", 1500),
    ("write, answer 12", 3000),
    ("list, answer 0", 1500),
    ("list, answer 10", 3000),
    ("list, answer 16", 1500),
];

/// At least so many texts, and bytes that are none, of these lengths.
const LENGTHS: [(&str, u64); 4] = [
    ("0 to 7 bytes", 2000),
    ("8 to 63 bytes", 8000),
    ("64 to 599 bytes", 6000),
    ("600 or more bytes", 800),
];

/// What a run did not reach often enough.
fn shortfalls(coding: Coding, counts: &Counts) -> Vec<String> {
    let mut short = Vec::new();
    let mut need = |name: String, least: u64| {
        let count = counts.named(&name);
        if count < least {
            short.push(format!("{name}: {count}, at least {least} wanted"));
        }
    };
    for way in Way::of(coding) {
        for (answer, least) in ANSWERS {
            let written = coding.is_older() || !way.by_union_in_place();
            let possible = match answer.split(',').next() {
                Some("list") => way.in_list(),
                Some("write") => written || answer.ends_with("12"),
                _ => true,
            };
            if possible {
                need(format!("{way:?}: {answer}"), least);
            }
        }
    }
    for text in ["text", "no text"] {
        for (bytes, least) in LENGTHS {
            need(format!("held texts: {text} of {bytes}"), least);
        }
        for bools in 0..8 {
            need(format!("held texts: {text} behind {bools} bools"), 2000);
        }
    }
    for flaw in FLAWS {
        need(format!("held texts: {flaw:?}"), 1500);
    }
    short
}

/// Both answer as they must, and the run reaches everything.
fn agree(coding: Coding) {
    let counts = match texts::run(&LibraryCalls, &SecondCalls, coding, 1, 60_000) {
        Ok(counts) => counts,
        Err(report) => panic!("{report}"),
    };
    println!("{counts}");
    let short = shortfalls(coding, &counts);
    assert!(short.is_empty(), "not reached often enough: {short:#?}");
}

#[test]
fn texts_held_in_every_way() {
    assert_eq!(Way::of(Coding::Bits48), WAYS);
    agree(Coding::Bits48);
}

#[test]
fn texts_held_in_every_way_under_32_bits() {
    let ways = [
        Way::Member,
        Way::InPlace,
        Way::Element,
        Way::ElementOfElement,
        Way::UnionInPlace,
        Way::UnionTable,
    ];
    assert_eq!(Way::of(Coding::Bits32), ways);
    agree(Coding::Bits32);
}

/// Every text of up to two bytes, and random ones of four bytes and more.
#[test]
fn short_texts_and_long_ones() {
    for coding in CODINGS {
        let short = every_text::exhaustive(&LibraryCalls, coding, 2);
        let longer = every_text::random(&LibraryCalls, coding, 1, 100_000);
        for outcome in [short, longer] {
            match outcome {
                Ok(seen) => println!("{seen}"),
                Err(report) => panic!("{report}"),
            }
        }
    }
}
