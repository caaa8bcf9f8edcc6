//! Stored cases: small messages made by hand to reach every refusal at every
//! kind of object, and both sides of every test of bounds.
//!
//! They are kept as files beside the program that runs them: `cases.bin` has
//! the bytes, first those of the 48-bit coding and then those of the older, and
//! `stdout` what the second program answers, a line each.

mod builder;
pub mod by_hand;
mod depth;
mod lists;
pub mod members;
mod objects;
mod schemas;
mod starts;
mod structs;
mod tables;
mod texts;
pub mod texts_by_hand;

use crate::coding::{Coding, CODINGS};
use crate::program::{Budget, Judge, Second, Verdict};
use crate::schema::Packed;
use std::fmt::Write;
use std::fs;
use std::io;
use std::path::Path;

/// One case: what it is about, and what is judged.
#[derive(Clone, Debug)]
pub struct Case {
    pub group: String,
    pub name: String,
    pub schema: Packed,
    pub message: Vec<u8>,
    /// The visits; of content there may be as much as there is.
    pub budget: u32,
}

impl Case {
    /// What the second program answers.
    pub fn verdict(&self) -> Verdict {
        let budget = Budget::of_visits(self.budget);
        Second.judge(&self.schema, &self.message, budget)
    }
}

/// Every case, in the order of the files.
pub fn cases() -> Vec<Case> {
    CODINGS.into_iter().flat_map(under).collect()
}

/// The cases of a coding.
pub fn under(coding: Coding) -> Vec<Case> {
    let mut cases = Vec::new();
    starts::add(coding, &mut cases);
    objects::add(coding, &mut cases);
    lists::add(coding, &mut cases);
    tables::add(coding, &mut cases);
    structs::add(coding, &mut cases);
    depth::add(coding, &mut cases);
    schemas::add(coding, &mut cases);
    if coding.is_older() {
        by_hand::add(&mut cases);
    }
    texts::add(coding, &mut cases);
    texts_by_hand::add(coding, &mut cases);
    cases
}

/// The bytes of `cases.bin`.
pub fn packed(cases: &[Case]) -> Vec<u8> {
    let mut out = Vec::new();
    for case in cases {
        let lengths = [case.schema.bytes().len() as u32, case.message.len() as u32];
        for number in [case.schema.coding(), lengths[0], lengths[1], case.budget] {
            out.extend_from_slice(&number.to_le_bytes());
        }
        out.extend_from_slice(case.schema.bytes());
        out.extend_from_slice(&case.message);
    }
    out
}

/// What a program that judges the cases prints.
pub fn answers(cases: &[Case]) -> String {
    let mut out = String::new();
    for case in cases {
        let verdict = case.verdict();
        let (number, place, visits) = (verdict.number, verdict.place, verdict.visits);
        let _ = writeln!(out, "{number} {place} {visits}");
    }
    out
}

/// What each case is, a line each.
pub fn names(cases: &[Case]) -> String {
    let mut out = String::new();
    for (i, case) in cases.iter().enumerate() {
        let (number, coding) = (i + 1, case.schema.coding());
        let _ = writeln!(out, "{number}: {coding}: {}: {}", case.group, case.name);
    }
    out
}

/// Writes the files of the crate in this folder.
pub fn write(folder: &Path) -> io::Result<usize> {
    let cases = cases();
    fs::create_dir_all(folder.join("data"))?;
    fs::write(folder.join("data/cases.bin"), packed(&cases))?;
    fs::write(folder.join("stdout"), answers(&cases))?;
    Ok(cases.len())
}
