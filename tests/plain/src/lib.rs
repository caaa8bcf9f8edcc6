//! A plain Rust program that judges messages, written for speed: what the library's times are
//! measured by. It has no proof, and the tests run it beside the second program.
//!
//! A schema is decoded once, into tables in which all that depends on it alone is worked out: which
//! members of a table can be refused or lead on, where each stands, and what a list's elements take.
//! The walk reads the message as slices and only touches what decides the verdict: numbers are
//! stepped over, a list of them at once, and so are direct elements that hold nothing else. Texts
//! are checked by the standard library's `from_utf8`.
//!
//! The modules, from the bottom up:
//! - `wire`: numbers and headers of the two codings;
//! - `text`: whether bytes are UTF-8;
//! - `packed`: the packed schema's records, and the rules that they are held against;
//! - `schema`: the schema's own tables, and `build`, which makes them;
//! - `objects`: texts and bytes that are wholly lawful;
//! - `walk`: the walk from the root: tables, their members, and what they lead to;
//! - `lists`: lists and direct lists, and `rows`: those whose elements lead no further.

#![forbid(unsafe_code)]

mod build;
mod lists;
mod objects;
mod packed;
mod rows;
mod schema;
mod text;
mod walk;
mod wire;

pub use schema::Schema;

/// The member of an answer that is about none.
pub const NO_MEMBER: u32 = u32::MAX;

/// How much a walk may spend.
#[derive(Clone, Copy, Debug, PartialEq, Eq)]
pub struct Budget {
    pub visits: u32,
    pub content: u64,
}

/// What judging a message answers.
#[derive(Clone, Copy, Debug, PartialEq, Eq)]
pub struct Verdict {
    pub number: u32,
    pub place: u64,
    pub member: u32,
    pub visits: u32,
    pub content: u64,
}

impl Verdict {
    /// The verdict where there is no walk.
    pub(crate) fn before_the_walk(number: u32) -> Verdict {
        Verdict {
            number,
            place: 0,
            member: NO_MEMBER,
            visits: 0,
            content: 0,
        }
    }
}

/// Judges a message by a packed schema under a coding, 48 or 32.
pub fn judge(coding: u32, schema: &[u8], message: &[u8], budget: Budget) -> Verdict {
    match Schema::new(coding, schema) {
        Some(schema) => schema.judge(message, budget),
        None => Verdict::before_the_walk(1),
    }
}
