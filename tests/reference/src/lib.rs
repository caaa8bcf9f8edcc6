//! The second program: an independent plain reading of the papers.
//!
//! It judges a message by a packed schema, reads one field, turns a message
//! into a value sheet and a value sheet into a message, and carries sheets
//! between two schemas of which one appends to the other. Every function takes
//! the number of its coding first, 48 or 32; under any other number no schema is
//! lawful. Those that read messages take it in a `Lent`, with the schema and its
//! table of member positions, which `positions` makes.
//!
//! The modules, from the bottom up:
//! - `coding`: the two codings, and which sentences decide about the older;
//! - `bits`: the bit-packed sheet, written and read;
//! - `utf8`: which bytes are text;
//! - `schema`: the packed schema, its lawfulness and the layout of its tables;
//! - `positions`: where the members of all tables stand, as a table of its own;
//! - `message`: what a single arrival judges, and where a member or element leads;
//! - `walk`: the verdict;
//! - `sheet`: message to sheet;
//! - `plan`: what a sheet is (lawful, writable) and how large its message is;
//! - `write`: sheet to message;
//! - `clear`: a schema without in-place unions, for stored messages to move to;
//! - `field`: one field, and the list reader;
//! - `append`: two schemas, and the sheets between them.

#![forbid(unsafe_code)]

mod append;
mod bits;
mod clear;
mod coding;
mod field;
mod message;
mod plan;
mod positions;
mod schema;
mod sheet;
mod utf8;
mod walk;
mod write;

pub use append::{appends, with_added, without_appended};
pub use clear::clear_unions;
pub use field::{field, text, Answer, ListReader};
pub use message::NO_MEMBER;
pub use positions::{positions, Lent};
pub use schema::Schema;
pub use sheet::read;
pub use walk::{judge, judge_parsed, Budget, Verdict};
pub use write::{write, write_stored};

/// Is the schema lawful under this coding?
pub fn lawful(coding: u32, schema: &[u8]) -> bool {
    Schema::parse(coding, schema).is_some()
}
