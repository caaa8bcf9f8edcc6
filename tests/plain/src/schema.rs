//! A schema as the walk wants it: what can be worked out from the schema alone, in flat tables.

use crate::build;
use crate::walk;
use crate::wire::{Bits32, Bits48};
use crate::{Budget, Verdict};
use std::ops::Range;

/// A lawful schema under a coding.
pub struct Schema {
    pub(crate) older: bool,
    pub(crate) root: usize,
    pub(crate) tables: Vec<Table>,
    pub(crate) lists: Vec<List>,
    pub(crate) structs: Vec<Struct>,
    /// The members of every table.
    pub(crate) members: Vec<Member>,
    /// Those of them that can be refused or lead on where none is cut or beyond the end.
    pub(crate) live: Vec<Member>,
    /// Where the cases of each union are, and those of every union.
    pub(crate) unions: Vec<Range<usize>>,
    pub(crate) cases: Vec<Object>,
    /// The masks of every struct.
    pub(crate) masks: Vec<u8>,
}

/// What an offset, or a length in place, is of: the number is the list's or the table's.
#[derive(Clone, Copy, PartialEq, Eq)]
pub enum Object {
    Text,
    Bytes,
    List(u8),
    Table(u8),
    Direct(u8),
}

/// What a member is to the walk.
#[derive(Clone, Copy, PartialEq, Eq)]
pub enum Part {
    /// A number, a bool, an enum or a struct without bools, of which nothing more is judged.
    Plain,
    /// A struct with bools.
    Struct(u8),
    Refers(Object),
    Union(u8),
    InPlace(Object),
    UnionInPlace(u8),
}

/// A table's member, by the bytes of the fixed part.
#[derive(Clone, Copy)]
pub struct Member {
    /// Where it starts: at its flag, if it has one.
    pub start: u32,
    /// Where its value starts and ends.
    pub value: u32,
    pub end: u32,
    /// The least start of it and of the members after it.
    pub least_start: u32,
    /// The flag's bit in its byte; 0 if there is no flag.
    pub flag: u8,
    /// Which member of its table it is.
    pub number: u8,
    pub part: Part,
}

pub struct Table {
    pub id: u32,
    /// The bytes of the fixed part that the schema knows.
    pub full: usize,
    pub members: Range<usize>,
    pub live: Range<usize>,
    /// Whether it leads to texts and bytes alone, which lead no further.
    pub is_row: bool,
}

/// A list by its elements.
pub struct List {
    /// The bits of an element.
    pub bits: usize,
    pub elements: Elements,
}

#[derive(Clone, Copy)]
pub enum Elements {
    Plain,
    Refer(Object),
    Unions(u8),
}

/// A struct, and of it what stands from its first bool to its last.
pub struct Struct {
    pub size: usize,
    /// Where the first bool is.
    pub first: usize,
    /// The bits that must be 0, a byte for each byte.
    pub mask: Range<usize>,
}

impl Schema {
    /// Decodes a packed schema under a coding, 48 or 32; none where it is not lawful.
    pub fn new(coding: u32, bytes: &[u8]) -> Option<Schema> {
        build::schema(coding, bytes)
    }

    /// Judges a message.
    pub fn judge(&self, message: &[u8], budget: Budget) -> Verdict {
        match self.older {
            false => walk::judge::<Bits48>(self, message, budget),
            true => walk::judge::<Bits32>(self, message, budget),
        }
    }

    pub(crate) fn members(&self, table: &Table) -> &[Member] {
        &self.members[table.members.clone()]
    }

    pub(crate) fn live(&self, table: &Table) -> &[Member] {
        &self.live[table.live.clone()]
    }

    /// The live members of a table whose fixed part has so many bytes; none where a member is cut,
    /// or where a flag decides whether one is refused.
    pub(crate) fn reach(&self, table: &Table, length: usize) -> Option<&[Member]> {
        let live = self.live(table);
        if length >= table.full {
            return Some(live);
        }
        let inside = |member: &Member| member.end as usize <= length;
        let members = self.members(table);
        let known =
            (members.iter()).all(|member| member.start as usize >= length || inside(member));
        // Live members rise, for each takes bytes of its own.
        known.then(|| &live[..live.partition_point(inside)])
    }

    /// The case of a union's choice; choice 0 is none, and so is one above the cases.
    pub(crate) fn case(&self, union: u8, choice: u16) -> Option<Object> {
        let cases = &self.cases[self.unions[usize::from(union)].clone()];
        cases.get(usize::from(choice).wrapping_sub(1)).copied()
    }

    /// Whether the bools of a struct are 0 or 1, by the bytes from its first on.
    pub(crate) fn bools_hold(&self, index: u8, bytes: &[u8]) -> bool {
        let Struct { first, mask, .. } = &self.structs[usize::from(index)];
        let mask = &self.masks[mask.clone()];
        let bytes = &bytes[*first..][..mask.len()];
        let add = |wrong, (byte, mask): (&u8, &u8)| wrong | byte & mask;
        bytes.iter().zip(mask).fold(0, add) == 0
    }
}
