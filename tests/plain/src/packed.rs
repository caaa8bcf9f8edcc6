//! The packed schema: its records, and the rules that they are held against.

use std::ops::RangeInclusive;

/// Kinds of a record; 1 to 8 are integers and 9 and 10 floats.
pub const BOOL: u8 = 0;
pub const F32: u8 = 9;
pub const F64: u8 = 10;
pub const ENUM: u8 = 11;
pub const STRUCT: u8 = 12;
pub const TEXT: u8 = 13;
pub const BYTES: u8 = 14;
pub const LIST: u8 = 15;
pub const TABLE: u8 = 16;
pub const UNION: u8 = 17;
pub const DIRECT: u8 = 18;

/// The most structs, lists, unions or tables.
const MOST: usize = 64;

/// "Record, 16 bits: kind 5, optional 1, in place 1, zero 1, argument 8."
#[derive(Clone, Copy)]
pub struct Record {
    pub kind: u8,
    pub optional: bool,
    pub in_place: bool,
    zero: bool,
    pub argument: u8,
}

impl Record {
    #[inline(always)]
    pub fn of([first, argument]: [u8; 2]) -> Record {
        Record {
            kind: first >> 3,
            optional: first & 4 != 0,
            in_place: first & 2 != 0,
            zero: first & 1 != 0,
            argument,
        }
    }

    pub fn index(self) -> usize {
        usize::from(self.argument)
    }

    /// The bytes of a number, a float or an enum, and of a bool in a struct.
    pub fn scalar_size(self) -> usize {
        match self.kind {
            1..=8 => 1 << ((self.kind - 1) % 4),
            F32 => 4,
            F64 => 8,
            _ => 1,
        }
    }
}

/// "Four 8-bit counts: structs, lists, unions (0 to 64 each), tables (1 to 64). 8-bit root table
/// index."
pub struct Counts {
    pub structs: usize,
    pub lists: usize,
    pub unions: usize,
    pub tables: usize,
    pub root: usize,
}

/// What is left of the packed bytes.
pub struct Rest<'a>(&'a [u8]);

impl<'a> Rest<'a> {
    /// The counts, and all that follows.
    pub fn of(bytes: &'a [u8]) -> Option<(Counts, Rest<'a>)> {
        let (counts, rest) = bytes.split_first_chunk()?;
        let [structs, lists, unions, tables, root] = counts.map(usize::from);
        let counts = Counts {
            structs,
            lists,
            unions,
            tables,
            root,
        };
        let lawful = structs.max(lists).max(unions).max(tables) <= MOST && root < tables;
        lawful.then_some((counts, Rest(rest)))
    }

    pub fn len(&self) -> usize {
        self.0.len()
    }

    pub fn id(&mut self) -> Option<u32> {
        let (id, rest) = self.0.split_first_chunk()?;
        self.0 = rest;
        Some(u32::from_be_bytes(*id))
    }

    pub fn records(&mut self, count: usize) -> Option<impl Iterator<Item = Record> + 'a> {
        let (records, rest) = self.0.split_at_checked(2 * count)?;
        self.0 = rest;
        Some(records.as_chunks().0.iter().copied().map(Record::of))
    }

    /// A count that is lawful, and as many records.
    pub fn counted(
        &mut self,
        lawful: RangeInclusive<u8>,
    ) -> Option<impl Iterator<Item = Record> + 'a> {
        let (count, rest) = self.0.split_first()?;
        self.0 = rest;
        self.records(usize::from(*count))
            .filter(|_| lawful.contains(count))
    }
}

/// A set of kinds from one to another, a bit each.
const fn kinds(first: u8, last: u8) -> u32 {
    (2 << last) - (1 << first)
}

const STRUCT_KINDS: u32 = kinds(BOOL, STRUCT);
const ELEMENT_KINDS: u32 = kinds(BOOL, ENUM) | kinds(TEXT, DIRECT);
const CASE_KINDS: u32 = kinds(TEXT, TABLE) | kinds(DIRECT, DIRECT);
const OPTIONAL_KINDS: u32 = kinds(BOOL, F64) | kinds(STRUCT, STRUCT);
const IN_PLACE_KINDS: u32 = kinds(TEXT, UNION);

fn is_of(kinds: u32, record: Record) -> bool {
    kinds >> record.kind & 1 == 1
}

/// A set of indices below 64, a bit each.
#[derive(Clone, Copy, Default)]
struct Set(u64);

impl Set {
    fn add(&mut self, index: usize) {
        self.0 |= 1 << (index % MOST);
    }

    fn meets(self, other: Set) -> bool {
        self.0 & other.0 != 0
    }
}

/// The rules of records, and what is seen of those that rules join.
pub struct Rules {
    /// By kind, the number that an argument is below; 0 of a kind that is none.
    limits: [u16; 32],
    /// Tables of which there is a direct list.
    direct_tables: Set,
    /// Tables of which there may be none: with no member, or one in place.
    undirect_tables: Set,
    /// Unions with a direct list as a case, and unions that a table holds in place.
    direct_unions: Set,
    held_unions: Set,
    /// Whether there is what the older coding does not have.
    newer: bool,
}

impl Rules {
    pub fn new(counts: &Counts) -> Rules {
        let mut limits = [0; 32];
        limits[..=usize::from(BYTES)].fill(1);
        limits[usize::from(ENUM)] = 256;
        limits[usize::from(LIST)] = counts.lists as u16;
        limits[usize::from(TABLE)] = counts.tables as u16;
        limits[usize::from(UNION)] = counts.unions as u16;
        limits[usize::from(DIRECT)] = counts.tables as u16;
        Rules {
            limits,
            direct_tables: Set::default(),
            undirect_tables: Set::default(),
            direct_unions: Set::default(),
            held_unions: Set::default(),
            newer: false,
        }
    }

    /// How many structs may be named: those before a struct, and after them all.
    pub fn allow_structs(&mut self, count: usize) {
        self.limits[usize::from(STRUCT)] = count as u16;
    }

    fn argument_fits(&self, record: Record) -> bool {
        let Record { kind, argument, .. } = record;
        u16::from(argument) < self.limits[usize::from(kind)] && (kind != ENUM || argument != 0)
    }

    /// A record that is no table's member has no marks.
    fn unmarked(&self, record: Record, kinds: u32) -> bool {
        let marked = record.optional | record.in_place | record.zero;
        !marked && is_of(kinds, record) && self.argument_fits(record)
    }

    fn see_direct(&mut self, record: Record) {
        if record.kind == DIRECT {
            self.direct_tables.add(record.index());
            self.newer = true;
        }
    }

    pub fn struct_member(&self, record: Record) -> bool {
        self.unmarked(record, STRUCT_KINDS)
    }

    pub fn element(&mut self, record: Record) -> bool {
        self.see_direct(record);
        self.newer |= record.kind == UNION;
        self.unmarked(record, ELEMENT_KINDS)
    }

    pub fn case(&mut self, union: usize, record: Record) -> bool {
        self.see_direct(record);
        if record.kind == DIRECT {
            self.direct_unions.add(union);
        }
        self.unmarked(record, CASE_KINDS)
    }

    /// A table's member; `held` is how many before it are in place.
    pub fn member(&mut self, record: Record, held: &mut u32) -> bool {
        let Record { kind, in_place, .. } = record;
        self.see_direct(record);
        if in_place {
            *held += 1;
            self.newer |= kind == TABLE;
            if kind == UNION {
                self.held_unions.add(record.index());
            }
        }
        self.newer |= kind == UNION && !in_place;
        let optional = !record.optional || is_of(OPTIONAL_KINDS, record);
        let placed = !in_place || is_of(IN_PLACE_KINDS, record) && *held == 1;
        !record.zero && optional && placed && self.argument_fits(record)
    }

    /// A table that no direct list may have.
    pub fn not_direct(&mut self, table: usize) {
        self.undirect_tables.add(table);
    }

    /// What joins several records: direct lists, and what the coding has.
    pub fn joined(&self, coding: u32) -> bool {
        let known = coding == 48 || coding == 32 && !self.newer;
        known
            && !self.direct_tables.meets(self.undirect_tables)
            && !self.direct_unions.meets(self.held_unions)
    }
}
