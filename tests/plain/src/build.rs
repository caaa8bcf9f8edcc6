//! Makes a schema's own tables of the packed one, in one pass: each record is held against the
//! rules as it is taken, and the layout is worked out with it.

use crate::packed::{Counts, Record, Rest, Rules};
use crate::packed::{BOOL, BYTES, DIRECT, F32, F64, LIST, STRUCT, TABLE, TEXT, UNION};
use crate::schema::{Elements, List, Member, Object, Part, Schema, Struct, Table};
use crate::wire::{Bits32, Bits48, Coding};

/// "No struct is over 4,096 bytes."
const LARGEST_STRUCT: usize = 4096;

/// The most members of all tables.
const MOST_MEMBERS: usize = 64 * 64;

/// The bits of a struct's bool that must be 0.
const NOT_BOOL: u8 = 0xFE;

/// The schema of packed bytes, if they are lawful under a coding.
pub fn schema(coding: u32, bytes: &[u8]) -> Option<Schema> {
    let (counts, mut rest) = Rest::of(bytes)?;
    let mut build = Build::new(coding, &counts);
    for index in 0..counts.structs {
        build.rules.allow_structs(index);
        build.add_struct(rest.counted(1..=32)?)?;
    }
    build.rules.allow_structs(counts.structs);
    for record in rest.records(counts.lists)? {
        build.add_list(record)?;
    }
    for _ in 0..counts.unions {
        build.add_union(rest.counted(1..=32)?)?;
    }
    let records = rest.len().saturating_sub(5 * counts.tables) / 2;
    build
        .schema
        .members
        .reserve_exact(records.min(MOST_MEMBERS));
    for _ in 0..counts.tables {
        let id = rest.id()?;
        build.add_table(id, rest.counted(0..=64)?)?;
    }
    let lawful = rest.len() == 0 && build.rules.joined(coding) && ids_differ(&build.schema.tables);
    lawful.then_some(build.schema)
}

/// "Table ids differ."
fn ids_differ(tables: &[Table]) -> bool {
    let pairs = tables.iter().enumerate();
    let mut same =
        pairs.flat_map(|(at, table)| tables[..at].iter().map(|other| table.id == other.id));
    !same.any(|same| same)
}

/// A schema as far as it has come.
struct Build {
    /// The bytes of an offset or a length.
    width: usize,
    rules: Rules,
    schema: Schema,
}

impl Build {
    fn new(coding: u32, counts: &Counts) -> Build {
        let older = coding == 32;
        let schema = Schema {
            older,
            root: counts.root,
            tables: Vec::with_capacity(counts.tables),
            lists: Vec::with_capacity(counts.lists),
            structs: Vec::with_capacity(counts.structs),
            members: Vec::new(),
            live: Vec::new(),
            unions: Vec::with_capacity(counts.unions),
            cases: Vec::new(),
            masks: Vec::new(),
        };
        Build {
            width: if older { Bits32::WIDTH } else { Bits48::WIDTH },
            rules: Rules::new(counts),
            schema,
        }
    }

    /// "members joined without padding, a bool as a byte 0 or 1; a struct inside a struct is laid
    /// out the same way".
    fn add_struct(&mut self, members: impl Iterator<Item = Record>) -> Option<()> {
        let Schema { masks, structs, .. } = &mut self.schema;
        let base = masks.len();
        // The struct's bytes so far, and its first bool.
        let (mut size, mut first) = (0, 0);
        for record in members {
            if !self.rules.struct_member(record) {
                return None;
            }
            // The bools of the member, from its first byte on, and its bytes.
            let (bools_at, bools, bytes) = match record.kind {
                BOOL => (0, None, 1),
                STRUCT => {
                    let inner = &structs[record.index()];
                    (inner.first, Some(inner.mask.clone()), inner.size)
                }
                _ => (0, Some(0..0), record.scalar_size()),
            };
            if bools.as_ref().is_none_or(|bools| !bools.is_empty()) {
                if masks.len() == base {
                    first = size + bools_at;
                }
                masks.resize(base + size + bools_at - first, 0);
                match bools {
                    None => masks.push(NOT_BOOL),
                    Some(bools) => masks.extend_from_within(bools),
                }
            }
            size += bytes;
        }
        let mask = base..masks.len();
        structs.push(Struct { size, first, mask });
        (size <= LARGEST_STRUCT).then_some(())
    }

    fn add_list(&mut self, record: Record) -> Option<()> {
        let (bytes, elements) = match record.kind {
            UNION => (2 + self.width, Elements::Unions(record.argument)),
            TEXT..=DIRECT => (self.width, Elements::Refer(object(record))),
            _ => (record.scalar_size(), Elements::Plain),
        };
        let bits = if record.kind == BOOL { 1 } else { 8 * bytes };
        self.schema.lists.push(List { bits, elements });
        self.rules.element(record).then_some(())
    }

    fn add_union(&mut self, cases: impl Iterator<Item = Record>) -> Option<()> {
        let (index, from) = (self.schema.unions.len(), self.schema.cases.len());
        for record in cases {
            if !self.rules.case(index, record) {
                return None;
            }
            self.schema.cases.push(object(record));
        }
        self.schema.unions.push(from..self.schema.cases.len());
        Some(())
    }

    fn add_table(&mut self, id: u32, members: impl Iterator<Item = Record>) -> Option<()> {
        let (from, live_from) = (self.schema.members.len(), self.schema.live.len());
        let (mut cursor, mut held, mut is_row) = (Cursor::default(), 0, true);
        for (number, record) in members.enumerate() {
            if !self.rules.member(record, &mut held) {
                return None;
            }
            let (part, size) = self.part(record);
            let member = cursor.place(record, size, (number as u8, part));
            self.schema.members.push(member);
            if part != Part::Plain {
                self.schema.live.push(member);
                is_row &= leads_no_further(part);
            }
        }
        let members = from..self.schema.members.len();
        if members.is_empty() || held > 0 {
            self.rules.not_direct(self.schema.tables.len());
        }
        let mut least = u32::MAX;
        for member in self.schema.members[members.clone()].iter_mut().rev() {
            least = least.min(member.start);
            member.least_start = least;
        }
        self.schema.tables.push(Table {
            id,
            full: cursor.end as usize,
            members,
            live: live_from..self.schema.live.len(),
            is_row,
        });
        Some(())
    }

    /// What a table's member is to the walk, and its bytes.
    fn part(&self, record: Record) -> (Part, usize) {
        let Record { kind, argument, .. } = record;
        match kind {
            STRUCT => {
                let of = &self.schema.structs[record.index()];
                match of.mask.is_empty() {
                    true => (Part::Plain, of.size),
                    false => (Part::Struct(argument), of.size),
                }
            }
            UNION if record.in_place => (Part::UnionInPlace(argument), 2 + self.width),
            UNION => (Part::Union(argument), 2 + self.width),
            TEXT..=DIRECT if record.in_place => (Part::InPlace(object(record)), self.width),
            TEXT..=DIRECT => (Part::Refers(object(record)), self.width),
            _ => (Part::Plain, record.scalar_size()),
        }
    }
}

/// What a record of kinds 13 to 16 or 18 is of.
fn object(record: Record) -> Object {
    match record.kind {
        TEXT => Object::Text,
        BYTES => Object::Bytes,
        LIST => Object::List(record.argument),
        TABLE => Object::Table(record.argument),
        _ => Object::Direct(record.argument),
    }
}

fn leads_no_further(part: Part) -> bool {
    matches!(
        part,
        Part::Struct(_) | Part::Refers(Object::Text | Object::Bytes)
    )
}

/// Where the next member of a table goes.
#[derive(Default)]
struct Cursor {
    end: u32,
    /// The last bool byte, and how many bits of it are free.
    bools: u32,
    free: u32,
}

impl Cursor {
    /// "A bool takes the next free bit, lowest first, of the last bool byte; if none is free a
    /// zeroed byte is appended." Gives the byte and the bit in it.
    fn take_bool(&mut self) -> (u32, u8) {
        if self.free == 0 {
            self.bools = self.take(1);
            self.free = 8;
        }
        self.free -= 1;
        (self.bools, 0x80 >> self.free)
    }

    fn take(&mut self, size: usize) -> u32 {
        let at = self.end;
        self.end += size as u32;
        at
    }

    /// "Optional bool, integer or struct: a flag bool first, then the value. Optional float: NaN is
    /// no value."
    fn place(&mut self, record: Record, size: usize, (number, part): (u8, Part)) -> Member {
        let flagged = record.optional && !matches!(record.kind, F32 | F64);
        let flag = flagged.then(|| self.take_bool());
        let value = match record.kind {
            BOOL => self.take_bool().0,
            _ => self.take(size),
        };
        let (start, flag) = flag.unwrap_or((value, 0));
        Member {
            start,
            value,
            end: value + size as u32,
            least_start: start,
            flag,
            number,
            part,
        }
    }
}
