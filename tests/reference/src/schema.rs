//! The packed schema: parsed, judged lawful, and its structs and tables laid out.

use crate::coding::Coding;

/// "No struct is over 4,096 bytes."
const STRUCT_SIZE: usize = 4096;

/// What an object is, where one is arrived at.
#[derive(Clone, Copy, Debug, PartialEq, Eq)]
pub enum Target {
    Text,
    Bytes,
    List(u8),
    Table(u8),
    /// A direct list, with the table of its elements.
    Direct(u8),
}

/// What a member, element or case is.
#[derive(Clone, Copy, Debug, PartialEq, Eq)]
pub enum Kind {
    Bool,
    Integer { bytes: u8, signed: bool },
    Float { bytes: u8 },
    Enum { count: u8 },
    Struct(u8),
    Object(Target),
    Union(u8),
}

/// A record of the schema. The holder says which of these are lawful in it.
#[derive(Clone, Copy, Debug, PartialEq, Eq)]
pub struct Record {
    pub kind: Kind,
    pub optional: bool,
    pub in_place: bool,
}

/// A struct's member and where it stands in the struct.
pub struct StructMember {
    pub kind: Kind,
    pub offset: usize,
}

pub struct Struct {
    pub members: Vec<StructMember>,
    pub size: usize,
    /// Where all booleans stand, those of inner structs too.
    pub bools: Vec<u16>,
}

/// One bit of a table's fixed part.
#[derive(Clone, Copy, Debug, PartialEq, Eq)]
pub struct Bit {
    pub byte: usize,
    pub bit: u32,
}

/// Where a table's member stands in the fixed part.
#[derive(Clone, Copy, Debug, PartialEq, Eq)]
pub struct Slot {
    /// The flag of an optional bool, integer or struct.
    pub flag: Option<Bit>,
    /// The value's first byte.
    pub offset: usize,
    /// The value's bytes; a bool has one.
    pub size: usize,
    /// A bool's bit in its byte.
    pub bit: u32,
}

pub struct Member {
    /// Its number in its table, counted from 0.
    pub number: u32,
    pub record: Record,
    pub slot: Slot,
}

pub struct Table {
    pub id: u32,
    pub members: Vec<Member>,
    /// The full length of the fixed part.
    pub size: usize,
}

/// A lawful schema, parsed.
pub struct Schema {
    /// The coding under which it is lawful.
    pub(crate) coding: Coding,
    pub(crate) structs: Vec<Struct>,
    /// Each list's element.
    pub(crate) lists: Vec<Kind>,
    /// Each union's cases.
    pub(crate) unions: Vec<Vec<Target>>,
    pub(crate) tables: Vec<Table>,
    pub(crate) root: u8,
}

impl Schema {
    /// The schema, where it is lawful under the coding of this number: none
    /// is under a number but 48 and 32.
    pub fn parse(coding: u32, packed: &[u8]) -> Option<Schema> {
        let coding = Coding::of(coding)?;
        let mut packed = Packed { rest: packed };
        let counts = Counts::parse(&mut packed)?;
        let root = packed.byte()?;
        if root >= counts.tables {
            return None;
        }
        let mut schema = Schema {
            coding,
            structs: Vec::with_capacity(usize::from(counts.structs)),
            lists: Vec::with_capacity(usize::from(counts.lists)),
            unions: Vec::with_capacity(usize::from(counts.unions)),
            tables: Vec::with_capacity(usize::from(counts.tables)),
            root,
        };
        for _ in 0..counts.structs {
            let one = parse_struct(&mut packed, &counts, &schema.structs)?;
            schema.structs.push(one);
        }
        for _ in 0..counts.lists {
            schema
                .lists
                .push(parse_element(coding, &mut packed, &counts)?);
        }
        for _ in 0..counts.unions {
            schema.unions.push(parse_union(&mut packed, &counts)?);
        }
        for _ in 0..counts.tables {
            let one = parse_table(&mut packed, &counts, &schema)?;
            // "Table ids differ."
            if schema.tables.iter().any(|table| table.id == one.id) {
                return None;
            }
            schema.tables.push(one);
        }
        // "Nothing follows the last table."
        let lawful = packed.rest.is_empty() && schema.direct_lists_lawful();
        lawful.then_some(schema)
    }

    /// "its table must have at least one member and none in place (else 1)";
    /// "a schema with ... a direct list is 1 under this coding", the older one.
    /// Every record is judged, whether anything refers to it or not.
    fn direct_lists_lawful(&self) -> bool {
        let cases = self.unions.iter().flatten().copied().map(Kind::Object);
        let members = self.tables.iter().flat_map(|table| &table.members);
        let elements = self.lists.iter().copied();
        let mut kinds = elements
            .chain(cases)
            .chain(members.map(|member| member.record.kind));
        kinds.all(|kind| match kind {
            Kind::Object(Target::Direct(index)) => {
                let members = &self.table(index).members;
                let in_place = members.iter().any(|member| member.record.in_place);
                self.coding == Coding::Bits48 && !members.is_empty() && !in_place
            }
            _ => true,
        })
    }

    pub(crate) fn structure(&self, index: u8) -> &Struct {
        &self.structs[usize::from(index)]
    }

    /// The kind of a list's elements.
    pub(crate) fn element(&self, index: u8) -> Kind {
        self.lists[usize::from(index)]
    }

    pub(crate) fn cases(&self, index: u8) -> &[Target] {
        &self.unions[usize::from(index)]
    }

    pub(crate) fn table(&self, index: u8) -> &Table {
        &self.tables[usize::from(index)]
    }

    /// The bytes of a list's element that is a reference or a union; none of
    /// any other.
    pub(crate) fn reference_size(&self, element: Kind) -> Option<usize> {
        match element {
            Kind::Object(_) => Some(self.coding.offset()),
            Kind::Union(_) => Some(self.coding.union()),
            _ => None,
        }
    }

    /// The case a union's choice names: "choice 0 none, cases from 1".
    pub(crate) fn case(&self, union: u8, choice: u64) -> Option<Target> {
        let number = usize::try_from(choice).ok()?.checked_sub(1)?;
        self.cases(union).get(number).copied()
    }
}

/// The packed bytes not yet parsed. Every part of a schema is whole bytes, so
/// "most significant bit first" is the byte order of the wider numbers.
struct Packed<'a> {
    rest: &'a [u8],
}

impl Packed<'_> {
    fn byte(&mut self) -> Option<u8> {
        let (&first, rest) = self.rest.split_first()?;
        self.rest = rest;
        Some(first)
    }

    fn id(&mut self) -> Option<u32> {
        let bytes = [self.byte()?, self.byte()?, self.byte()?, self.byte()?];
        Some(u32::from_be_bytes(bytes))
    }

    /// A count that must lie in a range.
    fn count(&mut self, least: u8, most: u8) -> Option<u8> {
        self.byte().filter(|count| (least..=most).contains(count))
    }
}

/// "Four 8-bit counts: structs, lists, unions (0 to 64 each), tables (1 to 64)."
struct Counts {
    structs: u8,
    lists: u8,
    unions: u8,
    tables: u8,
}

impl Counts {
    fn parse(packed: &mut Packed) -> Option<Counts> {
        Some(Counts {
            structs: packed.count(0, 64)?,
            lists: packed.count(0, 64)?,
            unions: packed.count(0, 64)?,
            tables: packed.count(1, 64)?,
        })
    }
}

/// "Record, 16 bits: kind 5, optional 1, in place 1, zero 1, argument 8."
fn parse_record(packed: &mut Packed, counts: &Counts) -> Option<Record> {
    let head = packed.byte()?;
    let argument = packed.byte()?;
    if head & 1 != 0 {
        return None;
    }
    Some(Record {
        kind: parse_kind(head >> 3, argument, counts)?,
        optional: head & 4 != 0,
        in_place: head & 2 != 0,
    })
}

/// "For 12 and 15 to 17 the argument is an index below that count; otherwise
/// it is 0", an enum's aside, which is its number of values. "Add kind 18,
/// argument a table".
fn parse_kind(number: u8, argument: u8, counts: &Counts) -> Option<Kind> {
    let (kind, lawful) = match number {
        0 => (Kind::Bool, argument == 0),
        1..=8 => {
            let bytes = 1 << ((number - 1) % 4);
            let signed = number >= 5;
            (Kind::Integer { bytes, signed }, argument == 0)
        }
        9 => (Kind::Float { bytes: 4 }, argument == 0),
        10 => (Kind::Float { bytes: 8 }, argument == 0),
        11 => (Kind::Enum { count: argument }, argument >= 1),
        12 => (Kind::Struct(argument), argument < counts.structs),
        13 => (Kind::Object(Target::Text), argument == 0),
        14 => (Kind::Object(Target::Bytes), argument == 0),
        15 => {
            let target = Target::List(argument);
            (Kind::Object(target), argument < counts.lists)
        }
        16 => {
            let target = Target::Table(argument);
            (Kind::Object(target), argument < counts.tables)
        }
        17 => (Kind::Union(argument), argument < counts.unions),
        18 => {
            let target = Target::Direct(argument);
            (Kind::Object(target), argument < counts.tables)
        }
        _ => return None,
    };
    lawful.then_some(kind)
}

/// A record outside tables: neither optional nor in place.
fn parse_plain(packed: &mut Packed, counts: &Counts) -> Option<Kind> {
    let record = parse_record(packed, counts)?;
    (!record.optional && !record.in_place).then_some(record.kind)
}

/// "struct: 8-bit member count 1 to 32, member records"; "kinds 0 to 12, an
/// inner struct having a lower index".
fn parse_struct(packed: &mut Packed, counts: &Counts, lower: &[Struct]) -> Option<Struct> {
    let count = packed.count(1, 32)?;
    let mut one = Struct {
        members: Vec::with_capacity(usize::from(count)),
        size: 0,
        bools: Vec::new(),
    };
    for _ in 0..count {
        let kind = parse_plain(packed, counts)?;
        let offset = one.size;
        match kind {
            Kind::Object(_) | Kind::Union(_) => return None,
            Kind::Bool => one.bools.push(u16::try_from(offset).ok()?),
            Kind::Struct(index) => {
                let inner = lower.get(usize::from(index))?;
                for &at in &inner.bools {
                    one.bools.push(u16::try_from(offset).ok()? + at);
                }
            }
            _ => {}
        }
        one.members.push(StructMember { kind, offset });
        // No reference is in a struct, so the coding is no matter.
        one.size += value_size(Coding::Bits48, kind, lower);
        if one.size > STRUCT_SIZE {
            return None;
        }
    }
    Some(one)
}

/// "List elements: 0 to 11 and 13 to 17", and 18; "a list of unions" is not
/// lawful in the older coding.
fn parse_element(coding: Coding, packed: &mut Packed, counts: &Counts) -> Option<Kind> {
    let kind = parse_plain(packed, counts)?;
    let lawful = match kind {
        Kind::Struct(_) => false,
        Kind::Union(_) => coding == Coding::Bits48,
        _ => true,
    };
    lawful.then_some(kind)
}

/// "union: 8-bit case count 1 to 32, records"; "Union cases: 13 to 16", and 18.
fn parse_union(packed: &mut Packed, counts: &Counts) -> Option<Vec<Target>> {
    let count = packed.count(1, 32)?;
    let case = |_| match parse_plain(packed, counts)? {
        Kind::Object(target) => Some(target),
        _ => None,
    };
    (0..count).map(case).collect()
}

/// "table: 32-bit id, 8-bit member count 0 to 64, records."
fn parse_table(packed: &mut Packed, counts: &Counts, schema: &Schema) -> Option<Table> {
    let id = packed.id()?;
    let count = packed.count(0, 64)?;
    let mut layout = Layout::default();
    let mut members = Vec::with_capacity(usize::from(count));
    let mut in_place = 0;
    for number in 0..u32::from(count) {
        let record = parse_record(packed, counts)?;
        let refers = matches!(record.kind, Kind::Object(_) | Kind::Union(_));
        let is_enum = matches!(record.kind, Kind::Enum { .. });
        // "Optional only on table members of kind 0 to 10 and 12; in place
        // only on table members of kind 13 to 17, at most one per table."
        if record.optional && (refers || is_enum) {
            return None;
        }
        if record.in_place && !may_be_in_place(schema, record.kind) {
            return None;
        }
        if schema.coding == Coding::Bits32 && !of_older_coding(&record) {
            return None;
        }
        in_place += u32::from(record.in_place);
        let slot = layout.place(&record, schema);
        members.push(Member {
            number,
            record,
            slot,
        });
    }
    (in_place <= 1).then_some(Table {
        id,
        members,
        size: layout.size,
    })
}

/// A direct list is "never in place nor a case of a union that a table holds
/// in place".
fn may_be_in_place(schema: &Schema, kind: Kind) -> bool {
    let direct = |target: &Target| matches!(target, Target::Direct(_));
    match kind {
        Kind::Object(target) => !direct(&target),
        Kind::Union(index) => !schema.cases(index).iter().any(direct),
        _ => false,
    }
}

/// "a union not in place, a table in place" are not lawful in the older coding.
fn of_older_coding(member: &Record) -> bool {
    match member.kind {
        Kind::Union(_) => member.in_place,
        Kind::Object(Target::Table(_)) => !member.in_place,
        _ => true,
    }
}

/// The bytes of a value in a struct or in a table's fixed part.
fn value_size(coding: Coding, kind: Kind, structs: &[Struct]) -> usize {
    match kind {
        Kind::Bool | Kind::Enum { .. } => 1,
        Kind::Integer { bytes, .. } | Kind::Float { bytes } => usize::from(bytes),
        Kind::Struct(index) => structs[usize::from(index)].size,
        Kind::Object(_) => coding.offset(),
        Kind::Union(_) => coding.union(),
    }
}

/// A table's fixed part as it grows.
#[derive(Default)]
struct Layout {
    size: usize,
    /// The next free bit of the last bool byte.
    free: Option<Bit>,
}

impl Layout {
    /// "A bool takes the next free bit, lowest first, of the last bool byte;
    /// if none is free a zeroed byte is appended."
    fn bool(&mut self) -> Bit {
        let taken = self.free.unwrap_or_else(|| {
            let byte = self.size;
            self.size += 1;
            Bit { byte, bit: 0 }
        });
        self.free = (taken.bit < 7).then_some(Bit {
            byte: taken.byte,
            bit: taken.bit + 1,
        });
        taken
    }

    /// "Optional bool, integer or struct: a flag bool first, then the value.
    /// Optional float: NaN is no value."
    fn place(&mut self, record: &Record, schema: &Schema) -> Slot {
        let is_float = matches!(record.kind, Kind::Float { .. });
        let flag = (record.optional && !is_float).then(|| self.bool());
        let size = value_size(schema.coding, record.kind, &schema.structs);
        let (offset, bit) = match record.kind {
            Kind::Bool => {
                let value = self.bool();
                (value.byte, value.bit)
            }
            _ => {
                let offset = self.size;
                self.size += size;
                (offset, 0)
            }
        };
        Slot {
            flag,
            offset,
            size,
            bit,
        }
    }
}

#[cfg(test)]
mod tests {
    use super::{Bit, Schema};

    /// A schema of one table with the given records.
    fn table(records: &[u16]) -> Schema {
        let mut packed = vec![0, 0, 0, 1, 0, 0, 0, 0, 1, records.len() as u8];
        for record in records {
            packed.extend_from_slice(&record.to_be_bytes());
        }
        Schema::parse(48, &packed).unwrap()
    }

    /// Case 12: "Bools 7 then an optional bool: flag bit 7 of byte 0, value
    /// bit 0 of byte 1."
    #[test]
    fn the_flag_and_the_value_of_an_optional_bool_may_part() {
        let schema = table(&[0, 0, 0, 0, 0, 0, 0, 0x0400]);
        let slot = schema.tables[0].members[7].slot;
        assert_eq!(slot.flag, Some(Bit { byte: 0, bit: 7 }));
        assert_eq!((slot.offset, slot.bit), (1, 0));
        assert_eq!(schema.tables[0].size, 2);
    }

    /// Bool, U32, optional U16, bool, optional F64, bool: the bools share
    /// byte 0 and the float has no flag.
    #[test]
    fn bools_share_the_last_bool_byte() {
        let schema = table(&[0x0000, 0x1800, 0x1400, 0x0000, 0x5400, 0x0000]);
        let slots: Vec<_> = schema.tables[0].members.iter().map(|m| m.slot).collect();
        assert_eq!((slots[0].offset, slots[0].bit), (0, 0));
        assert_eq!((slots[1].offset, slots[1].size), (1, 4));
        assert_eq!(slots[2].flag, Some(Bit { byte: 0, bit: 1 }));
        assert_eq!((slots[2].offset, slots[2].size), (5, 2));
        assert_eq!((slots[3].offset, slots[3].bit), (0, 2));
        assert_eq!(slots[4].flag, None);
        assert_eq!((slots[4].offset, slots[4].size), (7, 8));
        assert_eq!((slots[5].offset, slots[5].bit), (0, 3));
        assert_eq!(schema.tables[0].size, 15);
    }
}
