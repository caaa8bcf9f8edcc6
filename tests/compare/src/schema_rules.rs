//! Unpacking a schema and judging whether it is lawful, by this crate's own
//! reading of the rules.

use crate::coding::Coding;
use crate::schema::*;

/// Takes bytes from the packed form in turn.
struct Taker<'a> {
    bytes: &'a [u8],
}

impl Taker<'_> {
    fn take<const N: usize>(&mut self) -> Option<[u8; N]> {
        let (head, rest) = self.bytes.split_first_chunk::<N>()?;
        self.bytes = rest;
        Some(*head)
    }

    fn byte(&mut self) -> Option<u8> {
        self.take::<1>().map(|b| b[0])
    }

    fn record(&mut self) -> Option<Record> {
        let b = self.take::<2>()?;
        Some(Record {
            kind: b[0] / 8,
            optional: b[0] / 4 % 2 == 1,
            in_place: b[0] / 2 % 2 == 1,
            zero: b[0] % 2 == 1,
            argument: b[1],
        })
    }

    fn records(&mut self) -> Option<Vec<Record>> {
        let count = self.byte()?;
        (0..count).map(|_| self.record()).collect()
    }
}

/// Unpacks a schema; `None` when bytes are missing or left over, or there is no
/// such coding. The rules are not judged.
pub fn unpack(packed: &Packed) -> Option<Schema> {
    let coding = Coding::of(packed.coding())?;
    let mut taker = Taker {
        bytes: packed.bytes(),
    };
    let counts = taker.take::<4>()?;
    let mut schema = Schema {
        root: taker.byte()?,
        ..Schema::new(coding)
    };
    for _ in 0..counts[0] {
        schema.structs.push(taker.records()?);
    }
    for _ in 0..counts[1] {
        schema.lists.push(taker.record()?);
    }
    for _ in 0..counts[2] {
        schema.unions.push(taker.records()?);
    }
    for _ in 0..counts[3] {
        let id = u32::from_be_bytes(taker.take::<4>()?);
        let members = taker.records()?;
        schema.tables.push(Table { id, members });
    }
    taker.bytes.is_empty().then_some(schema)
}

/// The lawful schema that the bytes pack, if they do.
pub fn parse(packed: &Packed) -> Option<Schema> {
    unpack(packed).filter(lawful)
}

/// Whether a schema keeps every rule of its coding.
pub fn lawful(schema: &Schema) -> bool {
    schema.structs.len() <= 64
        && schema.lists.len() <= 64
        && schema.unions.len() <= 64
        && (1..=64).contains(&schema.tables.len())
        && usize::from(schema.root) < schema.tables.len()
        && structs_lawful(schema)
        && schema.lists.iter().all(|e| element_lawful(schema, e))
        && schema.unions.iter().all(|u| union_lawful(schema, u))
        && schema.tables.iter().all(|t| table_lawful(schema, t))
        && ids_differ(schema)
        && direct_lists_lawful(schema)
        && (!schema.coding.is_older() || of_older_coding(schema))
}

/// "its table must have at least one member and none in place (else 1)", and none
/// is lawful in the older coding; "nor a case of a union that a table holds in place".
fn direct_lists_lawful(schema: &Schema) -> bool {
    let mut tables = 0..schema.tables.len();
    let mut unions = 0..schema.unions.len();
    tables.all(|table| !schema.is_direct(table) || schema.may_be_direct(table))
        && unions.all(|union| !schema.held_in_place(union) || !schema.has_direct_case(union as u8))
}

/// "a schema with a union not in place, a table in place, a list of unions .. is 1
/// under this coding".
fn of_older_coding(schema: &Schema) -> bool {
    let mut members = schema.tables.iter().flat_map(|table| &table.members);
    schema.lists.iter().all(|element| element.kind != UNION)
        && members.all(|member| match member.kind {
            UNION => member.in_place,
            TABLE => !member.in_place,
            _ => true,
        })
}

fn argument_lawful(schema: &Schema, record: &Record) -> bool {
    let argument = usize::from(record.argument);
    let fits = match record.kind {
        ENUM => argument >= 1,
        STRUCT => argument < schema.structs.len(),
        LIST => argument < schema.lists.len(),
        TABLE | DIRECT => argument < schema.tables.len(),
        UNION => argument < schema.unions.len(),
        0..=UNION => argument == 0,
        _ => false,
    };
    fits && !record.zero
}

fn unflagged(record: &Record) -> bool {
    !record.optional && !record.in_place
}

fn structs_lawful(schema: &Schema) -> bool {
    let mut sizes: Vec<usize> = Vec::new();
    for members in &schema.structs {
        let mut size = 0;
        for member in members {
            let inner = usize::from(member.argument);
            let fine = member.kind <= STRUCT
                && unflagged(member)
                && argument_lawful(schema, member)
                && (member.kind != STRUCT || inner < sizes.len());
            if !fine {
                return false;
            }
            size += match member.kind {
                BOOL => 1,
                STRUCT => sizes[inner],
                _ => member.width() as usize / 8,
            };
        }
        if members.is_empty() || members.len() > 32 || size > STRUCT_LIMIT {
            return false;
        }
        sizes.push(size);
    }
    true
}

fn element_lawful(schema: &Schema, element: &Record) -> bool {
    element.kind != STRUCT && unflagged(element) && argument_lawful(schema, element)
}

fn union_lawful(schema: &Schema, cases: &[Record]) -> bool {
    (1..=32).contains(&cases.len())
        && cases
            .iter()
            .all(|c| c.is_object() && unflagged(c) && argument_lawful(schema, c))
}

fn table_lawful(schema: &Schema, table: &Table) -> bool {
    let may_be_optional = |m: &Record| m.kind <= F64 || m.kind == STRUCT;
    table.members.len() <= 64
        && table.members.iter().filter(|m| m.in_place).count() <= 1
        && table.members.iter().all(|m| {
            argument_lawful(schema, m)
                && (!m.optional || may_be_optional(m))
                && (!m.in_place || (TEXT..=UNION).contains(&m.kind))
        })
}

fn ids_differ(schema: &Schema) -> bool {
    let mut ids: Vec<u32> = schema.tables.iter().map(|t| t.id).collect();
    ids.sort_unstable();
    ids.windows(2).all(|pair| pair[0] != pair[1])
}
