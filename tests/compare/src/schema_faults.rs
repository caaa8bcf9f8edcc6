//! Unlawful schemas: each rule broken by itself, and random damage.

use crate::coding::Coding;
use crate::rng::Rng;
use crate::schema::*;
use crate::schema_gen;

/// The rules that are broken one at a time.
#[derive(Clone, Copy, Debug, PartialEq, Eq, PartialOrd, Ord)]
pub enum Rule {
    TooManyStructs,
    TooManyLists,
    TooManyUnions,
    TooManyTables,
    NoTable,
    RootIndex,
    EmptyStruct,
    StructMembers,
    EmptyUnion,
    UnionCases,
    TableMembers,
    UnknownKind,
    ZeroBit,
    EnumWithoutValues,
    NeedlessArgument,
    IndexTooHigh,
    StructMemberKind,
    InnerStructIndex,
    ElementKind,
    CaseKind,
    OptionalPlace,
    OptionalKind,
    InPlacePlace,
    InPlaceKind,
    TwoInPlace,
    StructSize,
    EqualIds,
    BytesLeft,
    BytesMissing,
    DirectInPlace,
    DirectOfNoMembers,
    DirectOfInPlace,
    DirectCaseInPlace,
    UnionNotInPlace,
    TableInPlace,
    ListOfUnions,
    DirectList,
}

/// How many rules either coding has of its own: of direct lists, and of the older.
const OWN: usize = 4;

/// Every rule: of both codings, of direct lists, and the older coding's own.
const RULES: [Rule; 37] = [
    Rule::TooManyStructs,
    Rule::TooManyLists,
    Rule::TooManyUnions,
    Rule::TooManyTables,
    Rule::NoTable,
    Rule::RootIndex,
    Rule::EmptyStruct,
    Rule::StructMembers,
    Rule::EmptyUnion,
    Rule::UnionCases,
    Rule::TableMembers,
    Rule::UnknownKind,
    Rule::ZeroBit,
    Rule::EnumWithoutValues,
    Rule::NeedlessArgument,
    Rule::IndexTooHigh,
    Rule::StructMemberKind,
    Rule::InnerStructIndex,
    Rule::ElementKind,
    Rule::CaseKind,
    Rule::OptionalPlace,
    Rule::OptionalKind,
    Rule::InPlacePlace,
    Rule::InPlaceKind,
    Rule::TwoInPlace,
    Rule::StructSize,
    Rule::EqualIds,
    Rule::BytesLeft,
    Rule::BytesMissing,
    Rule::DirectInPlace,
    Rule::DirectOfNoMembers,
    Rule::DirectOfInPlace,
    Rule::DirectCaseInPlace,
    Rule::UnionNotInPlace,
    Rule::TableInPlace,
    Rule::ListOfUnions,
    Rule::DirectList,
];

/// The rules of a coding.
pub fn rules(coding: Coding) -> &'static [Rule] {
    match coding {
        Coding::Bits48 => &RULES[..RULES.len() - OWN],
        Coding::Bits32 => &RULES,
    }
}

/// A packed schema that breaks exactly the rule named.
pub fn breaking(coding: Coding, rng: &mut Rng, rule: Rule) -> Packed {
    let mut schema = schema_gen::lawful_schema(coding, rng);
    if !break_counts(rng, &mut schema, rule) && !break_flags(rng, &mut schema, rule) {
        break_records(rng, &mut schema, rule);
    }
    let packed = schema.pack();
    let mut bytes = packed.bytes().to_vec();
    match rule {
        Rule::BytesLeft => {
            let extra = rng.range(1, 9);
            bytes.extend(rng.bytes(extra));
        }
        Rule::BytesMissing => bytes.truncate(rng.below(bytes.len())),
        _ => return packed,
    }
    packed.with(bytes)
}

fn grow<T: Clone>(rng: &mut Rng, things: &mut Vec<T>, thing: T) {
    let count = rng.pick(&[65, 65, 66, 200, 255]);
    things.resize(count, thing);
}

fn break_counts(rng: &mut Rng, schema: &mut Schema, rule: Rule) -> bool {
    let (flag, text) = (Record::plain(BOOL, 0), Record::plain(TEXT, 0));
    match rule {
        Rule::TooManyStructs => grow(rng, &mut schema.structs, vec![flag]),
        Rule::TooManyLists => grow(rng, &mut schema.lists, flag),
        Rule::TooManyUnions => grow(rng, &mut schema.unions, vec![text]),
        Rule::TooManyTables => {
            let count = rng.pick(&[65, 65, 66, 255]);
            while schema.tables.len() < count {
                let id = schema_gen::table_id(rng, schema);
                let members = vec![flag];
                schema.tables.push(Table { id, members });
            }
        }
        Rule::NoTable => *schema = Schema::new(schema.coding),
        Rule::RootIndex => schema.root = rng.range(schema.tables.len(), 255) as u8,
        _ => return break_part_counts(rng, schema, rule),
    }
    true
}

fn break_part_counts(rng: &mut Rng, schema: &mut Schema, rule: Rule) -> bool {
    let (flag, text) = (Record::plain(BOOL, 0), Record::plain(TEXT, 0));
    match rule {
        Rule::EmptyStruct => {
            let at = some_struct(rng, schema);
            schema.structs[at].clear();
        }
        Rule::StructMembers => {
            let count = rng.pick(&[33, 33, 34, 255]);
            schema.structs.push(vec![flag; count]);
        }
        Rule::EmptyUnion => {
            let at = some_union(rng, schema);
            schema.unions[at].clear();
        }
        Rule::UnionCases => {
            let at = some_union(rng, schema);
            schema.unions[at].resize(rng.pick(&[33, 33, 34, 255]), text);
        }
        Rule::TableMembers => {
            let at = rng.below(schema.tables.len());
            schema.tables[at]
                .members
                .resize(rng.pick(&[65, 65, 66, 255]), flag);
        }
        _ => return false,
    }
    true
}

fn some_struct(rng: &mut Rng, schema: &mut Schema) -> usize {
    if schema.structs.is_empty() {
        schema.structs.push(vec![Record::plain(BOOL, 0)]);
    }
    rng.below(schema.structs.len())
}

fn some_list(rng: &mut Rng, schema: &mut Schema) -> usize {
    if schema.lists.is_empty() {
        schema.lists.push(Record::plain(1, 0));
    }
    rng.below(schema.lists.len())
}

fn some_union(rng: &mut Rng, schema: &mut Schema) -> usize {
    if schema.unions.is_empty() {
        schema.unions.push(vec![Record::plain(BYTES, 0)]);
    }
    rng.below(schema.unions.len())
}

/// A table member given to a table with room for it. In the older coding a
/// union is in place.
fn give(rng: &mut Rng, schema: &mut Schema, mut member: Record) {
    member.in_place |= schema.coding.is_older() && member.kind == UNION;
    insert(rng, schema, member);
}

/// A table that no direct list has, so that it may hold a member in place.
fn some_holder(rng: &mut Rng, schema: &mut Schema) -> usize {
    let holders: Vec<usize> = (0..schema.tables.len())
        .filter(|&table| !schema.is_direct(table))
        .collect();
    if holders.is_empty() {
        return some_new_table(rng, schema);
    }
    rng.pick(&holders)
}

/// One more table, without members; where there is no room, one without direct
/// lists of it.
fn some_new_table(rng: &mut Rng, schema: &mut Schema) -> usize {
    if schema.tables.len() < 64 {
        let id = schema_gen::table_id(rng, schema);
        let members = Vec::new();
        schema.tables.push(Table { id, members });
        return schema.tables.len() - 1;
    }
    let last = schema.tables.len() - 1;
    without_direct(schema, last as u8);
    schema.tables[last].members.clear();
    last
}

/// Direct lists of a table become texts.
fn without_direct(schema: &mut Schema, table: u8) {
    let (direct, text) = (Record::plain(DIRECT, table), Record::plain(TEXT, 0));
    let cases = schema.unions.iter_mut().flatten();
    let members = schema.tables.iter_mut().flat_map(|t| t.members.iter_mut());
    for record in schema.lists.iter_mut().chain(cases).chain(members) {
        if *record == direct {
            *record = text;
        }
    }
}

/// A table member as it is.
fn insert(rng: &mut Rng, schema: &mut Schema, member: Record) {
    let at = match member.in_place {
        true => some_holder(rng, schema),
        false => rng.below(schema.tables.len()),
    };
    let members = &mut schema.tables[at].members;
    members.truncate(63);
    if member.in_place {
        members.retain(|m| !m.in_place);
    }
    members.insert(rng.below(members.len() + 1), member);
}

fn break_flags(rng: &mut Rng, schema: &mut Schema, rule: Rule) -> bool {
    match rule {
        Rule::OptionalPlace => {
            with_outside_record(rng, schema, |record| record.optional = true);
        }
        Rule::InPlacePlace => {
            with_outside_record(rng, schema, |record| record.in_place = true);
        }
        Rule::OptionalKind => {
            let kinds = [ENUM, TEXT, BYTES, LIST, TABLE, UNION, DIRECT];
            let mut member = of_kind(rng, schema, &kinds);
            member.optional = true;
            give(rng, schema, member);
        }
        Rule::InPlaceKind => {
            let kinds = [0, 1, 2, 3, 4, 5, 6, 7, 8, F32, F64, ENUM, STRUCT];
            let mut member = of_kind(rng, schema, &kinds);
            member.in_place = true;
            give(rng, schema, member);
        }
        Rule::TwoInPlace => {
            let kinds: &[u8] = match schema.coding {
                Coding::Bits48 => &[TEXT, BYTES, LIST, TABLE, UNION],
                Coding::Bits32 => &[TEXT, BYTES, LIST, UNION],
            };
            let mut pair = [of_kind(rng, schema, kinds), of_kind(rng, schema, kinds)];
            pair[0].in_place = true;
            pair[1].in_place = true;
            let at = some_holder(rng, schema);
            let members = &mut schema.tables[at].members;
            members.truncate(62);
            members.retain(|m| !m.in_place);
            members.insert(rng.below(members.len() + 1), pair[0]);
            members.insert(rng.below(members.len() + 1), pair[1]);
        }
        Rule::ZeroBit => with_any_record(rng, schema, |record| record.zero = true),
        _ => return false,
    }
    true
}

/// A lawful record of one of the kinds; parts it needs are made.
fn of_kind(rng: &mut Rng, schema: &mut Schema, kinds: &[u8]) -> Record {
    let kind = rng.pick(kinds);
    let argument = match kind {
        ENUM => usize::from(schema_gen::enum_count(rng)),
        STRUCT => some_struct(rng, schema),
        LIST => some_list(rng, schema),
        TABLE => rng.below(schema.tables.len()),
        DIRECT => some_direct(rng, schema),
        UNION => some_union(rng, schema),
        _ => 0,
    };
    Record::plain(kind, argument as u8)
}

/// A table that may be a direct list's under the coding of document 000.
fn some_direct(rng: &mut Rng, schema: &mut Schema) -> usize {
    let fits = |table: &Table| {
        let members = &table.members;
        !members.is_empty() && members.iter().all(|m| !m.in_place)
    };
    let tables: Vec<usize> = (0..schema.tables.len())
        .filter(|&table| fits(&schema.tables[table]))
        .collect();
    if !tables.is_empty() {
        return rng.pick(&tables);
    }
    let table = some_new_table(rng, schema);
    schema.tables[table].members = vec![Record::plain(1, 0)];
    table
}

/// Changes a struct member, an element or a case.
fn with_outside_record(rng: &mut Rng, schema: &mut Schema, change: impl Fn(&mut Record)) {
    match rng.below(3) {
        0 => {
            let at = some_struct(rng, schema);
            let member = rng.below(schema.structs[at].len());
            change(&mut schema.structs[at][member]);
        }
        1 => {
            let at = some_list(rng, schema);
            change(&mut schema.lists[at]);
        }
        _ => {
            let at = some_union(rng, schema);
            let case = rng.below(schema.unions[at].len());
            change(&mut schema.unions[at][case]);
        }
    }
}

/// Changes any record.
fn with_any_record(rng: &mut Rng, schema: &mut Schema, change: impl Fn(&mut Record)) {
    let at = rng.below(schema.tables.len());
    let members = schema.tables[at].members.len();
    if members > 0 && rng.coin() {
        let member = rng.below(members);
        change(&mut schema.tables[at].members[member]);
    } else {
        with_outside_record(rng, schema, change);
    }
}

fn break_records(rng: &mut Rng, schema: &mut Schema, rule: Rule) {
    match rule {
        Rule::UnknownKind => {
            let kind = rng.range(19, 31) as u8;
            with_any_record(rng, schema, |record| *record = Record::plain(kind, 0));
        }
        Rule::EnumWithoutValues => give(rng, schema, Record::plain(ENUM, 0)),
        Rule::NeedlessArgument => {
            let kind = rng.pick(&[0, 1, 2, 3, 4, 5, 6, 7, 8, F32, F64, TEXT, BYTES]);
            let argument = rng.range(1, 255) as u8;
            give(rng, schema, Record::plain(kind, argument));
        }
        Rule::IndexTooHigh => {
            let kind = rng.pick(&[STRUCT, LIST, TABLE, UNION, DIRECT]);
            let count = match kind {
                STRUCT => schema.structs.len(),
                LIST => schema.lists.len(),
                TABLE | DIRECT => schema.tables.len(),
                _ => schema.unions.len(),
            };
            let argument = if rng.coin() {
                count
            } else {
                rng.range(count, 255)
            };
            give(rng, schema, Record::plain(kind, argument as u8));
        }
        _ => break_kinds(rng, schema, rule),
    }
}

fn break_kinds(rng: &mut Rng, schema: &mut Schema, rule: Rule) {
    match rule {
        Rule::StructMemberKind => {
            let member = of_kind(rng, schema, &[TEXT, BYTES, LIST, TABLE, UNION, DIRECT]);
            let at = some_struct(rng, schema);
            schema.structs[at][0] = member;
        }
        Rule::InnerStructIndex => {
            let at = some_struct(rng, schema);
            let index = rng.range(at, schema.structs.len() - 1) as u8;
            schema.structs[at][0] = Record::plain(STRUCT, index);
        }
        Rule::ElementKind => {
            let structure = some_struct(rng, schema) as u8;
            let at = some_list(rng, schema);
            schema.lists[at] = Record::plain(STRUCT, structure);
        }
        Rule::CaseKind => {
            let kinds = [0, 1, 2, 3, 4, 5, 6, 7, 8, F32, F64, ENUM, STRUCT, UNION];
            let case = of_kind(rng, schema, &kinds);
            let at = some_union(rng, schema);
            schema.unions[at][0] = case;
        }
        _ => break_whole(rng, schema, rule),
    }
}

/// The rules of direct lists. Under the older coding none of these would be
/// lawful with them kept either.
fn break_direct(rng: &mut Rng, schema: &mut Schema, rule: Rule) {
    match rule {
        Rule::DirectInPlace => {
            let mut direct = of_kind(rng, schema, &[DIRECT]);
            direct.in_place = true;
            insert(rng, schema, direct);
        }
        Rule::DirectOfNoMembers => {
            let table = some_new_table(rng, schema) as u8;
            put_direct(rng, schema, table);
        }
        Rule::DirectOfInPlace => {
            let table = some_new_table(rng, schema) as u8;
            let mut text = Record::plain(TEXT, 0);
            text.in_place = true;
            schema.tables[usize::from(table)].members = vec![Record::plain(1, 0), text];
            put_direct(rng, schema, table);
        }
        Rule::DirectCaseInPlace => {
            let direct = of_kind(rng, schema, &[DIRECT]);
            let union = some_union(rng, schema);
            schema.unions[union].truncate(31);
            schema.unions[union].push(direct);
            let mut member = Record::plain(UNION, union as u8);
            member.in_place = true;
            insert(rng, schema, member);
        }
        _ => break_older(rng, schema, rule),
    }
}

/// A direct list of the table as a member of another, a case or an element.
fn put_direct(rng: &mut Rng, schema: &mut Schema, table: u8) {
    let direct = Record::plain(DIRECT, table);
    let at = rng.below(schema.tables.len());
    match rng.below(3) {
        0 if at != usize::from(table) => {
            let members = &mut schema.tables[at].members;
            members.truncate(63);
            members.push(direct);
        }
        1 => {
            let union = some_union(rng, schema);
            schema.unions[union] = vec![direct];
            by_offset(schema, union);
        }
        _ => {
            let list = some_list(rng, schema);
            schema.lists[list] = direct;
        }
    }
}

/// No table holds the union in place.
fn by_offset(schema: &mut Schema, union: usize) {
    let members = schema.tables.iter_mut().flat_map(|t| t.members.iter_mut());
    for member in members.filter(|m| m.kind == UNION && usize::from(m.argument) == union) {
        member.in_place &= schema.coding.is_older();
    }
}

/// The older coding's own rules.
fn break_older(rng: &mut Rng, schema: &mut Schema, rule: Rule) {
    match rule {
        Rule::UnionNotInPlace => {
            let union = of_kind(rng, schema, &[UNION]);
            insert(rng, schema, union);
        }
        Rule::TableInPlace => {
            let mut table = of_kind(rng, schema, &[TABLE]);
            table.in_place = true;
            insert(rng, schema, table);
        }
        Rule::ListOfUnions => {
            let union = of_kind(rng, schema, &[UNION]);
            let at = some_list(rng, schema);
            schema.lists[at] = union;
        }
        Rule::DirectList => {
            let table = some_direct(rng, schema) as u8;
            put_direct(rng, schema, table);
        }
        _ => {}
    }
}

fn break_whole(rng: &mut Rng, schema: &mut Schema, rule: Rule) {
    match rule {
        Rule::StructSize => {
            let mut outer = vec![Record::plain(STRUCT, 0); 16];
            outer.push(Record::plain(rng.pick(&[BOOL, 1, 4]), 0));
            schema.structs = vec![vec![Record::plain(4, 0); 32], outer];
            for table in &mut schema.tables {
                for member in &mut table.members {
                    if member.kind == STRUCT {
                        *member = Record::plain(1, 0);
                    }
                }
            }
        }
        Rule::EqualIds => {
            let id = schema.tables[rng.below(schema.tables.len())].id;
            let members = Vec::new();
            if schema.tables.len() == 64 {
                schema.tables[0].id = schema.tables[63].id;
            } else {
                schema.tables.push(Table { id, members });
            }
        }
        _ => break_direct(rng, schema, rule),
    }
}

/// Random damage to a packed schema; the result may still be lawful.
pub fn damaged(rng: &mut Rng, packed: &Packed) -> Packed {
    let mut out = packed.bytes().to_vec();
    for _ in 0..rng.range(1, 3) {
        if out.is_empty() {
            break;
        }
        let at = rng.below(out.len());
        match rng.below(6) {
            0 => out[at] = rng.bits() as u8,
            1 => out.truncate(at),
            2 => out.insert(at, rng.bits() as u8),
            3 => {
                out.remove(at);
            }
            _ => out[at] ^= 1 << rng.below(8),
        }
    }
    packed.with(out)
}
