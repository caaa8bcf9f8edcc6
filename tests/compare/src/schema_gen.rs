//! Random lawful schemas.

use crate::coding::Coding;
use crate::rng::Rng;
use crate::schema::*;

/// How many parts of each sort a schema gets.
struct Counts {
    structs: usize,
    lists: usize,
    unions: usize,
    tables: usize,
    members: usize,
}

/// A random schema that is lawful under the coding, mostly small.
pub fn lawful_schema(coding: Coding, rng: &mut Rng) -> Schema {
    match rng.below(200) {
        0 => wide(coding, rng),
        1 => largest_struct(coding, rng),
        2 => nested_structs(coding, rng),
        3..=12 => recursive(coding, rng),
        13..=42 if !coding.is_older() => with_direct_list(coding, rng),
        13..=60 => from_counts(coding, rng, [1, 1, 1, 1, 4]),
        61..=170 => from_counts(coding, rng, [3, 3, 3, 3, 7]),
        _ => from_counts(coding, rng, [6, 6, 6, 8, 14]),
    }
}

/// At most so many structs, lists, unions and tables, and members of each table.
fn from_counts(coding: Coding, rng: &mut Rng, most: [usize; 5]) -> Schema {
    let [structs, lists, unions, tables, members] = most;
    let some = |rng: &mut Rng, most: usize| {
        let least = usize::from(most > 0 && !rng.one_in(5));
        rng.range(least, most)
    };
    let counts = Counts {
        structs: some(rng, structs),
        lists: some(rng, lists),
        unions: some(rng, unions),
        tables: rng.range(1, tables),
        members,
    };
    build(coding, rng, &counts)
}

/// Every count at or near its limit.
fn wide(coding: Coding, rng: &mut Rng) -> Schema {
    let near = |rng: &mut Rng| if rng.coin() { 64 } else { rng.range(0, 64) };
    let counts = Counts {
        structs: near(rng),
        lists: near(rng),
        unions: near(rng),
        tables: near(rng).max(1),
        members: 64,
    };
    build(coding, rng, &counts)
}

/// Has a struct of exactly 4,096 bytes, used by the root.
fn largest_struct(coding: Coding, rng: &mut Rng) -> Schema {
    let mut schema = from_counts(coding, rng, [0, 2, 2, 2, 4]);
    let kind = rng.pick(&[4, 8, F64]);
    schema.structs = vec![
        vec![Record::plain(kind, 0); 32],
        vec![Record::plain(STRUCT, 0); 16],
    ];
    if rng.coin() {
        let bits = vec![Record::plain(BOOL, 0); 32];
        schema.structs = vec![
            bits,
            vec![Record::plain(STRUCT, 0); 32],
            vec![Record::plain(STRUCT, 1); 4],
        ];
    }
    let last = schema.structs.len() as u8 - 1;
    let mut member = Record::plain(STRUCT, last);
    member.optional = rng.coin();
    let root = usize::from(schema.root);
    let members = &mut schema.tables[root].members;
    members.truncate(63);
    members.insert(rng.below(members.len() + 1), member);
    schema
}

/// Has 64 structs, each inside the next.
fn nested_structs(coding: Coding, rng: &mut Rng) -> Schema {
    let mut schema = from_counts(coding, rng, [0, 1, 1, 2, 4]);
    schema.structs = vec![vec![small_struct_member(rng)]];
    for inner in 0..63 {
        let mut members = vec![Record::plain(STRUCT, inner)];
        if rng.one_in(4) {
            members.push(small_struct_member(rng));
        }
        schema.structs.push(members);
    }
    let root = usize::from(schema.root);
    let members = &mut schema.tables[root].members;
    members.truncate(63);
    members.push(Record::plain(STRUCT, 63));
    schema
}

fn small_struct_member(rng: &mut Rng) -> Record {
    match rng.below(3) {
        0 => Record::plain(BOOL, 0),
        1 => Record::plain(ENUM, enum_count(rng)),
        _ => Record::plain(rng.pick(&[1, 5]), 0),
    }
}

/// Has a table that leads back to itself, directly or through a list, direct list
/// or union, by offset or in place, as far as the coding has these.
pub fn recursive(coding: Coding, rng: &mut Rng) -> Schema {
    let mut schema = from_counts(coding, rng, [1, 2, 2, 2, 3]);
    let root = schema.root;
    let back = if schema.may_be_direct(usize::from(root)) && rng.one_in(3) {
        Record::plain(DIRECT, root)
    } else {
        Record::plain(TABLE, root)
    };
    let mut link = match rng.below(if coding.is_older() { 3 } else { 4 }) {
        0 => back,
        1 => {
            schema.lists.push(back);
            Record::plain(LIST, schema.lists.len() as u8 - 1)
        }
        2 => {
            schema.unions.push(vec![Record::plain(TEXT, 0), back]);
            Record::plain(UNION, schema.unions.len() as u8 - 1)
        }
        _ => {
            schema.unions.push(vec![back]);
            let union = schema.unions.len() as u8 - 1;
            schema.lists.push(Record::plain(UNION, union));
            Record::plain(LIST, schema.lists.len() as u8 - 1)
        }
    };
    if coding.is_older() && link.kind == UNION {
        let members = &mut schema.tables[usize::from(root)].members;
        members.retain(|m| !m.in_place);
        link.in_place = true;
    } else if !(coding.is_older() && link.kind == TABLE) {
        let may_be = link_may_be_in_place(&schema, &link, back);
        link.in_place = rng.coin() && may_be;
    }
    let members = &mut schema.tables[usize::from(root)].members;
    members.insert(rng.below(members.len() + 1), link);
    schema
}

/// Has a direct list that the root leads to: as a member, an element or a case.
fn with_direct_list(coding: Coding, rng: &mut Rng) -> Schema {
    let mut schema = from_counts(coding, rng, [2, 2, 2, 3, 6]);
    let direct = direct_list(rng, &schema).unwrap_or_else(|| {
        let id = table_id(rng, &schema);
        let members = vec![member(rng, &schema, false)];
        schema.tables.push(Table { id, members });
        Record::plain(DIRECT, schema.tables.len() as u8 - 1)
    });
    let link = match rng.below(4) {
        0 => {
            schema.lists.push(direct);
            Record::plain(LIST, schema.lists.len() as u8 - 1)
        }
        1 => {
            schema.unions.push(vec![Record::plain(TEXT, 0), direct]);
            Record::plain(UNION, schema.unions.len() as u8 - 1)
        }
        _ => direct,
    };
    let members = &mut schema.tables[usize::from(schema.root)].members;
    members.insert(rng.below(members.len() + 1), link);
    schema
}

/// Has a union in place that the root holds, unless the root is a direct list's.
pub fn with_union_in_place(coding: Coding, rng: &mut Rng) -> Schema {
    let mut schema = from_counts(coding, rng, [2, 3, 3, 4, 6]);
    let root = usize::from(schema.root);
    if schema.is_direct(root) {
        return schema;
    }
    schema.tables[root]
        .members
        .retain(|member| !member.in_place);
    let known = (0..schema.unions.len() as u8).filter(|union| !schema.has_direct_case(*union));
    let known: Vec<u8> = known.collect();
    let union = if known.is_empty() || rng.coin() {
        let cases = rng.range(1, 5);
        let cases = (0..cases).map(|_| plain_object(rng, &schema)).collect();
        schema.unions.push(cases);
        schema.unions.len() as u8 - 1
    } else {
        rng.pick(&known)
    };
    let member = Record {
        in_place: true,
        ..Record::plain(UNION, union)
    };
    let members = &mut schema.tables[root].members;
    members.insert(rng.below(members.len() + 1), member);
    schema
}

/// Whether the root may hold a link in place that leads back to it.
fn link_may_be_in_place(schema: &Schema, link: &Record, back: Record) -> bool {
    let direct = back.kind == DIRECT || link.kind == UNION && schema.has_direct_case(link.argument);
    schema.may_hold_in_place(usize::from(schema.root)) && !direct
}

fn build(coding: Coding, rng: &mut Rng, counts: &Counts) -> Schema {
    let mut schema = Schema::new(coding);
    for _ in 0..counts.structs {
        let members = struct_members(rng, &schema);
        schema.structs.push(members);
    }
    // Elements and cases may name parts that come later: fill in the counts.
    schema.lists = vec![Record::plain(BOOL, 0); counts.lists];
    schema.unions = vec![vec![Record::plain(TEXT, 0)]; counts.unions];
    let sizes = begin_tables(rng, &mut schema, counts);
    for i in 0..counts.lists {
        schema.lists[i] = element(rng, &schema);
    }
    for i in 0..counts.unions {
        let most = if counts.members == 64 { 32 } else { 4 };
        let cases = rng.range(1, most);
        schema.unions[i] = (0..cases).map(|_| case(rng, &schema, i)).collect();
    }
    for (i, size) in sizes.into_iter().enumerate() {
        while schema.tables[i].members.len() < size {
            let may_be_in_place = schema.may_hold_in_place(i);
            let member = member(rng, &schema, may_be_in_place);
            schema.tables[i].members.push(member);
        }
    }
    schema.root = rng.below(counts.tables) as u8;
    schema
}

/// Adds tables and says how many members each is to have. Some have their first
/// one now, so that elements and cases may be direct lists of them.
fn begin_tables(rng: &mut Rng, schema: &mut Schema, counts: &Counts) -> Vec<usize> {
    for _ in 0..counts.tables {
        let id = table_id(rng, schema);
        let members = Vec::new();
        schema.tables.push(Table { id, members });
    }
    let sizes: Vec<usize> = (0..counts.tables)
        .map(|_| member_count(rng, counts.members))
        .collect();
    for (i, size) in sizes.iter().enumerate() {
        if *size > 0 && rng.coin() {
            let first = member(rng, schema, false);
            schema.tables[i].members.push(first);
        }
    }
    sizes
}

fn member_count(rng: &mut Rng, most: usize) -> usize {
    match rng.below(12) {
        0 => most,
        1 | 2 => rng.range(0, most),
        _ => rng.range(2, most),
    }
}

/// Members of one more struct.
pub fn struct_members(rng: &mut Rng, schema: &Schema) -> Vec<Record> {
    let count = match rng.below(20) {
        0 => 32,
        1..=3 => rng.range(1, 32),
        _ => rng.range(1, 5),
    };
    let mut members: Vec<Record> = Vec::new();
    let mut size = 0;
    for _ in 0..count {
        let mut member = match rng.below(14) {
            0 | 1 => Record::plain(BOOL, 0),
            2 | 3 => Record::plain(ENUM, enum_count(rng)),
            4 | 5 if !schema.structs.is_empty() => {
                Record::plain(STRUCT, rng.below(schema.structs.len()) as u8)
            }
            _ => Record::plain(rng.range(0, 10) as u8, 0),
        };
        // 32 more bytes always leave room for the one-byte members after.
        if size + schema.value_size(&member) + 32 > STRUCT_LIMIT {
            member = Record::plain(rng.pick(&[BOOL, 1, 5]), 0);
        }
        size += schema.value_size(&member);
        members.push(member);
    }
    members
}

/// A count of enum values, the edges often.
pub fn enum_count(rng: &mut Rng) -> u8 {
    match rng.below(8) {
        0 => 1,
        1 => 2,
        2 => 253,
        3 => 254,
        4 => 255,
        _ => rng.range(1, 255) as u8,
    }
}

/// An id that no table has yet.
pub fn table_id(rng: &mut Rng, schema: &Schema) -> u32 {
    loop {
        let id = match rng.below(30) {
            0 => 0,
            1 => u32::MAX,
            2 => 0xD812_C8F5,
            3 => 0xDCDB_BE10,
            4 => 0x3400_BB46,
            5 => 0xB5C0_C4B3,
            6 => 0xE2C6_CC05,
            _ => rng.bits() as u32,
        };
        if schema.tables.iter().all(|t| t.id != id) {
            return id;
        }
    }
}

/// A direct list of a table that may be one's, if there is such a table.
fn direct_list(rng: &mut Rng, schema: &Schema) -> Option<Record> {
    let tables: Vec<usize> = (0..schema.tables.len())
        .filter(|&table| schema.may_be_direct(table))
        .collect();
    (!tables.is_empty()).then(|| Record::plain(DIRECT, rng.pick(&tables) as u8))
}

/// A record of a kind that leads to an object, as far as the schema has them.
fn object(rng: &mut Rng, schema: &Schema) -> Record {
    let direct = if rng.one_in(5) {
        direct_list(rng, schema)
    } else {
        None
    };
    direct.unwrap_or_else(|| plain_object(rng, schema))
}

/// An object that is no direct list.
fn plain_object(rng: &mut Rng, schema: &Schema) -> Record {
    match rng.below(8) {
        0 | 1 => Record::plain(TEXT, 0),
        2 => Record::plain(BYTES, 0),
        3 | 4 if !schema.lists.is_empty() => {
            Record::plain(LIST, rng.below(schema.lists.len()) as u8)
        }
        _ => Record::plain(TABLE, rng.below(schema.tables.len()) as u8),
    }
}

fn object_or_union(rng: &mut Rng, schema: &Schema) -> Record {
    if !schema.unions.is_empty() && rng.one_in(3) {
        Record::plain(UNION, rng.below(schema.unions.len()) as u8)
    } else {
        object(rng, schema)
    }
}

/// A list element.
pub fn element(rng: &mut Rng, schema: &Schema) -> Record {
    match rng.below(12) {
        0 => Record::plain(BOOL, 0),
        1 => Record::plain(rng.pick(&[F32, F64]), 0),
        2 => Record::plain(ENUM, enum_count(rng)),
        3 => Record::plain(rng.range(1, 8) as u8, 0),
        _ if schema.coding.is_older() => object(rng, schema),
        _ => object_or_union(rng, schema),
    }
}

/// A case of a union: no direct list if a table holds the union in place.
pub fn case(rng: &mut Rng, schema: &Schema, union: usize) -> Record {
    if schema.held_in_place(union) {
        plain_object(rng, schema)
    } else {
        object(rng, schema)
    }
}

/// A table member, in place only if `may_be_in_place`.
pub fn member(rng: &mut Rng, schema: &Schema, may_be_in_place: bool) -> Record {
    let mut member = match rng.below(20) {
        0..=2 => Record::plain(BOOL, 0),
        3 | 4 => Record::plain(rng.range(1, 8) as u8, 0),
        5 => Record::plain(rng.pick(&[F32, F64]), 0),
        6 => Record::plain(ENUM, enum_count(rng)),
        7 | 8 if !schema.structs.is_empty() => {
            Record::plain(STRUCT, rng.below(schema.structs.len()) as u8)
        }
        _ => object_or_union(rng, schema),
    };
    if member.kind <= F64 || member.kind == STRUCT {
        member.optional = rng.coin();
    }
    let direct = match member.kind {
        DIRECT => true,
        UNION => schema.has_direct_case(member.argument),
        _ => false,
    };
    if member.kind >= TEXT && !direct {
        member.in_place = may_be_in_place && rng.one_in(3);
    }
    match member.kind {
        UNION | TABLE if schema.coding.is_older() => {
            of_older_coding(rng, schema, member, may_be_in_place)
        }
        _ => member,
    }
}

/// A union or a table as a member in the older coding: a union in place, or an object where it may
/// not be, and a table by its offset.
fn of_older_coding(
    rng: &mut Rng,
    schema: &Schema,
    mut member: Record,
    may_be_in_place: bool,
) -> Record {
    member.in_place = member.kind == UNION;
    if member.in_place && !may_be_in_place {
        return object(rng, schema);
    }
    member
}
