//! Messages of 32 objects, each in the one before: what uses the most stack.

use crate::cases::Case;
use crate::message::{Message, LIST_MAGIC};
use crate::schema::{plain, Record, Schema, Table, BOOL, LIST, STRUCT, TABLE, UNION};
use scalgo::Coding::Bits48;

/// "Depth: 32 objects, the root being 1".
const DEEPEST: usize = 32;

const ID: u32 = 0x100;

pub fn cases() -> Vec<Case> {
    vec![
        tables(),
        tables_in_place(),
        tables_by_unions(),
        lists(),
        lists_by_unions(),
        tables_lists_and_unions(),
        tables_and_structs(),
    ]
}

/// A link of a chain: its magic, its length, and its content up to the reference to the next.
struct Link(u32, usize, &'static [u8]);

/// The links of a chain; the last refers to nothing, and all its content is zero.
fn chain(link: impl Fn(usize) -> Link) -> Message {
    let mut message = Message::new(Bits48);
    for depth in 1..=DEEPEST {
        let Link(magic, length, before) = link(depth);
        message.header(magic, length);
        if depth < DEEPEST {
            message.put(before);
            message.refer_behind();
        } else {
            message.zeros(before.len() + 6);
        }
    }
    message
}

/// A union's first choice.
const FIRST: &[u8] = &[1, 0];

/// Table 0, list 0 and union 0, as far as there are such.
fn schema(members: &[Record], lists: &[Record], cases: &[Record]) -> Schema {
    Schema {
        lists: lists.to_vec(),
        unions: cases.iter().map(|&case| vec![case]).collect(),
        tables: vec![Table::new(ID, members)],
        ..Schema::default()
    }
}

fn deepest(name: &str, schema: &Schema, message: Message) -> Case {
    Case::accepted(name, schema, message, DEEPEST as u32)
}

fn tables() -> Case {
    let schema = schema(&[plain(TABLE)], &[], &[]);
    let message = chain(|_| Link(ID, 6, &[]));
    deepest("tables", &schema, message)
}

fn tables_in_place() -> Case {
    let schema = schema(&[plain(TABLE).in_place()], &[], &[]);
    let mut message = Message::new(Bits48);
    message.header(ID, 6);
    for _ in 1..DEEPEST {
        message.offset(6);
    }
    message.zeros(6);
    deepest("tables in place", &schema, message)
}

fn tables_by_unions() -> Case {
    let schema = schema(&[plain(UNION)], &[], &[plain(TABLE)]);
    let message = chain(|_| Link(ID, 8, FIRST));
    deepest("tables by unions", &schema, message)
}

fn lists() -> Case {
    let schema = schema(&[plain(LIST)], &[plain(LIST)], &[]);
    let message = chain(|depth| match depth {
        1 => Link(ID, 6, &[]),
        _ => Link(LIST_MAGIC, 1, &[]),
    });
    deepest("lists", &schema, message)
}

fn lists_by_unions() -> Case {
    let schema = schema(&[plain(LIST)], &[plain(UNION)], &[plain(LIST)]);
    let message = chain(|depth| match depth {
        1 => Link(ID, 6, &[]),
        _ => Link(LIST_MAGIC, 1, FIRST),
    });
    deepest("lists by unions", &schema, message)
}

fn tables_lists_and_unions() -> Case {
    let schema = schema(&[plain(LIST)], &[plain(UNION)], &[plain(TABLE)]);
    let message = chain(|depth| match depth % 2 {
        1 => Link(ID, 6, &[]),
        _ => Link(LIST_MAGIC, 1, FIRST),
    });
    deepest("tables and lists by unions", &schema, message)
}

/// Each table has a boolean that is 64 structs down.
fn tables_and_structs() -> Case {
    let mut schema = schema(&[Record::of(STRUCT, 63), plain(TABLE)], &[], &[]);
    schema.structs = vec![vec![plain(BOOL)]];
    let deeper = (0..63).map(|lower| vec![Record::of(STRUCT, lower)]);
    schema.structs.extend(deeper);
    let message = chain(|_| Link(ID, 7, &[1]));
    deepest("tables with a struct 64 deep", &schema, message)
}
