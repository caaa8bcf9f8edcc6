//! A message with one text, held in one of the ways there are, and its sheet.

use crate::canonical;
use crate::coding::Coding;
use crate::program::{accepted, verdict, Budget, Verdict};
use crate::schema::*;
use crate::schema_rules;
use crate::sheet;
use crate::text_gen::is_text;
use crate::value::{spent, Value};

/// How the text is held.
#[derive(Clone, Copy, Debug, PartialEq, Eq)]
pub enum Way {
    /// By a table's member.
    Member,
    InPlace,
    /// By an element of a list.
    Element,
    /// By a list in a list.
    ElementOfElement,
    Union,
    UnionInPlace,
    /// By a union in a list.
    UnionElement,
    /// In place in a table in place.
    TableInPlace,
    /// In place in a table of a union in place.
    UnionTable,
    /// By a member of a direct list's element.
    DirectMember,
    /// By a union of a direct list's element.
    DirectUnion,
    /// By a member of an element of a direct list that a list holds.
    DirectElement,
}

/// Every way.
pub const WAYS: [Way; 12] = [
    Way::Member,
    Way::InPlace,
    Way::Element,
    Way::ElementOfElement,
    Way::Union,
    Way::UnionInPlace,
    Way::UnionElement,
    Way::TableInPlace,
    Way::UnionTable,
    Way::DirectMember,
    Way::DirectUnion,
    Way::DirectElement,
];

const TEXT_RECORD: Record = Record {
    kind: TEXT,
    optional: false,
    in_place: false,
    zero: false,
    argument: 0,
};

fn in_place(record: Record) -> Record {
    Record {
        in_place: true,
        ..record
    }
}

impl Way {
    /// The ways that a coding has.
    pub fn of(coding: Coding) -> Vec<Way> {
        let lawful = |way: &Way| schema_rules::lawful(&way.schema(coding, 0));
        WAYS.into_iter().filter(lawful).collect()
    }

    /// Whether nothing but the content of the text stands in the message.
    pub fn in_place(self) -> bool {
        matches!(
            self,
            Way::InPlace | Way::UnionInPlace | Way::TableInPlace | Way::UnionTable
        )
    }

    /// Whether a text of length 0 is none, and not an empty one.
    pub fn empty_is_absent(self) -> bool {
        self.in_place() && self != Way::UnionInPlace
    }

    /// A root with so many bools, a number and what leads to the text. Table 1 is
    /// that of tables in place and of direct lists.
    fn schema(self, coding: Coding, bools: usize) -> Schema {
        let (member, element, inner) = self.records();
        let case = match self {
            Way::UnionTable => Record::plain(TABLE, 1),
            _ => TEXT_RECORD,
        };
        let table = |id, member| Table {
            id,
            members: vec![Record::plain(2, 0), member],
        };
        let mut root = table(0x4C49_4345, member);
        root.members
            .splice(0..0, vec![Record::plain(BOOL, 0); bools]);
        Schema {
            lists: vec![element, TEXT_RECORD],
            unions: vec![vec![Record::plain(BYTES, 0), case]],
            tables: vec![root, table(0x0102_0304, inner)],
            ..Schema::new(coding)
        }
    }

    /// The root's last member, the element of list 0 and table 1's last member.
    fn records(self) -> (Record, Record, Record) {
        let union = Record::plain(UNION, 0);
        match self {
            Way::Member => (TEXT_RECORD, TEXT_RECORD, TEXT_RECORD),
            Way::InPlace => (in_place(TEXT_RECORD), TEXT_RECORD, TEXT_RECORD),
            Way::Element => (Record::plain(LIST, 0), TEXT_RECORD, TEXT_RECORD),
            Way::ElementOfElement => {
                let lists = Record::plain(LIST, 1);
                (Record::plain(LIST, 0), lists, TEXT_RECORD)
            }
            Way::Union => (union, TEXT_RECORD, TEXT_RECORD),
            Way::UnionInPlace => (in_place(union), TEXT_RECORD, TEXT_RECORD),
            Way::UnionElement => (Record::plain(LIST, 0), union, TEXT_RECORD),
            Way::TableInPlace => {
                let table = in_place(Record::plain(TABLE, 1));
                (table, TEXT_RECORD, in_place(TEXT_RECORD))
            }
            Way::UnionTable => (in_place(union), TEXT_RECORD, in_place(TEXT_RECORD)),
            Way::DirectMember => (Record::plain(DIRECT, 1), TEXT_RECORD, TEXT_RECORD),
            Way::DirectUnion => (Record::plain(DIRECT, 1), TEXT_RECORD, union),
            Way::DirectElement => {
                let direct = Record::plain(DIRECT, 1);
                (Record::plain(LIST, 0), direct, TEXT_RECORD)
            }
        }
    }

    /// The root, of which the text is the last object.
    fn value(self, bools: usize, text: &[u8]) -> Value {
        let mut root = vec![Value::Bool(true); bools];
        root.extend([Value::Number(3), self.last_member(text)]);
        Value::Table(root)
    }

    fn last_member(self, text: &[u8]) -> Value {
        let text = Value::Blob(text.to_vec());
        let row = |value| Value::Table(vec![Value::Number(7), value]);
        let choice = |value| Value::Union(2, Box::new(value));
        match self {
            Way::Member | Way::InPlace => text,
            Way::Element => Value::List(vec![Value::Absent, text]),
            Way::ElementOfElement => Value::List(vec![Value::List(vec![text])]),
            Way::Union | Way::UnionInPlace => choice(text),
            Way::UnionElement => Value::List(vec![choice(text)]),
            Way::TableInPlace => row(text),
            Way::UnionTable => choice(row(text)),
            Way::DirectMember => Value::List(vec![row(Value::Absent), row(text)]),
            Way::DirectUnion => Value::List(vec![row(choice(text))]),
            Way::DirectElement => Value::List(vec![Value::List(vec![row(text)])]),
        }
    }

    /// The path to the text from the root's last member on.
    fn path(self) -> &'static [u32] {
        match self {
            Way::Member | Way::InPlace | Way::Union | Way::UnionInPlace => &[],
            Way::UnionElement => &[0],
            Way::Element | Way::TableInPlace | Way::UnionTable => &[1],
            Way::ElementOfElement => &[0, 0],
            Way::DirectMember => &[1, 1],
            Way::DirectUnion => &[0, 1],
            Way::DirectElement => &[0, 0, 1],
        }
    }

    /// Whether a union in place leads to the text.
    pub fn by_union_in_place(self) -> bool {
        matches!(self, Way::UnionInPlace | Way::UnionTable)
    }

    /// Whether a list holds the text, or the union that leads to it.
    pub fn in_list(self) -> bool {
        matches!(
            self,
            Way::Element | Way::ElementOfElement | Way::UnionElement
        )
    }
}

/// A message with one text, or with bytes in its place that are none.
pub struct HeldText {
    pub way: Way,
    pub schema: Packed,
    pub message: Vec<u8>,
    pub sheet: Vec<u8>,
    pub path: Vec<u32>,
    /// Where the text's content starts, and its bytes.
    pub start: usize,
    pub length: usize,
    /// Its place.
    pub place: u64,
    /// What the whole walk spends, of which the text is the last arrival.
    pub spent: Budget,
    /// By Rust's standard library.
    pub is_text: bool,
    /// Whether a sheet with a text there can be written: under 48 bits not by a union in place.
    pub is_written: bool,
}

impl HeldText {
    /// A text held in a way by a root that has so many bools before, with which it
    /// comes to stand at every bit of a byte in the sheet.
    pub fn new(coding: Coding, way: Way, bools: usize, text: &[u8]) -> HeldText {
        let (schema, value) = (way.schema(coding, bools), way.value(bools, text));
        let message = canonical::message(&schema, &value);
        let start = message.len() - 1 - text.len();
        let header = if way.in_place() { 0 } else { coding.header() };
        HeldText {
            way,
            schema: schema.pack(),
            sheet: sheet::encode(&schema, &value),
            path: [&[bools as u32 + 1], way.path()].concat(),
            start,
            length: text.len(),
            place: (start - header) as u64,
            spent: spent(&schema, &value),
            is_text: is_text(text),
            is_written: coding.is_older() || !way.by_union_in_place(),
            message,
        }
    }

    /// The verdict with enough of both allowances.
    pub fn verdict(&self) -> Verdict {
        let Budget { visits, content } = self.spent;
        match self.is_text {
            true => accepted(visits, content),
            false => verdict(16, self.place, visits, content),
        }
    }
}
