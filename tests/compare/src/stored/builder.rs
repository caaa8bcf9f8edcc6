//! A message with one object of a kind, reached in one of the ways there are.

use super::Case;
use crate::canonical::{magic, MESSAGE_MAGIC};
use crate::coding::Coding;
use crate::schema::*;
use crate::schema_rules;

/// How the walk comes to an object.
#[derive(Clone, Copy, Debug, PartialEq, Eq)]
pub enum Way {
    Member,
    InPlace,
    Element,
    Union,
    UnionInPlace,
    UnionElement,
}

/// Every way.
const WAYS: [Way; 6] = [
    Way::Member,
    Way::InPlace,
    Way::Element,
    Way::Union,
    Way::UnionInPlace,
    Way::UnionElement,
];

impl Way {
    /// Whether the object stands in place.
    pub fn in_place(self) -> bool {
        matches!(self, Way::InPlace | Way::UnionInPlace)
    }

    /// Whether a union names the object.
    pub fn union(self) -> bool {
        matches!(self, Way::Union | Way::UnionInPlace | Way::UnionElement)
    }

    /// Whether a list holds what leads to the object.
    pub fn element(self) -> bool {
        matches!(self, Way::Element | Way::UnionElement)
    }

    fn name(self) -> &'static str {
        match self {
            Way::Member => "by offset",
            Way::InPlace => "in place",
            Way::Element => "element",
            Way::Union => "union",
            Way::UnionInPlace => "union in place",
            Way::UnionElement => "union element",
        }
    }
}

/// The kinds of objects.
pub const OBJECTS: [u8; 5] = [TEXT, BYTES, LIST, TABLE, DIRECT];

/// What a kind of object is called.
pub fn kind_name(kind: u8) -> &'static str {
    match kind {
        TEXT => "text",
        BYTES => "bytes",
        LIST => "list",
        DIRECT => "direct list",
        _ => "table",
    }
}

/// Every way to every kind of object that the coding has.
pub fn ways(coding: Coding) -> impl Iterator<Item = (Way, u8)> {
    let every = WAYS
        .into_iter()
        .flat_map(|way| OBJECTS.map(|kind| (way, kind)));
    every.filter(move |(way, kind)| schema_rules::lawful(&schema_of(coding, *way, *kind)))
}

/// A message, and where its parts stand.
#[derive(Clone)]
pub struct Setup {
    pub way: Way,
    pub kind: u8,
    pub schema: Schema,
    pub message: Vec<u8>,
    /// Where the offset stands, or the length in place.
    pub reference: usize,
    /// Where the object is, by its place.
    pub object: usize,
    /// Where its length stands.
    pub length: usize,
    /// Where its content starts.
    pub content: usize,
}

/// The schema: the first table has a table of its own sort and then what
/// leads to the object.
fn schema_of(coding: Coding, way: Way, kind: u8) -> Schema {
    let object = Record::plain(kind, argument(kind));
    let union = Record::plain(UNION, 0);
    let (mut member, element) = match way {
        Way::Member | Way::InPlace => (object, object),
        Way::Union | Way::UnionInPlace => (union, object),
        Way::Element => (Record::plain(LIST, 1), object),
        Way::UnionElement => (Record::plain(LIST, 1), union),
    };
    member.in_place = way.in_place();
    let next = Record::plain(TABLE, 0);
    let members = vec![Record::plain(2, 0), Record::plain(BOOL, 0)];
    let first = Table {
        id: 0x4C49_4345,
        members: vec![next, member],
    };
    let second = Table {
        id: 0x1122_3344,
        members,
    };
    Schema {
        lists: vec![Record::plain(2, 0), element],
        unions: vec![vec![object, Record::plain(BYTES, 0)]],
        tables: vec![first, second],
        ..Schema::new(coding)
    }
}

/// The second table is that of tables and direct lists.
fn argument(kind: u8) -> u8 {
    u8::from(matches!(kind, TABLE | DIRECT))
}

/// The length and the content of an object: a list has two U16, a table a U16
/// and a bool, a direct list two such tables.
fn content_of(kind: u8) -> (u64, &'static [u8]) {
    match kind {
        TEXT => (2, b"ab\0"),
        BYTES => (3, b"abc"),
        LIST => (2, b"\x01\x02\x03\x04"),
        DIRECT => (2, b"\x01\x02\x01\x03\x04\x00"),
        _ => (3, b"\x01\x02\x01"),
    }
}

impl Setup {
    /// The object below so many tables, each of which leads to the next.
    pub fn new(coding: Coding, way: Way, kind: u8, tables: usize) -> Setup {
        let mut setup = Setup {
            way,
            kind,
            schema: schema_of(coding, way, kind),
            message: Vec::new(),
            reference: 0,
            object: 0,
            length: 0,
            content: 0,
        };
        setup.put(&MESSAGE_MAGIC.to_le_bytes());
        setup.number(coding.header() as u64);
        let (_, fixed) = setup.schema.slots(0);
        for i in 0..tables {
            let next = setup.message.len() + coding.header() + fixed;
            setup.header(&Record::plain(TABLE, 0), fixed as u64);
            let next = if i + 1 < tables { next } else { 0 };
            setup.number(next as u64);
            if i + 1 < tables {
                setup.put(&vec![0; fixed - coding.offset()]);
            }
        }
        setup.lead();
        setup.place();
        setup
    }

    fn put(&mut self, bytes: &[u8]) {
        self.message.extend_from_slice(bytes);
    }

    /// Puts an offset or a length.
    fn number(&mut self, number: u64) {
        self.put(&self.coding().bytes(number));
    }

    fn header(&mut self, record: &Record, length: u64) {
        let magic = magic(&self.schema, record);
        self.put(&magic.to_le_bytes());
        self.number(length);
    }

    /// Puts what leads to the object.
    fn lead(&mut self) {
        if self.way.element() {
            let list = self.message.len() + self.coding().offset();
            self.number(list as u64);
            self.header(&Record::plain(LIST, 1), 1);
        }
        if self.way.union() {
            self.put(&[1, 0]);
        }
        self.reference = self.message.len();
        let (length, _) = content_of(self.kind);
        let behind = self.reference + self.coding().offset();
        self.number(if self.way.in_place() {
            length
        } else {
            behind as u64
        });
    }

    /// Puts the object.
    fn place(&mut self) {
        let (length, content) = content_of(self.kind);
        self.object = self.message.len();
        self.length = self.reference;
        if !self.way.in_place() {
            self.length = self.object + 4;
            let record = Record::plain(self.kind, argument(self.kind));
            self.header(&record, length);
        }
        if self.kind == DIRECT {
            let (id, (_, size)) = (self.schema.tables[1].id, self.schema.slots(1));
            self.put(&id.to_le_bytes());
            self.put(&(size as u32).to_le_bytes());
        }
        self.content = self.message.len();
        self.put(content);
    }

    /// What the object's cases are called.
    pub fn group(&self) -> String {
        format!("{} {}", kind_name(self.kind), self.way.name())
    }

    /// The bytes of the object's header.
    pub fn header_size(&self) -> usize {
        self.schema.header(self.kind)
    }

    /// The coding of the message.
    pub fn coding(&self) -> Coding {
        self.schema.coding
    }

    /// A message with an offset or a length changed.
    pub fn with(&self, at: usize, number: u64) -> Setup {
        let mut setup = self.clone();
        let bytes = self.coding().bytes(number);
        setup.message[at..at + bytes.len()].copy_from_slice(&bytes);
        setup
    }

    /// A message with one byte changed.
    pub fn with_byte(&self, at: usize, byte: u8) -> Setup {
        let mut setup = self.clone();
        setup.message[at] = byte;
        setup
    }

    /// A message with another text, its length and its end byte.
    pub fn with_text(&self, text: &[u8]) -> Setup {
        let mut setup = self.with(self.length, text.len() as u64);
        setup.message.truncate(setup.content);
        setup.put(text);
        setup.put(&[0]);
        setup
    }

    /// A message cut or filled up to so many bytes.
    pub fn sized(&self, size: usize) -> Setup {
        let mut setup = self.clone();
        setup.message.resize(size, 0);
        setup
    }

    /// The case of this message with a budget.
    pub fn case(&self, name: &str, budget: u32) -> Case {
        Case {
            group: self.group(),
            name: name.to_string(),
            schema: self.schema.pack(),
            message: self.message.clone(),
            budget,
        }
    }
}
