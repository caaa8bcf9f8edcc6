//! Lists of every kind of element: their size, and elements in order.

use super::objects::AMPLE;
use super::Case;
use crate::canonical::{magic, MESSAGE_MAGIC};
use crate::coding::Coding;
use crate::schema::*;
use crate::schema_rules;

/// A root with one list of an element, by offset or in place.
struct Root {
    schema: Schema,
    element: Record,
    in_place: bool,
}

impl Root {
    fn new(coding: Coding, element: Record, in_place: bool) -> Root {
        let mut list = Record::plain(LIST, 0);
        list.in_place = in_place;
        let table = Table {
            id: 0x4C49_4345,
            members: vec![list],
        };
        let mut schema = Schema {
            lists: vec![element, Record::plain(1, 0)],
            unions: vec![vec![Record::plain(BYTES, 0), Record::plain(TEXT, 0)]],
            tables: vec![table],
            ..Schema::new(coding)
        };
        if element.kind == DIRECT {
            let members = vec![Record::plain(1, 0)];
            schema.tables.push(Table { id: 2, members });
        }
        Root {
            schema,
            element,
            in_place,
        }
    }

    /// Where the list's elements start.
    fn start(&self) -> u64 {
        let coding = self.schema.coding;
        let headers = if self.in_place { 2 } else { 3 };
        (headers * coding.header() + coding.offset()) as u64
    }

    /// The case of a list of so many elements and these bytes.
    fn case(&self, name: String, length: u64, content: &[u8]) -> Case {
        let coding = self.schema.coding;
        let (offset, header) = (coding.offset() as u64, coding.header() as u64);
        let mut out = MESSAGE_MAGIC.to_le_bytes().to_vec();
        out.extend(coding.bytes(header));
        out.extend_from_slice(&self.schema.tables[0].id.to_le_bytes());
        out.extend(coding.bytes(offset));
        if !self.in_place {
            out.extend(coding.bytes(2 * header + offset));
            let list = Record::plain(LIST, 0);
            out.extend_from_slice(&magic(&self.schema, &list).to_le_bytes());
        }
        out.extend(coding.bytes(length));
        out.extend_from_slice(content);
        let way = if self.in_place {
            "in place"
        } else {
            "by offset"
        };
        Case {
            group: format!("list of kind {} {way}", self.element.kind),
            name,
            schema: self.schema.pack(),
            message: out,
            budget: AMPLE,
        }
    }
}

/// Adds the cases.
pub fn add(coding: Coding, cases: &mut Vec<Case>) {
    for in_place in [false, true] {
        for kind in (0..=ENUM).chain(TEXT..=DIRECT) {
            let argument = match kind {
                ENUM => 3,
                LIST | DIRECT => 1,
                _ => 0,
            };
            let root = Root::new(coding, Record::plain(kind, argument), in_place);
            if schema_rules::lawful(&root.schema) {
                sizes(cases, &root);
            }
        }
        references(cases, &Root::new(coding, Record::plain(BYTES, 0), in_place));
        let unions = Root::new(coding, Record::plain(UNION, 0), in_place);
        if schema_rules::lawful(&unions.schema) {
            choices(cases, &unions);
        }
    }
}

/// Lengths that need a byte more or less than there is.
fn sizes(cases: &mut Vec<Case>, root: &Root) {
    let bits = root.schema.element_bits(&root.element) as usize;
    for length in [1, 2, 7, 8, 9, 16, 17] {
        let size = (length * bits).div_ceil(8);
        for size in [size - 1, size] {
            let name = format!("{length} elements in {size} bytes");
            cases.push(root.case(name, length as u64, &vec![0; size]));
        }
    }
    let largest = root.schema.coding.largest();
    for length in [largest / 8 + 1, largest / 4 + 1, largest] {
        let name = format!("{length} elements");
        cases.push(root.case(name, length, &[0; 64]));
    }
    cases.push(root.case("all bits set".to_string(), 3, &[0xFF; 24]));
}

/// An empty object of bytes.
fn object(coding: Coding) -> Vec<u8> {
    [&0xDCDB_BE10u32.to_le_bytes()[..], &coding.bytes(0)].concat()
}

/// Three offsets, and an object behind them: the first that fails ends the
/// walk.
fn references(cases: &mut Vec<Case>, root: &Root) {
    let coding = root.schema.coding;
    let good = root.start() + 3 * coding.offset() as u64;
    let first = coding.header() as u64;
    for offsets in [
        [good, good, good],
        [0, good, 0],
        [good, first - 1, first - 2],
        [good, good, good + 1],
        [first - 1, first - 2, first - 3],
    ] {
        let mut content: Vec<u8> = offsets.iter().flat_map(|o| coding.bytes(*o)).collect();
        content.extend(object(coding));
        cases.push(root.case(format!("offsets {offsets:?}"), 3, &content));
    }
}

/// Two unions, and an object behind them.
fn choices(cases: &mut Vec<Case>, root: &Root) {
    let coding = root.schema.coding;
    for choices in [[1, 1], [0, 1], [3, 1], [1, 2], [2, 0]] {
        for offset in [0, root.start() + 2 * coding.union() as u64] {
            let mut content = Vec::new();
            for choice in choices {
                content.extend_from_slice(&[choice, 0]);
                content.extend(coding.bytes(offset));
            }
            content.extend(object(coding));
            let name = format!("choices {choices:?}, offset {offset}");
            cases.push(root.case(name, 2, &content));
        }
    }
}
