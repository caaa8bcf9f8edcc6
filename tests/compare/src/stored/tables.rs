//! Tables cut at every byte, with every kind of member.

use super::objects::AMPLE;
use super::Case;
use crate::canonical::MESSAGE_MAGIC;
use crate::coding::Coding;
use crate::schema::*;
use crate::schema_rules;

/// A schema whose root has these members, and parts for them to name.
pub fn schema_with(coding: Coding, members: Vec<Record>) -> Schema {
    let inner = vec![Record::plain(BOOL, 0), Record::plain(1, 0)];
    let outer = vec![
        Record::plain(2, 0),
        Record::plain(STRUCT, 0),
        Record::plain(ENUM, 2),
        Record::plain(BOOL, 0),
    ];
    let table = Table {
        id: 0x4C49_4345,
        members,
    };
    let other = Table {
        id: 2,
        members: vec![Record::plain(1, 0)],
    };
    Schema {
        structs: vec![inner, outer],
        lists: vec![Record::plain(1, 0)],
        unions: vec![vec![Record::plain(BYTES, 0)]],
        tables: vec![table, other],
        ..Schema::new(coding)
    }
}

/// A message of a root with this fixed part and what is behind it.
pub fn message_of(coding: Coding, fixed: &[u8], behind: &[u8]) -> Vec<u8> {
    let mut out = MESSAGE_MAGIC.to_le_bytes().to_vec();
    out.extend(coding.bytes(coding.header() as u64));
    out.extend_from_slice(&0x4C49_4345u32.to_le_bytes());
    out.extend(coding.bytes(fixed.len() as u64));
    out.extend_from_slice(fixed);
    out.extend_from_slice(behind);
    out
}

/// Cases of a root with some members.
pub struct Root<'a> {
    pub coding: Coding,
    pub group: &'a str,
    pub members: &'a [Record],
}

impl Root<'_> {
    /// The case of this fixed part, and of what is behind it.
    pub fn case(&self, name: String, fixed: &[u8], behind: &[u8]) -> Case {
        Case {
            group: self.group.to_string(),
            name,
            schema: self.schema().pack(),
            message: message_of(self.coding, fixed, behind),
            budget: AMPLE,
        }
    }

    /// The bytes of the full fixed part.
    fn full(&self) -> usize {
        self.schema().slots(0).1
    }

    fn schema(&self) -> Schema {
        schema_with(self.coding, self.members.to_vec())
    }
}

/// Every member that a table may have in the coding, of every kind.
fn members(coding: Coding) -> Vec<Record> {
    let mut out = Vec::new();
    for kind in 0..=DIRECT {
        let argument = match kind {
            ENUM => 3,
            STRUCT | TABLE | DIRECT => 1,
            _ => 0,
        };
        let plain = Record::plain(kind, argument);
        out.push(plain);
        if kind <= F64 || kind == STRUCT {
            out.push(Record {
                optional: true,
                ..plain
            });
        }
        if kind >= TEXT {
            out.push(Record {
                in_place: true,
                ..plain
            });
        }
    }
    out.retain(|member| schema_rules::lawful(&schema_with(coding, vec![*member])));
    out
}

/// Adds the cases.
pub fn add(coding: Coding, cases: &mut Vec<Case>) {
    for member in members(coding) {
        let form = match (member.optional, member.in_place) {
            (true, _) => "optional ",
            (_, true) => "in place ",
            _ => "",
        };
        let root = Root {
            coding,
            group: &format!("{form}member of kind {}", member.kind),
            members: &[Record::plain(1, 0), member, Record::plain(2, 0)],
        };
        cuts(cases, &root);
    }
    bools(coding, cases);
    order(coding, cases);
}

/// The fixed part at every length, its bytes all 0, 1 or set.
fn cuts(cases: &mut Vec<Case>, root: &Root) {
    for length in 0..=root.full() + 1 {
        for byte in [0, 1, 0xFF] {
            let name = format!("{length} bytes of {byte}");
            cases.push(root.case(name, &vec![byte; length], &[0; 4]));
        }
    }
}

/// Bools and flags that fill one byte and go on in the next.
fn bools(coding: Coding, cases: &mut Vec<Case>) {
    let plain = Record::plain(BOOL, 0);
    let optional = Record {
        optional: true,
        ..plain
    };
    for count in [6, 7, 8] {
        let mut members = vec![plain; count];
        members.push(optional);
        members.push(Record {
            optional: true,
            ..Record::plain(3, 0)
        });
        let root = Root {
            coding,
            group: "bools and flags",
            members: &members,
        };
        for length in 0..=root.full() + 1 {
            for byte in [0, 0x40, 0x80, 0xFF] {
                let name = format!("{count} before, {length} bytes of {byte}");
                cases.push(root.case(name, &vec![byte; length], &[]));
            }
        }
    }
}

/// Two faults in one table: the first in order is the answer.
fn order(coding: Coding, cases: &mut Vec<Case>) {
    // A choice of offset 0; in the older coding one of a length that does not fit.
    let (in_place, number) = match coding {
        Coding::Bits48 => (false, 0),
        Coding::Bits32 => (true, 255),
    };
    let union = Record {
        in_place,
        ..Record::plain(UNION, 0)
    };
    let (text, bytes) = (Record::plain(TEXT, 0), Record::plain(BYTES, 0));
    let root = Root {
        coding,
        group: "order of members",
        members: &[text, Record::plain(STRUCT, 0), union, bytes],
    };
    let (none, number) = (coding.bytes(0), coding.bytes(number));
    let good = [&none[..], &[1, 0], &[0, 0], &number, &none].concat();
    for bad in 0..16 {
        let mut fixed = good.clone();
        if bad & 1 != 0 {
            fixed[0] = coding.header() as u8 - 1;
        }
        if bad & 2 != 0 {
            fixed[coding.offset()] = 2;
        }
        if bad & 4 != 0 {
            fixed[coding.offset() + 2] = 1;
        }
        if bad & 8 != 0 {
            fixed.truncate(good.len() - 2);
        }
        cases.push(root.case(format!("faults {bad:04b}"), &fixed, &[]));
    }
}
