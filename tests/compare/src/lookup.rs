//! What reading one field must answer, found from a value and, where the
//! layout is known, from its arrivals.

use crate::message_faults::{FaultKind, Held};
use crate::message_gen::Wild;
use crate::paths::PATH_LIMIT;
use crate::program::refused;
use crate::schema::*;
use crate::text_gen::is_text;
use crate::value::{objects, Value};
use reference::{Answer, NO_MEMBER};

/// An answer as far as it is known.
#[derive(Clone, Debug)]
pub struct Hint<'a> {
    pub answer: Answer,
    pub places_known: bool,
    pub length_known: bool,
    /// The bytes of a text or blob, and how far behind its place they stand.
    pub content: Option<(&'a [u8], usize)>,
}

/// A value, with its layout where that is known.
pub struct Known<'a> {
    pub schema: &'a Schema,
    pub root: &'a Value,
    pub wild: Option<&'a Wild>,
}

/// An object on the path.
#[derive(Clone, Copy)]
struct Node<'a> {
    index: usize,
    depth: u32,
    record: Record,
    value: &'a Value,
    held: Held,
}

impl<'a> Known<'a> {
    /// The answer to a path; `None` where nothing is known.
    pub fn answer(&self, path: &[u32]) -> Option<Hint<'a>> {
        if path.len() > PATH_LIMIT {
            return Some(exactly(refused(15, 0)));
        }
        let root = Node {
            index: 0,
            depth: 1,
            record: Record::plain(TABLE, self.schema.root),
            value: self.root,
            held: Held::ByOffset,
        };
        self.object(root, path)
    }

    fn place(&self, node: &Node) -> u64 {
        self.wild.map_or(0, |wild| wild.arrivals[node.index].place)
    }

    /// The bytes of an object before its content.
    fn header(&self, node: &Node) -> usize {
        node.held.header(self.schema, node.record.kind)
    }

    fn refused(&self, number: u32, node: &Node) -> Option<Hint<'a>> {
        self.refused_of(number, node, NO_MEMBER)
    }

    fn refused_of(&self, number: u32, node: &Node, member: u32) -> Option<Hint<'a>> {
        Some(Hint {
            places_known: self.wild.is_some(),
            ..exactly(Answer::Refused {
                number,
                place: self.place(node),
                member,
            })
        })
    }

    /// The refusal at an arrival, if the layout has one there.
    fn arrival_fault(&self, node: &Node) -> Option<u32> {
        let fault = self.wild?.fault.filter(|f| f.object == node.index)?;
        match fault.kind {
            FaultKind::Magic | FaultKind::ElementId => Some(7),
            FaultKind::SmallOffset | FaultKind::FarOffset => Some(6),
            FaultKind::LongLength | FaultKind::CountOver => Some(6),
            FaultKind::TextEnd => Some(10),
            _ => None,
        }
    }

    fn object(&self, node: Node<'a>, path: &[u32]) -> Option<Hint<'a>> {
        if self.wild.is_some_and(|wild| node.index >= wild.sure) {
            return None;
        }
        if node.depth > DEPTH_LIMIT {
            return self.refused(5, &node);
        }
        if let Some(number) = self.arrival_fault(&node) {
            return self.refused(number, &node);
        }
        if let (TEXT, Value::Blob(bytes)) = (node.record.kind, node.value) {
            if !is_text(bytes) {
                return self.refused(16, &node);
            }
        }
        let Some((step, rest)) = path.split_first() else {
            return Some(self.whole(&node));
        };
        let at = *step as usize;
        match node.value {
            Value::Table(parts) | Value::List(parts) if at < parts.len() => {
                self.part(&node, parts, at, rest)
            }
            _ => self.refused(15, &node),
        }
    }

    fn whole(&self, node: &Node<'a>) -> Hint<'a> {
        let (length, content) = match node.value {
            Value::Blob(bytes) => (bytes.len(), Some((&bytes[..], self.header(node)))),
            Value::List(parts) => (parts.len(), None),
            _ => (0, None),
        };
        let arrival = self.wild.map(|wild| &wild.arrivals[node.index]);
        Hint {
            answer: Answer::Object {
                kind: u32::from(node.record.kind),
                place: self.place(node),
                length: arrival.map_or(length as u64, |arrival| arrival.length),
            },
            places_known: arrival.is_some(),
            length_known: arrival.is_some() || node.record.kind != TABLE,
            content,
        }
    }

    /// The refusal of a part: `Some(None)` where nothing is known of it.
    fn part_fault(&self, node: &Node, at: usize) -> Option<Option<u32>> {
        let fault = self.wild?.fault.filter(|f| f.object == node.index)?;
        let cut = matches!(fault.kind, FaultKind::Cut | FaultKind::FlagWithoutValue);
        if cut && at > fault.part {
            return Some(None);
        }
        if fault.part != at {
            return None;
        }
        match fault.kind {
            FaultKind::Cut | FaultKind::FlagWithoutValue => Some(Some(8)),
            FaultKind::UnionZero => Some(Some(9)),
            FaultKind::StructBool => Some(Some(10)),
            FaultKind::Cycle(_) => Some(None),
            _ => None,
        }
    }

    fn part(
        &self,
        node: &Node<'a>,
        parts: &'a [Value],
        at: usize,
        rest: &[u32],
    ) -> Option<Hint<'a>> {
        if let Some(fault) = self.part_fault(node, at) {
            return self.refused_of(fault?, node, at as u32);
        }
        let record = crate::paths::part_record(self.schema, &node.record, node.value, at);
        let before: usize = parts[..at].iter().map(objects).sum();
        let held = Held::of(&node.record, &record);
        let child = |record: Record, value: &'a Value| Node {
            index: node.index + 1 + before,
            depth: node.depth + 1,
            record,
            value,
            held,
        };
        match &parts[at] {
            Value::Union(choice, object) => {
                let cases = &self.schema.unions[usize::from(record.argument)];
                let case = cases[usize::from(*choice) - 1];
                self.object(child(case, object), rest)
            }
            value @ (Value::Blob(_) | Value::List(_) | Value::Table(_)) => {
                self.object(child(record, value), rest)
            }
            Value::Struct(inner) => {
                let (slots, _) = self.schema.slots(node.record.argument);
                let place = self.place(node) + (self.header(node) + slots[at].first()) as u64;
                self.structure(node, record.argument, inner, place, rest)
            }
            value => self.leaf(node, &record, value, rest),
        }
    }

    fn structure(
        &self,
        node: &Node<'a>,
        index: u8,
        parts: &'a [Value],
        place: u64,
        path: &[u32],
    ) -> Option<Hint<'a>> {
        let Some((step, rest)) = path.split_first() else {
            return Some(Hint {
                places_known: self.wild.is_some(),
                ..exactly(Answer::Struct { place })
            });
        };
        let at = *step as usize;
        let members = &self.schema.structs[usize::from(index)];
        let Some(member) = members.get(at) else {
            return self.refused(15, node);
        };
        let before = |m: &Record| self.schema.value_size(m) as u64;
        let place = place + members[..at].iter().map(before).sum::<u64>();
        match &parts[at] {
            Value::Struct(inner) => self.structure(node, member.argument, inner, place, rest),
            value => self.leaf(node, member, value, rest),
        }
    }

    fn leaf(
        &self,
        node: &Node<'a>,
        record: &Record,
        value: &Value,
        rest: &[u32],
    ) -> Option<Hint<'a>> {
        let width = record.width();
        let answer = match value {
            Value::Absent => Answer::Absent,
            Value::Unknown(number) => Answer::Unknown(u64::from(*number)),
            _ if !rest.is_empty() => return self.refused(15, node),
            Value::Bool(bit) => Answer::Boolean(*bit),
            Value::Number(bits) if record.is_float() => Answer::Float { bits: *bits, width },
            Value::Number(bits) => Answer::Number {
                bits: *bits,
                width,
                signed: (5..=8).contains(&record.kind),
            },
            _ => unreachable!("objects and structs are no leaves"),
        };
        Some(exactly(answer))
    }
}

fn exactly<'a>(answer: Answer) -> Hint<'a> {
    Hint {
        answer,
        places_known: true,
        length_known: true,
        content: None,
    }
}

impl Hint<'_> {
    /// Whether an answer says the same as far as this is known.
    pub fn agrees(&self, answer: &Answer, message: &[u8]) -> bool {
        let same = match (self.answer, *answer) {
            (
                Answer::Object {
                    kind,
                    place,
                    length,
                },
                Answer::Object {
                    kind: k,
                    place: p,
                    length: l,
                },
            ) => {
                kind == k
                    && (place == p || !self.places_known)
                    && (length == l || !self.length_known)
            }
            (Answer::Struct { place }, Answer::Struct { place: p }) => {
                place == p || !self.places_known
            }
            (
                Answer::Refused {
                    number,
                    place,
                    member,
                },
                Answer::Refused {
                    number: n,
                    place: p,
                    member: m,
                },
            ) => (number, member) == (n, m) && (place == p || !self.places_known),
            (expected, given) => expected == given,
        };
        same && self.content_stands(answer, message)
    }

    fn content_stands(&self, answer: &Answer, message: &[u8]) -> bool {
        let (Some((content, header)), Answer::Object { place, .. }) = (self.content, answer) else {
            return true;
        };
        let start = *place as usize + header;
        message.get(start..start + content.len()) == Some(content)
    }
}
