//! One field by its path, and the list reader.

use crate::message::{
    element_lead, find, is_nan, judge_struct, member_lead, number, open, open_message, Lead,
    Object, Refusal, NO_ENUM,
};
use crate::positions::Lent;
use crate::schema::{Kind, Schema, Target};

/// "15 ... path over 96 numbers".
const PATH: usize = 96;

/// The answer at the end of a path.
#[derive(Clone, Copy, Debug, PartialEq, Eq)]
pub enum Answer {
    Boolean(bool),
    /// The number's bits as they stand, zero above the width.
    Number {
        bits: u64,
        width: u32,
        signed: bool,
    },
    Float {
        bits: u64,
        width: u32,
    },
    /// The kind is the record's: 13 text, 14 bytes, 15 list, 16 table, 18
    /// direct list. Its elements are of kind 16.
    Object {
        kind: u32,
        place: u64,
        length: u64,
    },
    Struct {
        place: u64,
    },
    Absent,
    Unknown(u64),
    /// The member is `NO_MEMBER` where the refusal has none.
    Refused {
        number: u32,
        place: u64,
        member: u32,
    },
}

impl From<Refusal> for Answer {
    fn from(refusal: Refusal) -> Answer {
        Answer::Refused {
            number: refusal.number,
            place: refusal.place,
            member: refusal.member,
        }
    }
}

impl From<Object> for Answer {
    fn from(object: Object) -> Answer {
        let kind = match object.target {
            Target::Text => 13,
            Target::Bytes => 14,
            Target::List(_) => 15,
            Target::Table(_) => 16,
            Target::Direct(_) => 18,
        };
        Answer::Object {
            kind,
            place: object.place,
            length: object.length as u64,
        }
    }
}

/// Reads one field.
pub fn field(lent: Lent, message: &[u8], path: &[u32]) -> Answer {
    match end_of(lent, message, path) {
        Ok(End::Object(object, _)) => object.into(),
        Ok(End::Other(answer)) => answer,
        Err(refusal) => refusal.into(),
    }
}

/// "texts and bytes can be had as a part of the message": where the part starts
/// and its length, where the path leads to a text or bytes.
pub fn text(lent: Lent, message: &[u8], path: &[u32]) -> Option<(usize, usize)> {
    match end_of(lent, message, path) {
        Ok(End::Object(object, _)) => match object.target {
            Target::Text | Target::Bytes => Some((object.start, object.length)),
            Target::List(_) | Target::Table(_) | Target::Direct(_) => None,
        },
        Ok(End::Other(_)) | Err(_) => None,
    }
}

fn end_of(lent: Lent, message: &[u8], path: &[u32]) -> Result<End, Refusal> {
    let schema = lent.parse().ok_or(Refusal::new(1, 0))?;
    let followed = Path {
        schema: &schema,
        message,
    };
    followed.end(path)
}

/// Where a path ends: at an object and its depth, or at an answer.
enum End {
    Object(Object, u32),
    Other(Answer),
}

/// What one number of a path names.
enum Part {
    /// A present bool, number, float or enum: no step leads on from it.
    Value(Answer),
    /// "An absent or unknown place ends it, whatever steps remain."
    Ends(Answer),
    /// A struct and where it stands.
    Struct(u8, usize),
    /// An object, judged.
    Object(Object),
}

/// A schema and a message to be followed along a path.
struct Path<'a> {
    schema: &'a Schema,
    message: &'a [u8],
}

impl Path<'_> {
    /// "1, 15 for length, 2 and 3 come first": all but 1.
    fn end(&self, path: &[u32]) -> Result<End, Refusal> {
        if path.len() > PATH {
            return Err(Refusal::new(15, 0));
        }
        let (root, spot) = open_message(self.schema, self.message)?;
        let mut depth = 1;
        let mut object = open(self.schema, self.message, root, spot, depth)?;
        for (number, &step) in path.iter().enumerate() {
            let rest = &path[number + 1..];
            match self.part(&object, step, depth)? {
                Part::Value(answer) if rest.is_empty() => return Ok(End::Other(answer)),
                Part::Value(_) => return Err(Refusal::new(15, object.place)),
                Part::Ends(answer) => return Ok(End::Other(answer)),
                Part::Struct(index, at) => {
                    let answer = self.inside(&object, index, at, rest)?;
                    return Ok(End::Other(answer));
                }
                Part::Object(next) => {
                    object = next;
                    depth += 1;
                }
            }
        }
        Ok(End::Object(object, depth))
    }

    /// The part of an object that a step names; 15 where it has none.
    fn part(&self, object: &Object, step: u32, depth: u32) -> Result<Part, Refusal> {
        match object.target {
            Target::List(index) if (step as usize) < object.length => {
                self.element(object, index, step as usize, depth)
            }
            Target::Table(index) => self.member(object, index, step as usize, depth),
            Target::Direct(index) if (step as usize) < object.length => {
                let (table, spot) = (Target::Table(index), object.direct_element(step as usize));
                let element = open(self.schema, self.message, table, spot, depth + 1)?;
                Ok(Part::Object(element))
            }
            _ => Err(Refusal::new(15, object.place)),
        }
    }

    /// A table's member: "cut, struct booleans, union offset, and the arrival
    /// it leads to".
    fn member(&self, table: &Object, index: u8, step: usize, depth: u32) -> Result<Part, Refusal> {
        let Some(member) = self.schema.table(index).members.get(step) else {
            return Err(Refusal::new(15, table.place));
        };
        let Some(at) = find(self.message, table, member)? else {
            return Ok(Part::Ends(Answer::Absent));
        };
        match member.record.kind {
            Kind::Bool => {
                let bit = self.message[at] >> member.slot.bit & 1;
                Ok(Part::Value(Answer::Boolean(bit == 1)))
            }
            Kind::Struct(index) => {
                judge_struct(self.schema, self.message, table, member.number, index, at)?;
                Ok(Part::Struct(index, at))
            }
            Kind::Object(_) | Kind::Union(_) => {
                let lead = member_lead(self.schema, self.message, table, member, at)?;
                self.follow(lead, depth)
            }
            kind => Ok(self.scalar(kind, at, member.record.optional)),
        }
    }

    /// A list's element, known to be there.
    fn element(&self, list: &Object, index: u8, step: usize, depth: u32) -> Result<Part, Refusal> {
        match self.schema.element(index) {
            Kind::Bool => {
                let bit = self.message[list.start + (step >> 3)] >> (step & 7) & 1;
                Ok(Part::Value(Answer::Boolean(bit == 1)))
            }
            kind @ Kind::Object(_) => {
                self.reference(list, kind, self.schema.coding.offset(), step, depth)
            }
            kind @ Kind::Union(_) => {
                self.reference(list, kind, self.schema.coding.union(), step, depth)
            }
            kind @ (Kind::Integer { bytes, .. } | Kind::Float { bytes }) => {
                Ok(self.scalar(kind, list.start + step * usize::from(bytes), true))
            }
            kind => Ok(self.scalar(kind, list.start + step, true)),
        }
    }

    /// An element that is a reference or a union of `size` bytes.
    fn reference(
        &self,
        list: &Object,
        kind: Kind,
        size: usize,
        step: usize,
        depth: u32,
    ) -> Result<Part, Refusal> {
        let lead = element_lead(self.schema, self.message, list, kind, size, step)?;
        self.follow(lead, depth)
    }

    /// "unions are passed through without one": a union's part is its object.
    fn follow(&self, lead: Lead, depth: u32) -> Result<Part, Refusal> {
        match lead {
            Lead::Absent => Ok(Part::Ends(Answer::Absent)),
            Lead::Unknown(choice) => Ok(Part::Ends(Answer::Unknown(u64::from(choice)))),
            Lead::Object { target, spot, .. } => {
                let object = open(self.schema, self.message, target, spot, depth + 1)?;
                Ok(Part::Object(object))
            }
        }
    }

    /// An integer, float or enum, or a struct's bool, standing at `at`.
    fn scalar(&self, kind: Kind, at: usize, nan_is_absent: bool) -> Part {
        match kind {
            Kind::Integer { bytes, signed } => Part::Value(Answer::Number {
                bits: number(self.message, at, bytes),
                width: u32::from(bytes) * 8,
                signed,
            }),
            Kind::Float { bytes } => {
                let bits = number(self.message, at, bytes);
                if nan_is_absent && is_nan(bits, bytes) {
                    return Part::Ends(Answer::Absent);
                }
                let width = u32::from(bytes) * 8;
                Part::Value(Answer::Float { bits, width })
            }
            Kind::Enum { count } => match self.message[at] {
                NO_ENUM => Part::Ends(Answer::Absent),
                byte if byte >= count => Part::Ends(Answer::Unknown(u64::from(byte))),
                byte => Part::Value(Answer::Number {
                    bits: u64::from(byte),
                    width: 8,
                    signed: false,
                }),
            },
            _ => Part::Value(Answer::Boolean(self.message[at] == 1)),
        }
    }

    /// The steps that remain, inside a struct that has been judged as a whole.
    fn inside(
        &self,
        table: &Object,
        mut index: u8,
        mut at: usize,
        steps: &[u32],
    ) -> Result<Answer, Refusal> {
        for (number, &step) in steps.iter().enumerate() {
            let one = self.schema.structure(index);
            let Some(member) = one.members.get(step as usize) else {
                return Err(Refusal::new(15, table.place));
            };
            at += member.offset;
            if let Kind::Struct(inner) = member.kind {
                index = inner;
                continue;
            }
            let last = number + 1 == steps.len();
            return match self.scalar(member.kind, at, false) {
                Part::Value(answer) if last => Ok(answer),
                Part::Ends(answer) => Ok(answer),
                _ => Err(Refusal::new(15, table.place)),
            };
        }
        Ok(Answer::Struct { place: at as u64 })
    }
}

/// The list reader: it keeps the message and its present place together and
/// steps through an offset list or a direct list.
pub struct ListReader<'a> {
    schema: Schema,
    message: &'a [u8],
    list: Object,
    /// The list's depth.
    depth: u32,
    next: usize,
}

impl<'a> ListReader<'a> {
    /// "It starts from a path to a list whose elements are of kinds 13 to 17;
    /// a refused path gives its own refusal, any other answer is 15 at 0." "The
    /// list reader takes direct lists and lists of them too."
    pub fn new(lent: Lent, message: &'a [u8], path: &[u32]) -> Result<ListReader<'a>, Answer> {
        let schema = lent.parse().ok_or(Answer::from(Refusal::new(1, 0)))?;
        let followed = Path {
            schema: &schema,
            message,
        };
        if let End::Object(list, depth) = followed.end(path)? {
            let taken = match list.target {
                Target::List(index) => {
                    matches!(schema.element(index), Kind::Object(_) | Kind::Union(_))
                }
                Target::Direct(_) => true,
                _ => false,
            };
            if taken {
                return Ok(ListReader {
                    schema,
                    message,
                    list,
                    depth,
                    next: 0,
                });
            }
        }
        Err(Refusal::new(15, 0).into())
    }

    /// Moves on by so many elements, as that many steps do: "after the last it
    /// ... stays". A direct list may have more than can be stepped through.
    pub fn skip(&mut self, elements: u64) {
        let left = (self.list.length - self.next) as u64;
        self.next += elements.min(left) as usize;
    }

    /// "Each step answers as that element's path would and moves on, refused
    /// or not; after the last it answers 15 at the list and stays."
    pub fn step(&mut self) -> Answer {
        if self.next >= self.list.length {
            return Refusal::new(15, self.list.place).into();
        }
        let number = self.next;
        self.next += 1;
        let path = Path {
            schema: &self.schema,
            message: self.message,
        };
        // A count is at most 4,294,967,295, so that a number is less.
        match path.part(&self.list, number as u32, self.depth) {
            Ok(Part::Object(object)) => object.into(),
            Ok(Part::Value(answer) | Part::Ends(answer)) => answer,
            // A list has no structs.
            Ok(Part::Struct(_, at)) => Answer::Struct { place: at as u64 },
            Err(refusal) => refusal.into(),
        }
    }
}
