//! What stands at the end of a path.

use crate::NotLawful;

/// What stands at the end of a path.
#[derive(Clone, Copy, Debug, PartialEq, Eq)]
pub enum Answer {
    /// A boolean.
    Boolean(bool),
    /// A number: its bits, zero above the width; its width in bits; whether it has a sign.
    Number { bits: u64, width: u32, signed: bool },
    /// A float: its bits, and its width in bits.
    Float { bits: u64, width: u32 },
    /// An object: its record kind (13 text, 14 bytes, 15 list, 16 table, 18 direct list), its place
    /// and its length. An element of a direct list is a table: its first byte and its size.
    Object { kind: u8, place: u64, length: u64 },
    /// A struct, where it starts.
    Struct { place: u64 },
    /// No value.
    Absent,
    /// An enum's number or a union's choice that the schema does not know.
    Unknown(u16),
    /// A refusal: its number, where the last object judged stands, and which member or element of
    /// that object is refused, as of [`Verdict`](crate::Verdict).
    Refused {
        number: u32,
        place: u64,
        member: Option<u32>,
    },
}

impl From<NotLawful> for Answer {
    /// The answer at any path by a schema that is not lawful.
    fn from(_: NotLawful) -> Answer {
        Answer::Refused {
            number: NotLawful::NUMBER,
            place: 0,
            member: None,
        }
    }
}

/// The library's number of a member: the largest of 32 bits says that there is none.
pub(crate) fn member(number: u64) -> Option<u32> {
    u32::try_from(number)
        .ok()
        .filter(|number| *number < u32::MAX)
}

/// The record kind of a text.
pub(crate) const TEXT: u8 = 13;

/// The record kind of a list.
pub(crate) const LIST: u8 = 15;

/// The record kind of a direct list.
pub(crate) const DIRECT_LIST: u8 = 18;

/// The refusal of a step that has no such part.
pub(crate) const NO_PART: u32 = 15;

impl Answer {
    /// The library's case with its three numbers, each within the type that it has here.
    pub(crate) fn new([case, a, b, c]: [u64; 4]) -> Answer {
        match case {
            0 => Answer::Boolean(a != 0),
            1 => Answer::Number {
                bits: a,
                width: b as u32,
                signed: c != 0,
            },
            2 => Answer::Float {
                bits: a,
                width: b as u32,
            },
            3 => Answer::Object {
                kind: a as u8,
                place: b,
                length: c,
            },
            4 => Answer::Struct { place: a },
            5 => Answer::Absent,
            6 => Answer::Unknown(a as u16),
            // There is no case above 7.
            _ => Answer::Refused {
                number: a as u32,
                place: b,
                member: member(c),
            },
        }
    }
}
