//! The two codings: document 000's, whose offsets and lengths are U48, and the
//! older one of document 002, in which they are U32.
//!
//! Request K5 and document 002 say what the older coding has of its own:
//! - "the same message magic, but U32 offsets and lengths, an 8-byte message
//!   start and 8-byte headers": `offset` and `header`. "Offsets under 8 are
//!   unlawful there (6), a message under 8 bytes is 2, and the writer puts the
//!   root at 8" follow from the header, as 10 does in the other coding.
//! - "unions of a U16 choice and U32 length always in place": `union`.
//! - "a schema with a union not in place, a table in place, a list of unions
//!   or a direct list is 1 under this coding": `schema` tries these with the
//!   other rules, of every record, whether anything refers to it or not. A
//!   table as a case of a union stays lawful: "The content of the member is
//!   encoded as a Table, List, Bytes or Text".
//! - "the special length 0 indicates that we have no value" is said of texts,
//!   bytes and lists; a union's choice says whether it has one, so a known
//!   choice of length 0 is an empty object, as document 01 has it.
//! - "That is at the location table.offset+table.length+8": where the fixed
//!   part ends, since the header has 8 bytes.
//! - Of in-place unions request K12 says "The 32-bit coding keeps them."
//!
//! All else of document 01 is the same in both.

/// "The caller says which coding; it is not guessed."
#[derive(Clone, Copy, Debug, PartialEq, Eq)]
pub enum Coding {
    Bits48,
    Bits32,
}

impl Coding {
    /// The coding of a number; no schema is lawful under any other number.
    pub fn of(number: u32) -> Option<Coding> {
        match number {
            48 => Some(Coding::Bits48),
            32 => Some(Coding::Bits32),
            _ => None,
        }
    }

    /// The bytes of an offset or a length.
    #[inline]
    pub fn offset(self) -> usize {
        match self {
            Coding::Bits48 => 6,
            Coding::Bits32 => 4,
        }
    }

    /// The bytes of the message start and of an object's header: a magic of
    /// four bytes and an offset or a length.
    #[inline]
    pub fn header(self) -> usize {
        4 + self.offset()
    }

    /// "From now the writer refuses a present one under the 48-bit coding of
    /// document 000"; "The 32-bit coding keeps them." Is an in-place union
    /// still written?
    pub fn writes_unions_in_place(self) -> bool {
        self == Coding::Bits32
    }

    /// The bytes of a union: a U16 choice, and an offset or a length.
    #[inline]
    pub fn union(self) -> usize {
        2 + self.offset()
    }
}
