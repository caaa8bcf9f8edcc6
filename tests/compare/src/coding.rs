//! The two codings, and the widths that differ between them.

/// The coding of a message.
#[derive(Clone, Copy, Debug, PartialEq, Eq, Hash)]
pub enum Coding {
    /// That of document 000.
    Bits48,
    /// The older one of document 002.
    Bits32,
}

/// Both.
pub const CODINGS: [Coding; 2] = [Coding::Bits48, Coding::Bits32];

impl Coding {
    /// The number by which a program is told.
    pub fn number(self) -> u32 {
        match self {
            Coding::Bits48 => 48,
            Coding::Bits32 => 32,
        }
    }

    /// The coding of a number, if it is one's.
    pub fn of(number: u32) -> Option<Coding> {
        CODINGS.into_iter().find(|coding| coding.number() == number)
    }

    /// The other one.
    pub fn other(self) -> Coding {
        match self {
            Coding::Bits48 => Coding::Bits32,
            Coding::Bits32 => Coding::Bits48,
        }
    }

    /// Whether it is the older one, with its own rules for schemas.
    pub fn is_older(self) -> bool {
        self == Coding::Bits32
    }

    /// The bytes of an offset or a length.
    pub fn offset(self) -> usize {
        self.number() as usize / 8
    }

    /// The bytes before the first object, and those of an object's header.
    pub fn header(self) -> usize {
        4 + self.offset()
    }

    /// The bytes of a union.
    pub fn union(self) -> usize {
        2 + self.offset()
    }

    /// The largest offset or length.
    pub fn largest(self) -> u64 {
        (1 << self.number()) - 1
    }

    /// An offset or a length as it stands in a message.
    pub fn bytes(self, number: u64) -> Vec<u8> {
        number.to_le_bytes()[..self.offset()].to_vec()
    }
}
