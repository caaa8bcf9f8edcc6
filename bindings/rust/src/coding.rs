//! The two codings of messages.

/// Which coding a message is in. It is said by the caller and never guessed.
#[derive(Clone, Copy, Debug, PartialEq, Eq, Hash)]
pub enum Coding {
    /// Offsets and lengths of 48 bits. Unions in place are read, but no longer written.
    Bits48,
    /// The older coding: offsets and lengths of 32 bits, and unions always in place. A schema with
    /// a union not in place, a table in place, a list of unions or a direct list is not lawful
    /// under it.
    Bits32,
}

impl Coding {
    /// Every coding.
    pub const ALL: [Coding; 2] = [Coding::Bits48, Coding::Bits32];

    /// The number by which the library knows it.
    pub fn number(self) -> u32 {
        match self {
            Coding::Bits48 => 48,
            Coding::Bits32 => 32,
        }
    }

    /// The coding of a number, if there is one.
    pub fn of(number: u32) -> Option<Coding> {
        Coding::ALL
            .into_iter()
            .find(|coding| coding.number() == number)
    }
}
