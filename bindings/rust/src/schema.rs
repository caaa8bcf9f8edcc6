//! A schema with the positions of its members.

use crate::Coding;
use std::error::Error;
use std::fmt;

extern "C" {
    fn scalgo_positions(
        coding: u32,
        schema: *const u8,
        schema_len: usize,
        positions: *mut u8,
        room: usize,
        length: *mut u64,
    ) -> u32;
}

/// A packed schema that is lawful under a coding. It is made once and keeps, beside its bytes, the
/// table that says where every member of its tables stands; all that is done with messages is a
/// method of it.
///
/// ```
/// use scalgo::{Coding, NotLawful, Schema};
///
/// // A table with a U16 and a text.
/// let bytes = b"\x00\x00\x00\x01\x00\x4C\x49\x43\x45\x02\x10\x00\x68\x00";
/// let schema = Schema::new(Coding::Bits48, bytes)?;
/// assert_eq!((schema.coding(), schema.bytes()), (Coding::Bits48, &bytes[..]));
///
/// // For each member the first bit of its value, no flag, and its size in bits.
/// assert_eq!(schema.positions(), b"\x00\x00\x00\x00\xFF\xFF\xFF\xFF\x10\x00\x00\x00\
///     \x10\x00\x00\x00\xFF\xFF\xFF\xFF\x30\x00\x00\x00");
///
/// // Without its last byte it is not lawful.
/// assert_eq!(Schema::new(Coding::Bits48, &bytes[..13]).err(), Some(NotLawful));
/// # Ok::<(), NotLawful>(())
/// ```
#[derive(Clone, Debug, PartialEq, Eq, Hash)]
pub struct Schema {
    coding: Coding,
    bytes: Vec<u8>,
    positions: Vec<u8>,
}

/// Room for any schema's positions: 64 tables of 64 members, each of which takes 12 bytes.
const ROOM: usize = 64 * 64 * 12;

/// Refusal 1: a schema that is not lawful under its coding.
#[derive(Clone, Copy, Debug, PartialEq, Eq)]
pub struct NotLawful;

impl NotLawful {
    /// The refusal's number.
    pub const NUMBER: u32 = 1;
}

impl fmt::Display for NotLawful {
    fn fmt(&self, out: &mut fmt::Formatter) -> fmt::Result {
        out.write_str("the schema is not lawful under the coding")
    }
}

impl Error for NotLawful {}

impl Schema {
    /// The schema of these bytes, where they are lawful under the coding.
    pub fn new(coding: Coding, bytes: impl Into<Vec<u8>>) -> Result<Schema, NotLawful> {
        let bytes = bytes.into();
        let (mut positions, mut length) = (vec![0; ROOM], 0);
        // SAFETY: each slice is given as its pointer, which is not null, and its length; no one
        // writes to the bytes during the call; the table and the length are this function's own;
        // nothing is kept.
        let number = unsafe {
            scalgo_positions(
                coding.number(),
                bytes.as_ptr(),
                bytes.len(),
                positions.as_mut_ptr(),
                positions.len(),
                &mut length,
            )
        };
        if number != 0 {
            return Err(NotLawful);
        }
        positions.truncate(length as usize);
        positions.shrink_to_fit();
        Ok(Schema {
            coding,
            bytes,
            positions,
        })
    }

    /// The coding of the messages.
    pub fn coding(&self) -> Coding {
        self.coding
    }

    /// The packed schema.
    pub fn bytes(&self) -> &[u8] {
        &self.bytes
    }

    /// For each table member in the schema's order three little-endian numbers of 32 bits: the
    /// first bit of its value in the fixed part, that of its flag, or 4,294,967,295 if it has none,
    /// and its size in bits.
    pub fn positions(&self) -> &[u8] {
        &self.positions
    }
}
