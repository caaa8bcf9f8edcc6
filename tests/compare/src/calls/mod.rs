//! The library's functions as a C program sees them: every number that a call
//! stores, and every buffer before and after it; run side by side.

pub mod clears;
pub mod fields;
pub mod library;
pub mod lists;
pub mod moves;
pub mod positions;
pub mod reads;
pub mod second;
pub mod texts;
pub mod writes;

use crate::coding::Coding;
use crate::counts::Counts;
use crate::program::{Budget, Judge, Verdict};
use crate::schema::Packed;

pub use library::LibraryCalls;
pub use second::SecondCalls;

/// What reading a message to its sheet stores.
#[derive(Clone, Copy, Debug, PartialEq, Eq)]
pub struct Read {
    pub verdict: Verdict,
    pub length: u64,
}

/// The calls that make a table of positions and that read, by the schema and the table
/// lent with it.
pub trait Calls: Judge {
    /// The schema's own table: number and length.
    fn positions(&self, schema: &Packed, positions: &mut [u8]) -> [u64; 2];
    /// One field: the case and its three numbers.
    fn field(&self, schema: &Packed, message: &[u8], path: &[u32]) -> [u64; 4];
    /// A text or bytes: 1, start and length, or three times 0.
    fn text(&self, schema: &Packed, message: &[u8], path: &[u32]) -> [u64; 3];
    /// A list's elements from one on, four numbers each as far as they fit;
    /// gives the number of elements.
    fn list(
        &self,
        schema: &Packed,
        message: &[u8],
        path: &[u32],
        from: u64,
        cases: &mut [u64],
    ) -> u64;
    /// A message to its sheet.
    fn read(&self, schema: &Packed, message: &[u8], budget: Budget, sheet: &mut [u8]) -> Read;
}

/// The calls that write, and those that read what was written.
pub trait Writes: Calls {
    /// A schema to the one in which the in-place flag of unions is cleared: number and length.
    fn clear(&self, schema: &[u8], cleared: &mut [u8]) -> [u64; 2];
    /// A sheet to its message: number and length.
    fn write(&self, schema: &Packed, sheet: &[u8], message: &mut [u8]) -> [u64; 2];
}

/// Two programs under a coding, and what was seen of them.
pub struct Run<'a, C: ?Sized> {
    pub first: &'a C,
    pub second: &'a C,
    pub coding: Coding,
    pub counts: Counts,
}

impl<'a, C: ?Sized> Run<'a, C> {
    /// Nothing is seen yet.
    pub fn new(first: &'a C, second: &'a C, coding: Coding) -> Run<'a, C> {
        Run {
            first,
            second,
            coding,
            counts: Counts::default(),
        }
    }

    /// Runs numbered rounds until so many of a sort were counted; gives what was seen.
    pub fn until(
        mut self,
        sort: &str,
        many: u64,
        on_round: impl Fn(&mut Run<'a, C>, u64) -> Result<(), String>,
    ) -> Result<Counts, String> {
        let mut round = 0;
        while self.counts.named(sort) < many {
            on_round(&mut self, round)?;
            round += 1;
        }
        Ok(self.counts)
    }
}

/// The bytes on either side of an output that no call may touch.
const GUARD: usize = 16;

/// An output with its surroundings, filled so that any change shows.
pub struct Output {
    bytes: Vec<u8>,
    room: usize,
}

impl Output {
    /// An output of so many bytes; no two neighbours are equal.
    pub fn new(room: usize, fill: u8) -> Output {
        let bytes = (0..room + 2 * GUARD).map(|at| (at as u8).wrapping_mul(37) ^ fill);
        Output {
            bytes: bytes.collect(),
            room,
        }
    }

    /// The output itself.
    pub fn lent(&mut self) -> &mut [u8] {
        &mut self.bytes[GUARD..GUARD + self.room]
    }

    /// The first bytes of the output.
    pub fn front(&self, length: usize) -> &[u8] {
        &self.bytes[GUARD..GUARD + length]
    }

    /// The output and all around it.
    pub fn whole(&self) -> &[u8] {
        &self.bytes
    }
}
