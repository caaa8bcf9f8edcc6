//! What the second program says, in the C interface's numbers.

use super::{Calls, Read, Writes};
use crate::program::{Budget, Judge, Second, Verdict};
use crate::schema::Packed;
use reference::{Answer, ListReader};

/// The second program.
pub struct SecondCalls;

/// The case of an answer and its numbers; what a case does not use is 0.
pub fn numbers(answer: Answer) -> [u64; 4] {
    match answer {
        Answer::Boolean(value) => [0, u64::from(value), 0, 0],
        Answer::Number {
            bits,
            width,
            signed,
        } => [1, bits, u64::from(width), u64::from(signed)],
        Answer::Float { bits, width } => [2, bits, u64::from(width), 0],
        Answer::Object {
            kind,
            place,
            length,
        } => [3, u64::from(kind), place, length],
        Answer::Struct { place } => [4, place, 0, 0],
        Answer::Absent => [5, 0, 0, 0],
        Answer::Unknown(number) => [6, number, 0, 0],
        Answer::Refused {
            number,
            place,
            member,
        } => [7, u64::from(number), place, u64::from(member)],
    }
}

/// Stores an answer in each four numbers; what is left over stays.
fn store(cases: &mut [u64], mut answer: impl FnMut() -> Answer) {
    for case in cases.chunks_exact_mut(4) {
        case.copy_from_slice(&numbers(answer()));
    }
}

impl Judge for SecondCalls {
    fn name(&self) -> &'static str {
        Second.name()
    }

    fn judge(&self, schema: &Packed, message: &[u8], budget: Budget) -> Verdict {
        Second.judge(schema, message, budget)
    }
}

impl Calls for SecondCalls {
    fn positions(&self, schema: &Packed, positions: &mut [u8]) -> [u64; 2] {
        let (number, made) = reference::positions(schema.coding(), schema.bytes(), positions.len());
        positions[..made.len()].copy_from_slice(&made);
        [u64::from(number), made.len() as u64]
    }

    fn field(&self, schema: &Packed, message: &[u8], path: &[u32]) -> [u64; 4] {
        numbers(reference::field(schema.lent(), message, path))
    }

    fn text(&self, schema: &Packed, message: &[u8], path: &[u32]) -> [u64; 3] {
        match reference::text(schema.lent(), message, path) {
            Some((start, length)) => [1, start as u64, length as u64],
            None => [0; 3],
        }
    }

    fn list(
        &self,
        schema: &Packed,
        message: &[u8],
        path: &[u32],
        from: u64,
        cases: &mut [u64],
    ) -> u64 {
        let mut reader = match ListReader::new(schema.lent(), message, path) {
            Ok(reader) => reader,
            Err(refusal) => {
                store(cases, || refusal);
                return 0;
            }
        };
        let Answer::Object { length, .. } = reference::field(schema.lent(), message, path) else {
            unreachable!("a list reader starts only at a list");
        };
        reader.skip(from);
        store(cases, || reader.step());
        length
    }

    fn read(&self, schema: &Packed, message: &[u8], budget: Budget, sheet: &mut [u8]) -> Read {
        let (verdict, read) = reference::read(schema.lent(), message, budget, sheet.len());
        sheet[..read.len()].copy_from_slice(&read);
        let length = read.len() as u64;
        Read { verdict, length }
    }
}

impl Writes for SecondCalls {
    fn clear(&self, schema: &[u8], cleared: &mut [u8]) -> [u64; 2] {
        let (number, written) = reference::clear_unions(schema, cleared.len());
        cleared[..written.len()].copy_from_slice(&written);
        [u64::from(number), written.len() as u64]
    }

    fn write(&self, schema: &Packed, sheet: &[u8], message: &mut [u8]) -> [u64; 2] {
        let (number, written) =
            reference::write(schema.coding(), schema.bytes(), sheet, message.len());
        message[..written.len()].copy_from_slice(&written);
        [u64::from(number), written.len() as u64]
    }
}
