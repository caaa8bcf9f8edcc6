//! A message to its value sheet.

use crate::verdict::Stored;
use crate::{Budget, Schema, Verdict};

extern "C" {
    fn scalgo_read(
        coding: u32,
        schema: *const u8,
        schema_len: usize,
        positions: *const u8,
        positions_len: usize,
        message: *const u8,
        message_len: usize,
        visits: u32,
        content: u64,
        sheet: *mut u8,
        room: usize,
        verdict: *mut Stored,
        length: *mut u64,
    ) -> u32;
}

/// What reading a message to a sheet answers.
#[derive(Clone, Copy, Debug, PartialEq, Eq)]
pub struct ReadAnswer {
    /// The verdict on the message; 14, with visits and content, where the sheet has no room.
    pub verdict: Verdict,
    /// The bytes written; 0 with a refusal.
    pub length: usize,
}

impl Schema {
    /// Judges a message and writes its value sheet to the front of `sheet`. The bytes after the length
    /// that is answered keep what they held; with a refusal all do.
    ///
    /// ```
    /// # let schema = b"\x00\x00\x00\x01\x00\x4C\x49\x43\x45\x02\x10\x00\x68\x00";
    /// # let message = b"\xB3\xC4\xC0\xB5\x0A\x00\x00\x00\x00\x00\
    /// #     \x45\x43\x49\x4C\x08\x00\x00\x00\x00\x00\x03\x00\x1C\x00\x00\x00\x00\x00\
    /// #     \xF5\xC8\x12\xD8\x02\x00\x00\x00\x00\x00ab\x00";
    /// use scalgo::{Budget, Coding, Schema};
    ///
    /// let schema = Schema::new(Coding::Bits48, schema)?;
    /// let budget = Budget { visits: 2, content: 10 };
    /// let mut sheet = [0xEE; 12];
    /// let answer = schema.read(message, budget, &mut sheet);
    /// assert!(answer.verdict.accepted());
    /// assert_eq!((answer.verdict.visits, answer.length), (2, 9));
    /// assert_eq!(sheet, *b"\x40\x00\xD0\x00\x00\x00\x26\x16\x20\xEE\xEE\xEE");
    ///
    /// // One visit, and a sheet of 8 bytes.
    /// let spent = schema.read(message, Budget::of_visits(1), &mut sheet).verdict;
    /// assert_eq!((spent.number, spent.place, spent.visits), (4, 28, 1));
    /// let short = schema.read(message, budget, &mut sheet[..8]).verdict;
    /// assert_eq!((short.number, short.place, short.visits), (14, 0, 2));
    /// # Ok::<(), scalgo::NotLawful>(())
    /// ```
    pub fn read(&self, message: &[u8], budget: Budget, sheet: &mut [u8]) -> ReadAnswer {
        let (mut stored, mut length) = (Stored::default(), 0);
        // SAFETY: each slice is given as its pointer, which is not null, and its length; no one
        // writes to the shared ones during the call, and the sheet is lent to this function alone;
        // the verdict and the length are this function's own; nothing is kept.
        unsafe {
            scalgo_read(
                self.coding().number(),
                self.bytes().as_ptr(),
                self.bytes().len(),
                self.positions().as_ptr(),
                self.positions().len(),
                message.as_ptr(),
                message.len(),
                budget.visits,
                budget.content,
                sheet.as_mut_ptr(),
                sheet.len(),
                &mut stored,
                &mut length,
            )
        };
        ReadAnswer {
            verdict: stored.into(),
            length: length as usize,
        }
    }
}
