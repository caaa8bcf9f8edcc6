//! A value sheet to its message.

use crate::Schema;

extern "C" {
    fn scalgo_write(
        coding: u32,
        schema: *const u8,
        schema_len: usize,
        sheet: *const u8,
        sheet_len: usize,
        message: *mut u8,
        room: usize,
        length: *mut u64,
    ) -> u32;
}

/// What writing a sheet as a message answers.
#[derive(Clone, Copy, Debug, PartialEq, Eq)]
pub struct WriteAnswer {
    /// 0 where the message is written, else 11, 12, 13 or 14.
    pub number: u32,
    /// The bytes written; 0 with a refusal.
    pub length: usize,
}

impl Schema {
    /// Writes a value sheet as a message to the front of `message`. The bytes after the length that is
    /// answered keep what they held; with a refusal all do.
    ///
    /// Under 48 bits a sheet in which a union in place is present is refused by 12, whatever it
    /// holds; [`clear_unions`](crate::clear_unions) makes the schema by which it can be written.
    ///
    /// ```
    /// # let schema = b"\x00\x00\x00\x01\x00\x4C\x49\x43\x45\x02\x10\x00\x68\x00";
    /// use scalgo::{Coding, Schema};
    ///
    /// let schema = Schema::new(Coding::Bits48, schema)?;
    /// let sheet = b"\x40\x00\xD0\x00\x00\x00\x26\x16\x20";
    /// let mut message = [0xEE; 43];
    /// let answer = schema.write(sheet, &mut message);
    /// assert_eq!((answer.number, answer.length), (0, 41));
    /// assert_eq!(message, *b"\xB3\xC4\xC0\xB5\x0A\x00\x00\x00\x00\x00\
    ///     \x45\x43\x49\x4C\x08\x00\x00\x00\x00\x00\x03\x00\x1C\x00\x00\x00\x00\x00\
    ///     \xF5\xC8\x12\xD8\x02\x00\x00\x00\x00\x00ab\x00\xEE\xEE");
    ///
    /// // A message of 40 bytes has no room; a sheet with a byte more is not lawful.
    /// let short = schema.write(sheet, &mut message[..40]);
    /// assert_eq!((short.number, short.length), (14, 0));
    /// let longer = b"\x40\x00\xD0\x00\x00\x00\x26\x16\x20\x00";
    /// assert_eq!(schema.write(longer, &mut message).number, 11);
    /// # Ok::<(), scalgo::NotLawful>(())
    /// ```
    pub fn write(&self, sheet: &[u8], message: &mut [u8]) -> WriteAnswer {
        let mut length = 0;
        // SAFETY: each slice is given as its pointer, which is not null, and its length; no one
        // writes to the shared ones during the call, and the message is lent to this function
        // alone; the length is this function's own; nothing is kept.
        let number = unsafe {
            scalgo_write(
                self.coding().number(),
                self.bytes().as_ptr(),
                self.bytes().len(),
                sheet.as_ptr(),
                sheet.len(),
                message.as_mut_ptr(),
                message.len(),
                &mut length,
            )
        };
        WriteAnswer {
            number,
            length: length as usize,
        }
    }
}
