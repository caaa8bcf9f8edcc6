//! One field of a message, and a text or bytes as a part of it.

use crate::answer::TEXT;
use crate::{Answer, Schema};

extern "C" {
    fn scalgo_field(
        coding: u32,
        schema: *const u8,
        schema_len: usize,
        positions: *const u8,
        positions_len: usize,
        message: *const u8,
        message_len: usize,
        path: *const u32,
        path_len: usize,
        a: *mut u64,
        b: *mut u64,
        c: *mut u64,
    ) -> u32;

    fn scalgo_text(
        coding: u32,
        schema: *const u8,
        schema_len: usize,
        positions: *const u8,
        positions_len: usize,
        message: *const u8,
        message_len: usize,
        path: *const u32,
        path_len: usize,
        start: *mut u64,
        length: *mut u64,
    ) -> u32;
}

impl Schema {
    /// Reads one field. A path names a member, element or struct member per number; unions are
    /// passed through without one. Only what is on the path is judged.
    ///
    /// ```
    /// # let schema = b"\x00\x00\x00\x01\x00\x4C\x49\x43\x45\x02\x10\x00\x68\x00";
    /// # let message = b"\xB3\xC4\xC0\xB5\x0A\x00\x00\x00\x00\x00\
    /// #     \x45\x43\x49\x4C\x08\x00\x00\x00\x00\x00\x03\x00\x1C\x00\x00\x00\x00\x00\
    /// #     \xF5\xC8\x12\xD8\x02\x00\x00\x00\x00\x00ab\x00";
    /// use scalgo::{Answer, Coding, Schema};
    ///
    /// let schema = Schema::new(Coding::Bits48, schema)?;
    /// let number = Answer::Number { bits: 3, width: 16, signed: false };
    /// assert_eq!(schema.field(message, &[0]), number);
    /// let text = Answer::Object { kind: 13, place: 28, length: 2 };
    /// assert_eq!(schema.field(message, &[1]), text);
    /// // The table at 10 has two members.
    /// let none = Answer::Refused { number: 15, place: 10, member: None };
    /// assert_eq!(schema.field(message, &[2]), none);
    ///
    /// // With 5 bytes of its fixed part the text, member 1, is cut.
    /// let mut cut = message.to_vec();
    /// cut[14] = 5;
    /// let refused = Answer::Refused { number: 8, place: 10, member: Some(1) };
    /// assert_eq!(schema.field(&cut, &[1]), refused);
    /// # Ok::<(), scalgo::NotLawful>(())
    /// ```
    pub fn field(&self, message: &[u8], path: &[u32]) -> Answer {
        let (mut a, mut b, mut c) = (0, 0, 0);
        // SAFETY: each slice is given as its pointer, which is not null, and its length; no one
        // writes to any during the call; the three numbers are this function's own; nothing is kept.
        let case = unsafe {
            scalgo_field(
                self.coding().number(),
                self.bytes().as_ptr(),
                self.bytes().len(),
                self.positions().as_ptr(),
                self.positions().len(),
                message.as_ptr(),
                message.len(),
                path.as_ptr(),
                path.len(),
                &mut a,
                &mut b,
                &mut c,
            )
        };
        Answer::new([u64::from(case), a, b, c])
    }

    /// A text without its zero byte, or bytes: a part of the message, where the path leads to one.
    /// `None` for anything else, also where the path is refused: [`field`](Schema::field) says why.
    /// A text is judged here too, whether the message was or not: it is UTF-8. Bytes may be any.
    ///
    /// ```
    /// # let schema = b"\x00\x00\x00\x01\x00\x4C\x49\x43\x45\x02\x10\x00\x68\x00";
    /// # let message = b"\xB3\xC4\xC0\xB5\x0A\x00\x00\x00\x00\x00\
    /// #     \x45\x43\x49\x4C\x08\x00\x00\x00\x00\x00\x03\x00\x1C\x00\x00\x00\x00\x00\
    /// #     \xF5\xC8\x12\xD8\x02\x00\x00\x00\x00\x00ab\x00";
    /// use scalgo::{Coding, Schema};
    ///
    /// let schema = Schema::new(Coding::Bits48, schema)?;
    /// assert_eq!(schema.text(message, &[1]), Some(&b"ab"[..]));
    /// assert_eq!(schema.text(message, &[0]), None);
    /// # Ok::<(), scalgo::NotLawful>(())
    /// ```
    pub fn text<'m>(&self, message: &'m [u8], path: &[u32]) -> Option<&'m [u8]> {
        let (mut start, mut length) = (0, 0);
        // SAFETY: as in `field`, with two numbers.
        let found = unsafe {
            scalgo_text(
                self.coding().number(),
                self.bytes().as_ptr(),
                self.bytes().len(),
                self.positions().as_ptr(),
                self.positions().len(),
                message.as_ptr(),
                message.len(),
                path.as_ptr(),
                path.len(),
                &mut start,
                &mut length,
            )
        };
        if found == 0 {
            return None;
        }
        message
            .get(start as usize..)
            .and_then(|rest| rest.get(..length as usize))
    }

    /// A text as a `str`: a part of the message, where the path leads to a text. `None` for anything
    /// else, bytes among it, also where the path is refused: [`field`](Schema::field) says why.
    ///
    /// ```
    /// # let schema = b"\x00\x00\x00\x01\x00\x4C\x49\x43\x45\x02\x10\x00\x68\x00";
    /// use scalgo::{Answer, Coding, Schema};
    ///
    /// let schema = Schema::new(Coding::Bits48, schema)?;
    /// let mut message = b"\xB3\xC4\xC0\xB5\x0A\x00\x00\x00\x00\x00\
    ///     \x45\x43\x49\x4C\x08\x00\x00\x00\x00\x00\x03\x00\x1C\x00\x00\x00\x00\x00\
    ///     \xF5\xC8\x12\xD8\x03\x00\x00\x00\x00\x00\xE2\x82\xAC\x00".to_vec();
    /// assert_eq!(schema.text_str(&message, &[1]), Some("€"));
    /// assert_eq!(schema.text_str(&message, &[0]), None);
    ///
    /// // The last of its three bytes becomes a letter.
    /// message[40] = b'a';
    /// assert_eq!(schema.text_str(&message, &[1]), None);
    /// let refused = Answer::Refused { number: 16, place: 28, member: None };
    /// assert_eq!(schema.field(&message, &[1]), refused);
    /// # Ok::<(), scalgo::NotLawful>(())
    /// ```
    pub fn text_str<'m>(&self, message: &'m [u8], path: &[u32]) -> Option<&'m str> {
        match self.field(message, path) {
            Answer::Object { kind: TEXT, .. } => {
                let bytes = self.text(message, path)?;
                std::str::from_utf8(bytes).ok()
            }
            _ => None,
        }
    }
}
