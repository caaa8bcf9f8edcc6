//! The elements of a list.

use crate::answer::{DIRECT_LIST, LIST, NO_PART};
use crate::{Answer, Schema};
use std::fmt;
use std::iter::FusedIterator;

extern "C" {
    fn scalgo_list(
        coding: u32,
        schema: *const u8,
        schema_len: usize,
        positions: *const u8,
        positions_len: usize,
        message: *const u8,
        message_len: usize,
        path: *const u32,
        path_len: usize,
        from: u64,
        cases: *mut u64,
        cases_len: usize,
    ) -> u64;
}

/// The answers fetched with one call, which judges the schema and follows the path once.
const HELD: usize = 64;

/// The elements of a direct list, or of a list of texts, bytes, lists, tables, unions or direct
/// lists, each answered as by [`field`](Schema::field) at its own path. A refused element does not end
/// it.
#[derive(Clone)]
pub struct List<'a> {
    schema: &'a Schema,
    message: &'a [u8],
    path: &'a [u32],
    /// The list's number of elements.
    length: u64,
    /// The element that comes next.
    next: u64,
    /// The element whose answer is the first of those held.
    first: u64,
    held: [[u64; 4]; HELD],
}

impl Schema {
    /// Starts at a path that leads to a direct list, or to a list whose elements are texts, bytes,
    /// lists, tables, unions or direct lists. A refused path gives its own refusal, any other 15 at 0;
    /// then there is nothing to step through, and every step from that path would be refused so.
    ///
    /// ```
    /// use scalgo::{Answer, Coding, Schema};
    ///
    /// // A table with a list of texts, and a message with the texts "ab" and none.
    /// let schema = b"\x00\x01\x00\x01\x00\x68\x00\x4C\x49\x43\x45\x01\x78\x00";
    /// let message = b"\xB3\xC4\xC0\xB5\x0A\x00\x00\x00\x00\x00\
    ///     \x45\x43\x49\x4C\x06\x00\x00\x00\x00\x00\x1A\x00\x00\x00\x00\x00\
    ///     \x46\xBB\x00\x34\x02\x00\x00\x00\x00\x00\
    ///     \x30\x00\x00\x00\x00\x00\x00\x00\x00\x00\x00\x00\
    ///     \xF5\xC8\x12\xD8\x02\x00\x00\x00\x00\x00ab\x00";
    ///
    /// let schema = Schema::new(Coding::Bits48, schema)?;
    /// let mut texts = schema.list(message, &[0]).expect("a list");
    /// assert_eq!(texts.len(), 2);
    /// let text = Answer::Object { kind: 13, place: 48, length: 2 };
    /// assert_eq!(texts.next(), Some(text));
    /// assert_eq!(texts.next(), Some(Answer::Absent));
    /// assert_eq!(texts.next(), None);
    ///
    /// let root = schema.list(message, &[]);
    /// let none = Answer::Refused { number: 15, place: 0, member: None };
    /// assert_eq!(root.err(), Some(none));
    /// # Ok::<(), scalgo::NotLawful>(())
    /// ```
    pub fn list<'a>(&'a self, message: &'a [u8], path: &'a [u32]) -> Result<List<'a>, Answer> {
        let mut list = List {
            schema: self,
            message,
            path,
            length: 0,
            next: 0,
            first: 0,
            held: [[0; 4]; HELD],
        };
        list.length = list.fetch();
        let first = Answer::new(list.held[0]);
        if list.length > 0 || ends_at_once(first, self.field(message, path)) {
            Ok(list)
        } else {
            Err(first)
        }
    }
}

/// Without elements the first answer is 15 at the list, which is never at 0.
fn ends_at_once(first: Answer, whole: Answer) -> bool {
    match whole {
        Answer::Object {
            kind: LIST | DIRECT_LIST,
            place,
            ..
        } => {
            first
                == Answer::Refused {
                    number: NO_PART,
                    place,
                    member: None,
                }
        }
        _ => false,
    }
}

impl List<'_> {
    /// Fetches the answers from the next element on, and gives the list's number of elements.
    fn fetch(&mut self) -> u64 {
        self.first = self.next;
        // SAFETY: each slice is given as its pointer, which is not null, and its length; no one
        // writes to any during the call; the numbers are this struct's own, four to each answer,
        // and lent to this function alone; nothing is kept.
        unsafe {
            scalgo_list(
                self.schema.coding().number(),
                self.schema.bytes().as_ptr(),
                self.schema.bytes().len(),
                self.schema.positions().as_ptr(),
                self.schema.positions().len(),
                self.message.as_ptr(),
                self.message.len(),
                self.path.as_ptr(),
                self.path.len(),
                self.first,
                self.held.as_mut_ptr().cast::<u64>(),
                4 * HELD,
            )
        }
    }
}

impl Iterator for List<'_> {
    type Item = Answer;

    fn next(&mut self) -> Option<Answer> {
        self.nth(0)
    }

    /// Passes over elements without reading them.
    fn nth(&mut self, passed: usize) -> Option<Answer> {
        self.next = self.next.saturating_add(passed as u64);
        if self.next >= self.length {
            self.next = self.length;
            return None;
        }
        if self.next - self.first >= HELD as u64 {
            self.fetch();
        }
        let numbers = self.held.get((self.next - self.first) as usize)?;
        self.next += 1;
        Some(Answer::new(*numbers))
    }

    fn size_hint(&self) -> (usize, Option<usize>) {
        let left = (self.length - self.next) as usize;
        (left, Some(left))
    }
}

impl ExactSizeIterator for List<'_> {}

impl FusedIterator for List<'_> {}

impl fmt::Debug for List<'_> {
    fn fmt(&self, out: &mut fmt::Formatter) -> fmt::Result {
        out.debug_struct("List")
            .field("path", &self.path)
            .field("length", &self.length)
            .field("next", &self.next)
            .finish_non_exhaustive()
    }
}
