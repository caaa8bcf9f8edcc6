//! Loops over elements that lead no further: texts, bytes, and tables that hold nothing else
//! (rows). An element that is wholly lawful and within what is left is charged at once; any other
//! goes the walk's way, which says why it is refused.

use crate::lists::Direct;
use crate::objects::{after_bytes, after_text, less};
use crate::schema::{Member, Object, Part, Table};
use crate::walk::{Walk, Walked};
use crate::wire::{header_at, Coding};
use crate::Budget;

/// The places of a list's elements that are there.
#[inline(always)]
pub fn places<C: Coding>(content: &[u8]) -> impl Iterator<Item = usize> + use<'_, C> {
    let places = content.chunks_exact(C::WIDTH).filter_map(C::number);
    places.filter(|place| *place != 0)
}

/// A row table, and its live members in a fixed part of the length that came last: none where
/// the walk has to look for itself.
struct Row<'a> {
    table: &'a Table,
    length: usize,
    live: Option<&'a [Member]>,
}

impl<'a, C: Coding> Walk<'a, C> {
    /// A list of texts or of bytes.
    #[inline(always)]
    fn leaves(
        &mut self,
        content: &[u8],
        (object, depth): (Object, u32),
        after: impl Fn(&[u8], usize, Budget) -> Option<Budget>,
    ) -> Walked {
        let (message, mut left) = (self.message, self.left);
        for place in places::<C>(content) {
            if let Some(after) = after(message, place, left) {
                left = after;
                continue;
            }
            self.left = left;
            self.object(object, place, depth)?;
            left = self.left;
        }
        self.left = left;
        Ok(())
    }

    /// A list of texts, within the greatest depth.
    pub fn texts(&mut self, content: &[u8], depth: u32) -> Walked {
        self.leaves(content, (Object::Text, depth), after_text::<C>)
    }

    /// A list of bytes, within the greatest depth.
    pub fn blobs(&mut self, content: &[u8], depth: u32) -> Walked {
        self.leaves(content, (Object::Bytes, depth), after_bytes::<C>)
    }

    /// A list of rows, above the greatest depth.
    pub fn rows(&mut self, content: &[u8], table: &'a Table, depth: u32) -> Walked {
        let mut left = self.left;
        let mut row = Row {
            table,
            length: table.full,
            live: Some(self.schema.live(table)),
        };
        for place in places::<C>(content) {
            if let Some(after) = self.after_row(&mut row, place, left) {
                left = after;
                continue;
            }
            self.left = left;
            self.table(place, table, depth)?;
            left = self.left;
        }
        self.left = left;
        Ok(())
    }

    /// What is left after a row and what it leads to, if all are lawful.
    #[inline(always)]
    fn after_row(&self, row: &mut Row<'a>, place: usize, left: Budget) -> Option<Budget> {
        let (magic, length) = header_at::<C>(self.message, place)?;
        let start = place + C::HEADER;
        let fixed = self.message.get(start..start + length)?;
        if magic != row.table.id {
            return None;
        }
        if length != row.length {
            row.length = length;
            row.live = self.schema.reach(row.table, length);
        }
        self.after_members(fixed, row.live?, less(left, length)?)
    }

    /// What is left after a row's members, if all are lawful.
    #[inline(always)]
    fn after_members(&self, fixed: &[u8], live: &[Member], mut left: Budget) -> Option<Budget> {
        for member in live {
            let object = match member.part {
                Part::Refers(object) => object,
                Part::Struct(index) if self.struct_holds(fixed, member, index) => continue,
                _ => return None,
            };
            let place = C::number(fixed.get(member.value as usize..)?)?;
            if place == 0 {
                continue;
            }
            left = match object {
                Object::Text => after_text::<C>(self.message, place, left)?,
                _ => after_bytes::<C>(self.message, place, left)?,
            };
        }
        Some(left)
    }

    /// The elements of a direct list of rows with these live members, above the greatest depth.
    pub fn direct_rows(&mut self, direct: Direct<'a>, live: &[Member]) -> Walked {
        let mut left = self.left;
        for (number, fixed) in direct.elements().enumerate() {
            let after = less(left, fixed.len());
            let after = after.and_then(|left| self.after_members(fixed, live, left));
            if let Some(after) = after {
                left = after;
                continue;
            }
            self.left = left;
            self.element(direct, number, fixed)?;
            left = self.left;
        }
        self.left = left;
        Ok(())
    }
}
