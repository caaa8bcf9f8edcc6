//! Lists and direct lists, by what their elements are.

use crate::rows::places;
use crate::schema::{Elements, Object, Table};
use crate::walk::{Spot, Walk, Walked, DEEPEST};
use crate::wire::{header_at, u32_at, Coding, DIRECT_MAGIC};

/// A direct list that fits: its elements, each of so many bytes.
#[derive(Clone, Copy)]
pub struct Direct<'a> {
    table: &'a Table,
    size: usize,
    bytes: &'a [u8],
    /// Where the first element stands.
    first: Spot,
}

impl<'a> Direct<'a> {
    /// The elements, where they have any bytes.
    #[inline(always)]
    pub fn elements(&self) -> impl Iterator<Item = &'a [u8]> {
        self.bytes.chunks_exact(self.size)
    }
}

impl<'a, C: Coding> Walk<'a, C> {
    /// A list's content, by its count.
    pub fn list(&mut self, spot: Spot, count: usize, index: u8) -> Walked {
        let schema = self.schema;
        let list = &schema.lists[usize::from(index)];
        let size = (count * list.bits).div_ceil(8);
        let content = self.admit(spot, size, 0)?;
        match list.elements {
            Elements::Plain => Ok(()),
            Elements::Refer(object) => self.references(content, object, spot.depth + 1),
            Elements::Unions(index) => {
                for (number, union) in content.chunks_exact(C::UNION).enumerate() {
                    self.union(spot, union, (index, number as u32))?;
                }
                Ok(())
            }
        }
    }

    /// The elements of a list of references.
    fn references(&mut self, content: &[u8], object: Object, depth: u32) -> Walked {
        let schema = self.schema;
        match object {
            Object::Text if depth <= DEEPEST => return self.texts(content, depth),
            Object::Bytes if depth <= DEEPEST => return self.blobs(content, depth),
            Object::Table(index) => {
                let table = &schema.tables[usize::from(index)];
                if table.is_row && depth < DEEPEST {
                    return self.rows(content, table, depth);
                }
            }
            _ => {}
        }
        for place in places::<C>(content) {
            self.object(object, place, depth)?;
        }
        Ok(())
    }

    /// A direct list by its offset.
    pub fn direct(&mut self, place: usize, depth: u32, index: u8) -> Walked {
        self.arrive(place, depth)?;
        let schema = self.schema;
        let table = &schema.tables[usize::from(index)];
        let Some(header) = direct_header::<C>(self.message, place) else {
            return self.refuse(6, place);
        };
        if header.magic != DIRECT_MAGIC || header.id != table.id {
            return self.refuse(7, place);
        }
        let start = place + C::HEADER + 8;
        let rest = &self.message[start..];
        // Both numbers are within 32 bits, so the product is within 64.
        let DirectHeader { count, size, .. } = header;
        if count > u32::MAX as usize || count * size > rest.len() {
            return self.refuse(6, place);
        }
        let direct = Direct {
            table,
            size,
            bytes: &rest[..count * size],
            first: Spot::without_header(start, depth + 1),
        };
        self.elements(direct, count)
    }

    /// The elements of a direct list: where all of them are alike to the walk, they are counted.
    fn elements(&mut self, direct: Direct<'a>, count: usize) -> Walked {
        let schema = self.schema;
        match schema.reach(direct.table, direct.size) {
            Some([]) => return self.count(direct, count),
            Some(live) if direct.table.is_row && direct.first.depth < DEEPEST => {
                return self.direct_rows(direct, live);
            }
            _ => {}
        }
        for (number, fixed) in direct.elements().enumerate() {
            self.element(direct, number, fixed)?;
        }
        Ok(())
    }

    /// One element of a direct list.
    pub fn element(&mut self, direct: Direct<'a>, number: usize, fixed: &'a [u8]) -> Walked {
        let start = direct.first.start + number * direct.size;
        let spot = Spot::without_header(start, direct.first.depth);
        self.arrive(spot.place, spot.depth)?;
        self.admit(spot, fixed.len(), 0)?;
        self.members(spot, fixed, direct.table)
    }

    /// Elements that only count: as many as are within what is left, and then the refusal, if
    /// there are more.
    fn count(&mut self, direct: Direct, count: usize) -> Walked {
        let Direct { first, size, .. } = direct;
        let by_visits = self.left.visits as usize;
        let by_content = (self.left.content as usize).checked_div(size);
        let within = match first.depth <= DEEPEST {
            true => count.min(by_visits).min(by_content.unwrap_or(count)),
            false => 0,
        };
        self.left.visits -= within as u32;
        self.left.content -= (within * size) as u64;
        if within == count {
            return Ok(());
        }
        let place = first.place + within * size;
        self.arrive(place, first.depth)?;
        self.refuse(17, place)
    }
}

/// The header of a direct list.
struct DirectHeader {
    magic: u32,
    count: usize,
    id: u32,
    size: usize,
}

fn direct_header<C: Coding>(message: &[u8], place: usize) -> Option<DirectHeader> {
    let (magic, count) = header_at::<C>(message, place)?;
    let (id, size) = message.get(place + C::HEADER..)?.split_at_checked(4)?;
    Some(DirectHeader {
        magic,
        count,
        id: u32_at(id)?,
        size: u32_at(size)? as usize,
    })
}
