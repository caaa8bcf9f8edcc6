//! The walk from the root: tables, their members, and what they lead to.

use crate::schema::{Member, Object, Part, Schema, Table};
use crate::text::is_text;
use crate::wire::{header_at, u16_at, u32_at, Coding};
use crate::wire::{BYTES_MAGIC, LIST_MAGIC, MESSAGE_MAGIC, TEXT_MAGIC};
use crate::{Budget, Verdict, NO_MEMBER};
use std::marker::PhantomData;

/// The most bytes of a message.
const LARGEST: usize = 16_777_215;

/// "Depth: 32 objects, the root being 1".
pub const DEEPEST: u32 = 32;

/// Judges a message by a schema of this coding.
pub fn judge<C: Coding>(schema: &Schema, message: &[u8], budget: Budget) -> Verdict {
    if message.len() < C::HEADER || message.len() > LARGEST {
        return Verdict::before_the_walk(2);
    }
    let (Some(MESSAGE_MAGIC), Some(root)) = (u32_at(message), C::number(&message[4..])) else {
        return Verdict::before_the_walk(3);
    };
    let mut walk = Walk::<C> {
        schema,
        message,
        left: budget,
        refusal: (0, 0, NO_MEMBER),
        coding: PhantomData,
    };
    // A refusal stands in the walk.
    let _ = walk.table(root, &schema.tables[schema.root], 1);
    let (number, place, member) = walk.refusal;
    Verdict {
        number,
        place: place as u64,
        member,
        visits: budget.visits - walk.left.visits,
        content: budget.content - walk.left.content,
    }
}

/// The walk was refused; how, the walk itself knows.
pub struct Refused;

pub type Walked = Result<(), Refused>;

/// The state of a walk.
pub struct Walk<'a, C> {
    pub schema: &'a Schema,
    pub message: &'a [u8],
    /// What may still be spent.
    pub left: Budget,
    /// Number, place and member of the refusal; until there is one, those of acceptance.
    refusal: (u32, usize, u32),
    coding: PhantomData<C>,
}

/// Where an object stands: its place as refusals name it, the first byte of its content, and its
/// depth.
#[derive(Clone, Copy)]
pub struct Spot {
    pub place: usize,
    pub start: usize,
    pub depth: u32,
}

impl Spot {
    /// Where an object stands that has no header, or is in place.
    pub fn without_header(start: usize, depth: u32) -> Spot {
        let place = start;
        Spot {
            place,
            start,
            depth,
        }
    }

    /// Where content in place stands: where its table's fixed part ends.
    fn behind(self, fixed: &[u8]) -> Spot {
        Spot::without_header(self.start + fixed.len(), self.depth + 1)
    }
}

impl<'a, C: Coding> Walk<'a, C> {
    #[cold]
    pub fn refuse<T>(&mut self, number: u32, place: usize) -> Result<T, Refused> {
        self.refuse_member(number, place, NO_MEMBER)
    }

    #[cold]
    pub fn refuse_member<T>(&mut self, number: u32, at: usize, member: u32) -> Result<T, Refused> {
        self.refusal = (number, at, member);
        Err(Refused)
    }

    /// The arrival at an object: a visit, and its depth.
    #[inline(always)]
    pub fn arrive(&mut self, place: usize, depth: u32) -> Walked {
        if self.left.visits == 0 {
            return self.refuse(4, place);
        }
        self.left.visits -= 1;
        if depth > DEEPEST {
            return self.refuse(5, place);
        }
        Ok(())
    }

    /// The arrival at an object by its offset, up to its magic: where it stands, and its length.
    #[inline(always)]
    pub fn open(&mut self, at: usize, depth: u32, wanted: u32) -> Result<(Spot, usize), Refused> {
        self.arrive(at, depth)?;
        let Some((magic, length)) = header_at::<C>(self.message, at) else {
            return self.refuse(6, at);
        };
        if magic != wanted {
            return self.refuse(7, at);
        }
        let spot = Spot {
            place: at,
            start: at + C::HEADER,
            depth,
        };
        Ok((spot, length))
    }

    /// The content of an object, of so many bytes and some more that are not charged: it fits, and
    /// is within the allowance.
    #[inline(always)]
    pub fn admit(&mut self, spot: Spot, size: usize, more: usize) -> Result<&'a [u8], Refused> {
        let (message, end) = (self.message, spot.start + size);
        if end + more > message.len() {
            return self.refuse(6, spot.place);
        }
        match self.left.content.checked_sub(size as u64) {
            Some(left) => self.left.content = left,
            None => return self.refuse(17, spot.place),
        }
        Ok(&message[spot.start..end])
    }

    /// The object that an offset leads to.
    pub fn object(&mut self, object: Object, place: usize, depth: u32) -> Walked {
        match object {
            Object::Text => self.text(place, depth),
            Object::Bytes => {
                let (spot, length) = self.open(place, depth, BYTES_MAGIC)?;
                self.admit(spot, length, 0).map(|_| ())
            }
            Object::List(index) => {
                let (spot, count) = self.open(place, depth, LIST_MAGIC)?;
                self.list(spot, count, index)
            }
            Object::Table(index) => {
                let schema = self.schema;
                self.table(place, &schema.tables[usize::from(index)], depth)
            }
            Object::Direct(index) => self.direct(place, depth, index),
        }
    }

    /// The object that stands in place, by its length.
    fn object_in_place(&mut self, object: Object, spot: Spot, length: usize) -> Walked {
        self.arrive(spot.place, spot.depth)?;
        match object {
            Object::Text => self.text_content(spot, length),
            Object::Bytes => self.admit(spot, length, 0).map(|_| ()),
            Object::List(index) => self.list(spot, length, index),
            Object::Table(index) => {
                let schema = self.schema;
                self.fixed_part(spot, length, &schema.tables[usize::from(index)])
            }
            // No lawful schema has one.
            Object::Direct(_) => self.refuse(6, spot.place),
        }
    }

    pub fn text(&mut self, place: usize, depth: u32) -> Walked {
        let (spot, length) = self.open(place, depth, TEXT_MAGIC)?;
        self.text_content(spot, length)
    }

    #[inline(always)]
    fn text_content(&mut self, spot: Spot, length: usize) -> Walked {
        let text = self.admit(spot, length, 1)?;
        let (through, rest) = self.message.split_at(spot.start + text.len());
        if rest.first() != Some(&0) {
            return self.refuse(10, spot.place);
        }
        if !is_text(through, text.len()) {
            return self.refuse(16, spot.place);
        }
        Ok(())
    }

    pub fn table(&mut self, place: usize, table: &Table, depth: u32) -> Walked {
        let (spot, length) = self.open(place, depth, table.id)?;
        self.fixed_part(spot, length, table)
    }

    fn fixed_part(&mut self, spot: Spot, length: usize, table: &Table) -> Walked {
        let fixed = self.admit(spot, length, 0)?;
        self.members(spot, fixed, table)
    }

    /// The members of a table in order. Where all are within the fixed part, only some can be
    /// refused or lead on.
    #[inline(always)]
    pub fn members(&mut self, spot: Spot, fixed: &'a [u8], table: &Table) -> Walked {
        if fixed.len() < table.full {
            return self.short_members(spot, fixed, table);
        }
        let schema = self.schema;
        for member in schema.live(table) {
            self.member(spot, fixed, member)?;
        }
        Ok(())
    }

    /// The members of a table that is shorter than the schema says: "A member starting at or after
    /// the fixed part's end is absent; one wholly inside is read; one cut by the end is refused."
    fn short_members(&mut self, spot: Spot, fixed: &'a [u8], table: &Table) -> Walked {
        let (schema, length) = (self.schema, fixed.len() as u32);
        for member in schema.members(table) {
            if member.least_start >= length {
                break;
            }
            if member.start >= length {
                continue;
            }
            let beyond = member.value >= length;
            let cut = match beyond {
                true => fixed[member.start as usize] & member.flag != 0,
                false => member.end > length,
            };
            if cut {
                return self.refuse_member(8, spot.place, u32::from(member.number));
            }
            if !beyond {
                self.member(spot, fixed, member)?;
            }
        }
        Ok(())
    }

    /// A member that is wholly inside.
    fn member(&mut self, spot: Spot, fixed: &'a [u8], member: &Member) -> Walked {
        let value = &fixed[member.value as usize..];
        match member.part {
            Part::Plain => Ok(()),
            Part::Struct(index) if self.struct_holds(fixed, member, index) => Ok(()),
            Part::Struct(_) => self.refuse_member(10, spot.place, u32::from(member.number)),
            Part::Refers(object) => match C::number(value) {
                None | Some(0) => Ok(()),
                Some(place) => self.object(object, place, spot.depth + 1),
            },
            Part::Union(index) => self.union(spot, value, (index, u32::from(member.number))),
            Part::InPlace(object) => match C::number(value) {
                None | Some(0) => Ok(()),
                Some(length) => self.object_in_place(object, spot.behind(fixed), length),
            },
            Part::UnionInPlace(index) => self.union_in_place(index, value, spot.behind(fixed)),
        }
    }

    /// Whether a struct is absent or its bools are 0 or 1.
    #[inline(always)]
    pub fn struct_holds(&self, fixed: &[u8], member: &Member, index: u8) -> bool {
        let absent = member.flag != 0 && fixed[member.start as usize] & member.flag == 0;
        absent || (self.schema).bools_hold(index, &fixed[member.value as usize..])
    }

    /// A union by an offset, with its number in its holder.
    #[inline(always)]
    pub fn union(&mut self, holder: Spot, value: &[u8], (index, number): (u8, u32)) -> Walked {
        let Some((choice, place)) = u16_at(value).zip(C::number(&value[2..])) else {
            return Ok(());
        };
        match self.schema.case(index, choice) {
            None => Ok(()),
            Some(_) if place == 0 => self.refuse_member(9, holder.place, number),
            Some(case) => self.object(case, place, holder.depth + 1),
        }
    }

    /// A union whose object stands in place.
    fn union_in_place(&mut self, index: u8, value: &[u8], spot: Spot) -> Walked {
        let Some((choice, length)) = u16_at(value).zip(C::number(&value[2..])) else {
            return Ok(());
        };
        match self.schema.case(index, choice) {
            None => Ok(()),
            Some(case) => self.object_in_place(case, spot, length),
        }
    }
}
