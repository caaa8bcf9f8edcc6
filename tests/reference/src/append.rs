//! When one schema appends to another, and the sheets between the two.

use crate::bits::{BitReader, BitWriter};
use crate::plan::{plan, Plan};
use crate::schema::{Kind, Member, Record, Schema, Table, Target};
use crate::sheet::{ABSENT, PRESENT, UNKNOWN};

/// Both lawful under the coding, and the newer appends to the older. "no claim
/// joins the two" codings.
pub fn appends(coding: u32, older: &[u8], newer: &[u8]) -> bool {
    parse_both(coding, older, newer).is_some()
}

/// The newer sheet without the appended members, from that sheet and the two
/// schemas alone. None unless the newer appends to the older and the sheet is
/// a lawful sheet under the newer. Its length is not judged.
pub fn without_appended(coding: u32, older: &[u8], newer: &[u8], sheet: &[u8]) -> Option<Vec<u8>> {
    let (older, newer) = parse_both(coding, older, newer)?;
    Transfer::run(&newer, &older, sheet)
}

/// The older sheet with the added members. None unless the newer appends to
/// the older and the sheet is a lawful sheet under the older. Its length is
/// not judged.
pub fn with_added(coding: u32, older: &[u8], newer: &[u8], sheet: &[u8]) -> Option<Vec<u8>> {
    let (older, newer) = parse_both(coding, older, newer)?;
    Transfer::run(&older, &newer, sheet)
}

/// Both schemas, where both are lawful and the newer appends to the older.
fn parse_both(coding: u32, older: &[u8], newer: &[u8]) -> Option<(Schema, Schema)> {
    let older = Schema::parse(coding, older)?;
    let newer = Schema::parse(coding, newer)?;
    schema_appends(&older, &newer).then_some((older, newer))
}

/// "Same root index. Every struct, list, union and table of the older has the
/// same index and id in the newer; unions may have cases after the old ones,
/// tables members after the old ones, structs none, any enum a larger count;
/// no other old bit differs, the counts of what was added aside."
fn schema_appends(older: &Schema, newer: &Schema) -> bool {
    let structs = starts_with(&older.structs, &newer.structs, |old, new| {
        old.members.len() == new.members.len()
            && starts_with(&old.members, &new.members, |old, new| {
                same_kind(old.kind, new.kind)
            })
    });
    let lists = starts_with(&older.lists, &newer.lists, |&old, &new| same_kind(old, new));
    let unions = starts_with(&older.unions, &newer.unions, |old, new| {
        starts_with(old, new, |old, new| old == new)
    });
    let tables = starts_with(&older.tables, &newer.tables, |old, new| {
        old.id == new.id
            && starts_with(&old.members, &new.members, |old, new| {
                same_record(&old.record, &new.record)
            })
    });
    older.root == newer.root && structs && lists && unions && tables
}

/// The newer has all of the older in the same places, and perhaps more.
fn starts_with<T>(older: &[T], newer: &[T], same: impl Fn(&T, &T) -> bool) -> bool {
    older.len() <= newer.len() && older.iter().zip(newer).all(|(old, new)| same(old, new))
}

fn same_record(old: &Record, new: &Record) -> bool {
    old.optional == new.optional && old.in_place == new.in_place && same_kind(old.kind, new.kind)
}

/// "any enum a larger count": at least the old one.
fn same_kind(old: Kind, new: Kind) -> bool {
    match (old, new) {
        (Kind::Enum { count: old }, Kind::Enum { count: new }) => new >= old,
        _ => old == new,
    }
}

/// Carries a lawful sheet from one schema to the other. One of the two appends
/// to the other; which one is which shows in what is longer.
struct Transfer<'a> {
    from: &'a Schema,
    to: &'a Schema,
    sheet: BitReader<'a>,
    out: BitWriter,
}

impl<'a> Transfer<'a> {
    fn run(from: &'a Schema, to: &'a Schema, sheet: &'a [u8]) -> Option<Vec<u8>> {
        plan(from, sheet)?;
        let mut transfer = Transfer {
            from,
            to,
            sheet: BitReader::new(sheet),
            out: BitWriter::with_limit(u64::MAX),
        };
        transfer.table(from.root)?;
        Some(transfer.out.finish())
    }

    fn put(&mut self, value: u64, width: u32) -> Option<()> {
        self.out.put(value, width).ok()
    }

    /// Carries bits over as they are.
    fn copy(&mut self, mut bits: u64) -> Option<()> {
        while bits > 0 {
            let width = bits.min(32) as u32;
            let value = self.sheet.take(width)?;
            self.put(value, width)?;
            bits -= u64::from(width);
        }
        Some(())
    }

    /// "every table in it loses the entries after its old ones", or "every
    /// table gets their entries".
    fn table(&mut self, index: u8) -> Option<()> {
        let (from, to) = (self.from.table(index), self.to.table(index));
        for (number, member) in from.members.iter().enumerate() {
            match to.members.get(number) {
                Some(kept) => self.entry(member.record.kind, kept.record.kind)?,
                None => self.drop_entry(member)?,
            }
        }
        for member in to.members.iter().skip(from.members.len()) {
            self.add_entry(member, from)?;
        }
        Some(())
    }

    /// Passes over an entry. The sheet is lawful, so the depth is no matter.
    fn drop_entry(&mut self, member: &Member) -> Option<()> {
        let mut plan = Plan::at(self.from, self.sheet.clone());
        let record = &member.record;
        plan.entry(record.kind, !record.optional, record.in_place, 0)?;
        self.sheet = plan.sheet;
        Some(())
    }

    /// "absent, but a plain bool whose bit falls in the older's full fixed
    /// part (a byte already written) is present and false".
    fn add_entry(&mut self, member: &Member, older: &Table) -> Option<()> {
        let plain_bool = member.record.kind == Kind::Bool && !member.record.optional;
        if plain_bool && member.slot.offset < older.size {
            return self.put(PRESENT << 1, 3);
        }
        self.put(ABSENT, 2)
    }

    /// One entry with its mark, of the kinds it has on either side.
    fn entry(&mut self, from: Kind, to: Kind) -> Option<()> {
        let mark = self.sheet.take(2)?;
        match (mark, from, to) {
            (ABSENT, _, _) => self.put(ABSENT, 2),
            (_, Kind::Enum { .. }, Kind::Enum { count }) => {
                // "a present enum at or above its old count ... becomes
                // unknown with its number". An unknown one stays.
                let number = self.sheet.take(8)?;
                let known = mark == PRESENT && number < u64::from(count);
                self.put(if known { PRESENT } else { UNKNOWN }, 2)?;
                self.put(number, 8)
            }
            (PRESENT, Kind::Union(index), _) => self.union(index),
            (_, Kind::Union(_), _) => {
                self.put(mark, 2)?;
                self.copy(16)
            }
            _ => {
                self.put(mark, 2)?;
                self.value(from)
            }
        }
    }

    /// A present value that is the same on either side, its parts aside.
    fn value(&mut self, kind: Kind) -> Option<()> {
        match kind {
            Kind::Bool => self.copy(1),
            Kind::Integer { bytes, .. } | Kind::Float { bytes } => self.copy(u64::from(bytes) * 8),
            Kind::Struct(index) => self.structure(index),
            Kind::Object(target) => self.object(target),
            // Enums and unions are carried with their marks.
            Kind::Enum { .. } | Kind::Union(_) => None,
        }
    }

    /// A present union: "union choice above the old cases, becomes unknown
    /// with its number, a union's object left out".
    fn union(&mut self, index: u8) -> Option<()> {
        let choice = self.sheet.take(16)?;
        let target = self.from.case(index, choice)?;
        if self.to.case(index, choice).is_none() {
            self.put(UNKNOWN << 16 | choice, 18)?;
            let mut plan = Plan::at(self.from, self.sheet.clone());
            plan.case(target, false, 0)?;
            self.sheet = plan.sheet;
            return Some(());
        }
        self.put(PRESENT << 16 | choice, 18)?;
        self.object(target)
    }

    fn object(&mut self, target: Target) -> Option<()> {
        match target {
            Target::Text | Target::Bytes => {
                let length = self.sheet.take(32)?;
                self.put(length, 32)?;
                self.copy(length * 8)
            }
            Target::List(index) => {
                let count = self.sheet.take(32)?;
                self.put(count, 32)?;
                let (from, to) = (self.from.element(index), self.to.element(index));
                match from {
                    Kind::Bool => self.copy(count),
                    Kind::Integer { bytes, .. } => self.copy(count * u64::from(bytes) * 8),
                    _ => (0..count).try_for_each(|_| self.entry(from, to)),
                }
            }
            Target::Table(index) => self.table(index),
            Target::Direct(index) => {
                let count = self.sheet.take(32)?;
                self.put(count, 32)?;
                (0..count).try_for_each(|_| self.table(index))
            }
        }
    }

    /// A struct has the same members on either side; its enums have marks.
    fn structure(&mut self, index: u8) -> Option<()> {
        let (from, to) = (self.from.structure(index), self.to.structure(index));
        for (member, kept) in from.members.iter().zip(&to.members) {
            match member.kind {
                Kind::Enum { .. } => self.entry(member.kind, kept.kind)?,
                kind => self.value(kind)?,
            }
        }
        Some(())
    }
}
