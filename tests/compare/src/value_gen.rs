//! Random values for a schema.

use crate::rng::Rng;
use crate::schema::*;
use crate::text_gen;
use crate::value::{is_nan, objects, visit, Value};
use std::collections::HashMap;

/// What a value is for.
#[derive(Clone, Copy, Debug, PartialEq, Eq)]
pub enum Purpose {
    /// A sheet that can be written.
    Writable,
    /// A sheet that could be written while unions in place were.
    Stored,
    /// A message laid out at random: unknown numbers and short tables too.
    Wild,
}

/// How large and how deep a value gets.
#[derive(Clone, Copy, Debug)]
pub struct Size {
    /// About how many objects.
    pub objects: usize,
    /// No object is deeper.
    pub depth: u32,
    /// At least one object is this deep, where the schema allows it.
    pub spine: u32,
}

/// The longest way down from every object, at most `CHAIN_CAP`.
struct Chains {
    lists: Vec<u32>,
    tables: Vec<u32>,
}

const CHAIN_CAP: u32 = 40;

impl Chains {
    /// The ways down by members that may be present.
    fn of(schema: &Schema, purpose: Purpose) -> Chains {
        let mut chains = Chains {
            lists: vec![1; schema.lists.len()],
            tables: vec![1; schema.tables.len()],
        };
        for _ in 0..CHAIN_CAP {
            let before = Chains {
                lists: chains.lists.clone(),
                tables: chains.tables.clone(),
            };
            let deeper = |records: &[Record]| {
                let below = records.iter().map(|r| before.below(schema, r)).max();
                (1 + below.unwrap_or(0)).min(CHAIN_CAP)
            };
            for (i, element) in schema.lists.iter().enumerate() {
                chains.lists[i] = deeper(&[*element]);
            }
            for (i, table) in schema.tables.iter().enumerate() {
                let members = table.members.iter().copied();
                let members = members.filter(|member| may_be_present(schema, purpose, member));
                chains.tables[i] = deeper(&members.collect::<Vec<Record>>());
            }
        }
        chains
    }

    /// The longest way down that starts with an entry of this record.
    fn below(&self, schema: &Schema, record: &Record) -> u32 {
        let argument = usize::from(record.argument);
        match record.kind {
            TEXT | BYTES => 1,
            LIST => self.lists[argument],
            TABLE => self.tables[argument],
            DIRECT => (1 + self.tables[argument]).min(CHAIN_CAP),
            UNION => schema.unions[argument]
                .iter()
                .map(|case| self.below(schema, case))
                .max()
                .unwrap_or(0),
            _ => 0,
        }
    }
}

struct Generator<'a> {
    schema: &'a Schema,
    rng: &'a mut Rng,
    purpose: Purpose,
    fuel: i64,
    deepest: u32,
    chains: Chains,
    made: HashMap<(u8, u8), Vec<Value>>,
}

/// An in-place table of no bytes cannot be present in a sheet to write, nor, under 48 bits, a union
/// in place.
fn may_be_present(schema: &Schema, purpose: Purpose, record: &Record) -> bool {
    match (purpose, record.kind) {
        (Purpose::Writable, UNION) => schema.coding.is_older() || !record.in_place,
        (Purpose::Writable | Purpose::Stored, TABLE) => {
            !record.in_place || schema.slots(record.argument).1 > 0
        }
        _ => true,
    }
}

/// A random root value.
pub fn root_value(schema: &Schema, rng: &mut Rng, purpose: Purpose, size: Size) -> Value {
    let mut generator = Generator {
        schema,
        rng,
        purpose,
        fuel: size.objects as i64,
        deepest: size.depth,
        chains: Chains::of(schema, purpose),
        made: HashMap::new(),
    };
    let root = Record::plain(TABLE, schema.root);
    generator.object(&root, 1, size.spine, false)
}

/// A random size, mostly small.
pub fn some_size(rng: &mut Rng) -> Size {
    let objects = match rng.below(20) {
        0 => rng.range(40, 200),
        1..=8 => rng.range(10, 40),
        _ => rng.range(1, 12),
    };
    let spine = match rng.below(12) {
        0 => rng.range(28, 32) as u32,
        1 => rng.range(2, 31) as u32,
        _ => 1,
    };
    Size {
        objects,
        depth: DEPTH_LIMIT,
        spine,
    }
}

impl Generator<'_> {
    fn wild(&self) -> bool {
        self.purpose == Purpose::Wild
    }

    /// An object of a record's kind. `filled` asks for a length above 0.
    fn object(&mut self, record: &Record, depth: u32, spine: u32, filled: bool) -> Value {
        let key = (record.kind, record.argument);
        if spine <= 1 && self.rng.one_in(6) {
            if let Some(value) = self.made_before(key, depth, filled) {
                return value;
            }
        }
        self.fuel -= 1;
        let value = match record.kind {
            TEXT => Value::Blob(self.text(filled)),
            BYTES => Value::Blob(self.blob(filled)),
            LIST => self.list(record.argument, depth, spine, filled),
            DIRECT => self.direct(record.argument, depth, spine),
            _ => self.table(record.argument, depth, spine, filled),
        };
        let made = self.made.entry(key).or_default();
        if made.len() < 8 {
            made.push(value.clone());
        }
        value
    }

    /// A copy of an object made before, so that a layout may share it.
    fn made_before(&mut self, key: (u8, u8), depth: u32, filled: bool) -> Option<Value> {
        let made = self.made.get(&key)?;
        let value = made[self.rng.below(made.len())].clone();
        let empty = match &value {
            Value::Blob(bytes) => bytes.is_empty(),
            Value::List(parts) => parts.is_empty(),
            _ => filled,
        };
        let fits = depth + crate::value::depth(&value) <= self.deepest + 1;
        let count = objects(&value) as i64;
        if (filled && empty) || !fits || count > self.fuel.max(1) {
            return None;
        }
        self.fuel -= count;
        Some(value)
    }

    fn text(&mut self, filled: bool) -> Vec<u8> {
        let length = text_gen::some_length(self.rng);
        text_gen::text(self.rng, length.max(usize::from(filled)))
    }

    fn blob(&mut self, filled: bool) -> Vec<u8> {
        let length = match self.rng.below(12) {
            0 => self.rng.range(20, 300),
            1..=3 => 0,
            _ => self.rng.range(1, 12),
        };
        let length = length.max(usize::from(filled));
        match self.rng.below(4) {
            0 => vec![0; length],
            1 => b"seat"[..].iter().copied().cycle().take(length).collect(),
            _ => self.rng.bytes(length),
        }
    }

    fn list(&mut self, index: u8, depth: u32, spine: u32, filled: bool) -> Value {
        let element = self.schema.lists[usize::from(index)];
        let below = self.chains.below(self.schema, &element);
        let needed = spine > 1 && below >= spine - 1;
        let least = usize::from(filled || needed);
        let most = if element.kind < TEXT { 40 } else { 12 };
        let count = self.rng.small(most).max(least);
        if !needed && element.is_object() && self.rng.one_in(60) {
            return self.one_over_and_over(&element, depth);
        }
        let forced = needed.then(|| self.rng.below(count));
        let mut parts: Vec<Value> = Vec::new();
        for i in 0..count {
            let part = if forced == Some(i) {
                self.forced(&element, depth, spine - 1)
            } else if i > 0 && self.rng.one_in(5) && forced != Some(i - 1) {
                self.repeated(&parts[i - 1])
            } else {
                self.entry(&element, depth, true)
            };
            parts.push(part);
        }
        Value::List(parts)
    }

    /// A list that names one object many times.
    fn one_over_and_over(&mut self, element: &Record, depth: u32) -> Value {
        let part = self.entry(element, depth, true);
        let most = 400 / objects(&part).max(1);
        let count = self.rng.range(1, most.max(2));
        Value::List(vec![part; count])
    }

    fn repeated(&mut self, value: &Value) -> Value {
        let count = objects(value) as i64;
        self.fuel -= count;
        if count > 0 && self.fuel < -100 {
            Value::Absent
        } else {
            value.clone()
        }
    }

    /// A direct list: all its elements have one size.
    fn direct(&mut self, index: u8, depth: u32, spine: u32) -> Value {
        let (slots, full) = self.schema.slots(index);
        let needed = spine > 1;
        let length = match self.rng.below(10) {
            0 if self.wild() && !needed => 0,
            1..=3 if self.wild() && !needed => self.shorter(&slots, full, false),
            _ => full,
        };
        let least = usize::from(needed);
        let count = match self.rng.below(6) {
            _ if depth >= self.deepest && !needed => 0,
            0 if length == 0 => self.rng.range(30, 300),
            _ => self.rng.small(8).min(self.fuel.max(1) as usize).max(least),
        };
        let forced = needed.then(|| self.rng.below(count));
        let mut parts: Vec<Value> = Vec::new();
        for i in 0..count {
            self.fuel -= 1;
            let spine = if forced == Some(i) { spine - 1 } else { 1 };
            parts.push(self.fixed_part(index, depth + 1, spine, length));
        }
        Value::List(parts)
    }

    fn table(&mut self, index: u8, depth: u32, spine: u32, filled: bool) -> Value {
        let (slots, full) = self.schema.slots(index);
        let length = if self.wild() && spine <= 1 && self.rng.one_in(5) {
            self.shorter(&slots, full, filled)
        } else {
            full
        };
        self.fixed_part(index, depth, spine, length)
    }

    /// A table with a fixed part of this length.
    fn fixed_part(&mut self, index: u8, depth: u32, spine: u32, length: usize) -> Value {
        let schema = self.schema;
        let members = &schema.tables[usize::from(index)].members;
        let (slots, _) = schema.slots(index);
        let forced = self.spine_member(members, spine);
        let mut parts = Vec::new();
        for (i, member) in members.iter().enumerate() {
            parts.push(if slots[i].reach(length) != Reach::Inside {
                Value::Absent
            } else if forced == Some(i) {
                self.forced(member, depth, spine - 1)
            } else {
                self.entry(member, depth, false)
            });
        }
        Value::Table(parts)
    }

    /// A length of the fixed part that cuts no member.
    fn shorter(&mut self, slots: &[Slot], full: usize, filled: bool) -> usize {
        let fine = |length: usize| slots.iter().all(|s| s.reach(length) != Reach::Cut);
        let mut lengths: Vec<usize> = slots
            .iter()
            .flat_map(|s| [s.start(), s.first()])
            .filter(|&length| fine(length) && !(filled && length == 0))
            .collect();
        lengths.push(full);
        self.rng.pick(&lengths)
    }

    fn spine_member(&mut self, members: &[Record], spine: u32) -> Option<usize> {
        if spine <= 1 {
            return None;
        }
        let fitting: Vec<usize> = (0..members.len())
            .filter(|&i| {
                let chain = self.chains.below(self.schema, &members[i]);
                chain >= spine - 1 && self.may_be_present(&members[i])
            })
            .collect();
        (!fitting.is_empty()).then(|| self.rng.pick(&fitting))
    }

    fn may_be_present(&self, record: &Record) -> bool {
        may_be_present(self.schema, self.purpose, record)
    }

    /// A present object with at least `spine` objects on one way down.
    fn forced(&mut self, record: &Record, depth: u32, spine: u32) -> Value {
        if record.kind != UNION {
            return self.object(record, depth + 1, spine, record.in_place);
        }
        let cases = &self.schema.unions[usize::from(record.argument)];
        let fitting: Vec<usize> = (0..cases.len())
            .filter(|&i| self.chains.below(self.schema, &cases[i]) >= spine)
            .collect();
        let choice = self.rng.pick(&fitting);
        let object = self.object(&cases[choice], depth + 1, spine, false);
        Value::Union(choice as u16 + 1, Box::new(object))
    }

    /// A table member or an element.
    fn entry(&mut self, record: &Record, depth: u32, element: bool) -> Value {
        match record.kind {
            0..=ENUM => self.scalar(record, element),
            STRUCT if record.optional && self.rng.one_in(3) => Value::Absent,
            STRUCT => self.structure(record.argument),
            _ => {
                let room = depth < self.deepest && self.fuel > 0;
                if record.kind == UNION && self.wild() && self.rng.one_in(5) {
                    return self.unknown_choice(record);
                }
                if !room || self.rng.one_in(5) || !self.may_be_present(record) {
                    return Value::Absent;
                }
                if record.kind == UNION {
                    return self.union(record, depth);
                }
                self.object(record, depth + 1, 1, record.in_place)
            }
        }
    }

    fn union(&mut self, record: &Record, depth: u32) -> Value {
        let cases = &self.schema.unions[usize::from(record.argument)];
        let choice = self.rng.below(cases.len());
        let object = self.object(&cases[choice], depth + 1, 1, false);
        Value::Union(choice as u16 + 1, Box::new(object))
    }

    fn unknown_choice(&mut self, record: &Record) -> Value {
        let cases = self.schema.unions[usize::from(record.argument)].len();
        Value::Unknown(unknown_choice(self.rng, cases))
    }

    fn scalar(&mut self, record: &Record, element: bool) -> Value {
        let may_be_absent = record.optional || (element && record.is_float());
        if may_be_absent && self.rng.one_in(3) {
            return Value::Absent;
        }
        match record.kind {
            BOOL => Value::Bool(self.rng.coin()),
            ENUM => self.enumeration(record),
            F32 | F64 => Value::Number(float_bits(self.rng, record, !may_be_absent)),
            _ => Value::Number(self.rng.number(record.width())),
        }
    }

    fn enumeration(&mut self, record: &Record) -> Value {
        let count = usize::from(record.argument);
        match self.rng.below(5) {
            0 => Value::Absent,
            1 if self.wild() && count < 255 => {
                Value::Unknown(unknown_enum(self.rng, record.argument))
            }
            2 => Value::Number(count as u64 - 1),
            _ => Value::Number(self.rng.below(count) as u64),
        }
    }

    fn structure(&mut self, index: u8) -> Value {
        let schema = self.schema;
        let parts = schema.structs[usize::from(index)]
            .iter()
            .map(|member| match member.kind {
                STRUCT => self.structure(member.argument),
                _ => self.scalar(member, false),
            })
            .collect();
        Value::Struct(parts)
    }
}

/// The value with one of its texts no text, or several; `None` where it has none.
pub fn with_bad_texts(schema: &Schema, rng: &mut Rng, value: &Value) -> Option<Value> {
    let root = Record::plain(TABLE, schema.root);
    let a_text = |record: &Record, entry: &Value| {
        let present = matches!(entry, Value::Blob(_));
        record.kind == TEXT && present
    };
    let mut out = value.clone();
    let mut texts = 0;
    visit(schema, &root, &mut out, &mut |_, record, entry| {
        texts += usize::from(a_text(record, entry));
    });
    if texts == 0 {
        return None;
    }
    // Mostly one; else each with the same chance, the chosen one too.
    let (chosen, more) = (rng.below(texts), rng.one_in(4));
    let mut number = 0;
    visit(schema, &root, &mut out, &mut |_, record, entry| {
        if a_text(record, entry) {
            if number == chosen || more && rng.one_in(3) {
                *entry = Value::Blob(text_gen::no_text(rng));
            }
            number += 1;
        }
    });
    Some(out)
}

/// A choice above the case count.
pub fn unknown_choice(rng: &mut Rng, cases: usize) -> u16 {
    match rng.below(3) {
        0 => cases as u16 + 1,
        1 => u16::MAX,
        _ => rng.range(cases + 1, 65535) as u16,
    }
}

/// A number that an enum of `count` values does not know; `count` is below 255.
pub fn unknown_enum(rng: &mut Rng, count: u8) -> u16 {
    match rng.below(3) {
        0 => u16::from(count),
        1 => 254,
        _ => rng.range(usize::from(count), 254) as u16,
    }
}

/// Bits of a float, never a NaN unless `nan` allows it.
pub fn float_bits(rng: &mut Rng, record: &Record, nan: bool) -> u64 {
    if nan && rng.one_in(4) {
        return nan_bits(rng, record);
    }
    let small = record.kind == F32;
    let bits = match rng.below(8) {
        0 => 0,
        1 if small => 0x8000_0000,
        1 => 1 << 63,
        2 if small => u64::from(f32::INFINITY.to_bits()),
        2 => f64::NEG_INFINITY.to_bits(),
        3 => 1,
        _ => rng.number(record.width()),
    };
    if is_nan(record, bits) {
        0
    } else {
        bits
    }
}

/// Bits of a NaN: quiet or signalling, of either sign, with any payload.
pub fn nan_bits(rng: &mut Rng, record: &Record) -> u64 {
    let (high, low) = if record.kind == F32 {
        (0x7F80_0000, 23)
    } else {
        (0x7FF0_0000_0000_0000, 52)
    };
    let payload = match rng.below(4) {
        0 => 1,
        1 => 1 << (low - 1),
        2 => (1 << low) - 1,
        _ => (rng.bits() & ((1 << low) - 1)) | 1,
    };
    let sign = u64::from(rng.coin()) << (record.width() - 1);
    sign | high | payload
}
