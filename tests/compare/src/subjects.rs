//! Messages to be judged, each with the schema it is judged by.

use crate::append_gen;
use crate::canonical::{self, MESSAGE_MAGIC};
use crate::coding::Coding;
use crate::damage;
use crate::direct_damage;
use crate::message_faults;
use crate::message_gen::{self, Arrival, Wild};
use crate::rng::Rng;
use crate::schema::{Packed, Schema, DEPTH_LIMIT, DIRECT};
use crate::schema_faults;
use crate::schema_gen;
use crate::value::{was_writable, Value};
use crate::value_gen::{self, Purpose, Size};

/// How a message and its schema were made.
#[derive(Clone, Copy, Debug, PartialEq, Eq, PartialOrd, Ord)]
pub enum Sort {
    /// Written as the writer would, or would have while unions in place were written.
    Written,
    /// Laid out at random: shared, overlapping, shorter and longer tables.
    Wild,
    /// Laid out at random with a text that is none, or several.
    NoText,
    /// Laid out at random with one fault.
    Faulty,
    /// Damaged after it was laid out.
    Damaged,
    /// A direct list got another magic.
    DirectMagic,
    /// A direct list got another table's id, or none's.
    DirectId,
    /// A direct list got a count over 4,294,967,295.
    DirectCountOver,
    /// A direct list got another count.
    DirectCount,
    /// The elements of a direct list got no bytes.
    DirectNoSize,
    /// They got a size that ends in the middle of a member, if one is so large.
    DirectCutSize,
    /// They got the schema's size.
    DirectFullSize,
    /// They got a size somewhat larger than the schema's.
    DirectLongerSize,
    /// They got a size that is far too large.
    DirectLargeSize,
    /// Cut to a few bytes, or without its magic.
    BadStart,
    /// Random bytes after a start that is in order, or from the first byte.
    Random,
    /// Judged by a schema that appends to its own, or nearly, or that its own
    /// appends to.
    OtherSchema,
    /// Judged by a damaged schema, which may still be lawful.
    DamagedSchema,
    /// Judged by a schema with one rule broken.
    BrokenSchema,
    /// A schema and a message made for the other coding.
    OtherCoding,
    /// Judged under a number that is no coding's.
    NoCoding,
}

/// The sorts with one number of a direct list's header changed.
pub const DIRECT_SORTS: [Sort; 9] = [
    Sort::DirectMagic,
    Sort::DirectId,
    Sort::DirectCountOver,
    Sort::DirectCount,
    Sort::DirectNoSize,
    Sort::DirectCutSize,
    Sort::DirectFullSize,
    Sort::DirectLongerSize,
    Sort::DirectLargeSize,
];

/// Every sort.
pub const SORTS: [Sort; 21] = [
    Sort::Written,
    Sort::Wild,
    Sort::NoText,
    Sort::Faulty,
    Sort::Damaged,
    Sort::DirectMagic,
    Sort::DirectId,
    Sort::DirectCountOver,
    Sort::DirectCount,
    Sort::DirectNoSize,
    Sort::DirectCutSize,
    Sort::DirectFullSize,
    Sort::DirectLongerSize,
    Sort::DirectLargeSize,
    Sort::BadStart,
    Sort::Random,
    Sort::OtherSchema,
    Sort::DamagedSchema,
    Sort::BrokenSchema,
    Sort::OtherCoding,
    Sort::NoCoding,
];

/// A message and the schema it is judged by.
#[derive(Clone, Debug)]
pub struct Subject {
    pub sort: Sort,
    pub schema: Packed,
    pub message: Vec<u8>,
}

/// What the subjects of one round are made from.
struct Maker {
    schema: Schema,
    packed: Packed,
    subjects: Vec<Subject>,
}

/// The subjects of one random schema and value.
pub fn of_round(coding: Coding, rng: &mut Rng) -> Vec<Subject> {
    let schema = some_schema(coding, rng, 10);
    let value = some_value(rng, &schema, 12);
    let mut maker = Maker {
        packed: schema.pack(),
        schema,
        subjects: Vec::new(),
    };
    maker.sound_and_damaged(rng, &value);
    maker.starts(rng);
    maker.random(rng);
    maker.other_schemas(rng);
    maker.other_codings(rng);
    maker.subjects
}

/// A lawful schema; once in `recursive` times one whose tables lead back to themselves.
pub fn some_schema(coding: Coding, rng: &mut Rng, recursive: usize) -> Schema {
    if rng.one_in(recursive) {
        schema_gen::recursive(coding, rng)
    } else {
        schema_gen::lawful_schema(coding, rng)
    }
}

/// A schema made for the other coding than this one, under which it may not be lawful.
pub fn made_for_the_other(coding: Coding, rng: &mut Rng) -> (Schema, Packed) {
    let schema = some_schema(coding.other(), rng, 10);
    let packed = Packed::new(coding, schema.pack().bytes());
    (schema, packed)
}

/// A number that is no coding's, near one that is or far from it.
pub fn no_coding(rng: &mut Rng) -> u32 {
    let number = match rng.below(3) {
        0 => rng.pick(&[0, 16, 31, 33, 47, 49, 64, u32::MAX]),
        1 => rng.pick(&[32, 48]) ^ 1 << rng.below(32),
        _ => rng.bits() as u32,
    };
    match Coding::of(number) {
        Some(_) => 0,
        None => number,
    }
}

/// A value; once in `deep` times one that is as deep as may be, or too deep.
pub fn some_value(rng: &mut Rng, schema: &Schema, deep: usize) -> Value {
    let mut size = value_gen::some_size(rng);
    if rng.one_in(deep) {
        let depth = DEPTH_LIMIT + rng.range(0, 2) as u32;
        size = Size {
            objects: size.objects,
            depth,
            spine: depth,
        };
    }
    let purpose = rng.pick(&[Purpose::Stored, Purpose::Wild, Purpose::Wild]);
    value_gen::root_value(schema, rng, purpose, size)
}

impl Maker {
    fn add(&mut self, sort: Sort, message: Vec<u8>) {
        let schema = self.packed.clone();
        self.subjects.push(Subject {
            sort,
            schema,
            message,
        });
    }

    fn add_by(&mut self, sort: Sort, schema: Packed, message: Vec<u8>) {
        self.subjects.push(Subject {
            sort,
            schema,
            message,
        });
    }

    /// The value as messages, without and with one fault, and damaged.
    fn sound_and_damaged(&mut self, rng: &mut Rng, value: &Value) {
        if was_writable(&self.schema, value) {
            let message = canonical::message(&self.schema, value);
            self.add(Sort::Written, message);
        }
        let whole = message_gen::lay_out(&self.schema, rng, value.clone(), None);
        self.damaged(rng, &whole, 5);
        self.direct_lists(rng, &whole);
        for _ in 0..2 {
            let fault = message_faults::choose(&self.schema, rng, value);
            let faulty = message_gen::lay_out(&self.schema, rng, value.clone(), Some(fault));
            self.damaged(rng, &faulty, 1);
            self.add(Sort::Faulty, faulty.bytes);
        }
        self.add(Sort::Wild, whole.bytes);
        if let Some(value) = value_gen::with_bad_texts(&self.schema, rng, value) {
            self.no_texts(rng, &value);
        }
    }

    /// A value with a text that is none as messages, without and with one fault, and
    /// damaged.
    fn no_texts(&mut self, rng: &mut Rng, value: &Value) {
        let whole = message_gen::lay_out(&self.schema, rng, value.clone(), None);
        self.damaged(rng, &whole, 1);
        self.add(Sort::NoText, whole.bytes);
        let fault = message_faults::choose(&self.schema, rng, value);
        let faulty = message_gen::lay_out(&self.schema, rng, value.clone(), Some(fault));
        self.add(Sort::Faulty, faulty.bytes);
    }

    fn damaged(&mut self, rng: &mut Rng, wild: &Wild, times: usize) {
        for _ in 0..times {
            let bytes = damage::message(self.schema.coding, rng, wild);
            self.add(Sort::Damaged, bytes);
        }
    }

    /// A direct list of the message with one number of its header changed.
    fn direct_lists(&mut self, rng: &mut Rng, wild: &Wild) {
        let lists: Vec<&Arrival> = (wild.arrivals.iter())
            .filter(|arrival| arrival.kind == DIRECT)
            .collect();
        if lists.is_empty() {
            return;
        }
        for _ in 0..6 {
            let sort = rng.pick(&DIRECT_SORTS);
            let list = lists[rng.below(lists.len())];
            let message = direct_damage::changed(&self.schema, rng, wild, list, sort);
            self.add(sort, message);
        }
    }

    /// One of the messages made so far.
    fn earlier(&self, rng: &mut Rng) -> Vec<u8> {
        self.subjects[rng.below(self.subjects.len())]
            .message
            .clone()
    }

    fn starts(&mut self, rng: &mut Rng) {
        let mut message = self.earlier(rng);
        let header = self.schema.coding.header();
        if rng.coin() || message.len() < header {
            message.truncate(rng.range(0, header + 1));
        } else {
            let bit = rng.below(32);
            message[bit / 8] ^= 1 << (bit % 8);
        }
        self.add(Sort::BadStart, message);
    }

    fn random(&mut self, rng: &mut Rng) {
        let root = &self.schema.tables[usize::from(self.schema.root)];
        let coding = self.schema.coding;
        let mut message = Vec::new();
        if !rng.one_in(8) {
            message.extend_from_slice(&MESSAGE_MAGIC.to_le_bytes());
            message.extend(coding.bytes(coding.header() as u64));
            message.extend_from_slice(&root.id.to_le_bytes());
            message.extend(coding.bytes(rng.small(60) as u64));
        }
        let count = rng.range(0, 80);
        let sparse = rng.coin();
        for _ in 0..count {
            let byte = rng.bits() as u8;
            message.push(if sparse && byte >= 64 { 0 } else { byte });
        }
        self.add(Sort::Random, message);
    }

    fn other_schemas(&mut self, rng: &mut Rng) {
        let message = self.earlier(rng);
        let newer = append_gen::newer(rng, &self.schema);
        let value = some_value(rng, &newer, 12);
        let by_older = message_gen::lay_out(&newer, rng, value, None).bytes;
        self.add(Sort::OtherSchema, by_older);
        let other = if rng.coin() {
            newer
        } else {
            append_gen::near_miss(rng, &self.schema)
        };
        self.add_by(Sort::OtherSchema, other.pack(), message);
        self.unlawful_schemas(rng);
    }

    /// Schemas of which most are not lawful; damage to few bits leaves some.
    fn unlawful_schemas(&mut self, rng: &mut Rng) {
        let message = self.earlier(rng);
        let schema = schema_faults::damaged(rng, &self.packed);
        self.add_by(Sort::DamagedSchema, schema, message);
        let message = self.earlier(rng);
        let mut bytes = self.packed.bytes().to_vec();
        let at = rng.below(bytes.len());
        bytes[at] ^= 1 << rng.below(8);
        self.add_by(Sort::DamagedSchema, self.packed.with(bytes), message);
        let message = self.earlier(rng);
        let coding = self.schema.coding;
        let rule = rng.pick(schema_faults::rules(coding));
        let schema = schema_faults::breaking(coding, rng, rule);
        self.add_by(Sort::BrokenSchema, schema, message);
    }

    /// A schema and a message of the other coding; now and then a number that is no coding's.
    fn other_codings(&mut self, rng: &mut Rng) {
        let (schema, packed) = made_for_the_other(self.schema.coding, rng);
        let value = some_value(rng, &schema, 12);
        let message = message_gen::lay_out(&schema, rng, value, None).bytes;
        self.add_by(Sort::OtherCoding, packed, message);
        if rng.one_in(8) {
            let schema = self.packed.under(no_coding(rng));
            let message = self.earlier(rng);
            self.add_by(Sort::NoCoding, schema, message);
        }
    }
}
