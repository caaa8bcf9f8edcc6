//! The message's bytes: what one arrival judges, and where a member or an
//! element leads.

use crate::coding::Coding;
use crate::schema::{Kind, Member, Schema, Target};
use crate::utf8;

/// "Message and sheet: at most 16,777,215 bytes each."
pub const SIZE: usize = 16_777_215;
/// "Depth: 32 objects, the root being 1".
pub const DEPTH: u32 = 32;

pub const MESSAGE_MAGIC: u32 = 0xB5C0_C4B3;
const TEXT_MAGIC: u32 = 0xD812_C8F5;
const BYTES_MAGIC: u32 = 0xDCDB_BE10;
const LIST_MAGIC: u32 = 0x3400_BB46;
const DIRECT_MAGIC: u32 = 0xE2C6_CC05;

/// A direct list's header: "magic 0xE2C6CC05, U48 count, U32 table id, U32
/// size, then the elements without headers, 18 bytes before the first".
pub const DIRECT_HEADER: usize = 18;
/// Where the table id and the size stand in it.
pub const DIRECT_ID: usize = 10;
pub const DIRECT_SIZE: usize = 14;
/// "a count over 4,294,967,295 is 6"
const DIRECT_COUNT: u64 = 4_294_967_295;

/// "Enum byte 255 is no value, everywhere."
pub const NO_ENUM: u8 = 255;

/// "a text's end byte and every other answer carry 4,294,967,295"
pub const NO_MEMBER: u32 = 4_294_967_295;

/// A refusal: its number, its place and its member.
#[derive(Clone, Copy, Debug, PartialEq, Eq)]
pub struct Refusal {
    pub number: u32,
    pub place: u64,
    pub member: u32,
}

impl Refusal {
    /// A refusal of no member.
    pub fn new(number: u32, place: u64) -> Refusal {
        let member = NO_MEMBER;
        Refusal {
            number,
            place,
            member,
        }
    }

    /// "Refusals 8, 9 and 10 shall carry the member's or element's number in
    /// its holder, counted from 0": each stands at that holder.
    pub fn of_member(number: u32, holder: &Object, member: u32) -> Refusal {
        let place = holder.place;
        Refusal {
            number,
            place,
            member,
        }
    }
}

/// Where an object is said to be, before it is judged.
#[derive(Clone, Copy, Debug, PartialEq, Eq)]
pub enum Spot {
    /// The offset as stored.
    Offset(u64),
    /// Content without magic and length: behind its table's fixed part, or an
    /// element of a direct list.
    InPlace { start: usize, length: u64 },
}

impl Spot {
    /// "An object's place is its offset as stored, or where its in-place
    /// content starts." A direct list's element is "placed at its first byte".
    pub fn place(&self) -> u64 {
        match *self {
            Spot::Offset(offset) => offset,
            Spot::InPlace { start, .. } => start as u64,
        }
    }
}

/// An object judged at its arrival: its content lies inside the message.
#[derive(Clone, Copy, Debug, PartialEq, Eq)]
pub struct Object {
    pub target: Target,
    pub place: u64,
    /// Where its content starts.
    pub start: usize,
    /// Bytes, elements or fixed-part bytes.
    pub length: usize,
    /// The bytes of each element of a direct list; 0 of any other object.
    pub size: usize,
}

impl Object {
    /// Where a table's fixed part ends: its in-place content starts there. A
    /// text's end byte stands there.
    pub fn end(&self) -> usize {
        self.start + self.length
    }

    /// An element of a direct list: "The size comes from the message".
    pub fn direct_element(&self, number: usize) -> Spot {
        Spot::InPlace {
            start: self.start + number * self.size,
            length: self.size as u64,
        }
    }
}

/// Where a reference or a union leads.
#[derive(Clone, Copy, Debug, PartialEq, Eq)]
pub enum Lead {
    Absent,
    /// A union's unknown choice.
    Unknown(u16),
    /// An object; with the choice where it is a union's.
    Object {
        choice: Option<u16>,
        target: Target,
        spot: Spot,
    },
}

/// Bytes that the caller knows to be inside the message.
#[inline]
fn bytes_at<const N: usize>(message: &[u8], at: usize) -> [u8; N] {
    let mut bytes = [0; N];
    bytes.copy_from_slice(&message[at..at + N]);
    bytes
}

/// A little-endian number of 1, 2, 4 or 8 bytes.
#[inline]
pub fn number(message: &[u8], at: usize, bytes: u8) -> u64 {
    match bytes {
        1 => u64::from(message[at]),
        2 => u64::from(u16_at(message, at)),
        4 => u64::from(u32_at(message, at)),
        _ => u64::from_le_bytes(bytes_at(message, at)),
    }
}

#[inline]
pub fn u16_at(message: &[u8], at: usize) -> u16 {
    u16::from_le_bytes(bytes_at(message, at))
}

#[inline]
pub fn u32_at(message: &[u8], at: usize) -> u32 {
    u32::from_le_bytes(bytes_at(message, at))
}

/// An offset or a length: "U48 is six bytes", and a U32 is four.
#[inline]
pub fn offset_at(coding: Coding, message: &[u8], at: usize) -> u64 {
    match coding {
        Coding::Bits48 => {
            let [a, b, c, d, e, f] = bytes_at(message, at);
            u64::from_le_bytes([a, b, c, d, e, f, 0, 0])
        }
        Coding::Bits32 => u64::from(u32_at(message, at)),
    }
}

/// A NaN by its bits: the exponent all ones, the rest not zero.
pub fn is_nan(bits: u64, bytes: u8) -> bool {
    let (exponent, fraction) = match bytes {
        4 => (0x7F80_0000, 0x007F_FFFF),
        _ => (0x7FF0_0000_0000_0000, 0x000F_FFFF_FFFF_FFFF),
    };
    bits & exponent == exponent && bits & fraction != 0
}

/// The bytes of an object's header.
pub fn header_size(coding: Coding, target: Target) -> usize {
    match target {
        Target::Direct(_) => DIRECT_HEADER,
        _ => coding.header(),
    }
}

/// "text 0xD812C8F5, bytes 0xDCDBBE10, list 0x3400BB46, table its id"
pub fn magic(schema: &Schema, target: Target) -> u32 {
    match target {
        Target::Text => TEXT_MAGIC,
        Target::Bytes => BYTES_MAGIC,
        Target::List(_) => LIST_MAGIC,
        Target::Table(index) => schema.table(index).id,
        Target::Direct(_) => DIRECT_MAGIC,
    }
}

/// The bytes of a list's elements.
pub fn list_bytes(coding: Coding, element: Kind, count: u64) -> u64 {
    match element {
        Kind::Bool => count.div_ceil(8),
        _ => count * element_size(coding, element),
    }
}

/// The bytes of one element; bools are packed.
fn element_size(coding: Coding, element: Kind) -> u64 {
    match element {
        Kind::Bool | Kind::Struct(_) => 0,
        Kind::Integer { bytes, .. } | Kind::Float { bytes } => u64::from(bytes),
        Kind::Enum { .. } => 1,
        Kind::Object(_) => coding.offset() as u64,
        Kind::Union(_) => coding.union() as u64,
    }
}

/// "its content length: bytes, text without its end byte, list element bytes,
/// fixed part; a direct list itself adds 0". A length of 48 bits keeps this far
/// below 2^64.
pub fn content_length(schema: &Schema, target: Target, length: u64) -> u64 {
    match target {
        Target::Text | Target::Bytes | Target::Table(_) => length,
        Target::List(index) => list_bytes(schema.coding, schema.element(index), length),
        Target::Direct(_) => 0,
    }
}

/// "Before the walk, 1, 2, 3 are tried in order": 2, for a message under its
/// start of 10 bytes, or 8, and 3. Answers the root.
pub fn open_message(schema: &Schema, message: &[u8]) -> Result<(Target, Spot), Refusal> {
    if message.len() < schema.coding.header() || message.len() > SIZE {
        return Err(Refusal::new(2, 0));
    }
    if u32_at(message, 0) != MESSAGE_MAGIC {
        return Err(Refusal::new(3, 0));
    }
    let spot = Spot::Offset(offset_at(schema.coding, message, 4));
    Ok((Target::Table(schema.root), spot))
}

/// "Judged at an arrival: budget, depth, offset and header fit, magic, content
/// fit, text's end byte", and then that it is text. All but the budget, which is
/// the walk's.
pub fn open(
    schema: &Schema,
    message: &[u8],
    target: Target,
    spot: Spot,
    depth: u32,
) -> Result<Object, Refusal> {
    let object = fit(schema, message, target, spot, depth)?;
    judge_text(message, &object)?;
    Ok(object)
}

/// Depth, offset and header fit, magic, content fit.
pub fn fit(
    schema: &Schema,
    message: &[u8],
    target: Target,
    spot: Spot,
    depth: u32,
) -> Result<Object, Refusal> {
    let place = spot.place();
    if depth > DEPTH {
        return Err(Refusal::new(5, place));
    }
    let said = match spot {
        Spot::Offset(offset) => open_header(schema, message, target, offset)?,
        Spot::InPlace { start, length } => Said {
            start,
            length,
            size: 0,
        },
    };
    if said.bytes(schema, target) > (message.len() - said.start) as u64 {
        return Err(Refusal::new(6, place));
    }
    Ok(Object {
        target,
        place,
        start: said.start,
        // Below 2^32 in a direct list. No other element is under a bit, so that
        // a length that fits is below 2^27.
        length: said.length as usize,
        size: said.size as usize,
    })
}

/// What is said of an object before its content: where that starts, its length,
/// and the size of a direct list's elements.
struct Said {
    start: usize,
    length: u64,
    size: u64,
}

impl Said {
    /// The bytes that the content takes.
    fn bytes(&self, schema: &Schema, target: Target) -> u64 {
        match target {
            // "Text: length bytes and one zero byte."
            Target::Text => self.length + 1,
            // Two numbers of 32 bits.
            Target::Direct(_) => self.length * self.size,
            _ => content_length(schema, target, self.length),
        }
    }
}

/// "text's end byte", and "16 at the text's place, after the end byte", where the
/// text is not UTF-8.
pub fn judge_text(message: &[u8], object: &Object) -> Result<(), Refusal> {
    if object.target != Target::Text {
        return Ok(());
    }
    if message[object.end()] != 0 {
        return Err(Refusal::new(10, object.place));
    }
    if !utf8::is_text(&message[object.start..object.end()]) {
        return Err(Refusal::new(16, object.place));
    }
    Ok(())
}

/// "An offset under 10 is not lawful where an object is required." "Offsets
/// under 8 are unlawful there", in the older coding.
fn open_header(
    schema: &Schema,
    message: &[u8],
    target: Target,
    offset: u64,
) -> Result<Said, Refusal> {
    let header = header_size(schema.coding, target);
    let fits = offset <= message.len() as u64 && message.len() as u64 - offset >= header as u64;
    if offset < schema.coding.header() as u64 || !fits {
        return Err(Refusal::new(6, offset));
    }
    let at = offset as usize;
    if u32_at(message, at) != magic(schema, target) {
        return Err(Refusal::new(7, offset));
    }
    let length = offset_at(schema.coding, message, at + 4);
    let size = match target {
        Target::Direct(index) => open_direct(schema, message, index, at, length)?,
        _ => 0,
    };
    Ok(Said {
        start: at + header,
        length,
        size,
    })
}

/// "wrong element id is 7, then a count over 4,294,967,295 is 6, both at the
/// list's arrival, after its magic and before content fit". Answers the
/// elements' size.
fn open_direct(
    schema: &Schema,
    message: &[u8],
    index: u8,
    at: usize,
    count: u64,
) -> Result<u64, Refusal> {
    if u32_at(message, at + DIRECT_ID) != schema.table(index).id {
        return Err(Refusal::new(7, at as u64));
    }
    if count > DIRECT_COUNT {
        return Err(Refusal::new(6, at as u64));
    }
    Ok(u64::from(u32_at(message, at + DIRECT_SIZE)))
}

/// Where a table member's value stands in the message, if it has one there.
///
/// "A member starting at or after the fixed part's end is absent; one wholly
/// inside is read; one cut by the end is refused. An optional flag of 1 whose
/// value starts at or after the end is refused; with flag 0 the value may lie
/// beyond the end but not be cut".
pub fn find(message: &[u8], table: &Object, member: &Member) -> Result<Option<usize>, Refusal> {
    let slot = &member.slot;
    let set = match slot.flag {
        Some(flag) if flag.byte >= table.length => return Ok(None),
        Some(flag) => message[table.start + flag.byte] >> flag.bit & 1 == 1,
        None if slot.offset >= table.length => return Ok(None),
        None => true,
    };
    let beyond = slot.offset >= table.length;
    let cut = !beyond && slot.offset + slot.size > table.length;
    if cut || (beyond && set) {
        return Err(Refusal::of_member(8, table, member.number));
    }
    Ok(set.then_some(table.start + slot.offset))
}

/// "struct boolean not 0 or 1": refused at the table that holds the struct. "A
/// struct reports the table's member", whose number this is.
pub fn judge_struct(
    schema: &Schema,
    message: &[u8],
    table: &Object,
    number: u32,
    index: u8,
    at: usize,
) -> Result<(), Refusal> {
    let one = schema.structure(index);
    let bytes = &message[at..at + one.size];
    if one.bools.iter().any(|&at| bytes[usize::from(at)] > 1) {
        return Err(Refusal::of_member(10, table, number));
    }
    Ok(())
}

/// Where a table's reference or union member leads, its value standing at `at`.
pub fn member_lead(
    schema: &Schema,
    message: &[u8],
    table: &Object,
    member: &Member,
    at: usize,
) -> Result<Lead, Refusal> {
    let behind = member.record.in_place.then(|| table.end());
    let kind = member.record.kind;
    lead(schema, message, table, member.number, kind, at, behind)
}

/// Where an element of this number leads, in a list of references or unions of
/// `size` bytes.
pub fn element_lead(
    schema: &Schema,
    message: &[u8],
    list: &Object,
    kind: Kind,
    size: usize,
    number: usize,
) -> Result<Lead, Refusal> {
    let at = list.start + number * size;
    // The list lies inside the message, so its number of elements is far below 2^32.
    lead(schema, message, list, number as u32, kind, at, None)
}

/// Where a reference or union leads that stands at `at` in its holder and is
/// its member or element of this number. `behind` is where in-place content
/// starts, for a member in place.
fn lead(
    schema: &Schema,
    message: &[u8],
    holder: &Object,
    member: u32,
    kind: Kind,
    at: usize,
    behind: Option<usize>,
) -> Result<Lead, Refusal> {
    let coding = schema.coding;
    let (choice, target, number) = match kind {
        // "0 means none"; in place "Length 0 means no value".
        Kind::Object(target) => match offset_at(coding, message, at) {
            0 => return Ok(Lead::Absent),
            number => (None, target, number),
        },
        Kind::Union(index) => match u16_at(message, at) {
            0 => return Ok(Lead::Absent),
            choice => match schema.case(index, u64::from(choice)) {
                Some(target) => (Some(choice), target, offset_at(coding, message, at + 2)),
                None => return Ok(Lead::Unknown(choice)),
            },
        },
        _ => return Ok(Lead::Absent),
    };
    let spot = match behind {
        Some(start) => Spot::InPlace {
            start,
            length: number,
        },
        // "known union choice, not in place, offset 0"
        None if number == 0 => return Err(Refusal::of_member(9, holder, member)),
        None => Spot::Offset(number),
    };
    Ok(Lead::Object {
        choice,
        target,
        spot,
    })
}
