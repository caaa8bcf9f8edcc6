//! Bytes of a message under construction. Every bit is either fixed or free;
//! an object may go wherever the bits it needs are free or already right, so
//! objects come to stand in gaps, in unused bytes and across each other.

use crate::rng::Rng;
use crate::text_gen::is_text;

/// A number that is written only when the whole message is laid out. The
/// first part of each is an index into the arrivals.
#[derive(Clone, Copy, Debug)]
pub enum Late {
    /// The place of an arrival.
    PlaceOf(usize),
    /// An offset so near or past the end that no header fits there.
    FarOffset(usize),
    /// A length whose content does not fit.
    LongLength(usize),
    /// A size of a direct list's elements with which they do not fit.
    LongSize(usize),
    /// The length of a blob whose content is whatever follows.
    OpenLength(usize),
}

/// A number in a message that damage may aim at.
#[derive(Clone, Copy, Debug)]
pub struct Spot {
    pub position: usize,
    pub width: usize,
}

/// The bytes one object needs, with its in-place contents.
#[derive(Default)]
pub struct Pattern {
    pub bytes: Vec<u8>,
    /// The bits that matter.
    mask: Vec<u8>,
    /// Bytes still to be written, which nothing may overlap.
    locked: Vec<bool>,
    /// Arrivals whose place is a position of this pattern.
    pub inner: Vec<(usize, usize)>,
    pub late: Vec<(usize, Late)>,
    pub spots: Vec<Spot>,
}

impl Pattern {
    /// How many bytes it has.
    pub fn len(&self) -> usize {
        self.bytes.len()
    }

    /// Whether it has no bytes.
    pub fn is_empty(&self) -> bool {
        self.bytes.is_empty()
    }

    /// Adds free bytes; gives the position of the first.
    pub fn grow(&mut self, count: usize) -> usize {
        let at = self.len();
        self.bytes.resize(at + count, 0);
        self.mask.resize(at + count, 0);
        self.locked.resize(at + count, false);
        at
    }

    /// Adds fixed bytes.
    pub fn push(&mut self, bytes: &[u8]) {
        let at = self.grow(bytes.len());
        self.set_bytes(at, bytes);
    }

    /// Fixes bytes.
    pub fn set_bytes(&mut self, at: usize, bytes: &[u8]) {
        self.bytes[at..at + bytes.len()].copy_from_slice(bytes);
        self.mask[at..at + bytes.len()].fill(0xFF);
    }

    /// Fixes a little-endian number.
    pub fn set(&mut self, at: usize, value: u64, width: usize) {
        self.set_bytes(at, &value.to_le_bytes()[..width]);
    }

    /// Fixes a number that damage may aim at.
    pub fn set_spot(&mut self, at: usize, value: u64, width: usize) {
        self.set(at, value, width);
        self.spots.push(Spot {
            position: at,
            width,
        });
    }

    /// Fixes one bit, counted from the lowest bit of the first byte.
    pub fn set_bit(&mut self, bit: usize, value: bool) {
        self.bytes[bit / 8] |= u8::from(value) << (bit % 8);
        self.mask[bit / 8] |= 1 << (bit % 8);
    }

    /// Keeps so many bytes for a number written at the end.
    pub fn set_late(&mut self, at: usize, width: usize, late: Late) {
        self.set_spot(at, 0, width);
        self.locked[at..at + width].fill(true);
        self.late.push((at, late));
    }

    /// Adds another pattern behind this one.
    pub fn append(&mut self, other: Pattern) {
        let base = self.len();
        self.bytes.extend(other.bytes);
        self.mask.extend(other.mask);
        self.locked.extend(other.locked);
        self.inner.extend(
            other
                .inner
                .iter()
                .map(|(arrival, at)| (*arrival, base + at)),
        );
        self.late
            .extend(other.late.iter().map(|(at, late)| (base + at, *late)));
        self.spots.extend(other.spots.iter().map(|spot| Spot {
            position: base + spot.position,
            ..*spot
        }));
    }
}

/// The message's bytes so far.
pub struct Canvas {
    bytes: Vec<u8>,
    mask: Vec<u8>,
    locked: Vec<bool>,
    /// The end of the last object.
    needed: usize,
}

impl Canvas {
    /// Starts with `kept` bytes that no object may use and a free gap.
    pub fn new(kept: usize, gap: usize) -> Canvas {
        let mut canvas = Canvas {
            bytes: vec![0; kept],
            mask: vec![0xFF; kept],
            locked: vec![true; kept],
            needed: kept,
        };
        canvas.extend_to(kept + gap);
        canvas
    }

    fn extend_to(&mut self, length: usize) {
        if length > self.bytes.len() {
            self.bytes.resize(length, 0);
            self.mask.resize(length, 0);
            self.locked.resize(length, false);
        }
    }

    fn fits(&self, pattern: &Pattern, at: usize) -> bool {
        let overlap = pattern.len().min(self.bytes.len().saturating_sub(at));
        (0..overlap).all(|i| {
            let (p, mask) = (at + i, self.mask[at + i]);
            let wrong = (self.bytes[p] ^ pattern.bytes[i]) & mask & pattern.mask[i];
            let barred =
                (self.locked[p] && pattern.mask[i] != 0) || (pattern.locked[i] && mask != 0);
            wrong == 0 && !barred
        })
    }

    /// Puts a pattern at a position where it fits.
    pub fn put(&mut self, pattern: &Pattern, at: usize) {
        self.extend_to(at + pattern.len());
        self.needed = self.needed.max(at + pattern.len());
        for i in 0..pattern.len() {
            let p = at + i;
            self.bytes[p] |= pattern.bytes[i] & pattern.mask[i];
            self.mask[p] |= pattern.mask[i];
            self.locked[p] |= pattern.locked[i];
        }
    }

    /// Finds a position for a pattern at random and puts it there.
    pub fn place(&mut self, rng: &mut Rng, pattern: &Pattern, lowest: usize) -> usize {
        let end = self.bytes.len();
        let mut found = None;
        match rng.below(6) {
            0 | 1 => {
                let tries: Vec<usize> = (0..6).map(|_| rng.range(lowest, end)).collect();
                found = tries.into_iter().find(|&at| self.fits(pattern, at));
            }
            2 | 3 if pattern.len() <= 80 && end <= 2000 => {
                let start = rng.below(end - lowest + 1);
                found = (0..=end - lowest)
                    .map(|k| lowest + (start + k) % (end - lowest + 1))
                    .find(|&at| self.fits(pattern, at));
            }
            _ => {}
        }
        let at = found.unwrap_or_else(|| match rng.below(6) {
            0 => end + rng.range(0, 40),
            1 => end + rng.range(0, 3),
            _ => end,
        });
        self.put(pattern, at);
        at
    }

    /// Gives every free bit a value.
    pub fn fill(&mut self, rng: &mut Rng) {
        let style = rng.below(4);
        for i in 0..self.bytes.len() {
            let filler = match style {
                0 => 0,
                1 => 0xFF,
                _ => rng.bits() as u8,
            };
            self.bytes[i] |= filler & !self.mask[i];
        }
    }

    /// Cuts free bytes off the end, or adds some.
    pub fn trim(&mut self, rng: &mut Rng) {
        if rng.one_in(4) {
            let length = self.bytes.len() + rng.range(1, 20);
            self.extend_to(length);
            return;
        }
        self.bytes.truncate(self.needed);
        self.mask.truncate(self.needed);
        self.locked.truncate(self.needed);
    }

    /// A position from `start` on where a zero byte stands or can be put.
    pub fn zero_byte(&mut self, rng: &mut Rng, start: usize) -> usize {
        let fitting: Vec<usize> = (start..self.bytes.len())
            .filter(|&i| !self.locked[i] && self.bytes[i] & self.mask[i] == 0)
            .take(60)
            .collect();
        let at = if fitting.is_empty() {
            self.bytes.len().max(start)
        } else {
            rng.pick(&fitting)
        };
        self.extend_to(at + 1);
        self.bytes[at] = 0;
        self.mask[at] = 0xFF;
        at
    }

    /// Where a text that starts here ends: mostly so that what is there is text,
    /// and now and then anywhere.
    pub fn text_end(&mut self, rng: &mut Rng, start: usize) -> usize {
        let ends = self.text_ends(start);
        if ends.is_empty() || rng.one_in(5) {
            return self.zero_byte(rng, start);
        }
        let end = rng.pick(&ends);
        self.extend_to(end + 1);
        for at in start..end {
            let free = !self.mask[at];
            self.bytes[at] |= rng.bits() as u8 & free & 0x7F;
            self.mask[at] = 0xFF;
        }
        self.mask[end] = 0xFF;
        end
    }

    /// Where a zero byte stands or can be put behind bytes that are text, whatever
    /// the lower seven of their free bits are.
    fn text_ends(&self, start: usize) -> Vec<usize> {
        const LONGEST: usize = 120;
        let fixed = |at: usize| self.bytes[at] & self.mask[at];
        let last = self.bytes.len().min(start + LONGEST);
        let mut ends = Vec::new();
        let mut content = Vec::new();
        for at in start..=last {
            let whole = is_text(&content);
            let within = at < self.bytes.len();
            if whole && !(within && (self.locked[at] || fixed(at) != 0)) {
                ends.push(at);
            }
            if !within || self.locked[at] {
                break;
            }
            // A byte with free bits is ASCII only if its highest bit is not 1.
            let some_free = self.mask[at] != 0xFF;
            if some_free && (!whole || fixed(at) & 0x80 != 0) {
                break;
            }
            content.push(fixed(at));
        }
        ends
    }

    /// The bytes so far.
    pub fn bytes(&self) -> &[u8] {
        &self.bytes
    }

    /// Writes a late number.
    pub fn write(&mut self, at: usize, bytes: &[u8]) {
        self.bytes[at..at + bytes.len()].copy_from_slice(bytes);
    }
}
