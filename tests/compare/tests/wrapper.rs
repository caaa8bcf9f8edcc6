//! The Rust wrapper and the second program side by side on every call: judging,
//! reading, writing, fields, texts and lists.

use compare::coding::{Coding, CODINGS};
use compare::held_text::{HeldText, Way};
use compare::program::{Library, Second};
use compare::rng::Rng;
use compare::side_by_side::side_by_side;
use compare::text_gen;
use scalgo::{Answer, List};

fn agree(coding: Coding) {
    match side_by_side(&Library, &Second, coding, 1, 4000) {
        Ok(calls) => assert!(calls > 400_000, "only {calls} calls"),
        Err(report) => panic!("{report}"),
    }
}

#[test]
fn wrapper_and_second_program_agree() {
    agree(Coding::Bits48);
}

#[test]
fn wrapper_and_second_program_agree_under_32_bits() {
    agree(Coding::Bits32);
}

/// A text in every way is had as a `str` exactly where it is one.
#[test]
fn texts_as_str() {
    let mut rng = Rng::new(1);
    for (coding, of_wrapper) in CODINGS.into_iter().zip(scalgo::Coding::ALL) {
        assert_eq!(coding.number(), of_wrapper.number());
        for way in Way::of(coding).into_iter().cycle().take(6000) {
            let length = 1 + text_gen::some_length(&mut rng);
            let bytes = match rng.coin() {
                true => text_gen::text(&mut rng, length),
                false => text_gen::no_text_of(&mut rng, length),
            };
            let held = HeldText::new(coding, way, 0, &bytes);
            let schema = scalgo::Schema::new(of_wrapper, held.schema.bytes());
            let schema = schema.expect("a lawful schema");
            let given = schema.text_str(&held.message, &held.path);
            assert_eq!(given, std::str::from_utf8(&bytes).ok(), "{way:?}");
        }
    }
}

const SCHEMA: &[u8] = b"\x00\x01\x00\x01\x00\x68\x00\x4C\x49\x43\x45\x01\x78\x00";

/// A list of `count` texts, of which every third is none and every seventh
/// names no object.
struct Texts {
    coding: Coding,
    schema: scalgo::Schema,
    count: usize,
    message: Vec<u8>,
}

impl Texts {
    fn new(coding: Coding, count: usize) -> Texts {
        let of_wrapper = scalgo::Coding::of(coding.number()).expect("a coding");
        let mut texts = Texts {
            coding,
            schema: scalgo::Schema::new(of_wrapper, SCHEMA).expect("a lawful schema"),
            count,
            message: Vec::new(),
        };
        let (offset, header) = (coding.offset(), coding.header());
        texts.put(b"\xB3\xC4\xC0\xB5", &[header]);
        texts.put(b"\x45\x43\x49\x4C", &[offset, 2 * header + offset]);
        texts.put(b"\x46\xBB\x00\x34", &[count]);
        let offsets: Vec<usize> = (0..count).map(|number| texts.offset(number)).collect();
        texts.put(b"", &offsets);
        texts.put(b"\xF5\xC8\x12\xD8", &[2]);
        texts.put(b"ab\0", &[]);
        texts
    }

    /// Bytes, and then offsets or lengths.
    fn put(&mut self, bytes: &[u8], numbers: &[usize]) {
        self.message.extend_from_slice(bytes);
        for number in numbers {
            self.message.extend(self.coding.bytes(*number as u64));
        }
    }

    /// The offset that an element has.
    fn offset(&self, number: usize) -> usize {
        match (number % 3, number % 7) {
            (0, _) => 0,
            (_, 0) => self.coding.header() - 1,
            _ => 3 * self.coding.header() + (1 + self.count) * self.coding.offset(),
        }
    }

    fn expected(&self, number: usize) -> Answer {
        let place = self.offset(number) as u64;
        match (number % 3, number % 7) {
            (0, _) => Answer::Absent,
            (_, 0) => Answer::Refused {
                number: 6,
                place,
                member: None,
            },
            _ => Answer::Object {
                kind: 13,
                place,
                length: 2,
            },
        }
    }

    /// The wrapper's iterator.
    fn list(&self) -> List<'_> {
        self.schema.list(&self.message, &[0]).expect("a list")
    }
}

/// Lists that end before, at and after what the iterator fetches at once.
#[test]
fn lists_around_what_is_fetched_at_once() {
    for coding in CODINGS {
        for count in [0, 1, 63, 64, 65, 127, 128, 129, 1000] {
            let texts = Texts::new(coding, count);
            let mut list = texts.list();
            for number in 0..count {
                assert_eq!(list.len(), count - number);
                assert_eq!(list.next(), Some(texts.expected(number)));
            }
            assert_eq!((list.len(), list.next(), list.next()), (0, None, None));
        }
    }
}

/// Elements passed over, near and far.
#[test]
fn elements_passed_over() {
    let count = 1000;
    for texts in CODINGS.map(|coding| Texts::new(coding, count)) {
        for passed in [0, 1, 5, 62, 63, 64, 200, 998, 999, 1000, usize::MAX] {
            let mut list = texts.list();
            let mut at = passed;
            while at < count {
                assert_eq!(list.nth(passed), Some(texts.expected(at)));
                assert_eq!(list.len(), count - at - 1);
                at += passed + 1;
            }
            assert_eq!((list.nth(passed), list.len()), (None, 0));
            assert_eq!(list.next(), None);
        }
    }
}
