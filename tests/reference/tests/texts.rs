//! "a text is lawful only if RFC 3629 allows it: no overlong forms, no surrogates,
//! nothing above U+10FFFF"; "16 at the text's place, after the end byte; a sheet
//! with such a text is 12." Every case is worked out by hand.

mod common;

use common::tabled::{field, list_reader, text};
use common::*;
use reference::{with_added, write, write_stored};
use reference::{Answer, Budget, Verdict, NO_MEMBER};

/// The first and the last character of each row of the grammar, and some around.
const TEXTS: [&str; 18] = [
    "00",
    "7F",
    "61 00 62",
    "C2 80",
    "DF BF",
    "E0 A0 80",
    "E0 BF BF",
    "E1 80 80",
    "EC BF BF",
    "ED 80 80",
    "ED 9F BF",
    "EE 80 80",
    "EF BF BF",
    "EF BB BF 61",
    "F0 90 80 80",
    "F1 80 80 80",
    "F4 8F BF BF",
    "41 C3 84 E2 82 AC F0 9D 84 9E 5A",
];

/// Overlong forms: of U+0000, U+007F, U+07FF and U+FFFF.
const OVERLONG: [&str; 8] = [
    "C0 80",
    "C1 BF",
    "E0 80 80",
    "E0 9F BF",
    "F0 80 80 80",
    "F0 8F BF BF",
    "61 C0 AF",
    "C0",
];

/// U+D800, U+DBFF, U+DC00, U+DFFF, and two that would make a pair.
const SURROGATES: [&str; 5] = [
    "ED A0 80",
    "ED AF BF",
    "ED B0 80",
    "ED BF BF",
    "ED A0 81 ED B0 80",
];

/// U+110000, and what leads there and beyond.
const ABOVE: [&str; 8] = [
    "F4 90 80 80",
    "F4 BF BF BF",
    "F5 80 80 80",
    "F7 BF BF BF",
    "F8 88 80 80 80",
    "FC 84 80 80 80 80",
    "FE",
    "FF",
];

/// Characters that end too early, and tails without a lead.
const BROKEN: [&str; 22] = [
    "80",
    "BF",
    "61 80",
    "61 BF 62",
    "C2 80 80",
    "E2 82 AC AC",
    "C2",
    "DF",
    "E0",
    "E0 A0",
    "E1",
    "E1 80",
    "ED 9F",
    "EF BF",
    "F0",
    "F0 90",
    "F0 90 80",
    "F4 8F BF",
    "C2 61",
    "E1 80 61",
    "F1 80 80 61",
    "C2 C2 80",
];

fn texts() -> Vec<Vec<u8>> {
    TEXTS.map(hex).to_vec()
}

fn others() -> Vec<Vec<u8>> {
    let every = [&OVERLONG[..], &SURROGATES, &ABOVE, &BROKEN].concat();
    every.into_iter().map(hex).collect()
}

/// A message with one text, held in one of the ways there are.
struct Way {
    name: &'static str,
    coding: u32,
    schema: &'static str,
    /// NN stands for the text's length and TT for the text.
    message: &'static str,
    path: &'static [u32],
    place: u64,
    start: usize,
    /// The visits up to the text, and the content before it.
    visits: u32,
    content: u64,
    /// Visits and content after it.
    after: (u32, u64),
    sheet: fn(&[u8]) -> Sheet,
}

/// Of a number and a text: 3, and the text.
fn of_a_number(text: &[u8]) -> Sheet {
    Sheet::new().here().put(3, 16).here().text_of(text)
}

fn of_a_text(text: &[u8]) -> Sheet {
    Sheet::new().here().text_of(text)
}

fn of_a_choice(text: &[u8]) -> Sheet {
    Sheet::new().here().put(1, 16).text_of(text)
}

/// A list of none and the text.
fn of_a_list(text: &[u8]) -> Sheet {
    let sheet = Sheet::new().here().put(2, 32);
    sheet.absent().here().text_of(text)
}

fn of_a_list_of_unions(text: &[u8]) -> Sheet {
    let sheet = Sheet::new().here().put(1, 32);
    sheet.here().put(1, 16).text_of(text)
}

/// 7 and the text, 9 and none.
fn of_elements(text: &[u8]) -> Sheet {
    let sheet = Sheet::new().here().put(2, 32).here().put(7, 16);
    sheet.here().text_of(text).here().put(9, 16).absent()
}

/// Of a list of lists, whose first has the text.
fn of_lists(text: &[u8]) -> Sheet {
    let sheet = Sheet::new().here().put(1, 32).here().put(1, 32);
    sheet.here().text_of(text)
}

static WAYS: [Way; 13] = [
    Way {
        name: "by offset",
        coding: 48,
        schema: "00 00 00 01 00 4C 49 43 45 02 10 00 68 00",
        message: "B3 C4 C0 B5 0A 00 00 00 00 00 45 43 49 4C 08 00 00 00 00 00 03 00 1C 00 00 00 00 00 \
                  F5 C8 12 D8 NN 00 00 00 00 00 TT 00",
        path: &[1],
        place: 28,
        start: 38,
        visits: 2,
        content: 8,
        after: (0, 0),
        sheet: of_a_number,
    },
    Way {
        name: "in place",
        coding: 48,
        schema: "00 00 00 01 00 4C 49 43 45 01 6A 00",
        message: "B3 C4 C0 B5 0A 00 00 00 00 00 45 43 49 4C 06 00 00 00 00 00 NN 00 00 00 00 00 TT 00",
        path: &[0],
        place: 26,
        start: 26,
        visits: 2,
        content: 6,
        after: (0, 0),
        sheet: of_a_text,
    },
    Way {
        name: "an element",
        coding: 48,
        schema: "00 01 00 01 00 68 00 4C 49 43 45 01 78 00",
        message: "B3 C4 C0 B5 0A 00 00 00 00 00 45 43 49 4C 06 00 00 00 00 00 1A 00 00 00 00 00 \
                  46 BB 00 34 02 00 00 00 00 00 00 00 00 00 00 00 30 00 00 00 00 00 \
                  F5 C8 12 D8 NN 00 00 00 00 00 TT 00",
        path: &[0, 1],
        place: 48,
        start: 58,
        visits: 3,
        content: 18,
        after: (0, 0),
        sheet: of_a_list,
    },
    Way {
        name: "a union's",
        coding: 48,
        schema: "00 00 01 01 00 01 68 00 4C 49 43 45 01 88 00",
        message: "B3 C4 C0 B5 0A 00 00 00 00 00 45 43 49 4C 08 00 00 00 00 00 01 00 1C 00 00 00 00 00 \
                  F5 C8 12 D8 NN 00 00 00 00 00 TT 00",
        path: &[0],
        place: 28,
        start: 38,
        visits: 2,
        content: 8,
        after: (0, 0),
        sheet: of_a_choice,
    },
    Way {
        name: "a union's in place",
        coding: 48,
        schema: "00 00 01 01 00 01 68 00 4C 49 43 45 01 8A 00",
        message: "B3 C4 C0 B5 0A 00 00 00 00 00 45 43 49 4C 08 00 00 00 00 00 01 00 NN 00 00 00 00 00 TT 00",
        path: &[0],
        place: 28,
        start: 28,
        visits: 2,
        content: 8,
        after: (0, 0),
        sheet: of_a_choice,
    },
    Way {
        name: "a union's in a list",
        coding: 48,
        schema: "00 01 01 01 00 88 00 01 68 00 4C 49 43 45 01 78 00",
        message: "B3 C4 C0 B5 0A 00 00 00 00 00 45 43 49 4C 06 00 00 00 00 00 1A 00 00 00 00 00 \
                  46 BB 00 34 01 00 00 00 00 00 01 00 2C 00 00 00 00 00 \
                  F5 C8 12 D8 NN 00 00 00 00 00 TT 00",
        path: &[0, 0],
        place: 44,
        start: 54,
        visits: 3,
        content: 14,
        after: (0, 0),
        sheet: of_a_list_of_unions,
    },
    Way {
        name: "a direct element's",
        coding: 48,
        schema: "00 00 00 02 00 0A 0B 0C 0D 01 90 01 01 02 03 04 02 10 00 68 00",
        message: "B3 C4 C0 B5 0A 00 00 00 00 00 0D 0C 0B 0A 06 00 00 00 00 00 1A 00 00 00 00 00 \
                  05 CC C6 E2 02 00 00 00 00 00 04 03 02 01 08 00 00 00 \
                  07 00 3C 00 00 00 00 00 09 00 00 00 00 00 00 00 \
                  F5 C8 12 D8 NN 00 00 00 00 00 TT 00",
        path: &[0, 0, 1],
        place: 60,
        start: 70,
        visits: 4,
        content: 14,
        after: (1, 8),
        sheet: of_elements,
    },
    Way {
        name: "an element of an element",
        coding: 48,
        schema: "00 02 00 01 00 78 01 68 00 4C 49 43 45 01 78 00",
        message: "B3 C4 C0 B5 0A 00 00 00 00 00 45 43 49 4C 06 00 00 00 00 00 1A 00 00 00 00 00 \
                  46 BB 00 34 01 00 00 00 00 00 2A 00 00 00 00 00 \
                  46 BB 00 34 01 00 00 00 00 00 3A 00 00 00 00 00 \
                  F5 C8 12 D8 NN 00 00 00 00 00 TT 00",
        path: &[0, 0, 0],
        place: 58,
        start: 68,
        visits: 4,
        content: 18,
        after: (0, 0),
        sheet: of_lists,
    },
    Way {
        name: "by offset, 32 bits",
        coding: 32,
        schema: "00 00 00 01 00 4C 49 43 45 02 10 00 68 00",
        message: "B3 C4 C0 B5 08 00 00 00 45 43 49 4C 06 00 00 00 03 00 16 00 00 00 \
                  F5 C8 12 D8 NN 00 00 00 TT 00",
        path: &[1],
        place: 22,
        start: 30,
        visits: 2,
        content: 6,
        after: (0, 0),
        sheet: of_a_number,
    },
    Way {
        name: "in place, 32 bits",
        coding: 32,
        schema: "00 00 00 01 00 4C 49 43 45 01 6A 00",
        message: "B3 C4 C0 B5 08 00 00 00 45 43 49 4C 04 00 00 00 NN 00 00 00 TT 00",
        path: &[0],
        place: 20,
        start: 20,
        visits: 2,
        content: 4,
        after: (0, 0),
        sheet: of_a_text,
    },
    Way {
        name: "an element, 32 bits",
        coding: 32,
        schema: "00 01 00 01 00 68 00 4C 49 43 45 01 78 00",
        message: "B3 C4 C0 B5 08 00 00 00 45 43 49 4C 04 00 00 00 14 00 00 00 \
                  46 BB 00 34 02 00 00 00 00 00 00 00 24 00 00 00 \
                  F5 C8 12 D8 NN 00 00 00 TT 00",
        path: &[0, 1],
        place: 36,
        start: 44,
        visits: 3,
        content: 12,
        after: (0, 0),
        sheet: of_a_list,
    },
    Way {
        name: "a union's in place, 32 bits",
        coding: 32,
        schema: "00 00 01 01 00 01 68 00 4C 49 43 45 01 8A 00",
        message: "B3 C4 C0 B5 08 00 00 00 45 43 49 4C 06 00 00 00 01 00 NN 00 00 00 TT 00",
        path: &[0],
        place: 22,
        start: 22,
        visits: 2,
        content: 6,
        after: (0, 0),
        sheet: of_a_choice,
    },
    Way {
        name: "an element of an element, 32 bits",
        coding: 32,
        schema: "00 02 00 01 00 78 01 68 00 4C 49 43 45 01 78 00",
        message: "B3 C4 C0 B5 08 00 00 00 45 43 49 4C 04 00 00 00 14 00 00 00 \
                  46 BB 00 34 01 00 00 00 20 00 00 00 46 BB 00 34 01 00 00 00 2C 00 00 00 \
                  F5 C8 12 D8 NN 00 00 00 TT 00",
        path: &[0, 0, 0],
        place: 44,
        start: 52,
        visits: 4,
        content: 12,
        after: (0, 0),
        sheet: of_lists,
    },
];

/// Every way with each of these.
fn in_every_way(bytes: &[Vec<u8>]) -> impl Iterator<Item = (&'static Way, &Vec<u8>)> {
    WAYS.iter()
        .flat_map(move |way| bytes.iter().map(move |bytes| (way, bytes)))
}

impl Way {
    fn schema(&self) -> Vec<u8> {
        hex(self.schema)
    }

    /// The message with this text.
    fn message(&self, text: &[u8]) -> Vec<u8> {
        let digits: Vec<String> = text.iter().map(|byte| format!("{byte:02X}")).collect();
        let length = format!("{:02X}", text.len());
        hex(&self
            .message
            .replace("NN", &length)
            .replace("TT", &digits.join(" ")))
    }

    /// The same with another end byte.
    fn ended(&self, text: &[u8], end: u8) -> Vec<u8> {
        let mut message = self.message(text);
        *message.last_mut().unwrap() = end;
        message
    }

    /// Judged and read alike with an allowance, and no sheet with a refusal.
    fn judged(&self, message: &[u8], visits: u32, content: u64) -> Verdict {
        let budget = Budget { visits, content };
        let verdict = tabled::judge(self.coding, &self.schema(), message, budget);
        let read = tabled::read(self.coding, &self.schema(), message, budget, 1000);
        assert_eq!(read.0, verdict, "{}", self.name);
        assert!(verdict.number == 0 || read.1.is_empty(), "{}", self.name);
        verdict
    }

    /// What a refusal at the text is that has charged so much content.
    fn refusal(&self, number: u32, content: u64) -> Verdict {
        Verdict {
            number,
            place: self.place,
            member: NO_MEMBER,
            visits: self.visits,
            content,
        }
    }

    fn field(&self, message: &[u8]) -> Answer {
        field(self.coding, &self.schema(), message, self.path)
    }

    /// The answer of a list reader at the text, where a list holds it.
    fn step(&self, message: &[u8]) -> Option<Answer> {
        let (last, list) = self.path.split_last()?;
        let schema = self.schema();
        let mut reader = list_reader(self.coding, &schema, message, list).ok()?;
        reader.skip(u64::from(*last));
        Some(reader.step())
    }

    fn write(&self, sheet: &[u8], room: usize) -> (u32, Vec<u8>) {
        write(self.coding, &self.schema(), sheet, room)
    }
}

/// A text in each way: accepted, found, read, and written as it was.
#[test]
fn every_text_in_every_way() {
    for (way, text_of) in in_every_way(&texts()) {
        let (message, length) = (way.message(text_of), text_of.len() as u64);
        let (visits, content) = (way.visits + way.after.0, way.content + length + way.after.1);
        let accepted = Verdict {
            number: 0,
            place: 0,
            member: NO_MEMBER,
            visits,
            content,
        };
        let given = way.judged(&message, visits, content);
        assert_eq!(given, accepted, "{} {text_of:02X?}", way.name);
        let object = Answer::Object {
            kind: 13,
            place: way.place,
            length,
        };
        assert_eq!(way.field(&message), object);
        assert_eq!(
            text(way.coding, &way.schema(), &message, way.path),
            Some((way.start, text_of.len()))
        );
        if let Some(step) = way.step(&message) {
            assert_eq!(step, object);
        }
        let sheet = (way.sheet)(text_of).done();
        let (_, read) = read(way.coding, &way.schema(), &message, u32::MAX, 1000);
        assert_eq!(read, sheet);
        // "the writer refuses a present one under the 48-bit coding".
        let expected = match way.name {
            "a union's in place" => (12, Vec::new()),
            _ => (0, message.clone()),
        };
        assert_eq!(way.write(&sheet, 1000), expected);
        let stored = write_stored(way.coding, &way.schema(), &sheet, 1000);
        assert_eq!(stored, (0, message));
    }
}

/// What is no text in each way: 16, also of the field and of the list reader, and
/// 12 of its sheet.
#[test]
fn every_other_in_every_way() {
    for (way, other) in in_every_way(&others()) {
        let message = way.message(other);
        let content = way.content + other.len() as u64;
        let refused_16 = way.refusal(16, content);
        let given = way.judged(&message, way.visits, content);
        assert_eq!(given, refused_16, "{} {other:02X?}", way.name);
        let given = way.judged(&message, u32::MAX, u64::MAX);
        assert_eq!(given, refused_16, "{} {other:02X?}", way.name);
        assert_eq!(way.field(&message), refused(16, way.place));
        assert_eq!(text(way.coding, &way.schema(), &message, way.path), None);
        if let Some(step) = way.step(&message) {
            assert_eq!(step, refused(16, way.place));
        }
        let sheet = (way.sheet)(other).done();
        for room in [0, 1000] {
            assert_eq!(way.write(&sheet, room), (12, Vec::new()));
            let stored = write_stored(way.coding, &way.schema(), &sheet, room);
            assert_eq!(stored, (12, Vec::new()));
        }
    }
}

/// The ways in which a list holds the text, or its table.
#[test]
fn which_lists_hold_it() {
    let held = |way: &&Way| way.step(&way.message(b"a")).is_some();
    let names: Vec<&str> = WAYS.iter().filter(held).map(|way| way.name).collect();
    let expected = [
        "an element",
        "a union's in a list",
        "an element of an element",
        "an element, 32 bits",
        "an element of an element, 32 bits",
    ];
    assert_eq!(names, expected);
}

/// "after the end byte": 10 comes before 16, 17 before both, and 4 and 6 before
/// that. A text that is refused by 10 or 16 has added its length.
#[test]
fn what_comes_first() {
    for (way, other) in in_every_way(&others()) {
        let (before, length) = (way.content, other.len() as u64);
        let content = before + length;
        let whole = way.message(other);
        for end in [1, 0x80, 0xBF, 0xFF] {
            let ended = way.ended(other, end);
            for allowed in [content, u64::MAX] {
                let given = way.judged(&ended, way.visits, allowed);
                assert_eq!(given, way.refusal(10, content), "{}", way.name);
            }
            assert_eq!(way.field(&ended), refused(10, way.place));
            for allowed in [before, content - 1] {
                for message in [&whole, &ended] {
                    let given = way.judged(message, way.visits, allowed);
                    assert_eq!(given, way.refusal(17, before), "{}", way.name);
                }
            }
            let cut = way.judged(&ended[..ended.len() - 1], way.visits, u64::MAX);
            assert_eq!(cut, way.refusal(6, before), "{}", way.name);
        }
        let spent = way.judged(&whole, way.visits - 1, u64::MAX);
        let expected = Verdict {
            visits: way.visits - 1,
            ..way.refusal(4, before)
        };
        assert_eq!(spent, expected, "{}", way.name);
    }
}

/// The end byte is not the text's: it ends no character that is not whole, and
/// the byte before it may be 0 too.
#[test]
fn the_end_byte_is_not_the_text_s() {
    let way = &WAYS[0];
    // C2, and an end byte that would make it U+0080.
    let message = way.ended(&[0xC2], 0x80);
    assert_eq!(way.judged(&message, 2, 99), way.refusal(10, 9));
    // U+0080 is text where both bytes are inside.
    let message = way.message(&[0xC2, 0x80]);
    assert_eq!(way.judged(&message, 2, 99).number, 0);
    // With the length one less the second byte is the end byte, and not 0.
    let mut shorter = message.clone();
    shorter[32] = 1;
    assert_eq!(way.judged(&shorter, 2, 99), way.refusal(10, 9));
    // With the length one more the end byte of before is U+0000.
    let mut longer = message;
    longer[32] = 3;
    longer.push(0);
    assert_eq!(way.judged(&longer, 2, 99).content, 11);
    assert_eq!(way.judged(&longer, 2, 99).number, 0);
}

/// An empty text is text, in a union in place too; in place alone it is none.
#[test]
fn empty_texts() {
    for way in &WAYS {
        let message = way.message(&[]);
        let there = !way.name.starts_with("in place");
        let visits = way.visits + way.after.0 - u32::from(!there);
        let verdict = way.judged(&message, visits, way.content + way.after.1);
        assert_eq!((verdict.number, verdict.visits), (0, visits));
        let written = there && way.name != "a union's in place";
        let number = if written { 0 } else { 12 };
        assert_eq!(way.write(&(way.sheet)(&[]).done(), 1000).0, number);
    }
}

/// "Only objects and members on the path are judged", and a holder before 15.
#[test]
fn fields_beside_and_beyond() {
    let way = &WAYS[0];
    let message = way.message(&[0xFF]);
    let at = |path: &[u32]| field(48, &way.schema(), &message, path);
    let three = Answer::Number {
        bits: 3,
        width: 16,
        signed: false,
    };
    assert_eq!(at(&[0]), three);
    assert_eq!(at(&[1]), refused(16, 28));
    assert_eq!(at(&[1, 0]), refused(16, 28));
    assert_eq!(at(&[2]), refused(15, 10));
    assert_eq!(
        list_reader(48, &way.schema(), &message, &[1]).err(),
        Some(refused(16, 28))
    );
}

/// Each step of the list reader is its element's: "moves on, refused or not".
#[test]
fn a_list_of_texts_and_others() {
    let schema = hex("00 01 00 01 00 68 00 4C 49 43 45 01 78 00");
    let mut message = Message::new(10);
    message.table(0x4C49_4345, 6).u48(26);
    // Elements at 36, texts at 66, 78, 90 and 103.
    message.list_head(5).u48(66).u48(78).u48(0).u48(90).u48(103);
    message
        .text_of(&[0xFF])
        .text_of(b"a")
        .text_of(&[0xC0, 0x80]);
    message.text_of(&[0xC2, 0x80]);
    let mut reader = list_reader(48, &schema, &message.bytes, &[0]).ok().unwrap();
    let object = |place, length| Answer::Object {
        kind: 13,
        place,
        length,
    };
    let expected = [
        refused(16, 66),
        object(78, 1),
        Answer::Absent,
        refused(16, 90),
        object(103, 2),
        refused(15, 26),
        refused(15, 26),
    ];
    for answer in expected {
        assert_eq!(reader.step(), answer);
    }
    // The walk ends at the first.
    let given = tabled::judge(48, &schema, &message.bytes, Budget::LARGEST);
    let expected = Verdict {
        content: 37,
        ..verdict(16, 66, 3)
    };
    assert_eq!(given, expected);
}

/// Texts may overlap: one with another's header in it is none, since that starts
/// with F5.
#[test]
fn texts_that_overlap() {
    let schema = hex("00 00 00 01 00 4C 49 43 45 02 68 00 68 00");
    // The root at 10 with the offsets 32 and 42. The first text, at 32, has the
    // second's header of ten bytes and its 61 C3 A4.
    let mut message = Message::new(10);
    message.table(0x4C49_4345, 12).u48(32).u48(42);
    message.text_head(13).text_of(&[0x61, 0xC3, 0xA4]);
    let at = |message: &Message, path: &[u32]| field(48, &schema, &message.bytes, path);
    assert_eq!(at(&message, &[0]), refused(16, 32));
    let second = Answer::Object {
        kind: 13,
        place: 42,
        length: 3,
    };
    assert_eq!(at(&message, &[1]), second);
    // The second with a length of 2, which ends inside its character.
    message.bytes[46] = 2;
    message.bytes[54] = 0;
    assert_eq!(at(&message, &[1]), refused(16, 42));
}

/// Bytes and lists of U8 may be any bytes, in messages and in sheets.
#[test]
fn bytes_are_not_judged() {
    let schema = Parts {
        lists: vec![U8],
        tables: vec![(ID, vec![BYTES, list(0), in_place(BYTES)])],
        ..Parts::default()
    }
    .pack();
    for other in others() {
        let sheet = Sheet::new().here().text_of(&other).here();
        let sheet = sheet.text_of(&other).here().text_of(&other).done();
        let (number, message) = write(48, &schema, &sheet, 1000);
        assert_eq!(number, 0);
        let (given, back) = read(48, &schema, &message, 4, 1000);
        assert_eq!((given, back), (verdict(0, 0, 4), sheet));
    }
}

/// What is not followed is not judged: an unknown choice, choice 0, and a text
/// past the end of its table.
#[test]
fn what_is_not_followed() {
    let schema = hex("00 00 01 01 00 01 68 00 4C 49 43 45 01 8A 00");
    for choice in [0, 2, 0xFFFF] {
        let mut message = Message::new(10);
        message
            .table(0x4C49_4345, 8)
            .choice(choice, 1)
            .raw(&[0xFF, 0]);
        assert_eq!(judge(48, &schema, &message.bytes, 9), verdict(0, 0, 1));
    }
    let mut message = WAYS[0].message(&[0xFF]);
    message[14] = 2;
    assert_eq!(judge(48, &WAYS[0].schema(), &message, 9), verdict(0, 0, 1));
    // By the older schema, which has the number alone.
    let older = hex("00 00 00 01 00 4C 49 43 45 01 10 00");
    let message = WAYS[0].message(&[0xFF]);
    assert_eq!(judge(48, &older, &message, 9), verdict(0, 0, 1));
}

/// Bools before it put the text at every bit of a byte: each is three bits.
#[test]
fn every_bit_of_a_sheet() {
    for bools in 0..8 {
        let mut members = vec![BOOL; bools];
        members.push(TEXT);
        let schema = one_table(&members);
        let of = |bytes: &[u8]| {
            let before = (0..bools).fold(Sheet::new(), |sheet, _| sheet.put(0b011, 3));
            before.here().text_of(bytes).done()
        };
        for text_of in texts() {
            assert_eq!(
                write(48, &schema, &of(&text_of), 1000).0,
                0,
                "{text_of:02X?}"
            );
        }
        for other in others() {
            assert_eq!(write(48, &schema, &of(&other), 1000).0, 12, "{other:02X?}");
            let long = [&b"0123456789".repeat(10)[..], &other].concat();
            assert_eq!(write(48, &schema, &of(&long), 1000).0, 12, "{other:02X?}");
        }
    }
}

/// "Writing tries 1, 11, 12, 13, 14, each over the whole sheet".
#[test]
fn a_sheet_in_turn() {
    let schema = one_table(&[TEXT, TEXT, enumeration(2)]);
    let of = |one: &[u8], two: &[u8]| Sheet::new().here().text_of(one).here().text_of(two);
    let (good, bad) = (b"ab", [0xED, 0xA0, 0x80]);
    let number = |sheet: Sheet, room| write(48, &schema, &sheet.done(), room);
    assert_eq!(number(of(good, good).absent(), 0).0, 14);
    assert_eq!(number(of(good, &bad).absent(), 0).0, 12);
    assert_eq!(number(of(&bad, good).absent(), 0).0, 12);
    assert_eq!(number(of(&bad, &bad).absent(), 1000), (12, Vec::new()));
    // A mark of 3 later on, a present enum that is not below its count, and a byte
    // more: not lawful, whatever the text is.
    assert_eq!(number(of(&bad, good).put(3, 2), 0).0, 11);
    assert_eq!(number(of(&bad, good).here().put(2, 8), 0).0, 11);
    let mut longer = of(&bad, good).absent().done();
    longer.push(0);
    assert_eq!(write(48, &schema, &longer, 0).0, 11);
    // A length that the sheet does not have.
    let short = Sheet::new().here().put(4, 32).put(0xFF_FFFF, 24);
    assert_eq!(number(short, 0).0, 11);
    let none = Sheet::new().here().put(u64::from(u32::MAX), 32).put(0, 30);
    assert_eq!(number(none, 0).0, 11);
    assert_eq!(write(48, &[], &of(&bad, good).absent().done(), 0).0, 1);
    assert_eq!(write(40, &schema, &of(&bad, good).absent().done(), 0).0, 1);
}

/// 12 comes before 13: absent floats take 2 bits in the sheet and 8 bytes in the
/// message.
#[test]
fn a_message_over_the_size() {
    let schema = Parts {
        lists: vec![F64],
        tables: vec![(ID, vec![TEXT, list(0)])],
        ..Parts::default()
    }
    .pack();
    let of = |text: &[u8]| {
        let sheet = Sheet::new().here().text_of(text).here();
        let mut sheet = sheet.put(2_100_000, 32).done();
        // 68 + 8 n bits so far, and 4,200,000 zero bits.
        let bits = 68 + 8 * text.len() + 4_200_000;
        sheet.resize(bits.div_ceil(8), 0);
        sheet
    };
    assert_eq!(write(48, &schema, &of(b"a"), 0).0, 13);
    assert_eq!(write(48, &schema, &of(&[0xC0, 0x80]), 0).0, 12);
    let mut longer = of(&[0xC0, 0x80]);
    longer.push(0);
    assert_eq!(write(48, &schema, &longer, 0).0, 11);
}

/// A sheet with such a text is lawful: only 12 is said of it, and added members
/// have their entries.
#[test]
fn such_a_sheet_is_lawful() {
    let (older, newer) = (one_table(&[TEXT]), one_table(&[TEXT, BYTES]));
    let sheet = Sheet::new().here().text_of(&[0xFF]);
    let added = with_added(48, &older, &newer, &sheet.done());
    assert_eq!(added, Some(sheet.clone().absent().done()));
    assert_eq!(write(48, &newer, &added.unwrap(), 99).0, 12);
}

/// Texts of many lengths with one byte that is none, at every place.
#[test]
fn one_byte_of_a_long_text() {
    let schema = one_table(&[TEXT]);
    let sizes = (1..=20)
        .chain(60..=70)
        .chain([127, 128, 129, 255, 256, 257]);
    for length in sizes {
        let mut message = Message::new(10);
        message.table(ID, 6).u48(26).text_of(&vec![b'x'; length]);
        let judged = |message: &Message| judge(48, &schema, &message.bytes, 2);
        assert_eq!(judged(&message), verdict(0, 0, 2));
        for at in 36..36 + length {
            for byte in [0x80, 0xC2, 0xE1, 0xFF] {
                message.bytes[at] = byte;
                assert_eq!(judged(&message), verdict(16, 26, 2), "{length} {at}");
            }
            message.bytes[at] = b'x';
        }
    }
}
