//! Every function of the wrapper under both codings. What is expected was worked out by hand from
//! the documents of the two codings, so the numbers stand beside each other here.

mod common;

use common::by;
use scalgo::Coding::{self, Bits32, Bits48};
use scalgo::{clear_unions, Answer, Budget, Schema, Verdict};

/// The same value in one of the codings.
struct Example {
    coding: Coding,
    /// By `SCHEMA`: a table with 3 and a reference to the text "ab".
    message: &'static [u8],
    /// By `IN_PLACE`: a table with 5 and, in place, a union with the text "ab".
    union: &'static [u8],
    /// By `LIST`: a table with a list of the text "ab", none, and an offset one too small.
    texts: &'static [u8],
    /// Where an object may stand first: the bytes of the message start.
    first: u64,
    /// The bytes of an offset or a length.
    offset: u64,
}

const SCHEMA: &[u8] = b"\x00\x00\x00\x01\x00\x4C\x49\x43\x45\x02\x10\x00\x68\x00";
const SHEET: &[u8] = b"\x40\x00\xD0\x00\x00\x00\x26\x16\x20";

const IN_PLACE: &[u8] = b"\x00\x00\x01\x01\x00\x01\x68\x00\x4C\x49\x43\x45\x02\x08\x00\x8A\x00";
const UNION_SHEET: &[u8] = b"\x41\x50\x00\x10\x00\x00\x00\x26\x16\x20";

const LIST: &[u8] = b"\x00\x01\x00\x01\x00\x68\x00\x4C\x49\x43\x45\x01\x78\x00";

const EXAMPLES: [Example; 2] = [
    Example {
        coding: Bits48,
        message: b"\xB3\xC4\xC0\xB5\x0A\x00\x00\x00\x00\x00\
            \x45\x43\x49\x4C\x08\x00\x00\x00\x00\x00\x03\x00\x1C\x00\x00\x00\x00\x00\
            \xF5\xC8\x12\xD8\x02\x00\x00\x00\x00\x00ab\x00",
        union: b"\xB3\xC4\xC0\xB5\x0A\x00\x00\x00\x00\x00\
            \x45\x43\x49\x4C\x09\x00\x00\x00\x00\x00\
            \x05\x01\x00\x02\x00\x00\x00\x00\x00ab\x00",
        texts: b"\xB3\xC4\xC0\xB5\x0A\x00\x00\x00\x00\x00\
            \x45\x43\x49\x4C\x06\x00\x00\x00\x00\x00\x1A\x00\x00\x00\x00\x00\
            \x46\xBB\x00\x34\x03\x00\x00\x00\x00\x00\
            \x36\x00\x00\x00\x00\x00\x00\x00\x00\x00\x00\x00\x09\x00\x00\x00\x00\x00\
            \xF5\xC8\x12\xD8\x02\x00\x00\x00\x00\x00ab\x00",
        first: 10,
        offset: 6,
    },
    Example {
        coding: Bits32,
        message: b"\xB3\xC4\xC0\xB5\x08\x00\x00\x00\
            \x45\x43\x49\x4C\x06\x00\x00\x00\x03\x00\x16\x00\x00\x00\
            \xF5\xC8\x12\xD8\x02\x00\x00\x00ab\x00",
        union: b"\xB3\xC4\xC0\xB5\x08\x00\x00\x00\
            \x45\x43\x49\x4C\x07\x00\x00\x00\
            \x05\x01\x00\x02\x00\x00\x00ab\x00",
        texts: b"\xB3\xC4\xC0\xB5\x08\x00\x00\x00\
            \x45\x43\x49\x4C\x04\x00\x00\x00\x14\x00\x00\x00\
            \x46\xBB\x00\x34\x03\x00\x00\x00\
            \x28\x00\x00\x00\x00\x00\x00\x00\x07\x00\x00\x00\
            \xF5\xC8\x12\xD8\x02\x00\x00\x00ab\x00",
        first: 8,
        offset: 4,
    },
];

/// A verdict without a member.
fn verdict(number: u32, place: u64, visits: u32, content: u64) -> Verdict {
    Verdict {
        number,
        place,
        member: None,
        visits,
        content,
    }
}

/// So many visits with all the content there is.
fn visits(visits: u32) -> Budget {
    Budget::of_visits(visits)
}

fn object(kind: u8, place: u64, length: u64) -> Answer {
    Answer::Object {
        kind,
        place,
        length,
    }
}

/// A refusal without a member.
fn refused(number: u32, place: u64) -> Answer {
    Answer::Refused {
        number,
        place,
        member: None,
    }
}

impl Example {
    /// Where the referenced text of `message` stands: behind the root's header, a U16 and an offset.
    fn text(&self) -> u64 {
        2 * self.first + self.fixed()
    }

    /// The bytes of its root's fixed part.
    fn fixed(&self) -> u64 {
        2 + self.offset
    }
}

#[test]
fn numbers_of_the_codings() {
    assert_eq!(Coding::ALL.map(Coding::number), [48, 32]);
    assert_eq!(
        (Coding::of(48), Coding::of(32)),
        (Some(Bits48), Some(Bits32))
    );
    for number in [0, 31, 33, 47, 49, u32::MAX] {
        assert_eq!(Coding::of(number), None);
    }
}

#[test]
fn verdicts() {
    for example in EXAMPLES {
        let judged = |message: &[u8], many| by(example.coding, SCHEMA).judge(message, visits(many));
        let (message, text, fixed) = (example.message, example.text(), example.fixed());
        assert_eq!(judged(message, 2), verdict(0, 0, 2, fixed + 2));
        assert_eq!(judged(message, 1), verdict(4, text, 1, fixed));
        assert_eq!(judged(message, 0), verdict(4, example.first, 0, 0));
        let shorter = &message[..message.len() - 1];
        assert_eq!(judged(shorter, 2), verdict(6, text, 2, fixed));
        let first = example.first as usize;
        assert_eq!(judged(&message[..first - 1], 2), verdict(2, 0, 0, 0));
        let no_root = verdict(6, example.first, 1, 0);
        assert_eq!(judged(&message[..first], 2), no_root);
        let mut small = message.to_vec();
        small[4] = first as u8 - 1;
        assert_eq!(judged(&small, 2), verdict(6, example.first - 1, 1, 0));
        let mut cut = message.to_vec();
        cut[first + 4] -= 1;
        // The text is member 1; the end byte is of no member.
        let of_text = Verdict {
            member: Some(1),
            ..verdict(8, example.first, 1, fixed - 1)
        };
        assert_eq!(judged(&cut, 2), of_text);
        let mut end = message.to_vec();
        end[message.len() - 1] = 1;
        assert_eq!(judged(&end, 2), verdict(10, text, 2, fixed + 2));
    }
}

/// The fixed part and the text's two bytes: with one less the text is refused, or the root.
#[test]
fn content_allowances() {
    for example in EXAMPLES {
        let (message, text, fixed) = (example.message, example.text(), example.fixed());
        let (accepted, first) = (verdict(0, 0, 2, fixed + 2), example.first);
        let (at_text, at_root) = (verdict(17, text, 2, fixed), verdict(17, first, 1, 0));
        for (content, expected) in [
            (u64::MAX, accepted),
            (fixed + 2, accepted),
            (fixed + 1, at_text),
            (fixed, at_text),
            (fixed - 1, at_root),
            (0, at_root),
        ] {
            let budget = Budget { visits: 2, content };
            let given = by(example.coding, SCHEMA).judge(message, budget);
            assert_eq!(given, expected);
            let mut sheet = [0xEE; 9];
            let answer = by(example.coding, SCHEMA).read(message, budget, &mut sheet);
            let length = if expected.accepted() { 9 } else { 0 };
            assert_eq!((answer.verdict, answer.length), (expected, length));
            assert_eq!(sheet == [0xEE; 9], length == 0);
        }
        // The visits are spent first.
        let (visits, content) = (1, fixed);
        let budget = Budget { visits, content };
        let given = by(example.coding, SCHEMA).judge(message, budget);
        assert_eq!(given, verdict(4, text, 1, fixed));
    }
    assert_eq!(Budget::LARGEST, visits(u32::MAX));
}

/// A message of one coding is none of the other.
#[test]
fn messages_of_the_other_coding() {
    let [newer, older] = EXAMPLES;
    // The root is at 10 here too, but its length ends at 18: the reference is the two bytes of 3
    // and the first two of the offset.
    let given = by(Bits32, SCHEMA).judge(newer.message, visits(2));
    assert_eq!(given, verdict(6, 0x001C_0003, 2, 8));
    // The root's offset is 8 and the first two bytes of the root's id.
    let given = by(Bits48, SCHEMA).judge(older.message, visits(2));
    assert_eq!(given, verdict(6, 0x4345_0000_0008, 1, 0));
}

#[test]
fn fields_and_texts() {
    let three = Answer::Number {
        bits: 3,
        width: 16,
        signed: false,
    };
    for example in EXAMPLES {
        let at = |path: &[u32]| by(example.coding, SCHEMA).field(example.message, path);
        assert_eq!(at(&[]), object(16, example.first, 2 + example.offset));
        assert_eq!(at(&[0]), three);
        assert_eq!(at(&[1]), object(13, example.text(), 2));
        assert_eq!(at(&[2]), refused(15, example.first));
        let part = |path: &[u32]| by(example.coding, SCHEMA).text(example.message, path);
        assert_eq!(part(&[1]), Some(&b"ab"[..]));
        assert_eq!(part(&[0]), None);
    }
}

/// A U8, a struct of a U8 and a bool, and a U16: the struct is member 1, cut or with a wrong bool,
/// and the U16 member 2.
#[test]
fn members() {
    let schema =
        b"\x01\x00\x00\x01\x00\x02\x08\x00\x00\x00\x4C\x49\x43\x45\x03\x08\x00\x60\x00\x10\x00";
    for example in EXAMPLES {
        let start = &example.message[..example.first as usize + 4];
        let message = |fixed: &[u8]| {
            let length = &(fixed.len() as u64).to_le_bytes()[..example.offset as usize];
            [start, length, fixed].concat()
        };
        for (fixed, number, member) in [
            (&[0, 0][..], 8, 1),
            (&[0, 0, 2], 10, 1),
            (&[0, 0, 2, 0], 10, 1),
            (&[0, 0, 1, 0], 8, 2),
        ] {
            let (place, member) = (example.first, Some(member));
            let expected = Verdict {
                member,
                ..verdict(number, place, 1, fixed.len() as u64)
            };
            let message = message(fixed);
            let given = by(example.coding, schema).judge(&message, visits(9));
            assert_eq!(given, expected);
            let answer = by(example.coding, schema).read(&message, visits(9), &mut [0; 9]);
            assert_eq!((answer.verdict, answer.length), (expected, 0));
            let refused = Answer::Refused {
                number,
                place,
                member,
            };
            let path = [member.unwrap_or(0), 0];
            assert_eq!(by(example.coding, schema).field(&message, &path), refused);
        }
    }
}

/// A list of unions of a text: choice 0, and then a known choice of offset 0.
#[test]
fn elements() {
    let schema = b"\x00\x01\x01\x01\x00\x88\x00\x01\x68\x00\x4C\x49\x43\x45\x01\x78\x00";
    let message = b"\xB3\xC4\xC0\xB5\x0A\x00\x00\x00\x00\x00\
        \x45\x43\x49\x4C\x06\x00\x00\x00\x00\x00\x1A\x00\x00\x00\x00\x00\
        \x46\xBB\x00\x34\x02\x00\x00\x00\x00\x00\
        \x00\x00\x00\x00\x00\x00\x00\x00\x01\x00\x00\x00\x00\x00\x00\x00";
    let member = Some(1);
    let expected = Verdict {
        member,
        ..verdict(9, 26, 2, 6 + 16)
    };
    assert_eq!(by(Bits48, schema).judge(message, visits(9)), expected);
    let schema = by(Bits48, schema);
    let elements = schema.list(message, &[0]).expect("a list");
    let (number, place) = (9, 26);
    let refused = Answer::Refused {
        number,
        place,
        member,
    };
    let elements: Vec<Answer> = elements.collect();
    assert_eq!(elements, [Answer::Absent, refused]);
    let inside = schema.list(message, &[0, 1]).err();
    assert_eq!(inside, Some(refused));
}

#[test]
fn unions_in_place() {
    for example in EXAMPLES {
        let (coding, message) = (example.coding, example.union);
        // The root's header, a U8, a choice and a length.
        let fixed = 3 + example.offset;
        let place = 2 * example.first + fixed;
        let accepted = verdict(0, 0, 2, fixed + 2);
        assert_eq!(by(coding, IN_PLACE).judge(message, visits(2)), accepted);
        let spent = verdict(4, place, 1, fixed);
        assert_eq!(by(coding, IN_PLACE).judge(message, visits(1)), spent);
        assert_eq!(
            by(coding, IN_PLACE).field(message, &[1]),
            object(13, place, 2)
        );
        assert_eq!(by(coding, IN_PLACE).text(message, &[1]), Some(&b"ab"[..]));
        let mut sheet = [0xEE; 11];
        let answer = by(coding, IN_PLACE).read(message, visits(2), &mut sheet);
        assert_eq!((answer.verdict, answer.length), (accepted, 10));
        assert_eq!(sheet, *b"\x41\x50\x00\x10\x00\x00\x00\x26\x16\x20\xEE");
        let mut written = vec![0xEE; message.len()];
        let answer = by(coding, IN_PLACE).write(UNION_SHEET, &mut written);
        // Under 48 bits they are no longer written.
        let (number, expected) = match coding {
            Bits48 => (12, &vec![0xEE; message.len()][..]),
            Bits32 => (0, message),
        };
        let length = if number == 0 { message.len() } else { 0 };
        assert_eq!((answer.number, answer.length), (number, length));
        assert_eq!(written, expected);
        // One that is absent is, with a choice of 0 and a length of 0.
        let mut absent = message[..place as usize].to_vec();
        let end = absent.len();
        absent[end - 2 - example.offset as usize..].fill(0);
        let answer = by(coding, IN_PLACE).write(b"\x41\x40", &mut written);
        assert_eq!((answer.number, answer.length), (0, end));
        assert_eq!(written[..end], absent);
    }
}

/// The same schema with 88 for 8A, and with room for less, for more, and of one that is not lawful.
#[test]
fn cleared_schemas() {
    let (mut expected, length) = (IN_PLACE.to_vec(), IN_PLACE.len());
    expected[length - 2] = 0x88;
    for room in [length, length + 3] {
        let mut cleared = vec![0xEE; room];
        let answer = clear_unions(IN_PLACE, &mut cleared);
        assert_eq!((answer.number, answer.length), (0, length));
        assert_eq!(cleared[..length], expected);
        assert_eq!(cleared[length..], [0xEE; 3][..room - length]);
    }
    for room in [0, length - 1] {
        let mut cleared = vec![0xEE; room];
        let answer = clear_unions(IN_PLACE, &mut cleared);
        assert_eq!((answer.number, answer.length), (14, 0));
        assert_eq!(cleared, vec![0xEE; room]);
    }
    let mut cleared = [0xEE; 99];
    for schema in [&IN_PLACE[..length - 1], &[]] {
        for room in [0, 99] {
            let answer = clear_unions(schema, &mut cleared[..room]);
            assert_eq!((answer.number, answer.length), (1, 0));
        }
    }
    assert_eq!(cleared, [0xEE; 99]);
    // A schema without such is as it was.
    let answer = clear_unions(SCHEMA, &mut cleared);
    assert_eq!((answer.number, answer.length), (0, SCHEMA.len()));
    assert_eq!(&cleared[..SCHEMA.len()], SCHEMA);
}

#[test]
fn lists() {
    for example in EXAMPLES {
        // The root's header and an offset; the list's header and three offsets.
        let list_at = 2 * example.first + example.offset;
        let text_at = list_at + example.first + 3 * example.offset;
        let schema = by(example.coding, LIST);
        let elements = schema.list(example.texts, &[0]);
        let elements: Vec<Answer> = elements.expect("a list").collect();
        let small = refused(6, example.first - 1);
        let expected = [object(13, text_at, 2), Answer::Absent, small];
        assert_eq!(elements, expected);
        let none = schema.list(example.texts, &[]).err();
        assert_eq!(none, Some(refused(15, 0)));
    }
}

#[test]
fn sheets_and_messages() {
    for example in EXAMPLES {
        let (coding, message) = (example.coding, example.message);
        let mut sheet = [0xEE; 10];
        let answer = by(coding, SCHEMA).read(message, visits(2), &mut sheet);
        let content = example.fixed() + 2;
        let accepted = verdict(0, 0, 2, content);
        assert_eq!((answer.verdict, answer.length), (accepted, 9));
        assert_eq!((&sheet[..9], sheet[9]), (SHEET, 0xEE));
        let short = by(coding, SCHEMA).read(message, visits(2), &mut sheet[..8]);
        let no_room = verdict(14, 0, 2, content);
        assert_eq!((short.verdict, short.length), (no_room, 0));
        let mut written = vec![0xEE; message.len() + 1];
        let answer = by(coding, SCHEMA).write(SHEET, &mut written);
        assert_eq!((answer.number, answer.length), (0, message.len()));
        assert_eq!(written, [message, &[0xEE]].concat());
        let short = by(coding, SCHEMA).write(SHEET, &mut written[..message.len() - 1]);
        assert_eq!((short.number, short.length), (14, 0));
    }
}

/// A union not in place, a table in place, a list of unions and a direct list: lawful under 48 bits
/// alone.
#[test]
fn schemas_of_one_coding() {
    let schemas: [&[u8]; 4] = [
        b"\x00\x00\x01\x01\x00\x01\x68\x00\x4C\x49\x43\x45\x01\x88\x00",
        b"\x00\x00\x00\x01\x00\x4C\x49\x43\x45\x01\x82\x00",
        b"\x00\x01\x01\x01\x00\x88\x00\x01\x68\x00\x4C\x49\x43\x45\x00",
        b"\x00\x00\x00\x01\x00\x4C\x49\x43\x45\x01\x90\x00",
    ];
    for schema in schemas {
        // The start says 8, where the coding of 48 bits has no object.
        let message = b"\xB3\xC4\xC0\xB5\x08\0\0\0\0\0";
        let small = verdict(6, 8, 1, 0);
        assert_eq!(by(Bits48, schema).judge(message, visits(2)), small);
        let none = Schema::new(Bits32, schema).expect_err("not lawful");
        assert_eq!(Verdict::from(none), verdict(1, 0, 0, 0));
        assert_eq!(Answer::from(none), refused(1, 0));
    }
}
