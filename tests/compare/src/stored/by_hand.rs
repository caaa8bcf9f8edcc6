//! Cases of the 32-bit coding, worked out by hand from document 002 and the
//! request that brought it; none of what is expected is a program's output.

use super::Case;
use crate::coding::Coding::Bits32;
use crate::schema::Packed;

/// A message of one root that is refused.
pub struct Refused {
    pub name: &'static str,
    pub schema: &'static str,
    pub message: &'static str,
    pub budget: u32,
    /// Number, place and visits.
    pub verdict: (u32, u64, u32),
    pub member: Option<u32>,
    pub content: u64,
}

/// A message that is accepted after so many visits, with so much content, its
/// sheet, and whether it is what is written of that.
pub struct Sheet {
    pub name: &'static str,
    pub schema: &'static str,
    pub message: &'static str,
    pub visits: u32,
    pub content: u64,
    pub sheet: &'static str,
    pub written: bool,
}

/// A U16 and a text.
pub const TEXT: &str = "00000001 00 4C494345 02 1000 6800";
/// A U8, a text in place and a U16.
const TEXT_IN_PLACE: &str = "00000001 00 4C494345 03 0800 6A00 1000";
/// A U8 and, in place, a union of a text.
const UNION: &str = "00000101 00 01 6800 4C494345 02 0800 8A00";
/// In place, a union of a table with a U16.
const UNION_OF_TABLE: &str = "00000102 00 01 8001 4C494345 01 8A00 00000007 01 1000";
/// A list of texts.
const LIST: &str = "00010001 00 6800 4C494345 01 7800";
/// In place, a list of U16.
const LIST_IN_PLACE: &str = "00010001 00 1000 4C494345 01 7A00";
/// An optional U16 and an optional bool.
const OPTIONAL: &str = "00000001 00 4C494345 02 1400 0400";
/// A struct of a bool.
const STRUCT: &str = "01000001 00 01 0000 4C494345 01 6000";

/// The start and the root's id; then comes the root's length, at 12, and from 16
/// on its content.
const ROOT: &str = "B3C4C0B5 08000000 4543494C";

pub const SHEETS: [Sheet; 16] = [
    Sheet {
        name: "a text by offset, at 22",
        schema: TEXT,
        message: "06000000 0300 16000000 F5C812D8 02000000 616200",
        visits: 2,
        content: 8,
        sheet: "4000D0000000261620",
        written: true,
    },
    Sheet {
        name: "a root that ends before the text",
        schema: TEXT,
        message: "02000000 0300",
        visits: 1,
        content: 2,
        sheet: "4000C0",
        written: false,
    },
    Sheet {
        name: "a root of nothing",
        schema: TEXT,
        message: "00000000",
        visits: 1,
        content: 0,
        sheet: "00",
        written: false,
    },
    Sheet {
        name: "a text in place, at 23",
        schema: TEXT_IN_PLACE,
        message: "07000000 05 02000000 3412 616200",
        visits: 2,
        content: 9,
        sheet: "41500000002616 2448D0",
        written: true,
    },
    Sheet {
        name: "length 0 is no text",
        schema: TEXT_IN_PLACE,
        message: "07000000 05 00000000 3412",
        visits: 1,
        content: 7,
        sheet: "414448D0",
        written: true,
    },
    Sheet {
        name: "a union with a text, at 23",
        schema: UNION,
        message: "07000000 05 0100 02000000 616200",
        visits: 2,
        content: 9,
        sheet: "41500010000000261620",
        written: true,
    },
    Sheet {
        name: "a union of choice 0, whatever its length",
        schema: UNION,
        message: "07000000 05 0000 C8000000",
        visits: 1,
        content: 7,
        sheet: "4140",
        written: false,
    },
    Sheet {
        name: "an unknown choice, which is not followed",
        schema: UNION,
        message: "07000000 05 0200 C8000000",
        visits: 1,
        content: 7,
        sheet: "41600020",
        written: false,
    },
    Sheet {
        name: "a known choice of length 0 is an empty text",
        schema: UNION,
        message: "07000000 05 0100 00000000 00",
        visits: 2,
        content: 7,
        sheet: "4150001000000000",
        written: true,
    },
    Sheet {
        name: "a root that ends before the union",
        schema: UNION,
        message: "01000000 05",
        visits: 1,
        content: 1,
        sheet: "4140",
        written: false,
    },
    Sheet {
        name: "a union with a table, at 22",
        schema: UNION_OF_TABLE,
        message: "06000000 0100 02000000 3412",
        visits: 2,
        content: 8,
        sheet: "4000512340",
        written: true,
    },
    Sheet {
        name: "a list at 20 of a text at 36 and none",
        schema: LIST,
        message: "04000000 14000000 46BB0034 02000000 24000000 00000000 F5C812D8 02000000 616200",
        visits: 3,
        content: 14,
        sheet: "4000000090000000261620",
        written: true,
    },
    Sheet {
        name: "a list in place, at 20",
        schema: LIST_IN_PLACE,
        message: "04000000 02000000 0100 FFFF",
        visits: 2,
        content: 8,
        sheet: "40000000 80007FFFC0",
        written: true,
    },
    Sheet {
        name: "optional members: flags and values",
        schema: OPTIONAL,
        message: "03000000 07 3412",
        visits: 1,
        content: 3,
        sheet: "448D18",
        written: true,
    },
    Sheet {
        name: "a flag of 0 and the value past the end",
        schema: OPTIONAL,
        message: "01000000 02",
        visits: 1,
        content: 1,
        sheet: "10",
        written: false,
    },
    Sheet {
        name: "a struct's bool",
        schema: STRUCT,
        message: "01000000 01",
        visits: 1,
        content: 1,
        sheet: "60",
        written: true,
    },
];

pub const REFUSED: [Refused; 23] = [
    Refused {
        name: "the text is not visited",
        schema: TEXT,
        message: "06000000 0300 16000000 F5C812D8 02000000 616200",
        budget: 1,
        verdict: (4, 22, 1),
        member: None,
        content: 6,
    },
    Refused {
        name: "the root is not visited",
        schema: TEXT,
        message: "06000000 0300 16000000 F5C812D8 02000000 616200",
        budget: 0,
        verdict: (4, 8, 0),
        member: None,
        content: 0,
    },
    Refused {
        name: "a text at 7",
        schema: TEXT,
        message: "06000000 0300 07000000 F5C812D8 02000000 616200",
        budget: 9,
        verdict: (6, 7, 2),
        member: None,
        content: 6,
    },
    Refused {
        name: "a text at 8, where the root is",
        schema: TEXT,
        message: "06000000 0300 08000000 F5C812D8 02000000 616200",
        budget: 9,
        verdict: (7, 8, 2),
        member: None,
        content: 6,
    },
    Refused {
        name: "a text at 25, the last header that fits",
        schema: TEXT,
        message: "06000000 0300 19000000 F5C812D8 02000000 616200",
        budget: 9,
        verdict: (7, 25, 2),
        member: None,
        content: 6,
    },
    Refused {
        name: "a text at 26",
        schema: TEXT,
        message: "06000000 0300 1A000000 F5C812D8 02000000 616200",
        budget: 9,
        verdict: (6, 26, 2),
        member: None,
        content: 6,
    },
    Refused {
        name: "a text without its end byte",
        schema: TEXT,
        message: "06000000 0300 16000000 F5C812D8 02000000 6162",
        budget: 9,
        verdict: (6, 22, 2),
        member: None,
        content: 6,
    },
    Refused {
        name: "a text with another end byte",
        schema: TEXT,
        message: "06000000 0300 16000000 F5C812D8 02000000 616201",
        budget: 9,
        verdict: (10, 22, 2),
        member: None,
        content: 8,
    },
    Refused {
        name: "a text's offset cut",
        schema: TEXT,
        message: "05000000 0300 16000000 F5C812D8 02000000 616200",
        budget: 9,
        verdict: (8, 8, 1),
        member: Some(1),
        content: 5,
    },
    Refused {
        name: "a root longer than the message",
        schema: TEXT,
        message: "07000000 0300 00000000",
        budget: 9,
        verdict: (6, 8, 1),
        member: None,
        content: 0,
    },
    Refused {
        name: "a text in place that is not visited",
        schema: TEXT_IN_PLACE,
        message: "07000000 05 02000000 3412 616200",
        budget: 1,
        verdict: (4, 23, 1),
        member: None,
        content: 7,
    },
    Refused {
        name: "a text in place without its end byte",
        schema: TEXT_IN_PLACE,
        message: "07000000 05 02000000 3412 6162",
        budget: 9,
        verdict: (6, 23, 2),
        member: None,
        content: 7,
    },
    Refused {
        name: "a shorter root, whose text stands at 21 and ends with 61",
        schema: TEXT_IN_PLACE,
        message: "05000000 05 02000000 3412 616200",
        budget: 9,
        verdict: (10, 21, 2),
        member: None,
        content: 7,
    },
    Refused {
        name: "a text's length cut",
        schema: TEXT_IN_PLACE,
        message: "04000000 05 02000000 3412 616200",
        budget: 9,
        verdict: (8, 8, 1),
        member: Some(1),
        content: 4,
    },
    Refused {
        name: "a union cut",
        schema: UNION,
        message: "06000000 05 0100 02000000 616200",
        budget: 9,
        verdict: (8, 8, 1),
        member: Some(1),
        content: 6,
    },
    Refused {
        name: "an empty text in a union without its end byte",
        schema: UNION,
        message: "07000000 05 0100 00000000",
        budget: 9,
        verdict: (6, 23, 2),
        member: None,
        content: 7,
    },
    Refused {
        name: "the largest length in a union",
        schema: UNION,
        message: "07000000 05 0100 FFFFFFFF 616200",
        budget: 9,
        verdict: (6, 23, 2),
        member: None,
        content: 7,
    },
    Refused {
        name: "a member cut in a union's table",
        schema: UNION_OF_TABLE,
        message: "06000000 0100 01000000 34",
        budget: 9,
        verdict: (8, 22, 2),
        member: Some(0),
        content: 7,
    },
    Refused {
        name: "a third element, which is the text's magic",
        schema: LIST,
        message: "04000000 14000000 46BB0034 03000000 24000000 00000000 F5C812D8 02000000 616200",
        budget: 9,
        verdict: (6, 0xD812_C8F5, 4),
        member: None,
        content: 18,
    },
    Refused {
        name: "five elements, one more than fit",
        schema: LIST,
        message: "04000000 14000000 46BB0034 05000000 24000000 00000000 F5C812D8 02000000 616200",
        budget: 9,
        verdict: (6, 20, 2),
        member: None,
        content: 4,
    },
    Refused {
        name: "a flag of 1 and the value past the end",
        schema: OPTIONAL,
        message: "01000000 01",
        budget: 9,
        verdict: (8, 8, 1),
        member: Some(0),
        content: 1,
    },
    Refused {
        name: "a value behind a flag of 0 cut",
        schema: OPTIONAL,
        message: "02000000 00 00",
        budget: 9,
        verdict: (8, 8, 1),
        member: Some(0),
        content: 2,
    },
    Refused {
        name: "a struct's bool of 2",
        schema: STRUCT,
        message: "01000000 02",
        budget: 9,
        verdict: (10, 8, 1),
        member: Some(0),
        content: 1,
    },
];

/// The bytes of digits, spaces aside.
pub fn bytes(digits: &str) -> Vec<u8> {
    let digits: Vec<u8> = digits.bytes().filter(|digit| *digit != b' ').collect();
    let byte = |pair: &[u8]| {
        let pair = std::str::from_utf8(pair).expect("plain letters");
        u8::from_str_radix(pair, 16).expect("hexadecimal digits")
    };
    digits.chunks(2).map(byte).collect()
}

pub fn packed(digits: &str) -> Packed {
    Packed::new(Bits32, &bytes(digits))
}

/// A message from the root's length on.
pub fn message(digits: &str) -> Vec<u8> {
    bytes(&[ROOT, digits].concat())
}

/// Adds the cases.
pub fn add(cases: &mut Vec<Case>) {
    let mut push = |name: &str, schema: &str, bytes: &str, budget| {
        cases.push(Case {
            group: "by hand".to_string(),
            name: name.to_string(),
            schema: packed(schema),
            message: message(bytes),
            budget,
        });
    };
    for case in SHEETS {
        push(case.name, case.schema, case.message, case.visits);
    }
    for case in REFUSED {
        push(case.name, case.schema, case.message, case.budget);
    }
}
