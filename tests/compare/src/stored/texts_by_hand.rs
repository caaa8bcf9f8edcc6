//! Texts under both codings, worked out by hand from the request and the grammar of
//! RFC 3629; none of what is expected is a program's output.

use super::by_hand::bytes;
use super::Case;
use crate::coding::Coding::{self, Bits32, Bits48};
use crate::schema::Packed;

/// A message of one root with one text.
pub struct Judged {
    pub name: &'static str,
    pub coding: Coding,
    pub schema: &'static str,
    /// From the root's length on, which stands at 14 or 12.
    pub message: &'static str,
    /// Number and place.
    pub verdict: (u32, u64),
    pub visits: u32,
    pub content: u64,
    /// The path to the text.
    pub path: &'static [u32],
}

impl Judged {
    pub fn schema(&self) -> Packed {
        Packed::new(self.coding, &bytes(self.schema))
    }

    pub fn message(&self) -> Vec<u8> {
        let start = match self.coding {
            Bits48 => "B3C4C0B5 0A0000000000 4543494C",
            Bits32 => "B3C4C0B5 08000000 4543494C",
        };
        bytes(&[start, self.message].concat())
    }
}

/// A sheet that is lawful or not, and what writing it answers.
pub struct Written {
    pub name: &'static str,
    pub schema: &'static str,
    pub sheet: &'static str,
    pub number: u64,
}

/// A U16 and a text.
const TEXT: &str = "00000001 00 4C494345 02 1000 6800";
/// A text in place.
const IN_PLACE: &str = "00000001 00 4C494345 01 6A00";
/// A list of texts.
const LIST: &str = "00010001 00 6800 4C494345 01 7800";
/// A union of a text.
const UNION: &str = "00000101 00 01 6800 4C494345 01 8800";
/// In place, a union of a text.
const UNION_IN_PLACE: &str = "00000101 00 01 6800 4C494345 01 8A00";
/// A direct list of tables with a text.
const DIRECT: &str = "00000002 00 4C494345 01 9001 01020304 01 6800";

/// A message that is accepted or refused at its text.
const fn judged(
    name: &'static str,
    (coding, schema): (Coding, &'static str),
    message: &'static str,
    verdict: (u32, u64),
    (visits, content): (u32, u64),
    path: &'static [u32],
) -> Judged {
    Judged {
        name,
        coding,
        schema,
        message,
        verdict,
        visits,
        content,
        path,
    }
}

pub const JUDGED: [Judged; 30] = [
    judged(
        "U+0000",
        (Bits48, TEXT),
        "080000000000 0300 1C0000000000 F5C812D8 010000000000 00 00",
        (0, 0),
        (2, 9),
        &[1],
    ),
    judged(
        "U+0080, U+0800 and U+10000",
        (Bits48, TEXT),
        "080000000000 0300 1C0000000000 F5C812D8 090000000000 C280 E0A080 F0908080 00",
        (0, 0),
        (2, 17),
        &[1],
    ),
    judged(
        "U+D7FF, U+E000 and U+10FFFF",
        (Bits48, TEXT),
        "080000000000 0300 1C0000000000 F5C812D8 0A0000000000 ED9FBF EE8080 F48FBFBF 00",
        (0, 0),
        (2, 18),
        &[1],
    ),
    judged(
        "U+0000 in two bytes",
        (Bits48, TEXT),
        "080000000000 0300 1C0000000000 F5C812D8 020000000000 C080 00",
        (16, 28),
        (2, 10),
        &[1],
    ),
    judged(
        "U+0000 in three bytes",
        (Bits48, TEXT),
        "080000000000 0300 1C0000000000 F5C812D8 030000000000 E08080 00",
        (16, 28),
        (2, 11),
        &[1],
    ),
    judged(
        "U+FFFF in four bytes",
        (Bits48, TEXT),
        "080000000000 0300 1C0000000000 F5C812D8 040000000000 F08FBFBF 00",
        (16, 28),
        (2, 12),
        &[1],
    ),
    judged(
        "U+D800",
        (Bits48, TEXT),
        "080000000000 0300 1C0000000000 F5C812D8 030000000000 EDA080 00",
        (16, 28),
        (2, 11),
        &[1],
    ),
    judged(
        "U+110000",
        (Bits48, TEXT),
        "080000000000 0300 1C0000000000 F5C812D8 040000000000 F4908080 00",
        (16, 28),
        (2, 12),
        &[1],
    ),
    judged(
        "a tail alone",
        (Bits48, TEXT),
        "080000000000 0300 1C0000000000 F5C812D8 030000000000 618062 00",
        (16, 28),
        (2, 11),
        &[1],
    ),
    judged(
        "FF",
        (Bits48, TEXT),
        "080000000000 0300 1C0000000000 F5C812D8 010000000000 FF 00",
        (16, 28),
        (2, 9),
        &[1],
    ),
    judged(
        "two of three bytes",
        (Bits48, TEXT),
        "080000000000 0300 1C0000000000 F5C812D8 020000000000 E282 00",
        (16, 28),
        (2, 10),
        &[1],
    ),
    judged(
        "two of three bytes, and the third as the end byte",
        (Bits48, TEXT),
        "080000000000 0300 1C0000000000 F5C812D8 020000000000 E282 AC",
        (10, 28),
        (2, 10),
        &[1],
    ),
    judged(
        "FF with an end byte of 1",
        (Bits48, TEXT),
        "080000000000 0300 1C0000000000 F5C812D8 010000000000 FF 01",
        (10, 28),
        (2, 9),
        &[1],
    ),
    judged(
        "FF without an end byte",
        (Bits48, TEXT),
        "080000000000 0300 1C0000000000 F5C812D8 010000000000 FF",
        (6, 28),
        (2, 8),
        &[1],
    ),
    judged(
        "in place at 26, text",
        (Bits48, IN_PLACE),
        "060000000000 020000000000 DFBF 00",
        (0, 0),
        (2, 8),
        &[0],
    ),
    judged(
        "in place at 26, no text",
        (Bits48, IN_PLACE),
        "060000000000 020000000000 DF61 00",
        (16, 26),
        (2, 8),
        &[0],
    ),
    judged(
        "the second of a list, at 59, no text",
        (Bits48, LIST),
        "060000000000 1A0000000000 46BB0034 020000000000 300000000000 3B0000000000 \
         F5C812D8 000000000000 00 F5C812D8 010000000000 BF 00",
        (16, 59),
        (4, 19),
        &[0, 1],
    ),
    judged(
        "a union's at 28, no text",
        (Bits48, UNION),
        "080000000000 0100 1C0000000000 F5C812D8 020000000000 C1BF 00",
        (16, 28),
        (2, 10),
        &[0],
    ),
    judged(
        "a union's in place at 28, no text",
        (Bits48, UNION_IN_PLACE),
        "080000000000 0100 040000000000 F5808080 00",
        (16, 28),
        (2, 12),
        &[0],
    ),
    judged(
        "an element's at 50, no text",
        (Bits48, DIRECT),
        "060000000000 1A0000000000 05CCC6E2 010000000000 04030201 06000000 320000000000 \
         F5C812D8 030000000000 EDBFBF 00",
        (16, 50),
        (4, 15),
        &[0, 0, 0],
    ),
    judged(
        "U+007F and U+07FF, 32 bits",
        (Bits32, TEXT),
        "06000000 0300 16000000 F5C812D8 03000000 7F DFBF 00",
        (0, 0),
        (2, 9),
        &[1],
    ),
    judged(
        "U+10FFFF, 32 bits",
        (Bits32, TEXT),
        "06000000 0300 16000000 F5C812D8 04000000 F48FBFBF 00",
        (0, 0),
        (2, 10),
        &[1],
    ),
    judged(
        "U+0000 in two bytes, 32 bits",
        (Bits32, TEXT),
        "06000000 0300 16000000 F5C812D8 02000000 C080 00",
        (16, 22),
        (2, 8),
        &[1],
    ),
    judged(
        "U+DFFF, 32 bits",
        (Bits32, TEXT),
        "06000000 0300 16000000 F5C812D8 03000000 EDBFBF 00",
        (16, 22),
        (2, 9),
        &[1],
    ),
    judged(
        "U+110000, 32 bits",
        (Bits32, TEXT),
        "06000000 0300 16000000 F5C812D8 04000000 F4908080 00",
        (16, 22),
        (2, 10),
        &[1],
    ),
    judged(
        "FF with an end byte of 1, 32 bits",
        (Bits32, TEXT),
        "06000000 0300 16000000 F5C812D8 01000000 FF 01",
        (10, 22),
        (2, 7),
        &[1],
    ),
    judged(
        "in place at 20, no text, 32 bits",
        (Bits32, IN_PLACE),
        "04000000 01000000 80 00",
        (16, 20),
        (2, 5),
        &[0],
    ),
    judged(
        "the first of a list, at 32, no text, 32 bits",
        (Bits32, LIST),
        "04000000 14000000 46BB0034 01000000 20000000 F5C812D8 02000000 E080 00",
        (16, 32),
        (3, 10),
        &[0, 0],
    ),
    judged(
        "a union's in place at 22, text, 32 bits",
        (Bits32, UNION_IN_PLACE),
        "06000000 0100 03000000 EFBFBF 00",
        (0, 0),
        (2, 9),
        &[0],
    ),
    judged(
        "a union's in place at 22, no text, 32 bits",
        (Bits32, UNION_IN_PLACE),
        "06000000 0100 03000000 EFBF61 00",
        (16, 22),
        (2, 9),
        &[0],
    ),
];

/// A number of 3 is 0100 0000 0000 0000 11, and a present text has 01 and 32 bits
/// of length before its bytes.
pub const WRITTEN: [Written; 13] = [
    Written {
        name: "a number and U+0000",
        schema: TEXT,
        sheet: "4000D 00000001 00 0",
        number: 0,
    },
    Written {
        name: "a number and U+0000 in two bytes",
        schema: TEXT,
        sheet: "4000D 00000002 C080 0",
        number: 12,
    },
    Written {
        name: "a number and U+D7FF",
        schema: TEXT,
        sheet: "4000D 00000003 ED9FBF 0",
        number: 0,
    },
    Written {
        name: "a number and U+D800",
        schema: TEXT,
        sheet: "4000D 00000003 EDA080 0",
        number: 12,
    },
    Written {
        name: "a number and U+10FFFF",
        schema: TEXT,
        sheet: "4000D 00000004 F48FBFBF 0",
        number: 0,
    },
    Written {
        name: "a number and U+110000",
        schema: TEXT,
        sheet: "4000D 00000004 F4908080 0",
        number: 12,
    },
    Written {
        name: "U+110000, and a last bit that is not 0",
        schema: TEXT,
        sheet: "4000D 00000004 F4908080 1",
        number: 11,
    },
    Written {
        name: "U+110000, and a byte more",
        schema: TEXT,
        sheet: "4000D 00000004 F4908080 000",
        number: 11,
    },
    Written {
        name: "in place, FF: 01, 32 bits, 1111 1111 and six bits",
        schema: IN_PLACE,
        sheet: "40000000 7FC0",
        number: 12,
    },
    Written {
        name: "in place, 7F",
        schema: IN_PLACE,
        sheet: "40000000 5FC0",
        number: 0,
    },
    Written {
        name: "a list of one text, which is a tail: 01, 32 bits, 01, 32 bits",
        schema: LIST,
        sheet: "40000000 5 00000001 80 0",
        number: 12,
    },
    Written {
        name: "a list of one text, U+0041",
        schema: LIST,
        sheet: "40000000 5 00000001 41 0",
        number: 0,
    },
    Written {
        name: "in place a union's, two of three bytes: 01, 16 bits, 32 bits",
        schema: UNION_IN_PLACE,
        sheet: "40004000 0000B8A0 80",
        number: 12,
    },
];

/// Adds the cases of a coding that are judged.
pub fn add(coding: Coding, cases: &mut Vec<Case>) {
    for case in JUDGED.iter().filter(|case| case.coding == coding) {
        cases.push(Case {
            group: "texts by hand".to_string(),
            name: case.name.to_string(),
            schema: case.schema(),
            message: case.message(),
            budget: case.visits,
        });
    }
}
