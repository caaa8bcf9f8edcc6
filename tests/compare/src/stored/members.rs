//! Refusals of members and elements under 48 bits, worked out by hand from the
//! request that names them; none of what is expected is a program's output. They
//! are not among the cases of the file, whose program says no member.

use super::by_hand::bytes;
use crate::coding::Coding::Bits48;
use crate::schema::Packed;

/// A message of one root that is refused.
pub struct Refused {
    pub name: &'static str,
    pub schema: &'static str,
    /// From the root's length on, which stands at 14; its content is at 20.
    pub message: &'static str,
    /// Number, place and visits.
    pub verdict: (u32, u64, u32),
    pub member: Option<u32>,
    pub content: u64,
    /// A path that is refused likewise.
    pub path: &'static [u32],
}

impl Refused {
    pub fn schema(&self) -> Packed {
        Packed::new(Bits48, &bytes(self.schema))
    }

    pub fn message(&self) -> Vec<u8> {
        bytes(&["B3C4C0B5 0A0000000000 4543494C", self.message].concat())
    }
}

pub const REFUSED: [Refused; 11] = [
    Refused {
        name: "a U8, a U16 at 1 and a U32 at 3, of which two bytes are there",
        schema: "00000001 00 4C494345 03 0800 1000 1800",
        message: "050000000000 01 0200 0300",
        verdict: (8, 10, 1),
        member: Some(2),
        content: 5,
        path: &[2],
    },
    Refused {
        name: "a bool and an optional U8, its flag set and its value past the end",
        schema: "00000001 00 4C494345 02 0000 0C00",
        message: "010000000000 02",
        verdict: (8, 10, 1),
        member: Some(1),
        content: 1,
        path: &[1],
    },
    Refused {
        name: "a table at 27 with a U16 and a U64 that is cut",
        schema: "00000002 00 4C494345 02 0800 8001 00000007 02 1000 2000",
        message: "070000000000 05 1B0000000000 07000000 040000000000 0100 0000",
        verdict: (8, 27, 2),
        member: Some(1),
        content: 11,
        path: &[1, 1],
    },
    Refused {
        name: "a table in place at 29 with a U8 and a U16 that is cut",
        schema: "00000002 00 4C494345 03 0800 1000 8201 00000007 02 0800 1000",
        message: "090000000000 05 0100 020000000000 0700",
        verdict: (8, 29, 2),
        member: Some(1),
        content: 11,
        path: &[2, 1],
    },
    Refused {
        name: "a U8 and a union of offset 0",
        schema: "00000101 00 01 6800 4C494345 02 0800 8800",
        message: "090000000000 05 0100 000000000000",
        verdict: (9, 10, 1),
        member: Some(1),
        content: 9,
        path: &[1],
    },
    Refused {
        name: "a list at 26 of a choice 0, an unknown one and one of offset 0",
        schema: "00010101 00 8800 01 6800 4C494345 01 7800",
        message: "060000000000 1A0000000000 46BB0034 030000000000 \
                  0000 000000000000 0200 000000000000 0100 000000000000",
        verdict: (9, 26, 2),
        member: Some(2),
        content: 30,
        path: &[0, 2],
    },
    Refused {
        name: "the same in place, at 26, the second element of offset 0",
        schema: "00010101 00 8800 01 6800 4C494345 01 7A00",
        message: "060000000000 020000000000 0000 000000000000 0100 000000000000",
        verdict: (9, 26, 2),
        member: Some(1),
        content: 22,
        path: &[0, 1],
    },
    Refused {
        name: "a U16, a U8 and a struct, of whose struct the first bool is 2",
        schema: "02000001 00 02 0000 0800 02 0800 6000 4C494345 03 1000 0800 6001",
        message: "060000000000 0300 07 05 02 09",
        verdict: (10, 10, 1),
        member: Some(2),
        content: 6,
        path: &[2, 1, 0],
    },
    Refused {
        name: "a U16 and a text with another end byte",
        schema: "00000001 00 4C494345 02 1000 6800",
        message: "080000000000 0300 1C0000000000 F5C812D8 020000000000 6162 01",
        verdict: (10, 28, 2),
        member: None,
        content: 10,
        path: &[1],
    },
    Refused {
        name: "a text in place with another end byte",
        schema: "00000001 00 4C494345 02 1000 6A00",
        message: "080000000000 0300 020000000000 6162 01",
        verdict: (10, 28, 2),
        member: None,
        content: 10,
        path: &[1],
    },
    Refused {
        name: "a U16 and a text with another magic",
        schema: "00000001 00 4C494345 02 1000 6800",
        message: "080000000000 0300 1C0000000000 F5C812D9 020000000000 6162 00",
        verdict: (7, 28, 2),
        member: None,
        content: 8,
        path: &[1],
    },
];
