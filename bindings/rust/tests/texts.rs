//! Texts by every function of the wrapper under both codings. What is expected was worked out by
//! hand from the documents and the grammar of RFC 3629.

mod common;

use common::by;
use scalgo::Coding::{self, Bits32, Bits48};
use scalgo::{Answer, Budget, Verdict};

/// A table with a U16 and a text.
const SCHEMA: &[u8] = b"\x00\x00\x00\x01\x00\x4C\x49\x43\x45\x02\x10\x00\x68\x00";

/// Its place, and the bytes of the table's fixed part.
fn text_at(coding: Coding) -> (u64, u64) {
    match coding {
        Bits48 => (28, 8),
        Bits32 => (22, 6),
    }
}

/// A message with 3 and this text, under 256 bytes long.
fn message(coding: Coding, text: &[u8]) -> Vec<u8> {
    let length = text.len() as u8;
    let before: &[u8] = match coding {
        Bits48 => {
            b"\xB3\xC4\xC0\xB5\x0A\x00\x00\x00\x00\x00\
            \x45\x43\x49\x4C\x08\x00\x00\x00\x00\x00\x03\x00\x1C\x00\x00\x00\x00\x00\
            \xF5\xC8\x12\xD8"
        }
        Bits32 => {
            b"\xB3\xC4\xC0\xB5\x08\x00\x00\x00\
            \x45\x43\x49\x4C\x06\x00\x00\x00\x03\x00\x16\x00\x00\x00\
            \xF5\xC8\x12\xD8"
        }
    };
    let zeros = &[0; 5][..if coding == Bits48 { 5 } else { 3 }];
    [before, &[length], zeros, text, &[0]].concat()
}

/// The sheet of the same: 0100 0000 0000 0000 1101, 32 bits of length, and the text.
fn sheet(text: &[u8]) -> Vec<u8> {
    let mut nibbles = vec![4, 0, 0, 0, 0xD, 0, 0, 0, 0, 0, 0];
    let length = text.len() as u8;
    for byte in [&[length], text].concat() {
        nibbles.extend([byte >> 4, byte & 15]);
    }
    nibbles.push(0);
    nibbles
        .chunks(2)
        .map(|pair| pair[0] << 4 | pair[1])
        .collect()
}

const TEXTS: [&str; 8] = [
    "ab",
    "\u{0}",
    "\u{7F}\u{80}",
    "\u{7FF}\u{800}",
    "\u{D7FF}\u{E000}",
    "\u{FFFF}\u{10000}",
    "\u{10FFFF}",
    "Grüße, 中文, 𝄞",
];

const OTHERS: [&[u8]; 12] = [
    b"\xC0\x80",
    b"\xC1\xBF",
    b"\xE0\x9F\xBF",
    b"\xF0\x8F\xBF\xBF",
    b"\xED\xA0\x80",
    b"\xED\xBF\xBF",
    b"\xF4\x90\x80\x80",
    b"\xF5\x80\x80\x80",
    b"\xFF",
    b"a\x80b",
    b"\xE2\x82",
    b"\xE2\x82a",
];

fn object(kind: u8, place: u64, length: u64) -> Answer {
    Answer::Object {
        kind,
        place,
        length,
    }
}

fn refused(number: u32, place: u64) -> Answer {
    Answer::Refused {
        number,
        place,
        member: None,
    }
}

/// A refusal at the text, of which so much was charged.
fn verdict(coding: Coding, number: u32, content: u64) -> Verdict {
    let (place, fixed) = text_at(coding);
    Verdict {
        number,
        place: if number == 0 { 0 } else { place },
        member: None,
        visits: 2,
        content: fixed + content,
    }
}

#[test]
fn what_is_text() {
    for coding in Coding::ALL {
        let place = text_at(coding).0;
        for own in TEXTS {
            let (message, length) = (message(coding, own.as_bytes()), own.len() as u64);
            let given = by(coding, SCHEMA).judge(&message, Budget::LARGEST);
            assert_eq!(given, verdict(coding, 0, length));
            let answer = by(coding, SCHEMA).field(&message, &[1]);
            assert_eq!(answer, object(13, place, length));
            assert_eq!(by(coding, SCHEMA).text_str(&message, &[1]), Some(own));
            let part = by(coding, SCHEMA).text(&message, &[1]);
            assert_eq!(part, Some(own.as_bytes()));
            let mut read_to = vec![0; 99];
            let answer = by(coding, SCHEMA).read(&message, Budget::LARGEST, &mut read_to);
            assert_eq!(read_to[..answer.length], sheet(own.as_bytes()));
            let mut written = vec![0; 99];
            let answer = by(coding, SCHEMA).write(&sheet(own.as_bytes()), &mut written);
            assert_eq!(
                (answer.number, &written[..answer.length]),
                (0, &message[..])
            );
        }
    }
}

#[test]
fn what_is_none() {
    for coding in Coding::ALL {
        let place = text_at(coding).0;
        for other in OTHERS {
            let (message, length) = (message(coding, other), other.len() as u64);
            let given = by(coding, SCHEMA).judge(&message, Budget::LARGEST);
            assert_eq!(given, verdict(coding, 16, length));
            let answer = by(coding, SCHEMA).field(&message, &[1]);
            assert_eq!(answer, refused(16, place));
            assert_eq!(by(coding, SCHEMA).text_str(&message, &[1]), None);
            assert_eq!(by(coding, SCHEMA).text(&message, &[1]), None);
            let mut read_to = [0xEE; 99];
            let answer = by(coding, SCHEMA).read(&message, Budget::LARGEST, &mut read_to);
            let expected = (verdict(coding, 16, length), 0);
            assert_eq!((answer.verdict, answer.length), expected);
            assert_eq!(read_to, [0xEE; 99]);
            for room in [99, 0] {
                let mut written = vec![0xEE; room];
                let answer = by(coding, SCHEMA).write(&sheet(other), &mut written);
                assert_eq!((answer.number, answer.length), (12, 0));
                assert_eq!(written, vec![0xEE; room]);
            }
        }
    }
}

/// 10 comes before 16, and 17 before both.
#[test]
fn what_comes_first() {
    for coding in Coding::ALL {
        for other in OTHERS {
            let mut message = message(coding, other);
            *message.last_mut().expect("an end byte") = 1;
            let length = other.len() as u64;
            let given = by(coding, SCHEMA).judge(&message, Budget::LARGEST);
            assert_eq!(given, verdict(coding, 10, length));
            let content = text_at(coding).1 + length - 1;
            let given = by(coding, SCHEMA).judge(&message, Budget { visits: 2, content });
            assert_eq!(given, verdict(coding, 17, 0));
        }
    }
}

/// Bytes may be any, and are no `str` where they would be text either.
#[test]
fn bytes() {
    let schema = b"\x00\x00\x00\x01\x00\x4C\x49\x43\x45\x02\x10\x00\x70\x00";
    for coding in Coding::ALL {
        for own in [&b"ab"[..], b"\xFF\xFE"] {
            let mut message = message(coding, own);
            let at = text_at(coding).0 as usize;
            message[at..at + 4].copy_from_slice(b"\x10\xBE\xDB\xDC");
            assert!(by(coding, schema)
                .judge(&message, Budget::LARGEST)
                .accepted());
            assert_eq!(by(coding, schema).text(&message, &[1]), Some(own));
            assert_eq!(by(coding, schema).text_str(&message, &[1]), None);
        }
    }
}

/// A list of the text "ab" and of one that is none: each step is its element's.
#[test]
fn elements() {
    let schema = b"\x00\x01\x00\x01\x00\x68\x00\x4C\x49\x43\x45\x01\x78\x00";
    let message = b"\xB3\xC4\xC0\xB5\x0A\x00\x00\x00\x00\x00\
        \x45\x43\x49\x4C\x06\x00\x00\x00\x00\x00\x1A\x00\x00\x00\x00\x00\
        \x46\xBB\x00\x34\x03\x00\x00\x00\x00\x00\
        \x43\x00\x00\x00\x00\x00\x36\x00\x00\x00\x00\x00\x43\x00\x00\x00\x00\x00\
        \xF5\xC8\x12\xD8\x02\x00\x00\x00\x00\x00ab\x00\
        \xF5\xC8\x12\xD8\x01\x00\x00\x00\x00\x00\xFF\x00";
    let answers: Vec<Answer> = by(Bits48, schema)
        .list(message, &[0])
        .expect("a list")
        .collect();
    let none = refused(16, 67);
    assert_eq!(answers, [none, object(13, 54, 2), none]);
    let parts = [0, 1, 2].map(|element| by(Bits48, schema).text_str(message, &[0, element]));
    assert_eq!(parts, [None, Some("ab"), None]);
}
