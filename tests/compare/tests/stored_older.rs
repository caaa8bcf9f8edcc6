//! The stored cases of the 32-bit coding that were worked out by hand, and more
//! of the same: both programs answer as the documents say.

use compare::calls::{Calls, LibraryCalls, Read, SecondCalls, Writes};
use compare::program::{accepted, Budget, Verdict, AMPLE, NO_MEMBER};
use compare::schema::Packed;
use compare::stored::by_hand::{bytes, message, packed, REFUSED, SHEETS, TEXT};

/// What both programs answer.
fn both(schema: &Packed, message: &[u8], budget: Budget) -> Verdict {
    let given = [&LibraryCalls as &dyn Calls, &SecondCalls]
        .map(|program| program.judge(schema, message, budget));
    assert_eq!(given[0], given[1], "{schema}");
    given[0]
}

/// Number, place and visits of a verdict without a member and content.
fn judged(schema: &Packed, message: &[u8]) -> (u32, u64, u32) {
    let given = both(schema, message, AMPLE);
    let none = (given.member, given.content);
    assert_eq!(none, (NO_MEMBER, 0), "{schema}");
    (given.number, given.place, given.visits)
}

#[test]
fn refusals() {
    for case in REFUSED {
        let (schema, message) = (packed(case.schema), message(case.message));
        let (number, place, visits) = case.verdict;
        let expected = Verdict {
            number,
            place,
            member: case.member.unwrap_or(NO_MEMBER),
            visits,
            content: case.content,
        };
        let budget = Budget::of_visits(case.budget);
        assert_eq!(both(&schema, &message, budget), expected, "{}", case.name);
        // Just as much content is enough, and a byte less is not.
        let content = case.content;
        let exact = Budget { content, ..budget };
        assert_eq!(both(&schema, &message, exact), expected, "{}", case.name);
        if let Some(content) = content.checked_sub(1) {
            let less = both(&schema, &message, Budget { content, ..budget });
            assert_eq!(less.number, 17, "{}", case.name);
        }
    }
}

/// What is tried before the walk, and the root's own offset.
#[test]
fn starts() {
    let schema = packed(TEXT);
    let at = |start: &str| judged(&schema, &bytes(start));
    assert_eq!(at(""), (2, 0, 0));
    assert_eq!(at("B3C4C0B5 080000"), (2, 0, 0));
    assert_eq!(at("B3C4C0B5 08000000"), (6, 8, 1));
    assert_eq!(at("B3C4C0B4 08000000"), (3, 0, 0));
    let root = "4543494C 00000000";
    for (offset, verdict) in [("08", (0, 0, 1)), ("07", (6, 7, 1)), ("00", (6, 0, 1))] {
        assert_eq!(at(&format!("B3C4C0B5 {offset}000000 {root}")), verdict);
    }
    // At 9 a header fits with one byte more, but no id stands there.
    assert_eq!(at(&format!("B3C4C0B5 09000000 {root} 00")), (7, 9, 1));
    assert_eq!(at(&format!("B3C4C0B5 09000000 {root}")), (6, 9, 1));
}

#[test]
fn sheets() {
    for case in SHEETS {
        let (schema, message) = (packed(case.schema), message(case.message));
        let sheet = bytes(case.sheet);
        let (visits, content) = (case.visits, case.content);
        let (verdict, exact) = (accepted(visits, content), Budget { visits, content });
        assert_eq!(both(&schema, &message, AMPLE), verdict, "{}", case.name);
        for program in [&LibraryCalls as &dyn Writes, &SecondCalls] {
            let mut read = vec![0xEE; sheet.len()];
            let answer = program.read(&schema, &message, exact, &mut read);
            let length = sheet.len() as u64;
            let expected = Read { verdict, length };
            assert_eq!((answer, &read), (expected, &sheet), "{}", case.name);
            if case.written {
                let mut written = vec![0xEE; message.len()];
                let answer = program.write(&schema, &sheet, &mut written);
                let expected = [0, message.len() as u64];
                assert_eq!((answer, &written), (expected, &message), "{}", case.name);
            }
        }
    }
}

/// A union not in place, a table in place, a list of unions; and the same under
/// 48 bits, where the root at 8 is what is refused.
#[test]
fn schemas() {
    let message = message("00000000 0000");
    for digits in [
        "00000101 00 01 6800 4C494345 01 8800",
        "00000001 00 4C494345 01 8200",
        "00010101 00 8800 01 6800 4C494345 00",
    ] {
        let schema = packed(digits);
        assert_eq!(judged(&schema, &message), (1, 0, 0));
        assert_eq!(
            judged(&schema.under(48), &message),
            (6, 0x4345_0000_0008, 1)
        );
    }
    // Neither is a coding, whatever the schema.
    for coding in [0, 31, 33, 47, 49, u32::MAX] {
        let schema = packed(TEXT).under(coding);
        assert_eq!(judged(&schema, &message), (1, 0, 0));
    }
}
