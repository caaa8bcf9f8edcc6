//! Texts that were worked out by hand: both programs answer as the request says,
//! judging, reading to a sheet, reading a field and a list, and writing.

use compare::calls::{LibraryCalls, Read, SecondCalls, Writes};
use compare::coding::CODINGS;
use compare::program::{verdict, Budget, Verdict, AMPLE, NO_MEMBER};
use compare::schema::Packed;
use compare::stored::by_hand::bytes;
use compare::stored::texts_by_hand::{Judged, JUDGED, WRITTEN};

const PROGRAMS: [&dyn Writes; 2] = [&LibraryCalls, &SecondCalls];

fn expected(case: &Judged) -> Verdict {
    let (number, place) = case.verdict;
    verdict(number, place, case.visits, case.content)
}

#[test]
fn judged_and_read() {
    for case in JUDGED {
        let (schema, message) = (case.schema(), case.message());
        let (visits, content) = (case.visits, case.content);
        let (verdict, exact) = (expected(&case), Budget { visits, content });
        for program in PROGRAMS {
            for budget in [AMPLE, exact, Budget::LARGEST] {
                let judged = program.judge(&schema, &message, budget);
                assert_eq!(judged, verdict, "{}", case.name);
                let read = program.read(&schema, &message, budget, &mut [0; 99]);
                let length = if verdict.number == 0 { read.length } else { 0 };
                assert_eq!(read, Read { verdict, length }, "{}", case.name);
            }
            let short = program.judge(&schema, &message, Budget::of_visits(visits - 1));
            assert_eq!(short.number, 4, "{}", case.name);
        }
    }
}

/// With a byte less of content than it takes, 17 comes before 10 and 16.
#[test]
fn content_comes_first() {
    for case in JUDGED.iter().filter(|case| case.verdict.0 != 6) {
        let content = case.content - 1;
        for program in PROGRAMS {
            let budget = Budget { content, ..AMPLE };
            let short = program.judge(&case.schema(), &case.message(), budget);
            assert_eq!((short.number, short.visits), (17, case.visits));
        }
    }
}

/// The field and the part of the message; a list's step is its element's field.
#[test]
fn fields_and_lists() {
    for case in JUDGED {
        let (schema, message) = (case.schema(), case.message());
        let (number, place) = case.verdict;
        for program in PROGRAMS {
            let answer = program.field(&schema, &message, case.path);
            let [found, start, length] = program.text(&schema, &message, case.path);
            if number == 0 {
                // The text is all of the message behind its start but the end byte.
                assert_eq!((answer[0], answer[1], answer[3]), (3, 13, length));
                let end = (start + length + 1) as usize;
                assert_eq!((found, end), (1, message.len()), "{}", case.name);
            } else {
                let refused = [7, u64::from(number), place, u64::from(NO_MEMBER)];
                assert_eq!(answer, refused, "{}", case.name);
                assert_eq!([found, start, length], [0; 3], "{}", case.name);
            }
            if case.path.len() == 2 {
                let (list, last) = case.path.split_at(1);
                let mut step = [0; 4];
                program.list(&schema, &message, list, u64::from(last[0]), &mut step);
                assert_eq!(step, answer, "{}", case.name);
            }
        }
    }
}

#[test]
fn written() {
    for case in WRITTEN {
        for coding in CODINGS {
            let schema = Packed::new(coding, &bytes(case.schema));
            for program in PROGRAMS {
                let mut message = [0xEE; 60];
                let [number, length] = program.write(&schema, &bytes(case.sheet), &mut message);
                assert_eq!(number, case.number, "{}", case.name);
                let kept = message[length as usize..].iter().all(|byte| *byte == 0xEE);
                assert!(kept && (length == 0) == (number != 0), "{}", case.name);
                let [number, _] = program.write(&schema, &bytes(case.sheet), &mut []);
                let no_room = if case.number == 0 { 14 } else { case.number };
                assert_eq!(number, no_room, "{}", case.name);
            }
        }
    }
}
