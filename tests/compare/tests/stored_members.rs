//! The members of refusals that were worked out by hand: both programs answer
//! as the request says, judging, reading to a sheet and reading a field.

use compare::calls::{Calls, LibraryCalls, Read, SecondCalls};
use compare::program::{verdict, Budget, Verdict, AMPLE, NO_MEMBER};
use compare::stored::members::REFUSED;

#[test]
fn members() {
    for case in REFUSED {
        let (schema, message) = (case.schema(), case.message());
        let (number, place, visits) = case.verdict;
        let member = case.member.unwrap_or(NO_MEMBER);
        let expected = Verdict {
            member,
            ..verdict(number, place, visits, case.content)
        };
        let (visits, content) = (visits, case.content);
        let exact = Budget { visits, content };
        for program in [&LibraryCalls as &dyn Calls, &SecondCalls] {
            for budget in [AMPLE, exact] {
                let judged = program.judge(&schema, &message, budget);
                assert_eq!(judged, expected, "{}", case.name);
                let (verdict, length) = (expected, 0);
                let read = program.read(&schema, &message, budget, &mut [0; 99]);
                assert_eq!(read, Read { verdict, length }, "{}", case.name);
            }
            let answer = program.field(&schema, &message, case.path);
            let refused = [7, u64::from(number), place, u64::from(member)];
            assert_eq!(answer, refused, "{}", case.name);
        }
    }
}

/// The list reader's step at an element is its path's answer.
#[test]
fn elements() {
    let lists = REFUSED.iter().filter(|case| case.verdict.0 == 9);
    for case in lists.filter(|case| case.path.len() == 2) {
        let (schema, message) = (case.schema(), case.message());
        for program in [&LibraryCalls as &dyn Calls, &SecondCalls] {
            let mut steps = [0; 4];
            let from = u64::from(case.path[1]);
            let count = program.list(&schema, &message, &case.path[..1], from, &mut steps);
            assert_eq!(count, from + 1, "{}", case.name);
            assert_eq!(steps, program.field(&schema, &message, case.path));
            // After the last there is no member.
            program.list(&schema, &message, &case.path[..1], count, &mut steps);
            assert_eq!(steps, [7, 15, case.verdict.1, u64::from(NO_MEMBER)]);
        }
    }
}
