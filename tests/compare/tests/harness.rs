//! The laws and the comparison must catch programs that are wrong: each
//! program here is the second program with one fault.

use compare::coding::{Coding, CODINGS};
use compare::counts::Counts;
use compare::judging;
use compare::laws::{self, Programs};
use compare::program::{accepted, Answer, Budget, Judge, Program, Relations, Second};
use compare::program::{Verdict, NO_MEMBER};
use compare::schema::Packed;
use compare::side_by_side::side_by_side;
use text_at::{has_no_text, no_text_at};

#[path = "common/text_at.rs"]
mod text_at;

#[derive(Clone, Copy, Debug, PartialEq)]
enum Flaw {
    AcceptsEverything,
    RefusesEverything,
    VisitsOneMore,
    PlaceAlwaysZero,
    MemberOneMore,
    MemberAlwaysNone,
    MemberOfEndByte,
    MemberOfAcceptance,
    OneVisitTooMany,
    OneByteTooMany,
    OneByteTooFew,
    ContentIgnored,
    ContentOneMore,
    ContentOf17,
    VisitOf17NotCounted,
    AnyTextTaken,
    TextBeforeEndByte,
    TextBeforeContent,
    ContentOf16,
    VisitOf16NotCounted,
    MemberOf16,
    TextAtNoPlace,
    UnknownAsAbsent,
    FixedSheet,
    WritesNothing,
    ReadsWithoutRoom,
    NumbersSigned,
    ListReaderStaysOneShort,
    FieldsTakeAnyText,
    SheetsOfNoTextUnlawful,
    TextWithItsZero,
    UnionsWritten,
    ClearsNothing,
    ClearsWithoutRoom,
    NeverAppends,
    AlwaysAppends,
    NothingTakenAway,
}

struct Flawed(Flaw);

/// The budget that a flawed program goes by.
fn flawed_budget(flaw: Flaw, budget: Budget) -> Budget {
    let Budget { visits, content } = budget;
    match flaw {
        Flaw::OneVisitTooMany => Budget {
            visits: visits.saturating_add(1),
            ..budget
        },
        Flaw::OneByteTooMany => Budget {
            content: content.saturating_add(1),
            ..budget
        },
        Flaw::OneByteTooFew => Budget {
            content: content.saturating_sub(1),
            ..budget
        },
        Flaw::ContentIgnored => Budget::of_visits(visits),
        _ => budget,
    }
}

/// The member that a flawed program gives with a number.
fn flawed_member(flaw: Flaw, number: u32, member: u32) -> u32 {
    match flaw {
        Flaw::MemberOneMore if member != NO_MEMBER => member + 1,
        Flaw::MemberAlwaysNone => NO_MEMBER,
        Flaw::MemberOfEndByte if number == 10 && member == NO_MEMBER => 0,
        Flaw::MemberOfAcceptance if number == 0 => 0,
        Flaw::MemberOf16 if number == 16 => 0,
        _ => member,
    }
}

/// The verdict of a program that is wrong about texts.
fn flawed_text(flaw: Flaw, schema: &Packed, message: &[u8], verdict: Verdict) -> Verdict {
    let refused = |content| Verdict {
        number: 16,
        content,
        ..verdict
    };
    let (number, content) = (verdict.number, verdict.content);
    let no_text = no_text_at(schema, message, verdict.place);
    match (flaw, number, no_text) {
        (Flaw::AnyTextTaken, 16, _) => accepted(verdict.visits, content),
        (Flaw::TextBeforeEndByte, 10, Some(_)) if verdict.member == NO_MEMBER => refused(content),
        (Flaw::TextBeforeContent, 17, Some(length)) => refused(content + length),
        (Flaw::ContentOf16, 16, Some(length)) => refused(content - length),
        _ => verdict,
    }
}

impl Judge for Flawed {
    fn name(&self) -> &'static str {
        "flawed program"
    }

    fn judge(&self, schema: &Packed, message: &[u8], budget: Budget) -> Verdict {
        let verdict = Second.judge(schema, message, flawed_budget(self.0, budget));
        let mut verdict = flawed_text(self.0, schema, message, verdict);
        let number = verdict.number;
        verdict.member = flawed_member(self.0, number, verdict.member);
        match self.0 {
            Flaw::AcceptsEverything => return accepted(verdict.visits, verdict.content),
            Flaw::RefusesEverything if number == 0 => verdict.number = 6,
            Flaw::VisitsOneMore if number == 10 => verdict.visits += 1,
            Flaw::PlaceAlwaysZero => verdict.place = 0,
            Flaw::ContentOneMore if number == 0 => verdict.content += 1,
            Flaw::ContentOf17 if number == 17 => verdict.content += 1,
            Flaw::VisitOf17NotCounted if number == 17 => verdict.visits -= 1,
            Flaw::VisitOf16NotCounted if number == 16 => verdict.visits -= 1,
            Flaw::TextAtNoPlace if number == 16 => verdict.place = 0,
            _ => {}
        }
        verdict
    }
}

impl Program for Flawed {
    fn read(
        &self,
        schema: &Packed,
        message: &[u8],
        budget: Budget,
        room: usize,
    ) -> (Verdict, Vec<u8>) {
        let (verdict, sheet) = Second.read(schema, message, budget, room);
        match self.0 {
            Flaw::FixedSheet if verdict.number == 0 => (verdict, vec![0; sheet.len()]),
            Flaw::ReadsWithoutRoom => Second.read(schema, message, budget, room + 1),
            _ => (verdict, sheet),
        }
    }

    fn clear_unions(&self, schema: &[u8], room: usize) -> (u32, Vec<u8>) {
        let (number, cleared) = Second.clear_unions(schema, room);
        match (self.0, number) {
            (Flaw::ClearsNothing, 0) => (0, schema.to_vec()),
            (Flaw::ClearsWithoutRoom, 14) => Second.clear_unions(schema, schema.len()),
            _ => (number, cleared),
        }
    }

    fn write(&self, schema: &Packed, sheet: &[u8], room: usize) -> (u32, Vec<u8>) {
        let (number, message) = Second.write(schema, sheet, room);
        match self.0 {
            Flaw::WritesNothing => (number, Vec::new()),
            Flaw::UnionsWritten => {
                reference::write_stored(schema.coding(), schema.bytes(), sheet, room)
            }
            Flaw::SheetsOfNoTextUnlawful if number == 12 && has_no_text(schema, sheet) => {
                (11, Vec::new())
            }
            _ => (number, message),
        }
    }

    fn field(&self, schema: &Packed, message: &[u8], path: &[u32]) -> Answer {
        match (self.0, Second.field(schema, message, path)) {
            (Flaw::UnknownAsAbsent, Answer::Unknown(_)) => Answer::Absent,
            (Flaw::FieldsTakeAnyText, Answer::Refused { number: 16, .. }) => Answer::Absent,
            (Flaw::NumbersSigned, Answer::Number { bits, width, .. }) => Answer::Number {
                bits,
                width,
                signed: true,
            },
            (
                flaw,
                Answer::Refused {
                    number,
                    place,
                    member,
                },
            ) => Answer::Refused {
                number,
                place,
                member: flawed_member(flaw, number, member),
            },
            (_, answer) => answer,
        }
    }

    fn text(&self, schema: &Packed, message: &[u8], path: &[u32]) -> Option<Vec<u8>> {
        let text = Second.text(schema, message, path)?;
        match self.0 {
            Flaw::TextWithItsZero => Some([&text[..], &[0]].concat()),
            _ => Some(text),
        }
    }

    fn list_steps(
        &self,
        schema: &Packed,
        message: &[u8],
        path: &[u32],
        steps: usize,
    ) -> Result<Vec<Answer>, Answer> {
        let mut answers = Second.list_steps(schema, message, path, steps)?;
        if self.0 == Flaw::ListReaderStaysOneShort && answers.len() > 1 {
            answers.remove(0);
            answers.push(answers[answers.len() - 1]);
        }
        Ok(answers)
    }
}

impl Relations for Flawed {
    fn lawful(&self, schema: &Packed) -> bool {
        Second.lawful(schema)
    }

    fn appends(&self, older: &Packed, newer: &Packed) -> bool {
        match self.0 {
            Flaw::NeverAppends => false,
            Flaw::AlwaysAppends => true,
            _ => Second.appends(older, newer),
        }
    }

    fn without_appended(&self, older: &Packed, newer: &Packed, sheet: &[u8]) -> Option<Vec<u8>> {
        match self.0 {
            Flaw::NothingTakenAway => Some(sheet.to_vec()),
            _ => Second.without_appended(older, newer, sheet),
        }
    }

    fn with_added(&self, older: &Packed, newer: &Packed, sheet: &[u8]) -> Option<Vec<u8>> {
        Second.with_added(older, newer, sheet)
    }
}

const IN_VERDICTS: [Flaw; 22] = [
    Flaw::AcceptsEverything,
    Flaw::RefusesEverything,
    Flaw::VisitsOneMore,
    Flaw::PlaceAlwaysZero,
    Flaw::MemberOneMore,
    Flaw::MemberAlwaysNone,
    Flaw::MemberOfEndByte,
    Flaw::MemberOfAcceptance,
    Flaw::OneVisitTooMany,
    Flaw::OneByteTooMany,
    Flaw::OneByteTooFew,
    Flaw::ContentIgnored,
    Flaw::ContentOneMore,
    Flaw::ContentOf17,
    Flaw::VisitOf17NotCounted,
    Flaw::AnyTextTaken,
    Flaw::TextBeforeEndByte,
    Flaw::TextBeforeContent,
    Flaw::ContentOf16,
    Flaw::VisitOf16NotCounted,
    Flaw::MemberOf16,
    Flaw::TextAtNoPlace,
];

const IN_OTHER_CALLS: [Flaw; 8] = [
    Flaw::UnknownAsAbsent,
    Flaw::FixedSheet,
    Flaw::WritesNothing,
    Flaw::ReadsWithoutRoom,
    Flaw::NumbersSigned,
    Flaw::ListReaderStaysOneShort,
    Flaw::FieldsTakeAnyText,
    Flaw::SheetsOfNoTextUnlawful,
];

/// What has no claim under 32 bits.
const IN_UNIONS: [Flaw; 3] = [
    Flaw::UnionsWritten,
    Flaw::ClearsNothing,
    Flaw::ClearsWithoutRoom,
];

const IN_RELATIONS: [Flaw; 3] = [
    Flaw::NeverAppends,
    Flaw::AlwaysAppends,
    Flaw::NothingTakenAway,
];

#[test]
fn laws_catch_flawed_programs() {
    let calls = IN_VERDICTS.into_iter().chain(IN_OTHER_CALLS);
    for flaw in calls.chain(IN_RELATIONS) {
        for coding in CODINGS {
            let program = Flawed(flaw);
            let programs = Programs::one(&program);
            let mut counts = Counts::default();
            let mut fails =
                |case| laws::run_case(&programs, coding, (9, case), &mut counts).is_err();
            let caught = (0..3000).any(&mut fails);
            assert!(caught, "the laws miss {flaw:?} under {coding:?}");
        }
    }
}

#[test]
fn laws_and_comparison_catch_flaws_about_unions() {
    for flaw in IN_UNIONS {
        let (program, coding) = (Flawed(flaw), Coding::Bits48);
        let programs = Programs::one(&program);
        let mut counts = Counts::default();
        let mut fails = |case| laws::run_case(&programs, coding, (9, case), &mut counts).is_err();
        assert!((0..3000).any(&mut fails), "the laws miss {flaw:?}");
        let outcome = side_by_side(&program, &Second, coding, 9, 300);
        assert!(outcome.is_err(), "the comparison misses {flaw:?}");
    }
}

#[test]
fn comparison_catches_flawed_programs() {
    let calls = IN_VERDICTS.into_iter().chain(IN_OTHER_CALLS);
    for flaw in calls.chain([Flaw::TextWithItsZero]) {
        for coding in CODINGS {
            let outcome = side_by_side(&Flawed(flaw), &Second, coding, 9, 300);
            assert!(
                outcome.is_err(),
                "the comparison misses {flaw:?} under {coding:?}"
            );
        }
    }
}

#[test]
fn judging_side_by_side_catches_flawed_judges() {
    for coding in CODINGS {
        for flaw in IN_VERDICTS {
            let outcome = judging::run(&Flawed(flaw), &Second, coding, 9, 2000);
            assert!(
                outcome.is_err(),
                "judging side by side misses {flaw:?} under {coding:?}"
            );
        }
        assert!(judging::run(&Second, &Second, coding, 9, 2000).is_ok());
    }
}
