//! The side by side of the C interface must catch programs that are wrong:
//! each program here is the second program with one fault.

use compare::calls::{clears, fields, moves, positions, reads, texts, writes};
use compare::calls::{Calls, Read, SecondCalls, Writes};
use compare::coding::{Coding, CODINGS};
use compare::judging;
use compare::program::{accepted, Budget, Judge, Verdict, NO_MEMBER};
use compare::schema::{Packed, Record, Schema, TABLE};
use compare::schema_rules;
use compare::sheet;
use compare::value::{self, Value};
use text_at::{has_no_text, no_text_at};

#[path = "common/text_at.rs"]
mod text_at;

#[derive(Clone, Copy, Debug, PartialEq)]
enum Flaw {
    None,
    AlwaysAbsent,
    UnusedNumberLeft,
    HolderNotJudged,
    PathOf97Taken,
    TextOneLonger,
    TextOfAList,
    ListStopsAtRefused,
    ListOneShort,
    ListGoesOnAtTheEnd,
    ListFillsTheRest,
    ListStartsAtPlain,
    NoMember,
    MemberOneMore,
    MemberOfEndByte,
    MemberOf15,
    NoMemberInLists,
    ContentIgnored,
    OneByteTooMany,
    ContentOneMore,
    VisitOf17NotCounted,
    SheetOfZeros,
    SheetByteAfter,
    SheetOnRefusal,
    SheetLengthOnRefusal,
    SheetRoomOneMore,
    NoVisitsAt14,
    NoContentAt14,
    WritesNothing,
    MessageByteAfter,
    MessageOnRefusal,
    MessageUnusedBit,
    MessageRoomOneMore,
    NotWritableFirst,
    CodingIgnored,
    AnyCodingTaken,
    CodingGuessed,
    NoDirectLists,
    DirectAsList,
    DirectElementAsDirect,
    DirectHeaderOf10,
    NoListReaderAtDirect,
    AnyTextTaken,
    TextBeforeEndByte,
    ContentOf16,
    MemberOf16,
    FieldsTakeAnyText,
    PartOfNoText,
    ListsTakeAnyText,
    SheetOfNoText,
    WrittenBeforeText,
    UnionsWritten,
    EmptyUnionsWritten,
    AbsentUnionsRefused,
    UnionsRefusedUnder32,
    UnionsLast,
    ClearsNothing,
    ClearsAllInPlace,
    ClearsFirstTable,
    ClearsWithoutRoom,
    ClearsUnlawful,
    ClearedByteAfter,
    ClearedOnRefusal,
    TableByteAfter,
    TableOnRefusal,
    TableLengthOnRefusal,
    TableRoomOneMore,
    TableRoomFirst,
    NoFlagIsZero,
    BoolOf8Bits,
    AnyTableTaken,
    LongerTableTaken,
    TableOfOtherCodingTaken,
    OnlyFirstRowTried,
    TableTriedAfterPath,
    TableTriedAfterSize,
}

struct Flawed(Flaw);

impl Flawed {
    /// The verdict with what the program changes in it.
    fn judged(&self, mut verdict: Verdict) -> Verdict {
        let number = u64::from(verdict.number);
        let numbers = [7, number, 0, u64::from(verdict.member)];
        let [_, _, _, member] = with_member(self.0, numbers);
        verdict.member = member as u32;
        match (self.0, number) {
            (Flaw::ContentOneMore, 0) => verdict.content += 1,
            (Flaw::VisitOf17NotCounted, 17) => verdict.visits -= 1,
            (Flaw::AnyTextTaken, 16) => verdict = accepted(verdict.visits, verdict.content),
            (Flaw::ContentOf16, 16) => verdict.content -= 1,
            _ => {}
        }
        verdict
    }

    /// The same with 16 before 10.
    fn text_first(&self, schema: &Packed, message: &[u8], mut verdict: Verdict) -> Verdict {
        let no_text = no_text_at(schema, message, verdict.place);
        if self.0 == Flaw::TextBeforeEndByte && verdict.number == 10 && no_text.is_some() {
            verdict.number = 16;
        }
        verdict
    }

    /// The budget that the program goes by.
    fn budget(&self, budget: Budget) -> Budget {
        match self.0 {
            Flaw::ContentIgnored => Budget::of_visits(budget.visits),
            Flaw::OneByteTooMany => Budget {
                content: budget.content.saturating_add(1),
                ..budget
            },
            _ => budget,
        }
    }

    /// The schema under the coding that the program takes it for.
    fn taken(&self, schema: &Packed) -> Packed {
        if self.0 == Flaw::NoDirectLists && has_direct_lists(schema) {
            return schema.with(Vec::new());
        }
        let lawful = |coding: Coding| reference::lawful(coding.number(), schema.bytes());
        let given = Coding::of(schema.coding());
        let taken = match self.0 {
            Flaw::CodingIgnored => Some(Coding::Bits48),
            Flaw::AnyCodingTaken => given.or(Some(Coding::Bits48)),
            Flaw::CodingGuessed => given
                .filter(|coding| lawful(*coding))
                .or(CODINGS.into_iter().find(|coding| lawful(*coding))),
            _ => given,
        };
        match taken {
            Some(coding) if taken != given => Packed::new(coding, schema.bytes()),
            _ if self.takes_table(schema) => schema.under(schema.coding()),
            _ => schema.clone(),
        }
    }

    /// Whether the program takes the table lent for the schema's own.
    fn takes_table(&self, schema: &Packed) -> bool {
        let own = || schema.under(schema.coding());
        let lent = schema.positions();
        match self.0 {
            Flaw::AnyTableTaken => true,
            Flaw::LongerTableTaken => lent.starts_with(own().positions()),
            Flaw::TableOfOtherCodingTaken => {
                let other = Coding::of(schema.coding()).map(Coding::other);
                other.is_some_and(|coding| schema.under(coding.number()).positions() == lent)
            }
            Flaw::OnlyFirstRowTried => {
                let own = own();
                let row = own.positions().len().min(12);
                lent.len() == own.positions().len() && lent[..row] == own.positions()[..row]
            }
            _ => false,
        }
    }

    /// The table with what the program changes in its rows.
    fn rows(&self, table: &mut [u8]) {
        for row in table.chunks_exact_mut(12) {
            match self.0 {
                Flaw::NoFlagIsZero if row[4..8] == [255; 4] => row[4..8].fill(0),
                Flaw::BoolOf8Bits if row[8] == 1 => row[8] = 8,
                _ => {}
            }
        }
    }
}

/// Whether a lawful schema has a direct list.
fn has_direct_lists(schema: &Packed) -> bool {
    let parsed = schema_rules::parse(schema);
    parsed.is_some_and(|schema| (0..schema.tables.len()).any(|table| schema.is_direct(table)))
}

const NONE: u64 = NO_MEMBER as u64;

/// A refusal as its numbers, with the member that the program gives it.
fn with_member(flaw: Flaw, refused: [u64; 4]) -> [u64; 4] {
    let [case, number, place, member] = refused;
    let member = match (flaw, number) {
        (Flaw::NoMember, _) => NONE,
        (Flaw::MemberOneMore, 8..=10) if member != NONE => member + 1,
        (Flaw::MemberOfEndByte, 10) if member == NONE => 0,
        (Flaw::MemberOf15, 15) => 0,
        (Flaw::MemberOf16, 16) => 0,
        _ => member,
    };
    [case, number, place, member]
}

/// Whether a path leads to a direct list.
fn is_direct(schema: &Packed, message: &[u8], path: &[u32]) -> bool {
    matches!(SecondCalls.field(schema, message, path), [3, 18, ..])
}

/// What a list reader says where there is no list.
fn no_list(cases: &mut [u64]) -> u64 {
    let answers = cases.chunks_exact_mut(4);
    answers.for_each(|case| case.copy_from_slice(&[7, 15, 0, NONE]));
    0
}

/// Changes a byte of an output, where it has that byte.
fn change(output: &mut [u8], at: usize) {
    if let Some(byte) = output.get_mut(at) {
        *byte ^= 1;
    }
}

impl Judge for Flawed {
    fn name(&self) -> &'static str {
        "flawed program"
    }

    fn judge(&self, schema: &Packed, message: &[u8], budget: Budget) -> Verdict {
        if self.0 == Flaw::TableTriedAfterSize && message.len() < 8 {
            return SecondCalls.judge(&schema.under(schema.coding()), message, budget);
        }
        let verdict = SecondCalls.judge(&self.taken(schema), message, self.budget(budget));
        self.judged(self.text_first(schema, message, verdict))
    }
}

impl Calls for Flawed {
    fn positions(&self, schema: &Packed, table: &mut [u8]) -> [u64; 2] {
        let schema = &self.taken(schema);
        let answer = SecondCalls.positions(schema, table);
        let [number, length] = answer;
        self.rows(&mut table[..length as usize]);
        match self.0 {
            Flaw::TableByteAfter if number == 0 => change(table, length as usize),
            Flaw::TableOnRefusal if number != 0 => change(table, 0),
            Flaw::TableLengthOnRefusal if number == 14 => return [14, 12],
            Flaw::TableRoomFirst if number == 1 && table.is_empty() => return [14, 0],
            Flaw::TableRoomOneMore if number == 14 => {
                let mut more = vec![0; table.len() + 1];
                return SecondCalls.positions(schema, &mut more);
            }
            _ => {}
        }
        answer
    }

    fn field(&self, schema: &Packed, message: &[u8], path: &[u32]) -> [u64; 4] {
        let schema = &self.taken(schema);
        let answer = SecondCalls.field(schema, message, path);
        match (self.0, answer) {
            (Flaw::TableTriedAfterPath, [7, 1, ..]) if path.len() > 96 => [7, 15, 0, NONE],
            (Flaw::AlwaysAbsent, _) => [5, 0, 0, 0],
            (Flaw::UnusedNumberLeft, [0, value, ..]) => [0, value, 1, 0],
            (Flaw::HolderNotJudged, [7, 10, at, _]) => [7, 15, at, NONE],
            (Flaw::PathOf97Taken, _) if path.len() == 97 => {
                SecondCalls.field(schema, message, &path[..96])
            }
            (Flaw::DirectAsList, [3, 18, at, length]) => [3, 15, at, length],
            (Flaw::DirectElementAsDirect, [3, 16, at, length]) => match path.split_last() {
                Some((_, list)) if is_direct(schema, message, list) => [3, 18, at, length],
                _ => answer,
            },
            (Flaw::DirectHeaderOf10, [3, 18, at, length]) => [3, 18, at + 8, length],
            (Flaw::FieldsTakeAnyText, [7, 16, at, _]) => match no_text_at(schema, message, at) {
                Some(length) => [3, 13, at, length],
                None => answer,
            },
            (flaw, [7, ..]) => with_member(flaw, answer),
            _ => answer,
        }
    }

    fn text(&self, schema: &Packed, message: &[u8], path: &[u32]) -> [u64; 3] {
        let schema = &self.taken(schema);
        let part = SecondCalls.text(schema, message, path);
        match (self.0, part) {
            (Flaw::TextOneLonger, [1, start, length]) => [1, start, length + 1],
            (Flaw::TextOfAList, [0, ..]) => match SecondCalls.field(schema, message, path) {
                [3, 15, at, length] => [1, at + 10, length],
                _ => part,
            },
            (Flaw::PartOfNoText, [0, ..]) => match SecondCalls.field(schema, message, path) {
                [7, 16, at, _] => [1, at + 10, 1],
                _ => part,
            },
            _ => part,
        }
    }

    fn list(
        &self,
        schema: &Packed,
        message: &[u8],
        path: &[u32],
        from: u64,
        cases: &mut [u64],
    ) -> u64 {
        let schema = &self.taken(schema);
        if self.0 == Flaw::NoListReaderAtDirect && is_direct(schema, message, path) {
            return no_list(cases);
        }
        let count = SecondCalls.list(schema, message, path, from, cases);
        match self.0 {
            Flaw::ListStopsAtRefused => {
                let answers = cases.chunks_exact_mut(4);
                let after = answers.skip_while(|case| case[0] != 7).skip(1);
                after.for_each(|case| case.copy_from_slice(&[7, 15, 0, NONE]));
            }
            Flaw::NoMemberInLists => {
                for case in cases.chunks_exact_mut(4).filter(|case| case[0] == 7) {
                    case[3] = NONE;
                }
            }
            Flaw::ListsTakeAnyText => {
                let refused = |case: &&mut [u64]| case[..2] == [7, 16];
                let answers = cases.chunks_exact_mut(4).filter(refused);
                answers.for_each(|case| case.copy_from_slice(&[5, 0, 0, 0]));
            }
            Flaw::ListOneShort => return count.saturating_sub(1),
            Flaw::ListGoesOnAtTheEnd if from >= count && count > 0 => {
                SecondCalls.list(schema, message, path, count - 1, cases);
            }
            Flaw::ListFillsTheRest => {
                let whole = cases.len() - cases.len() % 4;
                cases[whole..].fill(0);
            }
            Flaw::ListStartsAtPlain if count == 0 => {
                if let [3, 15, _, length] = SecondCalls.field(schema, message, path) {
                    return length;
                }
            }
            _ => {}
        }
        count
    }

    fn read(&self, schema: &Packed, message: &[u8], budget: Budget, sheet: &mut [u8]) -> Read {
        let (schema, budget) = (&self.taken(schema), self.budget(budget));
        let mut answer = SecondCalls.read(schema, message, budget, sheet);
        answer.verdict = self.judged(self.text_first(schema, message, answer.verdict));
        let (number, used) = (answer.verdict.number, answer.length as usize);
        match self.0 {
            Flaw::SheetOfZeros => sheet[..used].fill(0),
            Flaw::SheetByteAfter if number == 0 => change(sheet, used),
            Flaw::SheetOnRefusal if number != 0 => change(sheet, 0),
            Flaw::SheetOfNoText if number == 16 => change(sheet, 0),
            Flaw::SheetLengthOnRefusal if number == 14 => answer.length = 1,
            Flaw::SheetRoomOneMore if number == 14 => {
                let mut more = vec![0; sheet.len() + 1];
                return SecondCalls.read(schema, message, budget, &mut more);
            }
            Flaw::NoVisitsAt14 if number == 14 => answer.verdict.visits = 0,
            Flaw::NoContentAt14 if number == 14 => answer.verdict.content = 0,
            _ => {}
        }
        answer
    }
}

/// What a writer does that is wrong about unions in place, where that differs.
fn flawed_unions(flaw: Flaw, schema: &Packed, sheet: &[u8], room: usize) -> Option<(u32, Vec<u8>)> {
    let parsed = schema_rules::parse(schema)?;
    let value = sheet::decode(&parsed, sheet)?;
    let stored = || reference::write_stored(schema.coding(), schema.bytes(), sheet, room);
    let held = value::has_union_in_place(&parsed, &value);
    match flaw {
        Flaw::UnionsWritten => Some(stored()),
        Flaw::EmptyUnionsWritten if held && !holds_much(&parsed, &value) => Some(stored()),
        Flaw::AbsentUnionsRefused if parsed.cleared() != parsed => Some((12, Vec::new())),
        Flaw::UnionsRefusedUnder32 if held => Some((12, Vec::new())),
        Flaw::UnionsLast if held => match stored() {
            (0, _) => Some((12, Vec::new())),
            refused => Some(refused),
        },
        _ => None,
    }
}

/// Whether a union in place holds more than an empty object.
fn holds_much(schema: &Schema, value: &Value) -> bool {
    let (mut much, root) = (false, Record::plain(TABLE, schema.root));
    value::visit(
        schema,
        &root,
        &mut value.clone(),
        &mut |_, record, entry| {
            if let (true, Value::Union(_, object)) = (record.in_place, entry) {
                let empty = match object.as_ref() {
                    Value::Blob(bytes) => bytes.is_empty(),
                    Value::List(parts) => parts.is_empty(),
                    _ => false,
                };
                much |= !empty;
            }
        },
    );
    much
}

/// A schema cleared wrongly.
fn flawed_cleared(flaw: Flaw, schema: &[u8]) -> Option<Vec<u8>> {
    let mut parsed = schema_rules::parse(&Packed::new(Coding::Bits48, schema))?;
    let cleared = parsed.cleared();
    match flaw {
        Flaw::ClearsNothing => {}
        Flaw::ClearsAllInPlace => {
            let tables = parsed.tables.iter_mut();
            for member in tables.flat_map(|table| &mut table.members) {
                member.in_place = false;
            }
        }
        Flaw::ClearsFirstTable => parsed.tables[0] = cleared.tables[0].clone(),
        _ => return None,
    }
    Some(parsed.pack().bytes().to_vec())
}

impl Writes for Flawed {
    fn clear(&self, schema: &[u8], cleared: &mut [u8]) -> [u64; 2] {
        let answer = SecondCalls.clear(schema, cleared);
        if let ([0, length], Some(wrong)) = (answer, flawed_cleared(self.0, schema)) {
            cleared[..length as usize].copy_from_slice(&wrong);
        }
        let [number, length] = answer;
        match self.0 {
            Flaw::ClearsWithoutRoom if number == 14 => return [0, schema.len() as u64],
            Flaw::ClearsUnlawful if number == 1 && schema.len() <= cleared.len() => {
                cleared[..schema.len()].copy_from_slice(schema);
                return [0, schema.len() as u64];
            }
            Flaw::ClearedByteAfter if number == 0 => change(cleared, length as usize),
            Flaw::ClearedOnRefusal if number != 0 => change(cleared, 0),
            _ => {}
        }
        answer
    }

    fn write(&self, schema: &Packed, sheet: &[u8], message: &mut [u8]) -> [u64; 2] {
        let schema = &self.taken(schema);
        if let Some((number, wrong)) = flawed_unions(self.0, schema, sheet, message.len()) {
            message[..wrong.len()].copy_from_slice(&wrong);
            return [number.into(), wrong.len() as u64];
        }
        if self.0 == Flaw::WritesNothing {
            let mut scratch = vec![0; message.len()];
            return SecondCalls.write(schema, sheet, &mut scratch);
        }
        let answer = SecondCalls.write(schema, sheet, message);
        let [number, length] = answer;
        match self.0 {
            Flaw::MessageByteAfter if number == 0 => change(message, length as usize),
            Flaw::MessageOnRefusal if number != 0 => change(message, 0),
            Flaw::MessageUnusedBit if number == 0 => change(message, length as usize - 1),
            Flaw::MessageRoomOneMore if number == 14 => {
                let mut more = vec![0; message.len() + 1];
                return SecondCalls.write(schema, sheet, &mut more);
            }
            Flaw::NotWritableFirst if number == 11 => return [12, 0],
            Flaw::WrittenBeforeText if number == 12 && has_no_text(schema, sheet) => {
                change(message, 0);
            }
            _ => {}
        }
        answer
    }
}

const IN_FIELDS: [Flaw; 20] = [
    Flaw::AlwaysAbsent,
    Flaw::UnusedNumberLeft,
    Flaw::HolderNotJudged,
    Flaw::PathOf97Taken,
    Flaw::TextOneLonger,
    Flaw::TextOfAList,
    Flaw::ListStopsAtRefused,
    Flaw::ListOneShort,
    Flaw::ListGoesOnAtTheEnd,
    Flaw::ListFillsTheRest,
    Flaw::ListStartsAtPlain,
    Flaw::NoMember,
    Flaw::MemberOneMore,
    Flaw::MemberOfEndByte,
    Flaw::MemberOf15,
    Flaw::NoMemberInLists,
    Flaw::MemberOf16,
    Flaw::FieldsTakeAnyText,
    Flaw::PartOfNoText,
    Flaw::ListsTakeAnyText,
];

const IN_VERDICTS: [Flaw; 11] = [
    Flaw::NoMember,
    Flaw::MemberOneMore,
    Flaw::MemberOfEndByte,
    Flaw::ContentIgnored,
    Flaw::OneByteTooMany,
    Flaw::ContentOneMore,
    Flaw::VisitOf17NotCounted,
    Flaw::AnyTextTaken,
    Flaw::TextBeforeEndByte,
    Flaw::ContentOf16,
    Flaw::MemberOf16,
];

const IN_READS: [Flaw; 8] = [
    Flaw::SheetOfZeros,
    Flaw::SheetByteAfter,
    Flaw::SheetOnRefusal,
    Flaw::SheetLengthOnRefusal,
    Flaw::SheetRoomOneMore,
    Flaw::NoVisitsAt14,
    Flaw::NoContentAt14,
    Flaw::SheetOfNoText,
];

const IN_WRITES: [Flaw; 7] = [
    Flaw::WritesNothing,
    Flaw::MessageByteAfter,
    Flaw::MessageOnRefusal,
    Flaw::MessageUnusedBit,
    Flaw::MessageRoomOneMore,
    Flaw::NotWritableFirst,
    Flaw::WrittenBeforeText,
];

/// What the side by side of fields must catch in direct lists, which the older
/// coding does not have.
const IN_DIRECT_LISTS: [Flaw; 5] = [
    Flaw::NoDirectLists,
    Flaw::DirectAsList,
    Flaw::DirectElementAsDirect,
    Flaw::DirectHeaderOf10,
    Flaw::NoListReaderAtDirect,
];

/// What the side by side of texts must catch.
const IN_TEXTS: [Flaw; 9] = [
    Flaw::AnyTextTaken,
    Flaw::TextBeforeEndByte,
    Flaw::ContentOf16,
    Flaw::MemberOf16,
    Flaw::FieldsTakeAnyText,
    Flaw::PartOfNoText,
    Flaw::ListsTakeAnyText,
    Flaw::SheetOfNoText,
    Flaw::WrittenBeforeText,
];

/// What the side by side of writes must catch about unions in place under 48 bits.
const IN_UNIONS: [Flaw; 4] = [
    Flaw::UnionsWritten,
    Flaw::EmptyUnionsWritten,
    Flaw::AbsentUnionsRefused,
    Flaw::UnionsLast,
];

/// What the side by side of clearing must catch, and of moving over where `true`.
const IN_CLEARS: [(Flaw, bool); 7] = [
    (Flaw::ClearsNothing, true),
    (Flaw::ClearsAllInPlace, true),
    (Flaw::ClearsFirstTable, true),
    (Flaw::ClearsWithoutRoom, false),
    (Flaw::ClearsUnlawful, false),
    (Flaw::ClearedByteAfter, false),
    (Flaw::ClearedOnRefusal, false),
];

/// What the side by side of tables must catch.
const IN_TABLES: [Flaw; 13] = [
    Flaw::TableByteAfter,
    Flaw::TableOnRefusal,
    Flaw::TableLengthOnRefusal,
    Flaw::TableRoomOneMore,
    Flaw::TableRoomFirst,
    Flaw::NoFlagIsZero,
    Flaw::BoolOf8Bits,
    Flaw::AnyTableTaken,
    Flaw::LongerTableTaken,
    Flaw::TableOfOtherCodingTaken,
    Flaw::OnlyFirstRowTried,
    Flaw::TableTriedAfterPath,
    Flaw::TableTriedAfterSize,
];

/// What every side by side must catch.
const IN_CODINGS: [Flaw; 3] = [
    Flaw::CodingIgnored,
    Flaw::AnyCodingTaken,
    Flaw::CodingGuessed,
];

/// Calls of each run; few enough to take no time, enough to catch each flaw.
const CALLS: u64 = 20_000;

/// A run of a side by side under a coding with a flawed program.
type Run = fn(&Flawed, Coding) -> Result<(), String>;

/// Every flaw is caught under both codings, and the program without one passes.
fn catches(sort: &str, flaws: &[Flaw], run: Run) {
    for coding in CODINGS {
        for flaw in flaws.iter().chain(&IN_CODINGS) {
            let outcome = run(&Flawed(*flaw), coding);
            assert!(outcome.is_err(), "{sort} miss {flaw:?} under {coding:?}");
        }
        assert!(run(&Flawed(Flaw::None), coding).is_ok());
    }
}

#[test]
fn judging_side_by_side_catches_flaws() {
    catches("judging", &IN_VERDICTS, |flawed, coding| {
        judging::run(flawed, &SecondCalls, coding, 9, CALLS / 10).map(drop)
    });
}

#[test]
fn fields_side_by_side_catch_flaws() {
    catches("fields", &IN_FIELDS, |flawed, coding| {
        fields::run(flawed, &SecondCalls, coding, 9, CALLS).map(drop)
    });
}

/// A program without direct lists is caught by every side by side.
#[test]
fn direct_lists_side_by_side_catch_flaws() {
    let coding = Coding::Bits48;
    for flaw in IN_DIRECT_LISTS {
        let outcome = fields::run(&Flawed(flaw), &SecondCalls, coding, 9, CALLS);
        assert!(outcome.is_err(), "fields miss {flaw:?}");
    }
    let without = &Flawed(Flaw::NoDirectLists);
    let judged = judging::run(without, &SecondCalls, coding, 9, CALLS / 10);
    let read = reads::run(without, &SecondCalls, coding, 9, CALLS);
    let written = writes::run(without, &SecondCalls, coding, 9, CALLS);
    assert!(judged.is_err() && read.is_err() && written.is_err());
}

/// Each text is held by a schema of its own coding, so that what is wrong about
/// codings does not show here.
#[test]
fn texts_side_by_side_catch_flaws() {
    for coding in CODINGS {
        for flaw in IN_TEXTS {
            let outcome = texts::run(&Flawed(flaw), &SecondCalls, coding, 9, CALLS / 10);
            assert!(outcome.is_err(), "texts miss {flaw:?} under {coding:?}");
        }
        let outcome = texts::run(&SecondCalls, &SecondCalls, coding, 9, CALLS / 10);
        assert!(outcome.is_ok());
    }
}

#[test]
fn reads_side_by_side_catch_flaws() {
    catches(
        "reads",
        &[&IN_READS[..], &IN_VERDICTS].concat(),
        |flawed, coding| reads::run(flawed, &SecondCalls, coding, 9, CALLS).map(drop),
    );
}

/// A room too small comes before 12 in one of them, which shows where both do not fit.
#[test]
fn unions_in_place_side_by_side() {
    let write = |flaw, coding| writes::run(&Flawed(flaw), &SecondCalls, coding, 9, CALLS);
    for flaw in IN_UNIONS {
        let outcome = write(flaw, Coding::Bits48);
        assert!(outcome.is_err(), "writes miss {flaw:?}");
        let outcome = moves::run(&Flawed(flaw), &SecondCalls, 9, CALLS / 10);
        let shows = flaw != Flaw::AbsentUnionsRefused || outcome.is_err();
        assert!(shows, "moves miss {flaw:?}");
    }
    let outcome = write(Flaw::UnionsRefusedUnder32, Coding::Bits32);
    assert!(outcome.is_err(), "writes miss unions refused under 32 bits");
}

#[test]
fn clearing_and_moving_side_by_side_catch_flaws() {
    for (flaw, moved) in IN_CLEARS {
        for coding in CODINGS {
            let outcome = clears::run(&Flawed(flaw), &SecondCalls, coding, 9, CALLS);
            assert!(outcome.is_err(), "clears miss {flaw:?} under {coding:?}");
        }
        let outcome = moves::run(&Flawed(flaw), &SecondCalls, 9, CALLS / 10);
        assert_eq!(outcome.is_err(), moved, "moves and {flaw:?}");
    }
    for flaw in IN_READS.into_iter().chain(IN_WRITES) {
        // What shows only where a message or a text is refused.
        let hidden = [
            Flaw::SheetOnRefusal,
            Flaw::SheetLengthOnRefusal,
            Flaw::SheetRoomOneMore,
            Flaw::NoVisitsAt14,
            Flaw::NoContentAt14,
            Flaw::SheetOfNoText,
            Flaw::SheetByteAfter,
            Flaw::NotWritableFirst,
            Flaw::WrittenBeforeText,
        ];
        if !hidden.contains(&flaw) {
            let outcome = moves::run(&Flawed(flaw), &SecondCalls, 9, CALLS / 10);
            assert!(outcome.is_err(), "moves miss {flaw:?}");
        }
    }
    let sound = &Flawed(Flaw::None);
    assert!(moves::run(sound, &SecondCalls, 9, CALLS / 10).is_ok());
    for coding in CODINGS {
        assert!(clears::run(sound, &SecondCalls, coding, 9, CALLS).is_ok());
    }
}

#[test]
fn writes_side_by_side_catch_flaws() {
    catches("writes", &IN_WRITES, |flawed, coding| {
        writes::run(flawed, &SecondCalls, coding, 9, CALLS).map(drop)
    });
}

#[test]
fn tables_side_by_side_catch_flaws() {
    catches("tables", &IN_TABLES, |flawed, coding| {
        positions::run(flawed, &SecondCalls, coding, 9, CALLS).map(drop)
    });
}
