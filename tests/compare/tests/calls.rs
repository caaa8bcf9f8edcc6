//! The library's C interface and the second program side by side: the numbers
//! of every call, and every output before and after it.
//!
//! A longer run: `compare all --cases 10000000 --seed S`, or `fields`, `reads`,
//! `writes` or `positions` alone, and with `--coding 32` under the older coding.

use compare::calls::{fields, lists, positions, reads, writes, LibraryCalls, SecondCalls};
use compare::coding::Coding;
use compare::counts::Counts;

/// What the older coding never has, without unions that are not in place and
/// direct lists, and with unions in place that are written.
fn never_under_32(name: &str) -> bool {
    NEVER_UNDER_32.contains(&name)
        || name.contains("object 18")
        || name.contains("union in place")
        || name.contains("direct")
        || name.contains("Direct")
}

const NEVER_UNDER_32: [&str; 8] = [
    "refused 9",
    "refused 9, member 0",
    "refused 9, member 1 to 9",
    "list steps: refused 9",
    "list steps: unknown below 256",
    "list steps: unknown from 256",
    "room: some, answer 9",
    "room: none, answer 9",
];

/// What a run did not reach often enough, or reached where it must not.
fn shortfalls(coding: Coding, counts: &Counts, wanted: &[(&str, u64)]) -> Vec<String> {
    let mut short = Vec::new();
    for &(name, least) in wanted {
        let count = counts.named(name);
        let never = coding.is_older() && never_under_32(name);
        if never && count > 0 {
            short.push(format!("{name}: {count}, none wanted"));
        } else if !never && count < least {
            short.push(format!("{name}: {count}, at least {least} wanted"));
        }
    }
    short
}

/// No difference, and everything reached.
fn reached(coding: Coding, outcome: Result<Counts, String>, wanted: &[(&str, u64)]) -> Counts {
    let counts = match outcome {
        Ok(counts) => counts,
        Err(report) => panic!("{report}"),
    };
    println!("{counts}");
    let short = shortfalls(coding, &counts, wanted);
    assert!(short.is_empty(), "not reached often enough: {short:#?}");
    counts
}

/// Most calls of a sort got another answer than refusal 1.
fn beyond_1(sort: &str, calls: u64, refused: u64) {
    println!("{sort}: {calls}, {} not refusal 1", calls - refused);
    assert!(refused * 5 < calls, "{sort}: {refused} of {calls}");
}

/// The answers of fields: every case, every refusal but 4, every kind.
const ANSWERS: [(&str, u64); 44] = [
    ("boolean 0", 10_000),
    ("boolean 1", 10_000),
    ("number of 8, signed 0", 10_000),
    ("number of 8, signed 1", 3000),
    ("number of 16, signed 0", 3000),
    ("number of 16, signed 1", 3000),
    ("number of 32, signed 0", 3000),
    ("number of 32, signed 1", 3000),
    ("number of 64, signed 0", 3000),
    ("number of 64, signed 1", 3000),
    ("float of 32", 5000),
    ("float of 64", 5000),
    ("object 13", 15_000),
    ("object 14", 8000),
    ("object 15", 15_000),
    ("object 16", 50_000),
    ("object 18", 10_000),
    ("struct", 15_000),
    ("absent", 100_000),
    ("unknown below 256", 5000),
    ("unknown from 256", 4000),
    ("refused 1", 8000),
    ("refused 2", 1500),
    ("refused 3", 3000),
    ("refused 5", 80),
    ("refused 6", 15_000),
    ("refused 7", 8000),
    ("refused 8", 8000),
    ("refused 9", 500),
    ("refused 10", 1500),
    ("refused 15", 50_000),
    ("refused 16", 4000),
    ("parts: bytes", 20_000),
    ("parts: empty", 5000),
    ("paths: 32 to 95 numbers", 200),
    ("paths: 96 numbers", 5000),
    ("paths: 97 numbers", 3000),
    ("paths: over 97 numbers", 5000),
    ("messages: Damaged", 15_000),
    ("messages: NoText", 1000),
    ("messages: DirectNoSize", 300),
    ("messages: DirectCutSize", 300),
    ("messages: OtherCoding", 3000),
    ("messages: NoCoding", 400),
];

/// Which members the refusals of fields are about.
const MEMBERS_OF_FIELDS: [(&str, u64); 8] = [
    ("refused 8, member 0", 4000),
    ("refused 8, member 1 to 9", 4000),
    ("refused 8, member 10 or more", 10),
    ("refused 9, member 0", 200),
    ("refused 9, member 1 to 9", 300),
    ("refused 10, member none", 1000),
    ("refused 10, member 0", 80),
    ("refused 10, member 1 to 9", 250),
];

/// The list reader: its steps, and what it starts at.
const LISTS: [(&str, u64); 44] = [
    ("list calls", 300_000),
    ("lists", 20_000),
    ("direct lists", 10_000),
    ("direct lists of over 16,777,216 elements", 500),
    ("list steps: object 13", 1500),
    ("list steps: object 14", 1500),
    ("list steps: object 15", 3000),
    ("list steps: object 16", 5000),
    ("list steps: object 18", 500),
    ("list steps: refused 5", 10),
    ("list steps: absent", 10_000),
    ("list steps: unknown below 256", 500),
    ("list steps: unknown from 256", 500),
    ("list steps: refused 6", 2000),
    ("list steps: refused 7", 1000),
    ("list steps: refused 9", 100),
    ("list steps: refused 10", 30),
    ("list steps: refused 16", 1000),
    ("list steps: after the last", 15_000),
    ("answers of lists that are none", 100_000),
    ("list starts: no elements", 1000),
    ("list starts: no direct elements", 1000),
    ("list starts: a direct list, no step", 100),
    ("list starts: plain elements", 3000),
    ("list starts: absent", 10_000),
    ("list starts: boolean 0", 1500),
    ("list starts: boolean 1", 1500),
    ("list starts: float of 32", 500),
    ("list starts: float of 64", 500),
    ("list starts: number of 8, signed 0", 1000),
    ("list starts: number of 64, signed 1", 300),
    ("list starts: object 13", 1500),
    ("list starts: object 14", 800),
    ("list starts: object 16", 5000),
    ("list starts: struct", 2000),
    ("list starts: unknown below 256", 500),
    ("list starts: unknown from 256", 500),
    ("list starts: refused 1", 800),
    ("list starts: refused 2", 150),
    ("list starts: refused 6", 2000),
    ("list starts: refused 8", 800),
    ("list starts: refused 10", 100),
    ("list starts: refused 15", 5000),
    ("list starts: refused 16", 800),
];

fn fields_agree(coding: Coding) {
    let outcome = fields::run(&LibraryCalls, &SecondCalls, coding, 1, 1_100_000);
    let wanted = [&ANSWERS[..], &MEMBERS_OF_FIELDS, &LISTS].concat();
    let counts = reached(coding, outcome, &wanted);
    for (sort, refused) in [
        (fields::ANSWERS, "refused 1"),
        (lists::CALLS, lists::REFUSED_1),
    ] {
        beyond_1(sort, counts.named(sort), counts.named(refused));
    }
}

#[test]
fn fields_texts_and_lists() {
    fields_agree(Coding::Bits48);
}

#[test]
fn fields_texts_and_lists_under_32_bits() {
    fields_agree(Coding::Bits32);
}

const READS: [(&str, u64); 45] = [
    ("accepted: Written", 2500),
    ("accepted: Wild", 3500),
    ("accepted: Damaged", 5000),
    ("accepted: OtherSchema", 4000),
    ("accepted: DamagedSchema", 200),
    ("accepted: Random", 900),
    ("refused: BadStart", 3000),
    ("refused: BrokenSchema", 3000),
    ("refused: Damaged", 20_000),
    ("refused: Faulty", 7000),
    ("refused: NoText", 2000),
    ("refused: DirectMagic", 300),
    ("refused: DirectId", 300),
    ("refused: DirectCountOver", 300),
    ("refused: DirectCount", 300),
    ("refused: DirectCutSize", 300),
    ("accepted: DirectNoSize", 300),
    ("accepted: DirectFullSize", 200),
    ("accepted: DirectLongerSize", 200),
    ("refused: OtherCoding", 3000),
    ("refused: NoCoding", 400),
    ("room: exact, answer 0", 15_000),
    ("room: larger, answer 0", 15_000),
    ("room: one less, answer 14", 15_000),
    ("room: some less, answer 14", 15_000),
    ("room: none, answer 14", 15_000),
    ("room: none, answer 0", 300),
    ("visits: less, answer 4", 15_000),
    ("content: less, answer 17", 15_000),
    ("room: some, answer 1", 10_000),
    ("room: some, answer 2", 2000),
    ("room: some, answer 3", 3000),
    ("room: some, answer 5", 1000),
    ("room: some, answer 6", 15_000),
    ("room: some, answer 7", 8000),
    ("room: some, answer 8", 4000),
    ("room: some, answer 9", 500),
    ("room: some, answer 10", 1000),
    ("room: some, answer 16", 6000),
    ("room: none, answer 4", 10_000),
    ("room: none, answer 6", 10_000),
    ("room: none, answer 9", 300),
    ("room: none, answer 10", 300),
    ("room: none, answer 16", 2000),
    ("room: none, answer 17", 5000),
];

/// Which members the refusals of reading are about.
const MEMBERS_OF_READS: [(&str, u64); 8] = [
    ("refused 8, member 0", 3000),
    ("refused 8, member 1 to 9", 3000),
    ("refused 8, member 10 or more", 40),
    ("refused 9, member 0", 200),
    ("refused 9, member 1 to 9", 400),
    ("refused 10, member none", 1000),
    ("refused 10, member 0", 150),
    ("refused 10, member 1 to 9", 400),
];

fn reads_agree(coding: Coding) {
    let outcome = reads::run(&LibraryCalls, &SecondCalls, coding, 1, 500_000);
    let counts = reached(coding, outcome, &[&READS[..], &MEMBERS_OF_READS].concat());
    beyond_1(reads::CALLS, counts.named(reads::CALLS), counts.answers[1]);
}

#[test]
fn reading_to_a_sheet() {
    reads_agree(Coding::Bits48);
}

#[test]
fn reading_to_a_sheet_under_32_bits() {
    reads_agree(Coding::Bits32);
}

const WRITES: [(&str, u64); 32] = [
    ("sheets of a writable value, answer 0", 8000),
    ("sheets of any value, answer 0", 5000),
    ("sheets of any value, answer 11", 300),
    ("sheets of any value, answer 12", 2500),
    ("sheets made unwritable, answer 12", 8000),
    ("sheets with no text, answer 12", 4000),
    ("sheets damaged, answer 0", 4000),
    ("sheets damaged, answer 11", 20_000),
    ("sheets damaged, answer 12", 600),
    ("sheets read from a damaged message, answer 0", 1200),
    ("sheets read from a damaged message, answer 12", 900),
    ("sheets random bytes, answer 11", 8000),
    ("sheets with direct elements, answer 0", 1000),
    ("sheets with direct elements, answer 11", 1000),
    ("sheets with direct elements, answer 12", 500),
    ("sheets refused for an older reason", 8000),
    ("sheets refused for a union in place alone", 1500),
    ("sheets by a damaged schema, answer 0", 60),
    ("sheets by a damaged schema, answer 1", 5000),
    ("sheets by the other coding's schema, answer 0", 1500),
    ("sheets under no coding, answer 1", 800),
    ("room: exact, answer 0", 20_000),
    ("room: larger, answer 0", 20_000),
    ("room: one less, answer 14", 20_000),
    ("room: some less, answer 14", 20_000),
    ("room: none, answer 14", 20_000),
    ("room: some, answer 1", 5000),
    ("room: some, answer 11", 30_000),
    ("room: some, answer 12", 10_000),
    ("room: none, answer 11", 30_000),
    ("room: none, answer 12", 10_000),
    ("round trips", 20_000),
];

fn writes_agree(coding: Coding) {
    let outcome = writes::run(&LibraryCalls, &SecondCalls, coding, 1, 500_000);
    let counts = reached(coding, outcome, &WRITES);
    beyond_1(
        writes::CALLS,
        counts.named(writes::CALLS),
        counts.answers[1],
    );
}

#[test]
fn writing_a_message() {
    writes_agree(Coding::Bits48);
}

#[test]
fn writing_a_message_under_32_bits() {
    writes_agree(Coding::Bits32);
}

const TABLES: [(&str, u64); 32] = [
    (positions::MADE, 90_000),
    ("schemas under no coding", 300),
    ("schemas of no members", 50),
    ("schemas of 1 to 63 members", 5000),
    ("schemas of 64 to 999 members", 20),
    ("schemas of 1000 members or more", 20),
    ("room: exact, answer 0", 10_000),
    ("room: larger, answer 0", 10_000),
    ("room: none, answer 0", 50),
    ("room: none, answer 14", 10_000),
    ("room: one less, answer 14", 10_000),
    ("room: some less, answer 14", 10_000),
    ("room: some, answer 1", 5000),
    ("room: none, answer 1", 5000),
    (positions::LENT, 300_000),
    ("lent: own", 50_000),
    ("lent: own, schema not lawful", 5000),
    ("lent: own, a path too long", 2000),
    ("lent: another that is the same", 1000),
    ("lent: one bit changed", 10_000),
    ("lent: one byte longer", 5000),
    ("lent: one byte shorter", 5000),
    ("lent: empty", 5000),
    ("lent: the other coding's", 1000),
    ("lent: another schema's", 5000),
    ("lent: two rows exchanged", 5000),
    ("lent: rows more or less", 5000),
    ("lent: random bytes", 5000),
    ("lent: one byte longer, schema not lawful", 500),
    ("lent: the other coding's, schema not lawful", 500),
    ("lent: another schema's, schema not lawful", 500),
    ("lent: random bytes, schema not lawful", 500),
];

/// With the schema's own table every answer of judging; 9 is none of the older coding's.
fn tables_agree(coding: Coding) {
    let outcome = positions::run(&LibraryCalls, &SecondCalls, coding, 1, 400_000);
    let counts = reached(coding, outcome, &TABLES);
    for number in [0, 2, 3, 4, 5, 6, 7, 8, 9, 10, 16, 17] {
        let count = counts.answers[number];
        let never = coding.is_older() && number == 9;
        assert!(never || count > 500, "{count} answers {number}");
    }
}

#[test]
fn tables_of_positions() {
    tables_agree(Coding::Bits48);
}

#[test]
fn tables_of_positions_under_32_bits() {
    tables_agree(Coding::Bits32);
}
