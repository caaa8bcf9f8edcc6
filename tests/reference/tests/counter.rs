//! "Seats at the counter": the twelve cases of the paper.

mod common;

use common::tabled::field;
use common::{hex, judge, read, verdict, verdict_of};
use reference::{write, Answer};

fn o() -> Vec<u8> {
    hex("00 00 00 01 00 4C 49 43 45 01 10 00")
}

fn n() -> Vec<u8> {
    hex("00 00 00 01 00 4C 49 43 45 02 10 00 68 00")
}

fn m() -> Vec<u8> {
    hex(
        "B3 C4 C0 B5 0A 00 00 00 00 00 45 43 49 4C 08 00 00 00 00 00 03 00 1C 00 00 00 \
         00 00 F5 C8 12 D8 02 00 00 00 00 00 61 62 00",
    )
}

#[test]
fn case_1_by_n_with_budget_2() {
    assert_eq!(m().len(), 41);
    assert_eq!(judge(48, &n(), &m(), 2), verdict(0, 0, 2));
    let (answer, sheet) = read(48, &n(), &m(), 2, 9);
    assert_eq!(answer, verdict(0, 0, 2));
    assert_eq!(sheet, hex("40 00 D0 00 00 00 26 16 20"));
    // M is what the writer makes of its sheet.
    assert_eq!(write(48, &n(), &sheet, 41), (0, m()));
}

#[test]
fn case_2_budget_1() {
    assert_eq!(judge(48, &n(), &m(), 1), verdict(4, 28, 1));
}

#[test]
fn case_3_budget_0() {
    assert_eq!(judge(48, &n(), &m(), 0), verdict(4, 10, 0));
}

#[test]
fn case_4_by_o_with_budget_1() {
    let (answer, sheet) = read(48, &o(), &m(), 1, 3);
    assert_eq!(answer, verdict(0, 0, 1));
    assert_eq!(sheet, hex("40 00 C0"));
}

#[test]
fn case_5_table_length_5() {
    let mut message = m();
    message[14] = 5;
    // The text is member 1.
    assert_eq!(judge(48, &n(), &message, 2), verdict_of(8, 10, 1, 1));
}

#[test]
fn case_6_table_length_2() {
    let mut message = m();
    message[14] = 2;
    assert_eq!(
        read(48, &n(), &message, 2, 100),
        (verdict(0, 0, 1), hex("40 00 C0"))
    );
    assert_eq!(field(48, &n(), &message, &[1]), Answer::Absent);
}

#[test]
fn case_7_table_length_0() {
    let mut message = m();
    message[14] = 0;
    assert_eq!(
        read(48, &n(), &message, 2, 100),
        (verdict(0, 0, 1), hex("00"))
    );
    assert_eq!(field(48, &n(), &message, &[0]), Answer::Absent);
    assert_eq!(field(48, &n(), &message, &[1]), Answer::Absent);
}

#[test]
fn case_8_last_byte_01() {
    let mut message = m();
    message[40] = 1;
    assert_eq!(judge(48, &n(), &message, 2), verdict(10, 28, 2));
}

#[test]
fn case_9_less_the_last_byte() {
    assert_eq!(judge(48, &n(), &m()[..40], 2), verdict(6, 28, 2));
}

#[test]
fn case_10_empty_message() {
    assert_eq!(judge(48, &n(), &[], 2), verdict(2, 0, 0));
}

#[test]
fn case_11_text_offset_9() {
    let mut message = m();
    message[22] = 9;
    assert_eq!(judge(48, &n(), &message, 2), verdict(6, 9, 2));
}

/// "Bools 7 then an optional bool: flag bit 7 of byte 0, value bit 0 of byte 1."
#[test]
fn case_12_the_flag_in_one_byte_and_the_value_in_the_next() {
    let schema = common::one_table(&[0, 0, 0, 0, 0, 0, 0, common::optional(0)]);
    let mut message = common::Message::new(10);
    message.table(common::ID, 2).raw(&[0x80, 0x01]);
    assert_eq!(
        field(48, &schema, &message.bytes, &[7]),
        Answer::Boolean(true)
    );
    assert_eq!(
        field(48, &schema, &message.bytes, &[6]),
        Answer::Boolean(false)
    );
    // Seven present false bools, 010 each, and 011.
    let mut sheet = common::Sheet::new();
    for _ in 0..7 {
        sheet = sheet.put(0b010, 3);
    }
    let sheet = sheet.put(0b011, 3).done();
    assert_eq!(
        read(48, &schema, &message.bytes, 1, 3),
        (verdict(0, 0, 1), sheet.clone())
    );
    assert_eq!(write(48, &schema, &sheet, 22), (0, message.bytes.clone()));
    // The flag without its value's byte.
    let mut short = common::Message::new(10);
    short.table(common::ID, 1).raw(&[0x80]);
    assert_eq!(judge(48, &schema, &short.bytes, 1), verdict_of(8, 10, 7, 1));
    // Flag 0: the value may lie beyond the end.
    let mut unset = common::Message::new(10);
    unset.table(common::ID, 1).raw(&[0x7F]);
    assert_eq!(judge(48, &schema, &unset.bytes, 1), verdict(0, 0, 1));
    assert_eq!(field(48, &schema, &unset.bytes, &[7]), Answer::Absent);
    assert_eq!(
        field(48, &schema, &unset.bytes, &[6]),
        Answer::Boolean(true)
    );
}
