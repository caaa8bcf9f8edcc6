//! The desk program, run on files: it prints number, place and visits.

mod common;

use common::{folder, printed_by, program_in, run_in};
use std::fs;
use std::path::Path;
use std::process::Command;

/// A table with a U16 and a text, and a message of it.
const SCHEMA: &[u8] = b"\x00\x00\x00\x01\x00\x4C\x49\x43\x45\x02\x10\x00\x68\x00";
const MESSAGE: &[u8] = b"\xB3\xC4\xC0\xB5\x0A\x00\x00\x00\x00\x00\
    \x45\x43\x49\x4C\x08\x00\x00\x00\x00\x00\x03\x00\x1C\x00\x00\x00\x00\x00\
    \xF5\xC8\x12\xD8\x02\x00\x00\x00\x00\x00ab\x00";

const MAGIC: &[u8] = b"\xB3\xC4\xC0\xB5\x0A\x00\x00\x00\x00\x00";
const ID: &[u8] = b"\x45\x43\x49\x4C";
const LIST: &[u8] = b"\x46\xBB\x00\x34";
const BYTES: &[u8] = b"\x10\xBE\xDB\xDC";

/// The most bytes of a file that the desk program takes.
const LIMIT: usize = 65_536;

fn run(folder: &Path) -> String {
    run_in(folder, "desk")
}

/// What the desk program prints of a schema and a message.
fn printed(schema: &[u8], message: &[u8]) -> String {
    let folder = folder();
    fs::write(folder.join("schema.bin"), schema).expect("schema.bin is written");
    fs::write(folder.join("message.bin"), message).expect("message.bin is written");
    run(&folder)
}

/// The message with one byte changed.
fn changed(at: usize, byte: u8) -> Vec<u8> {
    let mut message = MESSAGE.to_vec();
    message[at] = byte;
    message
}

/// The first bytes of an object: its magic, and a number of six bytes.
fn header(magic: &[u8], length: usize) -> Vec<u8> {
    [magic, &(length as u64).to_le_bytes()[..6]].concat()
}

/// A message of the root table and what stands behind its fixed part.
fn message(fixed: &[u8], behind: &[u8]) -> Vec<u8> {
    [MAGIC, &header(ID, fixed.len()), fixed, behind].concat()
}

#[test]
fn accepted() {
    assert_eq!(printed(SCHEMA, MESSAGE), "0 0 2\n");
    assert_eq!(printed(&[0, 0, 0, 1, 0, 1, 2, 3, 4, 0], MAGIC), "6 10 1\n");
    assert_eq!(printed(SCHEMA, &changed(14, 2)), "0 0 1\n");
}

#[test]
fn refused_before_the_walk() {
    assert_eq!(printed(&[], MESSAGE), "1 0 0\n");
    assert_eq!(printed(&SCHEMA[..13], MESSAGE), "1 0 0\n");
    assert_eq!(printed(&[SCHEMA, &[0]].concat(), MESSAGE), "1 0 0\n");
    assert_eq!(printed(&[], &[]), "1 0 0\n");
    assert_eq!(printed(SCHEMA, &[]), "2 0 0\n");
    assert_eq!(printed(SCHEMA, &MESSAGE[..9]), "2 0 0\n");
    assert_eq!(printed(SCHEMA, &changed(0, 0xB4)), "3 0 0\n");
    assert_eq!(printed(SCHEMA, &changed(3, 0)), "3 0 0\n");
}

/// A list of lists of bytes, all but the last of them the same: the walk
/// arrives at 2 + 497 * 201 + 1 objects and then at those of the last list.
fn shared(last: usize) -> Vec<u8> {
    let offset = |number: usize| (number as u64).to_le_bytes()[..6].to_vec();
    let (inner, end) = (36 + 6 * 498, 36 + 6 * 498 + 10 + 6 * 200);
    let bytes = end + 10 + 6 * last;
    let lists = [offset(inner).repeat(497), offset(end)].concat();
    let inner = [header(LIST, 200), offset(bytes).repeat(200)].concat();
    let end = [header(LIST, last), offset(bytes).repeat(last)].concat();
    let behind = [header(LIST, 498), lists, inner, end, header(BYTES, 0)].concat();
    message(&offset(26), &behind)
}

#[test]
fn refused_for_the_budget() {
    let schema = b"\x00\x02\x00\x01\x00\x78\x01\x70\x00\x4C\x49\x43\x45\x01\x78\x00";
    assert_eq!(printed(schema, &shared(99)), "0 0 99999\n");
    assert_eq!(printed(schema, &shared(100)), "0 0 100000\n");
    let bytes = 36 + 6 * 498 + 10 + 6 * 200 + 10 + 6 * 101;
    let spent = format!("4 {bytes} 100000\n");
    assert_eq!(printed(schema, &shared(101)), spent);
}

#[test]
fn refused_for_the_depth() {
    let schema = b"\x00\x00\x00\x01\x00\x4C\x49\x43\x45\x01\x80\x00";
    let itself = message(&[10, 0, 0, 0, 0, 0], &[]);
    assert_eq!(printed(schema, &itself), "5 10 33\n");
}

#[test]
fn refused_at_an_object() {
    assert_eq!(printed(SCHEMA, &changed(22, 9)), "6 9 2\n");
    assert_eq!(printed(SCHEMA, &MESSAGE[..40]), "6 28 2\n");
    assert_eq!(printed(SCHEMA, &changed(4, 9)), "6 9 1\n");
    assert_eq!(printed(SCHEMA, &changed(13, 0)), "7 10 1\n");
    assert_eq!(printed(SCHEMA, &changed(28, 0)), "7 28 2\n");
    assert_eq!(printed(SCHEMA, &changed(14, 5)), "8 10 1\n");
    assert_eq!(printed(SCHEMA, &changed(40, 1)), "10 28 2\n");
    assert_eq!(printed(SCHEMA, &changed(38, 0xFF)), "16 28 2\n");
    assert_eq!(printed(SCHEMA, &changed(39, 0xC2)), "16 28 2\n");
}

#[test]
fn refused_at_a_union_and_a_struct() {
    let union = b"\x00\x00\x01\x01\x00\x01\x68\x00\x4C\x49\x43\x45\x01\x88\x00";
    let zero = message(&[1, 0, 0, 0, 0, 0, 0, 0], &[]);
    assert_eq!(printed(union, &zero), "9 10 1\n");
    let unknown = message(&[2, 0, 0, 0, 0, 0, 0, 0], &[]);
    assert_eq!(printed(union, &unknown), "0 0 1\n");
    let structure = b"\x01\x00\x00\x01\x00\x01\x00\x00\x4C\x49\x43\x45\x01\x60\x00";
    assert_eq!(printed(structure, &message(&[1], &[])), "0 0 1\n");
    assert_eq!(printed(structure, &message(&[2], &[])), "10 10 1\n");
}

#[test]
fn files_of_the_largest_size() {
    let mut padded = MESSAGE.to_vec();
    padded.resize(LIMIT, 0xEE);
    assert_eq!(printed(SCHEMA, &padded), "0 0 2\n");
    padded.push(0xEE);
    assert_eq!(printed(SCHEMA, &padded), "2 0 0\n");
    let mut long = SCHEMA.to_vec();
    for size in [LIMIT, LIMIT + 1, 2 * LIMIT] {
        long.resize(size, 0);
        assert_eq!(printed(&long, MESSAGE), "1 0 0\n");
    }
    assert_eq!(printed(&long, &padded), "1 0 0\n");
}

/// The last byte of the largest file counts: it is a text's end byte.
#[test]
fn every_byte_of_the_largest_file_is_read() {
    let length = (LIMIT - 39) as u32;
    let mut filled = MESSAGE.to_vec();
    filled.resize(LIMIT, b'x');
    filled[32..36].copy_from_slice(&length.to_le_bytes());
    assert_eq!(printed(SCHEMA, &filled), "10 28 2\n");
    filled[LIMIT - 1] = 0;
    assert_eq!(printed(SCHEMA, &filled), "0 0 2\n");
    filled[32..36].copy_from_slice(&(length + 1).to_le_bytes());
    assert_eq!(printed(SCHEMA, &filled), "6 28 2\n");
}

#[test]
fn missing_files() {
    assert_eq!(run(&folder()), "1 0 0\n");
    let one = folder();
    fs::write(one.join("schema.bin"), SCHEMA).expect("schema.bin is written");
    assert_eq!(run(&one), "2 0 0\n");
    let other = folder();
    fs::write(other.join("message.bin"), MESSAGE).expect("message.bin is written");
    assert_eq!(run(&other), "1 0 0\n");
}

/// A folder opens and cannot be read.
#[test]
fn unreadable_files() {
    let one = folder();
    fs::write(one.join("schema.bin"), SCHEMA).expect("schema.bin is written");
    fs::create_dir(one.join("message.bin")).expect("a folder of that name");
    assert_eq!(run(&one), "2 0 0\n");
    let other = folder();
    fs::create_dir(other.join("schema.bin")).expect("a folder of that name");
    fs::write(other.join("message.bin"), MESSAGE).expect("message.bin is written");
    assert_eq!(run(&other), "1 0 0\n");
}

/// A shared object in which `read` gives seven bytes a call and one call fails.
fn failing_read() -> &'static str {
    let source = concat!(env!("CARGO_MANIFEST_DIR"), "/c/failing_read.c");
    let object = concat!(env!("CARGO_TARGET_TMPDIR"), "/failing_read.so");
    let mut compiler = Command::new("cc");
    compiler.args([
        "-std=c99", "-Wall", "-Wextra", "-Werror", "-shared", "-fPIC",
    ]);
    let compiled = compiler.args([source, "-o", object]).status();
    assert!(compiled.expect("cc runs").success());
    object
}

/// A file is unreadable where any one read of it fails: the first, one in the
/// middle, and the one that would have told of its end. The schema takes three
/// reads of seven bytes, its end among them, and the message seven.
#[test]
fn files_that_fail_while_they_are_read() {
    let object = failing_read();
    let folder = folder();
    fs::write(folder.join("schema.bin"), SCHEMA).expect("schema.bin is written");
    fs::write(folder.join("message.bin"), MESSAGE).expect("message.bin is written");
    for failing in 0..12 {
        let mut desk = program_in(&folder, "desk");
        desk.env("LD_PRELOAD", object);
        desk.env("FAILING_READ", failing.to_string());
        let expected = match failing {
            0..3 => "1 0 0\n",
            3..10 => "2 0 0\n",
            _ => "0 0 2\n",
        };
        assert_eq!(printed_by(&mut desk), expected, "read {failing} fails");
    }
    fs::remove_dir_all(folder).expect("the folder goes away");
}
