//! The desk's commands on files, with what the requirements' own table says; and the same in the
//! older coding, worked out by hand.

use std::fs;
use std::path::{Path, PathBuf};
use std::process::Command;

const SCHEMA: &[u8] = b"\x00\x00\x00\x01\x00\x4C\x49\x43\x45\x02\x10\x00\x68\x00";
const MESSAGE: &[u8] = b"\xB3\xC4\xC0\xB5\x0A\x00\x00\x00\x00\x00\
    \x45\x43\x49\x4C\x08\x00\x00\x00\x00\x00\x03\x00\x1C\x00\x00\x00\x00\x00\
    \xF5\xC8\x12\xD8\x02\x00\x00\x00\x00\x00ab\x00";
const OLDER_MESSAGE: &[u8] = b"\xB3\xC4\xC0\xB5\x08\x00\x00\x00\
    \x45\x43\x49\x4C\x06\x00\x00\x00\x03\x00\x16\x00\x00\x00\
    \xF5\xC8\x12\xD8\x02\x00\x00\x00ab\x00";
const SHEET: &[u8] = b"\x40\x00\xD0\x00\x00\x00\x26\x16\x20";

/// A folder of its own with the schema, the message and the sheet.
fn folder(name: &str) -> PathBuf {
    let folder = Path::new(env!("CARGO_TARGET_TMPDIR")).join(name);
    fs::create_dir_all(&folder).expect("a folder");
    let files = [
        ("schema", SCHEMA),
        ("message", MESSAGE),
        ("older", OLDER_MESSAGE),
        ("sheet", SHEET),
    ];
    for (name, bytes) in files {
        fs::write(folder.join(name), bytes).expect("a file is written");
    }
    folder
}

/// What a command prints, and whether it went well.
fn run(folder: &Path, words: &str) -> (String, bool) {
    let mut command = Command::new(env!("CARGO_BIN_EXE_scalgo-desk"));
    let output = command.args(words.split(' ')).current_dir(folder).output();
    let output = output.expect("the program runs");
    let printed = String::from_utf8(output.stdout).expect("plain letters");
    (printed, output.status.success())
}

fn prints(folder: &Path, words: &str, expected: &str) {
    assert_eq!(run(folder, words), (format!("{expected}\n"), true));
}

#[test]
fn judging_and_fields() {
    let folder = folder("fields");
    prints(&folder, "judge schema message", "0 0 2 10");
    prints(&folder, "field schema message", "table at 10, length 8");
    let number = "unsigned number of 16 bits: 3";
    prints(&folder, "field schema message 0", number);
    let text = "text at 28, length 2: ab";
    prints(&folder, "field schema message 1", text);
    prints(&folder, "field schema message 2", "refused: 15 at 10");
    prints(&folder, "list schema message 1", "refused: 15 at 0");
    fs::write(folder.join("message"), &MESSAGE[..40]).expect("a file is written");
    prints(&folder, "judge schema message", "6 28 2 8");
    prints(&folder, "field schema message 1", "refused: 6 at 28");
    prints(&folder, "judge message schema", "1 0 0 0");
    // The text is cut by a fixed part of 5 bytes.
    let mut cut = MESSAGE.to_vec();
    cut[14] = 5;
    fs::write(folder.join("message"), cut).expect("a file is written");
    prints(&folder, "judge schema message", "8 10 1 5, member 1");
    let refused = "refused: 8 at 10, member 1";
    prints(&folder, "field schema message 1", refused);
    prints(&folder, "list schema message 1", refused);
    let read = "8 10 1 5 0, member 1";
    prints(&folder, "read schema message read", read);
}

/// The text as a character of two bytes, as two bytes that are none, and with another end byte too;
/// and as bytes, which may be any. A sheet with such a text is not written.
#[test]
fn texts() {
    let folder = folder("texts");
    let put = |name: &str, bytes: &[u8]| {
        fs::write(folder.join(name), bytes).expect("a file is written");
    };
    let message = |end: &[u8]| [&MESSAGE[..38], end].concat();
    put("message", &message("ä\0".as_bytes()));
    prints(&folder, "judge schema message", "0 0 2 10");
    let text = "text at 28, length 2: ä";
    prints(&folder, "field schema message 1", text);
    put("message", &message(b"a\0\0"));
    let text = "text at 28, length 2: a\\0";
    prints(&folder, "field schema message 1", text);
    put("message", &message(b"\xC3b\0"));
    prints(&folder, "judge schema message", "16 28 2 10");
    prints(
        &folder,
        "field schema message 0",
        "unsigned number of 16 bits: 3",
    );
    prints(&folder, "field schema message 1", "refused: 16 at 28");
    prints(&folder, "read schema message read", "16 28 2 10 0");
    prints(&folder, "--content 9 judge schema message", "17 28 2 8");
    put("message", &message(b"\xC3b\x01"));
    prints(&folder, "judge schema message", "10 28 2 10");
    put("sheet", b"\x40\x00\xD0\x00\x00\x00\x2C\x36\x20");
    prints(&folder, "write schema sheet written", "12 0");
    assert!(!folder.join("read").exists() && !folder.join("written").exists());
    // The same as bytes: another kind, and another magic.
    put("schema", &[&SCHEMA[..12], b"\x70\x00"].concat());
    let bytes = [
        &MESSAGE[..28],
        b"\x10\xBE\xDB\xDC",
        &MESSAGE[32..38],
        b"\xC3b",
    ]
    .concat();
    put("message", &bytes);
    let text = "bytes at 28, length 2: \\xc3b";
    prints(&folder, "field schema message 1", text);
}

/// A table with a list of texts: "ab", none, and one that is not there.
#[test]
fn a_list() {
    let folder = folder("lists");
    let schema = b"\x00\x01\x00\x01\x00\x68\x00\x4C\x49\x43\x45\x01\x78\x00";
    let message = b"\xB3\xC4\xC0\xB5\x0A\x00\x00\x00\x00\x00\
        \x45\x43\x49\x4C\x06\x00\x00\x00\x00\x00\x1A\x00\x00\x00\x00\x00\
        \x46\xBB\x00\x34\x03\x00\x00\x00\x00\x00\
        \x36\x00\x00\x00\x00\x00\x00\x00\x00\x00\x00\x00\x09\x00\x00\x00\x00\x00\
        \xF5\xC8\x12\xD8\x02\x00\x00\x00\x00\x00ab\x00";
    fs::write(folder.join("schema"), schema).expect("a file is written");
    fs::write(folder.join("message"), message).expect("a file is written");
    let elements = "text at 54, length 2\nabsent\nrefused: 6 at 9";
    prints(&folder, "list schema message 0", elements);
}

#[test]
fn reading_to_a_sheet() {
    let folder = folder("sheets");
    prints(&folder, "read schema message read", "0 0 2 10 9");
    assert_eq!(fs::read(folder.join("read")).expect("a sheet"), SHEET);
    fs::write(folder.join("message"), &MESSAGE[..40]).expect("a file is written");
    fs::remove_file(folder.join("read")).expect("the sheet goes away");
    prints(&folder, "read schema message read", "6 28 2 8 0");
    assert!(!folder.join("read").exists());
}

#[test]
fn writing_a_message() {
    let folder = folder("messages");
    prints(&folder, "write schema sheet written", "0 41");
    assert_eq!(fs::read(folder.join("written")).expect("bytes"), MESSAGE);
    fs::remove_file(folder.join("written")).expect("the message goes away");
    prints(&folder, "write schema message written", "11 0");
    assert!(!folder.join("written").exists());
}

/// The text is refused with one visit, or with two and less content than its fixed part and its two
/// bytes; the root with less than its fixed part.
#[test]
fn allowances() {
    let folder = folder("allowances");
    for (flags, verdict) in [
        ("--visits 2 --content 10", "0 0 2 10"),
        ("--visits 1", "4 28 1 8"),
        ("--visits 0", "4 10 0 0"),
        ("--content 9", "17 28 2 8"),
        ("--content 7", "17 10 1 0"),
        ("--content 0 --visits 0", "4 10 0 0"),
        ("--content 9 --visits 1", "4 28 1 8"),
        (
            "--content 18446744073709551615 --visits 4294967295",
            "0 0 2 10",
        ),
        ("--coding 32 --content 8", "6 1835011 2 8"),
        ("--content 7 --coding 32", "17 10 1 0"),
    ] {
        prints(&folder, &format!("{flags} judge schema message"), verdict);
        let length = if verdict.starts_with("0 ") { 9 } else { 0 };
        let read = format!("{flags} read schema message read");
        prints(&folder, &read, &format!("{verdict} {length}"));
    }
    // Fields have no allowance.
    let text = "text at 28, length 2: ab";
    prints(
        &folder,
        "--visits 0 --content 0 field schema message 1",
        text,
    );
}

#[test]
fn wrong_words_and_missing_files() {
    let folder = folder("wrong");
    for words in [
        "judge schema",
        "field schema message x",
        "judge schema none",
        "--coding 33 judge schema message",
        "--coding x judge schema message",
        "--coding 32",
        "--visits 4294967296 judge schema message",
        "--visits -1 judge schema message",
        "--content 18446744073709551616 judge schema message",
        "--content judge schema message",
        "--content 5",
        "--budget 5 judge schema message",
        "judge schema message --coding 32",
        "migrate schema message new",
        "migrate schema message new moved more",
        "migrate schema none new moved",
    ] {
        assert_eq!(run(&folder, words), (String::new(), false));
    }
}

/// A table with a U8 and, in place, a union of a text or a table of a U8; and that schema cleared.
const STORED: &[u8] = b"\x00\x00\x01\x02\x00\x02\x68\x00\x80\x01\
    \x4C\x49\x43\x45\x02\x08\x00\x8A\x00\x00\x00\x00\x01\x01\x08\x00";
const CLEARED: &[u8] = b"\x00\x00\x01\x02\x00\x02\x68\x00\x80\x01\
    \x4C\x49\x43\x45\x02\x08\x00\x88\x00\x00\x00\x00\x01\x01\x08\x00";

/// A message by it: what follows the root's id.
fn stored(rest: &[u8]) -> Vec<u8> {
    let start = b"\xB3\xC4\xC0\xB5\x0A\x00\x00\x00\x00\x00\x45\x43\x49\x4C";
    [start, rest].concat()
}

/// The text "ab", an empty text, a table of 6, and none: what is moved over, and to what.
#[test]
fn moving_over() {
    let folder = folder("moved");
    let cases: [(&[u8], &[u8]); 4] = [
        (
            b"\x09\0\0\0\0\0\x05\x01\x00\x02\0\0\0\0\0ab\0",
            b"\x09\0\0\0\0\0\x05\x01\x00\x1D\0\0\0\0\0\xF5\xC8\x12\xD8\x02\0\0\0\0\0ab\0",
        ),
        (
            b"\x09\0\0\0\0\0\x05\x01\x00\0\0\0\0\0\0\0",
            b"\x09\0\0\0\0\0\x05\x01\x00\x1D\0\0\0\0\0\xF5\xC8\x12\xD8\0\0\0\0\0\0\0",
        ),
        // The table is longer than the schema says.
        (
            b"\x09\0\0\0\0\0\x05\x02\x00\x02\0\0\0\0\0\x06\x07",
            b"\x09\0\0\0\0\0\x05\x02\x00\x1D\0\0\0\0\0\x01\0\0\0\x01\0\0\0\0\0\x06",
        ),
        // An absent one has no length that matters; nor is the union behind a short table's end there.
        (b"\x01\0\0\0\0\0\x05", b"\x09\0\0\0\0\0\x05\0\0\0\0\0\0\0\0"),
    ];
    // Without such a union all is as it was.
    prints(&folder, "migrate schema message new moved", "0 41");
    assert_eq!(fs::read(folder.join("new")).expect("a schema"), SCHEMA);
    assert_eq!(fs::read(folder.join("moved")).expect("bytes"), MESSAGE);
    fs::write(folder.join("schema"), STORED).expect("a file is written");
    for (rest, moved) in cases {
        fs::write(folder.join("message"), stored(rest)).expect("a file is written");
        let printed = format!("0 {}", 14 + moved.len());
        prints(&folder, "migrate schema message new moved", &printed);
        assert_eq!(fs::read(folder.join("new")).expect("a schema"), CLEARED);
        let given = fs::read(folder.join("moved")).expect("a message");
        assert_eq!(given, stored(moved));
        // Both have the same sheet. Its own schema writes it only where no union is present.
        run(&folder, "read schema message before");
        run(&folder, "read new moved after");
        let sheet = |name| fs::read(folder.join(name)).expect("a sheet");
        assert_eq!(sheet("before"), sheet("after"));
        let printed = if rest.len() < 8 { "0 29" } else { "12 0" };
        prints(&folder, "write schema before again", printed);
        // By the cleared schema it is moved over to itself.
        prints(
            &folder,
            "migrate new moved new2 moved2",
            &format!("0 {}", 14 + moved.len()),
        );
        assert_eq!(fs::read(folder.join("moved2")).expect("bytes"), given);
    }
}

/// A message that is refused, a schema that is not lawful, and sheets that the cleared schema cannot
/// write: nothing is written.
#[test]
fn not_moved_over() {
    let folder = folder("stays");
    let put = |name: &str, bytes: &[u8]| {
        fs::write(folder.join(name), bytes).expect("a file is written");
    };
    put("schema", STORED);
    let text = stored(b"\x09\0\0\0\0\0\x05\x01\x00\x02\0\0\0\0\0ab\0");
    put("message", &text[..text.len() - 1]);
    let words = "migrate schema message new moved";
    prints(&folder, words, "6 29 2 9 0");
    put("message", &text);
    let few = format!("--visits 1 {words}");
    prints(&folder, &few, "4 29 1 9 0");
    let little = format!("--content 10 {words}");
    prints(&folder, &little, "17 29 2 9 0");
    prints(&folder, "migrate message schema new moved", "1 0 0 0 0");
    // A length of 2 cuts the union.
    put("message", &stored(b"\x02\0\0\0\0\0\x05\x01"));
    prints(&folder, words, "8 10 1 2 0, member 1");
    // An unknown choice, and a table that is too short for its number.
    put(
        "message",
        &stored(b"\x09\0\0\0\0\0\x05\x03\x00\0\0\0\0\0\0"),
    );
    prints(&folder, words, "12 0");
    put(
        "message",
        &stored(b"\x09\0\0\0\0\0\x05\x02\x00\0\0\0\0\0\0"),
    );
    prints(&folder, words, "12 0");
    assert!(!folder.join("new").exists() && !folder.join("moved").exists());
}

/// A message of the largest size: what stood in place gets a header, and there is no room for that.
#[test]
fn too_large_to_move_over() {
    let folder = folder("large");
    // A table with a union of bytes in place.
    let schema = b"\x00\x00\x01\x01\x00\x01\x70\x00\x4C\x49\x43\x45\x01\x8A\x00";
    fs::write(folder.join("schema"), schema).expect("a file is written");
    for (size, printed) in [(16_777_205, "0 16777215"), (16_777_206, "13 0")] {
        let length = &(size as u64 - 28).to_le_bytes()[..6];
        let mut message = stored(&[b"\x08\0\0\0\0\0\x01\0", length].concat());
        message.resize(size, 7);
        fs::write(folder.join("message"), message).expect("a file is written");
        let _ = fs::remove_file(folder.join("moved"));
        prints(&folder, "migrate schema message new moved", printed);
        assert_eq!(folder.join("moved").exists(), printed.starts_with("0 "));
    }
}

/// The older coding keeps unions in place: that is an error and says so.
#[test]
fn the_older_coding_is_not_moved_over() {
    let folder = folder("kept");
    let mut command = Command::new(env!("CARGO_BIN_EXE_scalgo-desk"));
    let words = [
        "--coding", "32", "migrate", "schema", "older", "new", "moved",
    ];
    let output = command.args(words).current_dir(&folder).output();
    let output = output.expect("the program runs");
    assert!(!output.status.success() && output.stdout.is_empty());
    let said = String::from_utf8(output.stderr).expect("plain letters");
    let why = "migrate: messages of 32 bits keep their unions in place and are not moved over\n";
    assert_eq!(said, why);
    assert!(!folder.join("new").exists() && !folder.join("moved").exists());
}

#[test]
fn the_older_coding() {
    let folder = folder("older");
    prints(&folder, "--coding 32 judge schema older", "0 0 2 8");
    prints(&folder, "--coding 48 judge schema message", "0 0 2 10");
    prints(&folder, "--coding 32 judge schema message", "6 1835011 2 8");
    let root = "table at 8, length 6";
    prints(&folder, "--coding 32 field schema older", root);
    let text = "text at 22, length 2: ab";
    prints(&folder, "--coding 32 field schema older 1", text);
    let none = "refused: 15 at 0";
    prints(&folder, "--coding 32 list schema older 1", none);
    prints(&folder, "--coding 32 read schema older read", "0 0 2 8 9");
    assert_eq!(fs::read(folder.join("read")).expect("a sheet"), SHEET);
    prints(&folder, "--coding 32 write schema sheet written", "0 33");
    let written = fs::read(folder.join("written")).expect("bytes");
    assert_eq!(written, OLDER_MESSAGE);
    // A union that is not in place.
    let union = b"\x00\x00\x01\x01\x00\x01\x68\x00\x4C\x49\x43\x45\x01\x88\x00";
    fs::write(folder.join("schema"), union).expect("a file is written");
    prints(&folder, "--coding 32 judge schema older", "1 0 0 0");
}
