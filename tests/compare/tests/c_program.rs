//! A C program that includes the header and calls every function, compiled with
//! every warning an error; what it prints was written down from the
//! requirements.

use std::path::Path;
use std::process::Command;

/// The archive's folder, as the wrapper's build finds it.
fn archive() -> String {
    let root = concat!(env!("CARGO_MANIFEST_DIR"), "/../../bindings/rust");
    let named = std::env::var("SCALGO_LIB_DIR");
    let folder = named.unwrap_or_else(|_| "../../target/staticlib".to_string());
    let archive = Path::new(root).join(folder).join("libscalgo.a");
    archive.display().to_string()
}

/// "The archive has no data of its own and calls only `memcpy` and `memset`."
#[test]
fn what_the_archive_needs() {
    let listed = Command::new("nm").arg(archive()).output();
    let listed = listed.expect("nm runs");
    assert!(listed.status.success());
    let listed = String::from_utf8(listed.stdout).expect("plain letters");
    let mut needed = Vec::new();
    for line in listed.lines() {
        let mut words = line.split_whitespace().rev();
        let (name, sort) = (words.next(), words.next());
        match (name, sort) {
            (Some(name), Some("U")) => needed.push(name),
            (Some(name), Some("T")) => assert!(name.starts_with("scalgo_"), "{name}"),
            // Local functions and constants; neither can be written to.
            (_, None | Some("t" | "r")) => {}
            (name, sort) => panic!("{name:?} is of sort {sort:?}"),
        }
    }
    needed.sort_unstable();
    assert_eq!(needed, ["memcpy", "memset"]);
}

#[test]
fn every_call_from_c() {
    let source = concat!(env!("CARGO_MANIFEST_DIR"), "/c/every_call.c");
    let include = concat!("-I", env!("CARGO_MANIFEST_DIR"), "/../../include");
    let program = concat!(env!("CARGO_TARGET_TMPDIR"), "/every_call");
    let mut compiler = Command::new("cc");
    compiler.args(["-std=c99", "-Wall", "-Wextra", "-Werror", "-pedantic"]);
    let archive = archive();
    let compiled = compiler.args([include, source, &archive, "-o", program]);
    let compiled = compiled.output().expect("cc runs");
    let said = String::from_utf8_lossy(&compiled.stderr);
    assert!(compiled.status.success() && said.is_empty(), "{said}");
    let run = Command::new(program).output().expect("the program runs");
    assert!(run.status.success() && run.stderr.is_empty());
    let printed = String::from_utf8(run.stdout).expect("plain letters");
    assert_eq!(printed, include_str!("../c/every_call.txt"));
}
