//! Running the proved programs in folders of their own.

use std::fs;
use std::path::{Path, PathBuf};
use std::process::Command;
use std::sync::atomic::{AtomicU32, Ordering};

/// A new folder to run in.
pub fn folder() -> PathBuf {
    static NEXT: AtomicU32 = AtomicU32::new(0);
    let number = NEXT.fetch_add(1, Ordering::Relaxed);
    let name = format!("run-{}-{number}", std::process::id());
    let folder = Path::new(env!("CARGO_TARGET_TMPDIR")).join(name);
    fs::create_dir_all(&folder).expect("a new folder");
    folder
}

/// A program of the repository that is to be run in a folder.
pub fn program_in(folder: &Path, name: &str) -> Command {
    let crates = Path::new(env!("CARGO_MANIFEST_DIR")).join("../../crates");
    let program = crates.join(name).join("out").join(name);
    assert!(
        program.is_file(),
        "crates/{name}/out/{name} is missing: `rt run` in crates/{name} makes it"
    );
    let mut command = Command::new(program);
    command.current_dir(folder);
    command
}

/// What a program prints.
pub fn printed_by(command: &mut Command) -> String {
    let output = command.output().expect("the program runs");
    assert!(output.status.success() && output.stderr.is_empty());
    String::from_utf8(output.stdout).expect("plain letters")
}

/// What a program of the repository prints in a folder, which then goes away.
pub fn run_in(folder: &Path, name: &str) -> String {
    let printed = printed_by(&mut program_in(folder, name));
    fs::remove_dir_all(folder).expect("the folder goes away");
    printed
}
