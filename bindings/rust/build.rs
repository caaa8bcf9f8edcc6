//! Finds libscalgo.a: in the folder that SCALGO_LIB_DIR names, or else where the repository builds it.

use std::env;
use std::path::Path;

const BUILT: &str = "../../target/staticlib";

fn main() {
    println!("cargo:rerun-if-env-changed=SCALGO_LIB_DIR");
    let named = env::var("SCALGO_LIB_DIR").unwrap_or_else(|_| BUILT.to_string());
    // A relative name counts from this crate's folder.
    let folder = Path::new(env!("CARGO_MANIFEST_DIR")).join(named);
    let archive = folder.join("libscalgo.a");
    println!("cargo:rerun-if-changed={}", archive.display());
    assert!(
        archive.is_file(),
        "{} is missing: make it with `tools/archive`, or set SCALGO_LIB_DIR to its folder",
        archive.display()
    );
    println!("cargo:rustc-link-search=native={}", folder.display());
    println!("cargo:rustc-link-lib=static=scalgo");
}
