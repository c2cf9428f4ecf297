//! Finds the static library of the proved crates, or has it made: VALEMKHOR_LIB names the folder that holds libstream_c.a; without it the
//! library is proved and built in the tree that this crate stands in, by tools/staticlib, as x86-64 code. That is done again whenever something
//! in crates/ has changed, so what is linked is never older than the sources.

use std::path::Path;
use std::path::PathBuf;
use std::process::Command;
use std::time::Instant;

fn main() {
    println!("cargo:rerun-if-env-changed=VALEMKHOR_LIB");
    let folder = match std::env::var_os("VALEMKHOR_LIB") {
        Some(folder) => named(PathBuf::from(folder)),
        None => built(),
    };
    println!("cargo:rustc-link-search=native={}", folder.display());
    println!("cargo:rustc-link-lib=static=stream_c");
}

fn named(folder: PathBuf) -> PathBuf {
    println!("cargo:rerun-if-changed={}", folder.join("libstream_c.a").display());
    folder
}

/// Proves and builds the library. Cargo would take the file that is written here for one that changed since, and begin anew each time: so it
/// watches what the library is made of, and a copy is linked that nothing else writes.
fn built() -> PathBuf {
    if std::env::var_os("HOST") != std::env::var_os("TARGET") {
        panic!("tools/staticlib builds for this machine only: name the folder of another libstream_c.a in VALEMKHOR_LIB");
    }
    let here = PathBuf::from(std::env::var_os("CARGO_MANIFEST_DIR").expect("cargo names the crate's folder"));
    let root = here
        .ancestors()
        .nth(2)
        .map(Path::to_path_buf)
        .expect("the crate stands in bindings/rust");
    for part in ["crates", "crates.txt", "tools/staticlib"] {
        println!("cargo:rerun-if-changed={}", root.join(part).display());
    }
    let began = Instant::now();
    let made = Command::new(root.join("tools/staticlib")).status();
    if !made.is_ok_and(|status| status.success()) {
        panic!("no libstream_c.a: install the Rattle kit, or name the library's folder in VALEMKHOR_LIB");
    }
    println!(
        "cargo:warning=libstream_c.a was made from crates/ in {} s, proofs included; it is made again only after a change there",
        began.elapsed().as_secs()
    );
    let folder = PathBuf::from(std::env::var_os("OUT_DIR").expect("cargo names a folder for what is made"));
    std::fs::copy(root.join("target/native/libstream_c.a"), folder.join("libstream_c.a")).expect("a copy of the library");
    folder
}
