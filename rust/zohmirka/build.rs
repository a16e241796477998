//! Links target/staticlib/libzohmirka.a of this repository, which `rust/library` writes; ZOHMIRKA_LIB names another folder.
use std::path::PathBuf;

fn main() {
    println!("cargo:rerun-if-env-changed=ZOHMIRKA_LIB");
    let folder = match std::env::var_os("ZOHMIRKA_LIB") {
        Some(folder) => PathBuf::from(folder),
        None => PathBuf::from(std::env::var_os("CARGO_MANIFEST_DIR").expect("cargo sets CARGO_MANIFEST_DIR")).join("../../target/staticlib"),
    };
    let archive = folder.join("libzohmirka.a");
    if !archive.is_file() {
        panic!("{} is not there: run `rust/library` at the top of the repository, or set ZOHMIRKA_LIB", archive.display());
    }
    println!("cargo:rerun-if-changed={}", archive.display());
    println!("cargo:rustc-link-search=native={}", folder.display());
    println!("cargo:rustc-link-lib=static=zohmirka");
}
