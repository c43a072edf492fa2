//! Finds the proved static library: in the folder that SWARMBANNER_LIB_DIR names, else where `bindings/library capi` writes it.

use std::env;
use std::path::{Path, PathBuf};
use std::process::exit;

const VARIABLE: &str = "SWARMBANNER_LIB_DIR";
const LIBRARY: &str = "libcapi.a";

fn main() {
    println!("cargo:rerun-if-env-changed={VARIABLE}");
    let folder = folder();
    let library = folder.join(LIBRARY);
    println!("cargo:rerun-if-changed={}", library.display());
    if !library.is_file() {
        complain(&library);
    }
    println!("cargo:rustc-link-search=native={}", folder.display());
    println!("cargo:rustc-link-lib=static=capi");
}

/// A relative folder is taken from this crate's folder, where cargo runs this program.
fn folder() -> PathBuf {
    let this = PathBuf::from(env::var_os("CARGO_MANIFEST_DIR").expect("cargo sets the folder of the crate"));
    match env::var_os(VARIABLE) {
        Some(folder) => this.join(folder),
        None => this.join("../../target/staticlib"),
    }
}

fn complain(library: &Path) -> ! {
    eprintln!("error: {} is not there.", library.display());
    eprintln!("Run `bindings/library capi` at the top of the repository, which proves the library and writes it,");
    eprintln!("or set {VARIABLE} to the folder that has {LIBRARY}.");
    exit(1)
}
