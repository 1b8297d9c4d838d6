//! Links `libsheet.a` from the folder that `SHEET_LIB_DIR` names, or from the repository's own.

use std::env;
use std::path::PathBuf;

fn main() {
    let here = PathBuf::from(env::var_os("CARGO_MANIFEST_DIR").expect("cargo names the crate's folder"));
    // An absolute SHEET_LIB_DIR stands by itself; any other is taken from the crate's folder.
    let folder = here.join(env::var_os("SHEET_LIB_DIR").unwrap_or("../../target/staticlib".into()));
    println!("cargo:rerun-if-env-changed=SHEET_LIB_DIR");
    println!("cargo:rerun-if-changed={}", folder.join("libsheet.a").display());
    println!("cargo:rustc-link-search=native={}", folder.display());
    println!("cargo:rustc-link-lib=static=sheet");
}
