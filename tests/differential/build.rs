//! Links libnuxalder.a from NUXALDER_LIB_DIR, or from target/staticlib of the repository; libnuxalder.so where there is
//! no such archive.

use std::env;
use std::path::{Path, PathBuf};

fn main() {
    let default = || Path::new(env!("CARGO_MANIFEST_DIR")).join("../../target/staticlib");
    let folder = env::var_os("NUXALDER_LIB_DIR").map_or_else(default, PathBuf::from);
    println!("cargo:rerun-if-env-changed=NUXALDER_LIB_DIR");
    println!(
        "cargo:rerun-if-changed={}",
        folder.join("libnuxalder.a").display()
    );
    println!("cargo:rustc-link-search=native={}", folder.display());
    let kind = if folder.join("libnuxalder.a").exists() || !folder.join("libnuxalder.so").exists() {
        "static"
    } else {
        "dylib"
    };
    println!("cargo:rustc-link-lib={kind}=nuxalder");
}
