//! Links libmexaldor.a from the folder MEXALDOR_LIB_DIR, or from bindings/c/out of the repository.

use std::env;
use std::path::PathBuf;

fn main() {
    println!("cargo:rerun-if-env-changed=MEXALDOR_LIB_DIR");
    let folder = match env::var_os("MEXALDOR_LIB_DIR") {
        Some(folder) => PathBuf::from(folder),
        None => PathBuf::from(env::var_os("CARGO_MANIFEST_DIR").expect("cargo sets it")).join("../../c/out"),
    };
    println!("cargo:rustc-link-search=native={}", folder.display());
    println!("cargo:rustc-link-lib=static=mexaldor");
    println!("cargo:rerun-if-changed={}", folder.join("libmexaldor.a").display());
}
