// Links libdnr.a from the folder that DNR_LIB_DIR names, else from target/staticlib, where `make` puts it.

use std::env;
use std::path::{Path, PathBuf};

fn main() {
    println!("cargo:rerun-if-env-changed=DNR_LIB_DIR");
    let built = || Path::new(env!("CARGO_MANIFEST_DIR")).join("../../target/staticlib");
    let folder = env::var_os("DNR_LIB_DIR").map_or_else(built, PathBuf::from);
    let library = folder.join("libdnr.a");
    println!("cargo:rerun-if-changed={}", library.display());
    if !library.exists() {
        println!("cargo:warning={} is not there: run make, or set DNR_LIB_DIR", library.display());
    }
    println!("cargo:rustc-link-search=native={}", folder.display());
    println!("cargo:rustc-link-lib=static=dnr");
}
