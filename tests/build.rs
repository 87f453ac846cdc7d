//! Links libyauponroof.a from the folder that YR_LIB_DIR names, or else from ../target/staticlib.

use std::env;
use std::path::{Path, PathBuf};

fn main() {
    let package = env::var("CARGO_MANIFEST_DIR").expect("cargo sets CARGO_MANIFEST_DIR");
    let folder = match env::var_os("YR_LIB_DIR") {
        Some(folder) => PathBuf::from(folder),
        None => Path::new(&package).join("../target/staticlib"),
    };
    let archive = folder.join("libyauponroof.a");
    println!("cargo:rerun-if-env-changed=YR_LIB_DIR");
    println!("cargo:rerun-if-changed={}", archive.display());
    if !archive.is_file() {
        panic!(
            "{} is missing; `./install target/prefix` makes it",
            archive.display()
        );
    }
    println!("cargo:rustc-link-search=native={}", folder.display());
    println!("cargo:rustc-link-lib=static=yauponroof");
}
