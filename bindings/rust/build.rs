//! Links libjetukoma.a. The file is in lib/ beside this file, or in the folder that the variable JETUKOMA_LIB names.
use std::{env, path::absolute};

fn main() {
    let folder = env::var("JETUKOMA_LIB").unwrap_or_else(|_| format!("{}/lib", env::var("CARGO_MANIFEST_DIR").unwrap()));
    let folder = absolute(folder).unwrap();
    let archive = folder.join("libjetukoma.a");
    assert!(
        archive.is_file(),
        "{} is not there: name its folder in JETUKOMA_LIB",
        archive.display()
    );
    println!("cargo::rustc-link-search=native={}", folder.display());
    println!("cargo::rustc-link-lib=static=jetukoma");
    println!("cargo::rerun-if-env-changed=JETUKOMA_LIB");
    println!("cargo::rerun-if-changed={}", archive.display());
}
