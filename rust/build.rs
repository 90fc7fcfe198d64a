//! Finds the library and has it linked.

use std::{env, path::PathBuf, process};

const LIBRARY: &str = "libbelutharin.a";
const VARIABLE: &str = "BELUTHARIN_LIB_DIR";

fn main() {
    println!("cargo:rerun-if-changed=build.rs");
    println!("cargo:rerun-if-env-changed={VARIABLE}");
    let folder = folder();
    let library = folder.join(LIBRARY);
    println!("cargo:rerun-if-changed={}", library.display());
    if !library.is_file() {
        eprintln!(
            "belutharin: {} is not there. Write it by `tools/library` in the repository, or set {VARIABLE} to the folder that holds {LIBRARY}",
            library.display()
        );
        process::exit(1);
    }
    println!("cargo:rustc-link-search=native={}", folder.display());
    println!("cargo:rustc-link-lib=static=belutharin");
}

/// The folder that the variable names, or the one that `tools/library` writes to.
fn folder() -> PathBuf {
    if let Some(folder) = env::var_os(VARIABLE).filter(|folder| !folder.is_empty()) {
        return PathBuf::from(folder);
    }
    let package = env::var_os("CARGO_MANIFEST_DIR").expect("cargo sets its variables");
    PathBuf::from(package).join("../target/lib")
}
