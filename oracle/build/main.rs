//! Copies the published files into the build folder and applies the patches of each build to the copies.

mod patches;

use patches::{Patch, MENDS, OBSERVATIONS};
use std::{
    env, fs,
    path::{Path, PathBuf},
    process,
};

/// Where the published files are looked for, seen from the project's root.
const DEFAULT_FOLDER: &str = "../shared/docs/src";

fn main() {
    println!("cargo:rerun-if-env-changed=NONOGRID_SRC");
    println!("cargo:rerun-if-changed=build");
    let solver = folder().join("src/solver");
    let probing = read(&solver.join("probing.rs"));
    let backtracking = read(&solver.join("backtracking.rs"));
    let unmended = patched(backtracking, OBSERVATIONS);
    let mended = patched(unmended.clone(), MENDS);
    write("probing.rs", &probing);
    write("unmended.rs", &unmended);
    write("mended.rs", &mended);
}

/// The folder named by the variable, or the default; a relative one is seen from the project's root.
fn folder() -> PathBuf {
    let root = variable("CARGO_MANIFEST_DIR").join("..");
    match env::var("NONOGRID_SRC") {
        Ok(folder) if !folder.is_empty() => root.join(folder),
        _ => root.join(DEFAULT_FOLDER),
    }
}

fn read(file: &Path) -> String {
    println!("cargo:rerun-if-changed={}", file.display());
    match fs::read_to_string(file) {
        Ok(text) => text,
        Err(error) => fail(&format!(
            "the published file {} cannot be read ({error}); set NONOGRID_SRC to the folder of nonogrid 0.7.3 that holds src/solver",
            file.display()
        )),
    }
}

/// The text after the patches, in order; each must find its old text exactly once.
fn patched(text: String, patches: &[Patch]) -> String {
    patches.iter().fold(text, |text, patch| {
        let found = text.matches(patch.old).count();
        if found != 1 {
            fail(&format!(
                "patch {}: its old text must stand once in backtracking.rs and stands {found} times; is this nonogrid 0.7.3?",
                patch.name
            ));
        }
        text.replacen(patch.old, patch.new, 1)
    })
}

fn write(name: &str, text: &str) {
    fs::write(variable("OUT_DIR").join(name), text).expect("the build folder can be written");
}

/// A folder that cargo names.
fn variable(name: &str) -> PathBuf {
    PathBuf::from(env::var_os(name).expect("cargo sets its variables"))
}

fn fail(message: &str) -> ! {
    eprintln!("oracle: {message}");
    process::exit(1);
}
