//! Links the static library that `bindings/library` keeps. `REEDGRIT_LIB` names the folder that has it, where that is not the
//! repository's `target/staticlib`; a relative one counts from where the user stands.
use std::env::var_os;
use std::path::PathBuf;

fn main() {
    println!("cargo:rerun-if-env-changed=REEDGRIT_LIB");
    let folder = match var_os("REEDGRIT_LIB") {
        // Cargo runs this in the crate's folder, and leaves PWD as the user's shell has it.
        Some(folder) => PathBuf::from(var_os("PWD").unwrap_or_default()).join(folder),
        None => PathBuf::from(var_os("CARGO_MANIFEST_DIR").expect("set by cargo")).join("../../target/staticlib"),
    };
    let archive = folder.join("libreedgrit.a");
    if !archive.exists() {
        // `cargo check` needs no archive.
        println!(
            "cargo:warning={} is missing: run `bindings/library` of the repository, or let REEDGRIT_LIB name the folder that has libreedgrit.a",
            archive.display()
        );
    }
    println!("cargo:rerun-if-changed={}", archive.display());
    println!("cargo:rustc-link-search=native={}", folder.display());
    println!("cargo:rustc-link-lib=static=reedgrit");
}
