//! Finds the reference, readability.rs, and passes its place to the compiler;
//! links the port where its library has been made.
//!
//! The variable READABILITY_RS names it; without the variable it is looked for
//! beside the project. A relative path counts from the
//! project's root.

use std::{env, path::Path, process::ExitCode};

const DEFAULT: &str = "../shared/docs/src/crates/schemweave/src/readability.rs";

/// Where tools/build-port puts the library and the program, from the project's
/// root.
const PORT: &str = "target/staticlib";
const PROGRAM: &str = "target/bin/sheet";

fn main() -> ExitCode {
    println!("cargo:rerun-if-env-changed=READABILITY_RS");
    pass_to_program("OPT_LEVEL", "BUILT_AT_LEVEL");
    pass_to_program("CARGO_ENCODED_RUSTFLAGS", "BUILT_WITH_FLAGS");
    let package = env::var("CARGO_MANIFEST_DIR").expect("cargo names the package's folder");
    let root = Path::new(&package).join("../..");
    link_port(&root.join(PORT));
    let program = root.join(PROGRAM);
    println!("cargo:rustc-env=SHEET_PROGRAM={}", program.display());
    let named = env::var("READABILITY_RS").unwrap_or_else(|_| DEFAULT.to_string());
    let place = root.join(named);
    match place.canonicalize() {
        Ok(place) => {
            println!("cargo:rerun-if-changed={}", place.display());
            println!("cargo:rustc-env=READABILITY_PATH={}", place.display());
            ExitCode::SUCCESS
        }
        Err(error) => {
            eprintln!("readability.rs is not at {}: {error}", place.display());
            eprintln!("set READABILITY_RS to its path");
            ExitCode::FAILURE
        }
    }
}

/// What cargo says of this build, for the program that is built.
fn pass_to_program(said: &str, name: &str) {
    let value = env::var(said).unwrap_or_default();
    println!("cargo:rustc-env={name}={}", value.replace('\u{1f}', " "));
}

/// Without the library the program still compares the reference with all
/// pairs; the parts that call the port are left out.
fn link_port(folder: &Path) {
    println!("cargo:rustc-check-cfg=cfg(port)");
    let library = folder.join("libexports.a");
    println!("cargo:rerun-if-changed={}", library.display());
    if library.is_file() {
        println!("cargo:rustc-cfg=port");
        println!("cargo:rustc-link-search=native={}", folder.display());
        println!("cargo:rustc-link-lib=static=exports");
    }
}
