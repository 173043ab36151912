//! Links the port's library, and finds the original readability.rs for the
//! tests.
//!
//! READABILITY_LIB names the folder that holds libexports.a; without it that
//! folder is target/staticlib, where tools/build-port makes it. A library whose
//! major or minor number is not the package's is refused: its functions may take
//! other arguments, and no linker would notice. READABILITY_RS
//! names the original; without it the original is looked for beside the project.
//! Relative paths count from the project's root.

use std::{
    collections::BTreeSet,
    env, fs,
    path::{Path, PathBuf},
    process::ExitCode,
};

/// How the name of the function begins that has the library's version in its
/// name.
const VERSION: &str = "readability_version_";

const LIBRARY_FOLDER: &str = "target/staticlib";
const ORIGINAL: &str = "../shared/docs/src/crates/schemweave/src/readability.rs";

fn main() -> ExitCode {
    let package = env::var("CARGO_MANIFEST_DIR").expect("cargo names the package's folder");
    let root = Path::new(&package).join("../..");
    find_original(&root);
    link_library(&place(&root, "READABILITY_LIB", LIBRARY_FOLDER))
}

/// What the variable names, or else the usual place.
fn place(root: &Path, variable: &str, usual: &str) -> PathBuf {
    println!("cargo:rerun-if-env-changed={variable}");
    root.join(env::var(variable).unwrap_or_else(|_| usual.to_string()))
}

fn link_library(folder: &Path) -> ExitCode {
    let library = folder.join("libexports.a");
    println!("cargo:rerun-if-changed={}", library.display());
    let Ok(archive) = fs::read(&library) else {
        eprintln!("{} is not there or cannot be read", library.display());
        eprintln!("make it by tools/build-port, or set READABILITY_LIB to its folder");
        return ExitCode::FAILURE;
    };
    let needed = format!("{VERSION}{}_{}", number("MAJOR"), number("MINOR"));
    let found = version_names(&archive);
    if !found.contains(&needed) {
        let found = Vec::from_iter(found).join(", ");
        let found = if found.is_empty() { "none" } else { &found };
        eprintln!("{}: the library is of another version", library.display());
        eprintln!("this package needs {needed}, and the library has {found}");
        eprintln!("make it by tools/build-port from the package's own commit");
        return ExitCode::FAILURE;
    }
    println!("cargo:rustc-env=READABILITY_ARCHIVE={}", library.display());
    println!("cargo:rustc-link-search=native={}", folder.display());
    println!("cargo:rustc-link-lib=static=exports");
    ExitCode::SUCCESS
}

/// A number of the package's version.
fn number(which: &str) -> String {
    env::var(format!("CARGO_PKG_VERSION_{which}")).expect("cargo names the package's version")
}

/// The names of functions in the archive that have a version in them.
fn version_names(archive: &[u8]) -> BTreeSet<String> {
    let of_name = |byte: &u8| byte.is_ascii_alphanumeric() || *byte == b'_';
    archive
        .windows(VERSION.len())
        .enumerate()
        .filter(|(place, bytes)| {
            let within = *place > 0 && of_name(&archive[*place - 1]);
            *bytes == VERSION.as_bytes() && !within
        })
        .map(|(place, _)| {
            let name = archive[place..].iter().copied();
            name.take_while(of_name).map(char::from).collect()
        })
        .collect()
}

/// Only the tests of the swap use the original; without it they are left out.
fn find_original(root: &Path) {
    println!("cargo:rustc-check-cfg=cfg(original)");
    let original = place(root, "READABILITY_RS", ORIGINAL);
    // Cargo would build anew each time if it had a missing file to watch.
    if let Ok(original) = original.canonicalize() {
        println!("cargo:rerun-if-changed={}", original.display());
        println!("cargo:rustc-cfg=original");
        println!("cargo:rustc-env=READABILITY_PATH={}", original.display());
    }
}
