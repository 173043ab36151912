//! The version: header, package, library and changelog have the same, and the
//! package is not built with a library of another.

use std::{
    fs,
    path::{Path, PathBuf},
    process::Command,
};

use readability::library_version;

const VERSION: &str = env!("CARGO_PKG_VERSION");
const HEADER: &str = include_str!("../../../../include/readability.h");
const CHANGELOG: &str = include_str!("../../../../CHANGELOG.md");

/// What the function with the version in its name is called.
fn symbol() -> String {
    let numbers: Vec<&str> = VERSION.split('.').collect();
    format!("readability_version_{}_{}", numbers[0], numbers[1])
}

#[test]
fn the_library_has_the_packages_version() {
    let (major, minor, patch) = library_version();
    assert_eq!(format!("{major}.{minor}.{patch}"), VERSION);
}

#[test]
fn the_header_has_the_packages_version() {
    let numbers = ["MAJOR", "MINOR", "PATCH"].map(|name| {
        let define = format!("#define READABILITY_VERSION_{name} ");
        let line = HEADER.lines().find_map(|line| line.strip_prefix(&define));
        line.unwrap_or_else(|| panic!("no {name} in the header"))
    });
    assert_eq!(numbers.join("."), VERSION);
    let named: Vec<&str> = HEADER
        .split("readability_version_")
        .skip(1)
        .filter(|rest| rest.starts_with(|first: char| first.is_ascii_digit()))
        .collect();
    assert!(!named.is_empty());
    let numbers = symbol().replace("readability_version_", "");
    for rest in named {
        let end = rest.find(|c: char| !c.is_ascii_digit() && c != '_');
        assert_eq!(&rest[..end.unwrap_or(rest.len())], numbers);
    }
}

/// The minor number, and the declarations of the header that has it.
const DECLARED: (&str, u64) = ("0.3", 0x962c_4bd1_4a14_65a1);

/// A checksum (FNV-1a) of what a C compiler sees of the header: its text without
/// comments and white space.
fn declarations() -> u64 {
    let mut parts = HEADER.split("/*");
    let first = parts.next().into_iter();
    let after_comments = parts.filter_map(|part| part.split_once("*/").map(|(_, code)| code));
    let code = first.chain(after_comments).flat_map(str::bytes);
    code.filter(|byte| !byte.is_ascii_whitespace())
        .fold(0xcbf2_9ce4_8422_2325, |sum, byte| {
            (sum ^ u64::from(byte)).wrapping_mul(0x0000_0100_0000_01b3)
        })
}

#[test]
fn the_declarations_are_those_of_the_minor_number() {
    let minor = VERSION.rsplit_once('.').map_or("", |(minor, _)| minor);
    let declared = (minor, declarations());
    assert_eq!(
        declared, DECLARED,
        "the header's declarations changed: raise the minor number where a caller has to change \
         something, and store {:#x} beside it",
        declared.1
    );
}

#[test]
fn the_changelogs_newest_entry_is_the_packages_version() {
    let newest = CHANGELOG.lines().find_map(|line| line.strip_prefix("## "));
    assert_eq!(newest, Some(VERSION));
}

/// A folder with a copy of the library in which each `from` is `to`, of the same
/// length.
fn changed_library(from: &str, to: &str) -> PathBuf {
    let mut archive = fs::read(env!("READABILITY_ARCHIVE")).expect("the library is read");
    for place in 0..archive.len() {
        if archive[place..].starts_with(from.as_bytes()) {
            archive[place..place + from.len()].copy_from_slice(to.as_bytes());
        }
    }
    let folder = Path::new(env!("CARGO_TARGET_TMPDIR")).join(to);
    fs::create_dir_all(&folder).expect("the folder is made");
    fs::write(folder.join("libexports.a"), archive).expect("the library is written");
    folder
}

/// What the build of the package says of a library; `None` where it succeeds.
fn refusal(library: &Path) -> Option<String> {
    let build = Command::new(env!("CARGO"))
        .current_dir(env!("CARGO_MANIFEST_DIR"))
        .args(["check", "--offline", "--quiet", "--target-dir"])
        .arg(Path::new(env!("CARGO_TARGET_TMPDIR")).join("checked"))
        .env("READABILITY_LIB", library)
        .output()
        .expect("cargo runs");
    let said = String::from_utf8_lossy(&build.stderr).into_owned();
    (!build.status.success()).then_some(said)
}

#[test]
fn a_library_of_another_version_is_refused() {
    let symbol = symbol();
    assert_eq!(refusal(&changed_library(&symbol, &symbol)), None);
    let numbers = symbol.replace("readability_version_", "");
    let other = symbol.replace(&numbers, &"9".repeat(numbers.len()));
    let none = symbol.replace("_version_", "_nothing_");
    for (to, found) in [(&other, other.as_str()), (&none, "none")] {
        let said = refusal(&changed_library(&symbol, to)).expect("the build fails");
        let needed = format!("needs {symbol}, and the library has {found}\n");
        assert!(said.contains("the library is of another version"), "{said}");
        assert!(said.contains(&needed), "{said}");
    }
}
