//! Tests of what C programs are given: the examples, built with the header and
//! the library, print what they say; the header declares each function as the
//! Rust declarations do, by which the port is compared; and a program built with
//! the header of another version does not link.

use std::{
    fs,
    path::{Path, PathBuf},
    process::{Command, Output},
};

use crate::drawing::SHEET_OF_D;

const HEADER: &str = include_str!("../../../include/readability.h");
const DECLARATIONS: &str = concat!(
    include_str!("../../../bindings/rust/src/declarations.rs"),
    include_str!("port.rs")
);

const OTHER_VERSION: &str = "readability_version_of_another_header";
const WARNINGS: [&str; 6] = [
    "-pedantic",
    "-Wall",
    "-Wextra",
    "-Wconversion",
    "-Wsign-conversion",
    "-Werror",
];

/// Where the tests write.
fn written(name: &str) -> PathBuf {
    Path::new(env!("OUT_DIR")).join(name)
}

/// Compiles C or C++ files, named from the project's root, with the header of a
/// folder, and links the library. A standard among the flags counts before the
/// first one.
fn build(sources: &[PathBuf], flags: &[&str], header: &Path, program: &Path) -> Output {
    let (compiler, first_standard) = match sources[0].extension().and_then(|end| end.to_str()) {
        Some("cc") => ("c++", "-std=c++11"),
        _ => ("cc", "-std=c99"),
    };
    Command::new(compiler)
        .current_dir(Path::new(env!("CARGO_MANIFEST_DIR")).join("../.."))
        .arg(first_standard)
        .args(WARNINGS)
        .args(flags)
        .arg("-I")
        .arg(header)
        .args(sources)
        .arg("target/staticlib/libexports.a")
        .arg("-o")
        .arg(program)
        .output()
        .expect("the compiler is there")
}

/// What the compiler and the linker said.
fn said(built: &Output) -> String {
    String::from_utf8_lossy(&built.stderr).into_owned()
}

/// The program of a file.
fn program(source: &Path) -> PathBuf {
    let name = source.file_name().expect("the source is a file");
    let program = written("programs").join(name);
    fs::create_dir_all(written("programs")).expect("the folder is made");
    let built = build(&[source.to_path_buf()], &[], Path::new("include"), &program);
    assert!(built.status.success(), "{}", said(&built));
    program
}

fn printed(example: &str) -> String {
    let program = program(&Path::new("examples/c").join(example));
    let run = Command::new(program).output().expect("the example runs");
    assert!(run.status.success(), "{example} fails");
    String::from_utf8(run.stdout).expect("the example prints text")
}

#[test]
fn the_examples_print_what_they_say() {
    assert_eq!(printed("drawing_d.c"), SHEET_OF_D);
    assert_eq!(printed("records.c"), "least separation 4\n");
    assert_eq!(
        printed("join.c"),
        "net 1: y = 0, x = 0 to 9\nnet 2: y = 4, x = 5 to 15\n1 gone\n"
    );
}

/// The type as the header writes it. In C, arrays of different lengths are one
/// type where they are parameters.
fn type_in_c(rust: &str) -> &'static str {
    match rust {
        "u32" => "uint32_t",
        "usize" => "size_t",
        "f64" => "double",
        "*const u8" => "const uint8_t *",
        "*const u32" => "const uint32_t *",
        "*const f64" => "const double *",
        "*const Record" => "const struct readability_segment *",
        "*mut u8" | "*mut [u8; SHEET_BYTES]" => "uint8_t *",
        "*mut u32" => "uint32_t *",
        "*mut f64" => "double *",
        "*mut u64" | "*mut [u64; 2]" | "*mut [u64; 3]" | "*mut [u64; 4]" | "*mut [u64; 5]"
        | "*mut [u64; 7]" => "uint64_t *",
        _ => panic!("no type in C for {rust}"),
    }
}

/// A pointer in C that takes no function but one of the declared type, and is
/// given the one of that name.
fn pointer_in_c(declaration: &str) -> String {
    let (name, rest) = declaration.split_once('(').expect("a name");
    let (parameters, result) = rest.split_once(") -> ").expect("a result");
    let types: Vec<&str> = parameters
        .split(',')
        .filter_map(|parameter| parameter.split_once(": "))
        .map(|(_, rust)| type_in_c(rust.trim()))
        .collect();
    let result = type_in_c(result);
    let types = if types.is_empty() {
        "void".to_string()
    } else {
        types.join(", ")
    };
    format!("{result} (*of_{name})({types}) = readability_{name};\n")
}

#[test]
fn the_header_declares_what_the_rust_does() {
    let pointers: Vec<String> = DECLARATIONS
        .split(" fn readability_")
        .skip(1)
        .map(|rest| pointer_in_c(rest.split(";\n").next().expect("a declaration")))
        .collect();
    let in_header = HEADER
        .lines()
        .filter(|line| {
            ["uint32_t", "size_t", "double"]
                .iter()
                .any(|result| line.starts_with(&format!("{result} readability_")))
        })
        .count();
    assert_eq!(pointers.len(), in_header);
    let text = format!(
        "#include \"readability.h\"\n{}int main(void) {{ return 0; }}\n",
        pointers.concat()
    );
    for name in ["header.c", "header.cc"] {
        let source = written(name);
        fs::write(&source, &text).expect("the source is written");
        program(&source);
    }
}

/// A folder with a header in which only the name of the version's function is
/// another.
fn header_of_another_version() -> PathBuf {
    let (_, rest) = HEADER
        .split_once("uint32_t readability_version_")
        .expect("a version");
    let (numbers, _) = rest.split_once('(').expect("a function");
    let other = HEADER.replace(&format!("readability_version_{numbers}"), OTHER_VERSION);
    let folder = written("another_version");
    fs::create_dir_all(&folder).expect("the folder is made");
    fs::write(folder.join("readability.h"), other).expect("the header is written");
    folder
}

/// Two files that include the header and call one function, but not the
/// version's.
fn two_files(ending: &str) -> [PathBuf; 2] {
    let texts = [
        "#include \"readability.h\"\ndouble half(void);\n\
         int main(void) { return half() == 0.5 ? 0 : 1; }\n",
        "#include \"readability.h\"\ndouble half(void);\n\
         double half(void) { return readability_ratio(2, 1); }\n",
    ];
    [0, 1].map(|number| {
        let source = written(&format!("file_{number}.{ending}"));
        fs::write(&source, texts[number]).expect("the source is written");
        source
    })
}

#[test]
fn a_program_links_only_with_its_headers_version() {
    let sections = [
        "-O3",
        "-ffunction-sections",
        "-fdata-sections",
        "-Wl,--gc-sections",
    ];
    let flags: [(&str, &[&str]); 6] = [
        ("c", &["-O0"]),
        ("c", &["-O3", "-std=c11"]),
        ("c", &sections),
        ("cc", &["-O0"]),
        ("cc", &["-O3", "-std=c++20"]),
        ("cc", &sections),
    ];
    let other = header_of_another_version();
    for (ending, flags) in flags {
        let sources = two_files(ending);
        let program = written(&format!("linked_{ending}"));
        let right = build(&sources, flags, Path::new("include"), &program);
        assert!(right.status.success(), "{}", said(&right));
        let run = Command::new(&program).status().expect("the program runs");
        assert!(run.success(), "{flags:?}");
        let wrong = build(&sources, flags, &other, &program);
        assert!(!wrong.status.success(), "{flags:?} link another version");
        let said = said(&wrong);
        assert!(said.contains(OTHER_VERSION), "{said}");
    }
}
