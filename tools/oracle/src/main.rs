//! The oracle: runs the reference beside an independent all-pairs computation
//! and gives the sheets that a port must print. Where the port's library is
//! linked, the port's own answers are held against them, and its joined lists
//! against those of a joiner written here.

#[cfg(port)]
mod against_port;
#[cfg(port)]
mod bench;
#[cfg(all(port, test))]
mod c_tests;
mod check;
#[cfg(port)]
#[path = "../../../bindings/rust/src/declarations.rs"]
mod declarations;
mod drawing;
mod drawings;
mod examine;
mod file;
mod generate;
mod join;
mod join_lists;
#[cfg(test)]
mod join_tests;
mod joined_points;
mod joiner;
#[cfg(port)]
mod kinds;
mod listing;
mod maker;
mod marked;
mod pairs;
#[cfg(port)]
mod plain_joiner;
#[cfg(port)]
mod plain_tight_pair;
#[cfg(port)]
mod port;
#[cfg(port)]
mod port_sheet;
mod random;
mod reference;
mod refusals;
mod report;
mod reversed;
mod sample;
mod segment_columns;
mod shapes;
mod sheet;
mod shrink;
#[cfg(test)]
mod tests;
#[cfg(port)]
mod tight_pair;
mod values;

use std::{
    env, fs,
    io::{self, Read, Write},
    path::Path,
    process::ExitCode,
};

use drawing::Drawing;

/// What the reference expects to find at its crate's root.
pub type NetId = u32;
pub type NodeId = u32;

#[derive(Clone, Debug, PartialEq)]
pub struct NodeGeometry {
    pub id: NodeId,
    pub x: f64,
    pub y: f64,
    pub width: f64,
    pub height: f64,
}

/// The reference, taken from where it lies and never copied. It has calls that
/// nobody here makes.
#[allow(dead_code)]
mod readability {
    include!(env!("READABILITY_PATH"));
}

const USAGE: &str = "\
usage: oracle COMMAND
  sheet              the Rust's sheet of the drawing file on standard input
  pairs              the all-pairs sheet of that file; the visits of clearance
                     and separation are the Rust's, since they belong to its walk
  check N SEED       compare N drawings, D first, and 100,000 lists that are made
                     for joining; ends with 'N agree, M differ'
  shrink             the smallest part of the drawing on standard input that
                     still differs, if it does
  drawing-d          the file of drawing D
  drawings DIR       the files of D, of D reversed and of the marked cases,
                     written to DIR
  sample SEED COUNT  a sample of COUNT files with the Rust's sheets
  bench RUNS [ALLOWANCE]
                     the times of the Rust and of the port, best of RUNS; with an
                     ALLOWANCE, of calls that have that many visits";

fn main() -> ExitCode {
    let words: Vec<String> = env::args().skip(1).collect();
    let words: Vec<&str> = words.iter().map(String::as_str).collect();
    match run(&words) {
        Ok(code) => code,
        Err(message) => {
            eprintln!("oracle: {message}");
            ExitCode::from(2)
        }
    }
}

fn run(words: &[&str]) -> Result<ExitCode, String> {
    match words {
        ["sheet"] => output(sheet_of_input(sheet::by_reference)?.as_bytes()),
        ["pairs"] => output(sheet_of_input(sheet::by_pairs)?.as_bytes()),
        ["check", count, seed] => {
            let count = number(count)?;
            if count == 0 {
                return Err("nothing is compared: N is 1 or more".to_string());
            }
            let differ = check::check(count, number(seed)?);
            Ok(if differ == 0 {
                ExitCode::SUCCESS
            } else {
                ExitCode::FAILURE
            })
        }
        ["shrink"] => shrink_input(),
        ["drawing-d"] => output(&file::write(&drawing::drawing_d())),
        ["drawings", folder] => write_drawings(Path::new(folder)),
        ["sample", seed, count] => {
            let count = usize::try_from(number(count)?).map_err(|error| error.to_string())?;
            let sample = sample::sample(number(seed)?, count).map_err(|fault| fault.to_string())?;
            output(&sample)
        }
        ["bench", runs] => bench_runs(number(runs)?, None),
        ["bench", runs, allowance] => bench_runs(number(runs)?, Some(number(allowance)?)),
        _ => Err(USAGE.to_string()),
    }
}

fn sheet_of_input(
    of_drawing: fn(&Drawing) -> Result<String, reference::Fault>,
) -> Result<String, String> {
    sheet::of_file(&input()?, of_drawing).map_err(|fault| fault.to_string())
}

fn write_drawings(folder: &Path) -> Result<ExitCode, String> {
    for (name, bytes) in drawings::files() {
        let place = folder.join(name);
        fs::write(&place, bytes).map_err(|error| format!("{}: {error}", place.display()))?;
    }
    Ok(ExitCode::SUCCESS)
}

fn shrink_input() -> Result<ExitCode, String> {
    let drawing = file::read(&input()?)
        .map_err(|refusal| format!("the file is refused with {}", refusal.number()))?;
    match examine::smallest_difference(&drawing) {
        Some(text) => {
            output(format!("{text}\n").as_bytes())?;
            Ok(ExitCode::FAILURE)
        }
        None => output(b"no difference\n"),
    }
}

#[cfg(port)]
fn bench_runs(runs: u64, allowance: Option<u64>) -> Result<ExitCode, String> {
    bench::bench(runs, allowance)?;
    Ok(ExitCode::SUCCESS)
}

#[cfg(not(port))]
fn bench_runs(_runs: u64, _allowance: Option<u64>) -> Result<ExitCode, String> {
    Err("the port is not linked: run `tools/build-port` and build again".to_string())
}

fn number(word: &str) -> Result<u64, String> {
    word.parse()
        .map_err(|error| format!("'{word}' is no number: {error}"))
}

fn input() -> Result<Vec<u8>, String> {
    let mut bytes = Vec::new();
    io::stdin()
        .read_to_end(&mut bytes)
        .map_err(|error| format!("standard input: {error}"))?;
    Ok(bytes)
}

fn output(bytes: &[u8]) -> Result<ExitCode, String> {
    io::stdout()
        .write_all(bytes)
        .map_err(|error| format!("standard output: {error}"))?;
    Ok(ExitCode::SUCCESS)
}
