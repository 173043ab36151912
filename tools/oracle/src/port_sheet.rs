//! The port's sheet of a file, by its export and through the program `sheet`,
//! against the reference's sheet of the same bytes. The reference's comes by
//! the oracle's own reader of the file.

use std::{
    io::{ErrorKind, Write},
    process::{Command, Stdio},
};

use crate::{
    declarations::SHEET_BYTES,
    drawing::{drawing_d, Drawing},
    file,
    listing::hexadecimal,
    port::run_sheet,
    random::Random,
    refusals::PROGRAM_LIMITS,
    sample::with_count,
    sheet,
};

/// The program, where tools/build-port puts it.
const PROGRAM: &str = env!("SHEET_PROGRAM");

/// What the lent buffer holds before a call: no byte of any sheet, so that
/// a byte which is written shows.
const UNWRITTEN: u8 = 0xee;

/// How many differences of D's files are printed, of up to 40,000.
const MOST_PRINTED: usize = 10;

/// Which ways a file goes.
#[derive(Clone, Copy, Debug, PartialEq, Eq)]
enum Way {
    InProcess,
    Both,
}

/// How many files a run has compared.
#[derive(Default)]
pub struct Sheets {
    in_process: u64,
    through_the_program: u64,
}

impl Sheets {
    /// D's file, each of its beginnings, and each file that differs from it in
    /// one byte. The program gets the beginnings and one change of each byte.
    pub fn compare_d(&mut self, random: &mut Random) -> Vec<String> {
        let whole = file::write(&drawing_d());
        let mut found = Vec::new();
        for length in 0..=whole.len() {
            found.extend(self.compare(&whole[..length], Way::Both));
        }
        for place in 0..whole.len() {
            let by_program = 1 + random.below(255) as u8;
            for change in 1..=255 {
                let mut changed = whole.clone();
                changed[place] ^= change;
                let way = if change == by_program {
                    Way::Both
                } else {
                    Way::InProcess
                };
                found.extend(self.compare(&changed, way));
            }
        }
        found.truncate(MOST_PRINTED);
        found
    }

    /// What another thread has compared besides.
    pub fn join(&mut self, other: &Self) {
        self.in_process += other.in_process;
        self.through_the_program += other.through_the_program;
    }

    /// The drawing's file and a damaged one; the program gets one of the two. In
    /// process the file's sheet is also that of the drawing with its segments as they
    /// are taken, and of the one with every segment reversed (SCOPE 2.8).
    pub fn compare_drawing(&mut self, drawing: &Drawing, random: &mut Random) -> Vec<String> {
        let whole = file::write(drawing);
        let damaged = damaged(drawing, &whole, random);
        let [way_of_whole, way_of_damaged] = if random.once_in(2) {
            [Way::Both, Way::InProcess]
        } else {
            [Way::InProcess, Way::Both]
        };
        let mut found = Vec::new();
        match expected_sheet(&whole) {
            Ok(expected) => {
                found.extend(self.compare_with(&expected, &whole, way_of_whole));
                for other in [drawing.rising(), drawing.reversed()] {
                    let file = file::write(&other);
                    found.extend(self.compare_with(&expected, &file, Way::InProcess));
                }
            }
            Err(fault) => found.push(fault),
        }
        found.extend(self.compare(&damaged, way_of_damaged));
        found
    }

    pub fn summary(&self) -> String {
        format!(
            "{} files in process, {} through the program",
            self.in_process, self.through_the_program
        )
    }

    fn compare(&mut self, file: &[u8], way: Way) -> Vec<String> {
        match expected_sheet(file) {
            Ok(expected) => self.compare_with(&expected, file, way),
            Err(fault) => vec![fault],
        }
    }

    fn compare_with(&mut self, expected: &str, file: &[u8], way: Way) -> Vec<String> {
        let mut found = Vec::new();
        self.in_process += 1;
        found.extend(difference_in_process(file, expected));
        if way == Way::Both {
            self.through_the_program += 1;
            found.extend(difference_through_the_program(file, expected));
        }
        found
    }
}

/// The reference's sheet of a file, or its fault in words.
fn expected_sheet(file: &[u8]) -> Result<String, String> {
    sheet::of_file(file, sheet::by_reference)
        .map_err(|fault| format!("{fault}, for the file {}", hexadecimal(file)))
}

/// The export gives the expected text at the front of the buffer and leaves
/// the rest of it alone, and the file.
pub fn difference_in_process(file: &[u8], expected: &str) -> Option<String> {
    let mut text = [UNWRITTEN; SHEET_BYTES];
    let lent = file.to_vec();
    let length = run_sheet(&lent, &mut text);
    if lent != file {
        let file = hexadecimal(file);
        return Some(format!(
            "the port's sheet, file {file}: the file is written"
        ));
    }
    let written = text.get(..length).unwrap_or(&text);
    if length != written.len() || written != expected.as_bytes() {
        return Some(difference("the port's sheet", file, written, expected));
    }
    if text[length..].iter().any(|byte| *byte != UNWRITTEN) {
        let file = hexadecimal(file);
        return Some(format!(
            "the port's sheet, file {file}: bytes behind the text are written"
        ));
    }
    None
}

pub fn difference_through_the_program(file: &[u8], expected: &str) -> Option<String> {
    match written_by_program(file) {
        Ok(written) if written == expected.as_bytes() => None,
        Ok(written) => Some(difference(
            "the port's sheet by the program",
            file,
            &written,
            expected,
        )),
        Err(error) => Some(format!(
            "the port's sheet by the program, {PROGRAM}: {error}"
        )),
    }
}

fn difference(what: &str, file: &[u8], written: &[u8], expected: &str) -> String {
    let file = hexadecimal(file);
    let written = String::from_utf8_lossy(written);
    format!("{what}, file {file}: {written:?}, where {expected:?} is expected")
}

/// What the program writes for a file on its standard input. It need not read
/// the whole of a long one, and its status is 0 whatever it writes.
fn written_by_program(file: &[u8]) -> Result<Vec<u8>, String> {
    let mut program = Command::new(PROGRAM)
        .stdin(Stdio::piped())
        .stdout(Stdio::piped())
        .spawn()
        .map_err(|error| error.to_string())?;
    if let Some(mut input) = program.stdin.take() {
        match input.write_all(file) {
            Err(error) if error.kind() != ErrorKind::BrokenPipe => return Err(error.to_string()),
            _ => {}
        }
    }
    let output = program
        .wait_with_output()
        .map_err(|error| error.to_string())?;
    if output.status.success() {
        Ok(output.stdout)
    } else {
        Err(output.status.to_string())
    }
}

/// The drawing's file cut short, with a byte changed, with bytes after it, or
/// with another count in front of one of its lists.
fn damaged(drawing: &Drawing, whole: &[u8], random: &mut Random) -> Vec<u8> {
    let mut file = whole.to_vec();
    match random.below(4) {
        0 => file.truncate(random.below(whole.len())),
        1 => file[random.below(whole.len())] ^= 1 + random.below(255) as u8,
        2 => {
            for _ in 0..=random.below(300) {
                file.push(random.word() as u8);
            }
        }
        _ => file = with_other_count(drawing, whole, random),
    }
    file
}

/// The file with another count of one list: one more or less, a count around
/// the program's limit, or any.
fn with_other_count(drawing: &Drawing, whole: &[u8], random: &mut Random) -> Vec<u8> {
    let segments = 1;
    let nodes = segments + 4 + 29 * drawing.segments.len();
    let exemptions = nodes + 4 + 36 * drawing.nodes.len();
    let (place, count, limit) = random.pick(&[
        (segments, drawing.segments.len(), PROGRAM_LIMITS.segments),
        (nodes, drawing.nodes.len(), PROGRAM_LIMITS.nodes),
        (
            exemptions,
            drawing.exemptions.len(),
            PROGRAM_LIMITS.exemptions,
        ),
    ]);
    let (count, limit) = (count as u32, limit as u32);
    let any = random.word() as u32;
    let choices = [
        count.wrapping_add(1),
        count.wrapping_sub(1),
        limit,
        limit + 1,
        u32::MAX,
        any,
    ];
    with_count(whole, place, random.pick(&choices))
}
