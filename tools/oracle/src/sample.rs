//! The stored sample: drawing files, each with the sheet that the reference
//! gives for it, for programs that cannot run the reference.

use crate::{
    drawing::drawing_d,
    examine::Examined,
    file,
    generate::{self, Kind, KINDS, MIDDLE, SMALL, SMALL_KINDS},
    marked,
    random::Random,
    reference::Fault,
    refusals::Limits,
    reversed, sheet,
};

/// `count` records: D, the marked cases, damaged files, lists at the program's
/// limits and over them, reversed segments, then every other kind in turn.
pub fn sample(seed: u64, count: usize) -> Result<Vec<u8>, Fault> {
    let mut files = vec![file::write(&drawing_d())];
    files.extend(
        marked::cases()
            .iter()
            .map(|case| file::write(&case.drawing)),
    );
    files.extend(damaged_files());
    for kind in [Kind::AtLimits, Kind::OverLimits].repeat(4) {
        files.push(generated_file(kind, &SMALL, seed, files.len()));
    }
    files.extend(
        reversed::cases()
            .iter()
            .map(|case| file::write(&case.drawing)),
    );
    while files.len() < count {
        let place = files.len();
        let (kind, _, _) = KINDS[place % SMALL_KINDS];
        let most = if place % 13 == 0 { &MIDDLE } else { &SMALL };
        files.push(generated_file(kind, most, seed, place));
    }
    let mut records = Vec::new();
    for file in files.iter().take(count) {
        write_part(&mut records, file);
        write_part(
            &mut records,
            sheet::of_file(file, sheet::by_reference)?.as_bytes(),
        );
    }
    Ok(records)
}

/// A length of 32 bits, big-endian, and that many bytes.
fn write_part(records: &mut Vec<u8>, part: &[u8]) {
    let length = u32::try_from(part.len()).expect("a file or a sheet is short");
    records.extend(length.to_be_bytes());
    records.extend(part);
}

fn generated_file(kind: Kind, most: &Limits, seed: u64, place: usize) -> Vec<u8> {
    let mut random = Random::for_drawing(seed, place as u64);
    let mut examined = Examined::new(generate::drawing(kind, most, &mut random));
    examined.aim(generate::aims(&mut random));
    file::write(&examined.drawing)
}

/// Where the parts of D's file begin.
const FIRST_SEGMENT: usize = 1 + 4;
const ORIENTATION: usize = FIRST_SEGMENT + 4;
const NODES: usize = FIRST_SEGMENT + 2 * 29;
const EXEMPTIONS: usize = NODES + 4 + 36;
const SETTINGS: usize = EXEMPTIONS + 4 + 8;

/// D's file with each fault that the reader can meet.
fn damaged_files() -> Vec<Vec<u8>> {
    let whole = file::write(&drawing_d());
    let mut files = Vec::new();
    for version in [0, 2, 3, 255] {
        files.push(with_byte(&whole, 0, version));
    }
    for orientation in [2, 255] {
        files.push(with_byte(&whole, ORIENTATION, orientation));
        files.push(with_byte(&whole, ORIENTATION + 29, orientation));
    }
    let cuts = [
        0,
        1,
        4,
        FIRST_SEGMENT,
        ORIENTATION,
        NODES - 1,
        NODES,
        NODES + 3,
        EXEMPTIONS - 5,
        EXEMPTIONS + 2,
        SETTINGS - 1,
        SETTINGS,
        whole.len() - 1,
    ];
    for length in cuts {
        files.push(whole[..length].to_vec());
    }
    for left_over in [1, 300] {
        let mut longer = whole.clone();
        longer.resize(whole.len() + left_over, 0);
        files.push(longer);
    }
    files.extend(files_with_long_counts(&whole));
    files
}

/// Counts above the limits, which are refused before anything after them is
/// read, and after everything before them.
fn files_with_long_counts(whole: &[u8]) -> Vec<Vec<u8>> {
    let mut files = Vec::new();
    for (place, count) in [(1, 121), (NODES, 121), (EXEMPTIONS, 241)] {
        files.push(with_count(whole, place, count));
        files.push(with_count(whole, place, u32::MAX));
        files.push(with_count(whole, place, count)[..place + 4].to_vec());
    }
    // The first fault counts: an orientation before a count, a version before
    // everything, a count before an orientation.
    let long_nodes = with_count(whole, NODES, 121);
    let long_segments = with_count(whole, 1, 121);
    files.push(with_byte(&long_nodes, ORIENTATION, 2));
    files.push(with_byte(&long_segments, 0, 0));
    files.push(with_byte(&long_segments, ORIENTATION, 2));
    files
}

fn with_byte(file: &[u8], place: usize, byte: u8) -> Vec<u8> {
    let mut changed = file.to_vec();
    changed[place] = byte;
    changed
}

/// The file with another count at a place.
pub fn with_count(file: &[u8], place: usize, count: u32) -> Vec<u8> {
    let mut changed = file.to_vec();
    changed[place..place + 4].copy_from_slice(&count.to_be_bytes());
    changed
}
