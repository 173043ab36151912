//! The drawing files of the folder `drawings`: D, D with its wires given from the
//! greater end to the lesser one, and the marked cases.

use crate::{drawing::drawing_d, file, marked, reversed::d_reversed};

/// Each file's name and bytes.
pub fn files() -> Vec<(String, Vec<u8>)> {
    let mut files = vec![
        ("D.drawing".to_string(), file::write(&drawing_d())),
        ("D-reversed.drawing".to_string(), file::write(&d_reversed())),
    ];
    for case in marked::cases() {
        let name = format!("case-{}.drawing", case.name.replace(", ", "-"));
        files.push((name, file::write(&case.drawing)));
    }
    files
}
