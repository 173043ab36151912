//! The text of a sheet: a line for each measure, from either computation, or
//! one line for a refused file.

use crate::{
    drawing::Drawing,
    file, pairs,
    reference::{self, Fault, Fed},
    report::{Answer, Figure, MEASURES},
};

/// The sheet that the program must print for a file, where `of_drawing` is one
/// of the two functions below.
pub fn of_file(
    bytes: &[u8],
    of_drawing: fn(&Drawing) -> Result<String, Fault>,
) -> Result<String, Fault> {
    match file::read(bytes) {
        Ok(drawing) => of_drawing(&drawing),
        Err(refusal) => Ok(format!("file refused {}\n", refusal.number())),
    }
}

/// The sheet as the reference gives it.
pub fn by_reference(drawing: &Drawing) -> Result<String, Fault> {
    let mut sheet = String::new();
    for measure in MEASURES {
        let answer = reference::answer(measure, drawing)?;
        sheet.push_str(&line(measure.name(), &answer));
    }
    Ok(sheet)
}

/// The sheet over all pairs, with the reference's count where the visits are
/// those of its walk.
pub fn by_pairs(drawing: &Drawing) -> Result<String, Fault> {
    let fed = Fed::in_list_order(drawing);
    let mut sheet = String::new();
    for measure in MEASURES {
        let walked = reference::answer_without_limit(measure, drawing, &fed)?;
        let answer = pairs::answer(measure, drawing, &walked);
        sheet.push_str(&line(measure.name(), &answer));
    }
    Ok(sheet)
}

fn line(name: &str, answer: &Answer) -> String {
    match answer {
        Ok(report) => format!("{name} {} {}\n", fields(&report.figures), report.visits),
        Err(refusal) => format!("{name} refused {}\n", refusal.number()),
    }
}

/// Figures as a sheet has them, separated by one space.
pub fn fields(figures: &[Figure]) -> String {
    let fields: Vec<String> = figures.iter().map(field).collect();
    fields.join(" ")
}

fn field(figure: &Figure) -> String {
    match *figure {
        Figure::Gap(None) => "none".to_string(),
        Figure::Gap(Some(value)) | Figure::Length(value) => format!("{:016x}", value.to_bits()),
        Figure::Count(count) => count.to_string(),
    }
}
