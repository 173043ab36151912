//! The port's tight pair against a search over all pairs. Which of several
//! pairs at the least distance it answers is left to it.

use crate::{
    against_port::{change_length, spoil_orientation, ALL_COLUMNS},
    drawing::Drawing,
    pairs,
    port::{run_tight_pair, Columns, Returned},
    refusals::{before_tight_pair, Refusal},
    report::{Figure, Measure},
};

/// Returns what differs. `reordered` holds the same entries in another order.
pub fn differences(drawing: &Drawing, reordered: &Drawing) -> Vec<String> {
    let mut found = Vec::new();
    let columns = Columns::of(drawing);
    match before_tight_pair(drawing, &columns.lent(0)) {
        Some(refusal) => compare_refusal("lists as given", &columns, refusal, &mut found),
        None => {
            let least = least_clearance(drawing);
            compare("lists as given", drawing, least, &mut found);
            compare("lists in another order", reordered, least, &mut found);
        }
    }
    compare_directions(drawing, &columns, &mut found);
    compare_refusals(drawing, &columns, &mut found);
    found
}

/// The very same pair, or the same refusal, with the segments as they are taken
/// and with every segment reversed (SCOPE 2.8).
fn compare_directions(drawing: &Drawing, columns: &Columns, found: &mut Vec<String>) {
    let expected = run_tight_pair(columns);
    for (about, lists) in [
        ("every segment rising", drawing.rising()),
        ("every segment reversed", drawing.reversed()),
    ] {
        let returned = run_tight_pair(&Columns::of(&lists));
        if returned != expected {
            found.push(format!(
                "the port's tight pair, {about}: {returned:?}, where as given it is {expected:?}"
            ));
        }
    }
    if !columns.are_those_of(drawing) {
        found.push("the port's tight pair: the columns are not as they were lent".to_string());
    }
}

fn least_clearance(drawing: &Drawing) -> Option<f64> {
    match pairs::figures(Measure::Clearance, drawing)[..] {
        [Figure::Gap(least), ..] => least,
        _ => unreachable!("clearance's first figure is the least gap"),
    }
}

fn compare(about: &str, drawing: &Drawing, least: Option<f64>, found: &mut Vec<String>) {
    let returned = run_tight_pair(&Columns::of(drawing));
    if !is_answer(&returned, drawing, least) {
        found.push(format!(
            "the port's tight pair, {about}: {returned:?}, where the least distance is {least:?}"
        ));
    }
}

/// Whether what the port returns is absent where there is no least distance, and
/// otherwise a pair that is not exempt and at that distance.
pub fn is_answer(returned: &Returned, drawing: &Drawing, least: Option<f64>) -> bool {
    match (returned.status, &returned.words[..], least) {
        (0, [0, 0, 0], None) => true,
        (0, [1, segment, node], Some(least)) => is_tight(drawing, *segment, *node, least),
        _ => false,
    }
}

fn is_tight(drawing: &Drawing, segment: u64, node: u64, least: f64) -> bool {
    let segment = drawing.segments.get(segment as usize);
    let node = drawing.nodes.get(node as usize);
    let (Some(segment), Some(node)) = (segment, node) else {
        return false;
    };
    let exempt = drawing
        .exemptions
        .iter()
        .any(|exemption| exemption.net == segment.net && exemption.node == node.id);
    !exempt && pairs::distance(segment, node).to_bits() == least.to_bits()
}

/// A column one longer or shorter, an orientation above 1, and both.
fn compare_refusals(drawing: &Drawing, columns: &Columns, found: &mut Vec<String>) {
    for place in 0..ALL_COLUMNS {
        for longer in [false, true] {
            let mut uneven = columns.clone();
            change_length(&mut uneven, place, longer);
            let about = format!(
                "column {place} {}",
                if longer { "longer" } else { "shorter" }
            );
            if let Some(refusal) = before_tight_pair(drawing, &uneven.lent(0)) {
                compare_refusal(&about, &uneven, refusal, found);
            }
        }
    }
    let mut random = drawing.random();
    let mut unfit = drawing.clone();
    spoil_orientation(&mut unfit, &mut random);
    let mut columns = Columns::of(&unfit);
    if let Some(refusal) = before_tight_pair(&unfit, &columns.lent(0)) {
        compare_refusal("an orientation", &columns, refusal, found);
    }
    change_length(&mut columns, random.below(ALL_COLUMNS), true);
    if let Some(refusal) = before_tight_pair(&unfit, &columns.lent(0)) {
        compare_refusal("both", &columns, refusal, found);
    }
}

fn compare_refusal(about: &str, columns: &Columns, refusal: Refusal, found: &mut Vec<String>) {
    let returned = run_tight_pair(columns);
    let expected = Returned::expected(&Err(refusal), returned.words.len());
    if returned != expected {
        found.push(format!(
            "the port's tight pair, {about}: {returned:?}, where {expected:?} is expected"
        ));
    }
}
