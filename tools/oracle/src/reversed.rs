//! Drawings whose segments are given from the greater end to the lesser one, or
//! with ends between which there is no wire, each with the sheet that it must have
//! (SCOPE 2.8 and 7.5). The generator reverses segments too, but would meet some of
//! these by chance only.

use crate::drawing::{
    drawing_d, horizontal, Allowances, Drawing, Node, Segment, SHEET_OF_D, VERTICAL,
};

pub struct Reversed {
    pub name: &'static str,
    pub drawing: Drawing,
    pub sheet: &'static str,
}

/// What D's measures cost.
const VISITS_OF_D: Allowances = Allowances {
    clearance: 2,
    separation: 16,
    congestion: 4,
};

const SPENT: &str = "\
clearance refused 7
separation refused 7
congestion refused 7
";

const UNFIT: &str = "\
clearance refused 5
separation refused 5
congestion refused 5
";

/// Clearance and separation are D's.
const D_OFF_THE_GRID: &str = "\
clearance 3ff0000000000000 1 2
separation 4010000000000000 4010000000000000 16
congestion refused 6
";

const ONE_WIRE_TWICE: &str = "\
clearance none 0 0
separation 0000000000000000 none 10
congestion 4024000000000000 4024000000000000 4014000000000000 1 none 4
";

pub fn cases() -> Vec<Reversed> {
    let mut cases = vec![case("D, both reversed", d_reversed(), SHEET_OF_D)];
    cases.extend(d_at_its_visits());
    cases.push(case(
        "one wire, both ways, two nets",
        one_wire_both_ways(),
        ONE_WIRE_TWICE,
    ));
    cases.push(case(
        "D, net 1 reversed with an end off the grid",
        d_with(0, 10.0, 1.0 / 128.0),
        D_OFF_THE_GRID,
    ));
    cases.extend(between_which_there_is_no_wire());
    cases
}

fn case(name: &'static str, drawing: Drawing, sheet: &'static str) -> Reversed {
    Reversed {
        name,
        drawing,
        sheet,
    }
}

/// D with both of its wires given from the greater end to the lesser one.
pub fn d_reversed() -> Drawing {
    drawing_d().reversed()
}

/// D in other directions, with as many visits as it takes, and with one less of
/// each measure.
fn d_at_its_visits() -> Vec<Reversed> {
    let [net_2, both, upright] = d_in_other_directions();
    vec![
        case("D, net 2 reversed", allowed(&net_2, 0), SHEET_OF_D),
        case("D, net 2 reversed, spent", allowed(&net_2, 1), SPENT),
        case("D, both reversed, enough", allowed(&both, 0), SHEET_OF_D),
        case("D, both reversed, spent", allowed(&both, 1), SPENT),
        case("D upright, reversed", allowed(&upright, 0), SHEET_OF_D),
        case("D upright, reversed, spent", allowed(&upright, 1), SPENT),
    ]
}

/// D with net 2 from 15 to 5; with both wires reversed; and that with x and y
/// exchanged. Each has D's figures and D's visits.
pub fn d_in_other_directions() -> [Drawing; 3] {
    [d_with(1, 15.0, 5.0), d_reversed(), upright(d_reversed())]
}

/// D with other ends of one wire.
fn d_with(place: usize, start: f64, end: f64) -> Drawing {
    let mut drawing = drawing_d();
    drawing.segments[place].start = start;
    drawing.segments[place].end = end;
    drawing
}

/// A drawing of horizontal wires with x and y exchanged.
fn upright(mut drawing: Drawing) -> Drawing {
    for segment in &mut drawing.segments {
        segment.orientation = VERTICAL;
    }
    for node in &mut drawing.nodes {
        *node = Node {
            id: node.id,
            x: node.y,
            y: node.x,
            width: node.height,
            height: node.width,
        };
    }
    drawing
}

/// A drawing with D's visits as its allowances, each less by `missing`.
fn allowed(drawing: &Drawing, missing: u64) -> Drawing {
    Drawing {
        allowances: Allowances {
            clearance: VISITS_OF_D.clearance - missing,
            separation: VISITS_OF_D.separation - missing,
            congestion: VISITS_OF_D.congestion - missing,
        },
        ..drawing.clone()
    }
}

fn one_wire_both_ways() -> Drawing {
    let wire = horizontal(1, 3.0, 0.0, 5.0);
    let back = Segment {
        net: 2,
        ..wire.reversed()
    };
    Drawing {
        segments: vec![wire, back],
        nodes: Vec::new(),
        exemptions: Vec::new(),
        cutoff: 1.0,
        ..drawing_d()
    }
}

/// D with ends of net 1 that are equal as numbers or not finite. Turned into
/// rising order they are no better.
fn between_which_there_is_no_wire() -> Vec<Reversed> {
    let ends = [
        ("5 to 5", 5.0, 5.0),
        ("+0 to -0", 0.0, -0.0),
        ("-0 to +0", -0.0, 0.0),
        ("NaN to 3", f64::NAN, 3.0),
        ("3 to NaN", 3.0, f64::NAN),
        ("+infinity to 3", f64::INFINITY, 3.0),
        ("3 to -infinity", 3.0, f64::NEG_INFINITY),
    ];
    ends.into_iter()
        .map(|(name, start, end)| case(name, d_with(0, start, end), UNFIT))
        .collect()
}
