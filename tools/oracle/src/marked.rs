//! The marked cases of SCOPE 13, (a) to (l), as drawings. Each says what
//! its sheet must hold: a line, or the front of one where the document leaves
//! the rest open.

use crate::drawing::{drawing_d, horizontal, Allowances, Drawing, Node, Segment};

pub struct Marked {
    pub name: &'static str,
    pub drawing: Drawing,
    line: &'static str,
}

impl Marked {
    /// Whether one of the sheet's lines begins with the fields that the case
    /// names.
    pub fn holds_on(&self, sheet: &str) -> bool {
        let open_end = format!("{} ", self.line);
        sheet
            .lines()
            .any(|line| line == self.line || line.starts_with(&open_end))
    }
}

pub fn cases() -> Vec<Marked> {
    let mut cases = separation_cases();
    cases.extend(clearance_cases());
    cases.extend(congestion_cases());
    cases
}

fn separation_cases() -> Vec<Marked> {
    let one = wires(vec![horizontal(1, 0.0, 0.0, 10.0)], 1.0);
    let ends_meet = vec![horizontal(1, 0.0, 0.0, 5.0), horizontal(2, 1.0, 5.0, 9.0)];
    let one_line = vec![horizontal(1, 3.0, 0.0, 5.0), horizontal(2, 3.0, 4.0, 9.0)];
    let one_net = vec![horizontal(1, 0.0, 0.0, 5.0), horizontal(1, 1.0, 0.0, 5.0)];
    vec![
        marked("a", separation_allowed(one, 0), "separation none none 0"),
        marked(
            "b, accepted",
            separation_allowed(drawing_d(), 16),
            "separation 4010000000000000 4010000000000000 16",
        ),
        marked(
            "b, refused",
            separation_allowed(drawing_d(), 15),
            "separation refused 7",
        ),
        marked("d", wires(ends_meet, 1.0), "separation none none"),
        marked(
            "e",
            wires(one_line, 1.0),
            "separation 0000000000000000 none",
        ),
        marked("f", wires(one_net, 1.0), "separation none none"),
    ]
}

fn clearance_cases() -> Vec<Marked> {
    let mut two_away = wires(vec![horizontal(1, 0.0, 0.0, 10.0)], 1.0);
    two_away.nodes = vec![Node {
        id: 1,
        x: 0.0,
        y: 2.0,
        width: 1.0,
        height: 1.0,
    }];
    two_away.threshold = 2.0;
    let mut no_nodes = wires(vec![horizontal(1, 0.0, 0.0, 10.0)], 1.0);
    no_nodes.threshold = -1.0;
    let mut no_segments = two_away.clone();
    no_segments.segments.clear();
    no_segments.threshold = 0.0;
    vec![
        marked("g", two_away, "clearance 4000000000000000 0"),
        marked("h", no_nodes, "clearance refused 5"),
        marked("i", no_segments, "clearance none 0 0"),
    ]
}

fn congestion_cases() -> Vec<Marked> {
    let gap_of_four = vec![horizontal(1, 0.0, 0.0, 10.0), horizontal(2, 4.0, 0.0, 10.0)];
    let across_zero = vec![
        horizontal(1, -1.0, 0.0, 10.0),
        horizontal(2, -0.0, 0.0, 10.0),
    ];
    let grid_ends = vec![horizontal(1, 1.0 / 64.0, 0.0, 1_048_576.0)];
    let half_step = vec![horizontal(1, 1.0 / 128.0, 0.0, 1.0)];
    let not_close = "congestion 4034000000000000 0000000000000000 0000000000000000 0 none 2";
    vec![
        marked(
            "c, accepted",
            congestion_allowed(drawing_d(), 4),
            "congestion 4034000000000000 4024000000000000 4014000000000000 1 4010000000000000 4",
        ),
        marked(
            "c, refused",
            congestion_allowed(drawing_d(), 3),
            "congestion refused 7",
        ),
        marked("j", wires(gap_of_four, 4.0), not_close),
        marked(
            "k, passes",
            wires(grid_ends, 1.0),
            "congestion 4130000000000000 0000000000000000 0000000000000000 0 none 0",
        ),
        marked("k, refused", wires(half_step, 1.0), "congestion refused 6"),
        marked("l", wires(across_zero, 1.0), not_close),
    ]
}

fn marked(name: &'static str, drawing: Drawing, line: &'static str) -> Marked {
    Marked {
        name,
        drawing,
        line,
    }
}

fn wires(segments: Vec<Segment>, cutoff: f64) -> Drawing {
    Drawing {
        segments,
        nodes: Vec::new(),
        exemptions: Vec::new(),
        threshold: 0.0,
        cutoff,
        allowances: Allowances {
            clearance: 1_000,
            separation: 1_000,
            congestion: 1_000,
        },
    }
}

fn separation_allowed(mut drawing: Drawing, separation: u64) -> Drawing {
    drawing.allowances.separation = separation;
    drawing
}

fn congestion_allowed(mut drawing: Drawing, congestion: u64) -> Drawing {
    drawing.allowances.congestion = congestion;
    drawing
}
