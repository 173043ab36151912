//! Refusals: the list of SCOPE 7, in the order of checking, written from
//! that list and not from the reference.
//!
//! Refusal 1 belongs to the file's reader. Refusals 2 and 4 cannot come from a
//! file, but a call by columns may meet them, so what such a call is lent is
//! part of the checks.

use crate::{
    drawing::{Drawing, Node, Segment},
    report::{Answer, Measure, Report},
};

#[derive(Clone, Copy, Debug, PartialEq, Eq)]
pub enum Refusal {
    File,
    Columns,
    TooMany,
    Scratch,
    Unfit,
    OffGrid,
    Spent,
    ShortOutput,
}

impl Refusal {
    pub fn number(self) -> u8 {
        match self {
            Self::File => 1,
            Self::Columns => 2,
            Self::TooMany => 3,
            Self::Scratch => 4,
            Self::Unfit => 5,
            Self::OffGrid => 6,
            Self::Spent => 7,
            Self::ShortOutput => 8,
        }
    }
}

/// The most entries that each list may hold.
pub struct Limits {
    pub segments: usize,
    pub nodes: usize,
    pub exemptions: usize,
}

pub const CALL_LIMITS: Limits = Limits {
    segments: 4_096,
    nodes: 4_096,
    exemptions: 4_096,
};

pub const PROGRAM_LIMITS: Limits = Limits {
    segments: 120,
    nodes: 120,
    exemptions: 240,
};

/// The lengths of what a call by columns is lent.
pub struct Lent {
    pub segment_columns: [usize; 5],
    pub node_columns: [usize; 5],
    pub exemption_columns: [usize; 2],
    pub scratch_words: usize,
}

impl Lent {
    /// Columns of one length for each list, and scratch for every measure.
    pub fn enough_for(drawing: &Drawing) -> Self {
        Self {
            segment_columns: [drawing.segments.len(); 5],
            node_columns: [drawing.nodes.len(); 5],
            exemption_columns: [drawing.exemptions.len(); 2],
            scratch_words: scratch_need(drawing.segments.len(), drawing.nodes.len()),
        }
    }

    /// What the measure takes of it: a list that it does not take counts as
    /// one of 0 entries.
    fn taken_by(&self, measure: Measure) -> Self {
        let takes_nodes = measure.takes_nodes();
        Self {
            segment_columns: self.segment_columns,
            node_columns: if takes_nodes {
                self.node_columns
            } else {
                [0; 5]
            },
            exemption_columns: if takes_nodes {
                self.exemption_columns
            } else {
                [0; 2]
            },
            scratch_words: self.scratch_words,
        }
    }
}

/// The first refusal of 2 to 6 that the call meets, if any. Whether the
/// allowance reaches is asked afterwards, by `settle`.
pub fn before_work(measure: Measure, drawing: &Drawing, lent: &Lent) -> Option<Refusal> {
    let taken = lent.taken_by(measure);
    if columns_differ(&taken) {
        Some(Refusal::Columns)
    } else if too_many(&taken) {
        Some(Refusal::TooMany)
    } else if scratch_short(&taken) {
        Some(Refusal::Scratch)
    } else if !fit(measure, drawing) {
        Some(Refusal::Unfit)
    } else if measure == Measure::Congestion && !on_grid(drawing) {
        Some(Refusal::OffGrid)
    } else {
        None
    }
}

/// The first refusal of the tight pair: checks 2, 3 and 5 of clearance. It is
/// given no threshold, allowance or scratch.
#[cfg(any(port, test))]
pub fn before_tight_pair(drawing: &Drawing, lent: &Lent) -> Option<Refusal> {
    if columns_differ(lent) {
        Some(Refusal::Columns)
    } else if too_many(lent) {
        Some(Refusal::TooMany)
    } else if !entries_fit(drawing) {
        Some(Refusal::Unfit)
    } else {
        None
    }
}

/// The first refusal of a join, of those that come before the room for its pieces:
/// checks 2, 3 and 5. It takes segments alone.
pub fn before_join(segments: &[Segment], columns: [usize; 5]) -> Option<Refusal> {
    if differ(&columns) {
        Some(Refusal::Columns)
    } else if columns[0] > CALL_LIMITS.segments {
        Some(Refusal::TooMany)
    } else if !segments.iter().all(segment_fits) {
        Some(Refusal::Unfit)
    } else {
        None
    }
}

/// Refusal 7: the answer under an allowance, from the report without one.
pub fn settle(report: Report, allowance: u64) -> Answer {
    if report.visits > allowance {
        Err(Refusal::Spent)
    } else {
        Ok(report)
    }
}

fn differ(lengths: &[usize]) -> bool {
    lengths.iter().any(|length| *length != lengths[0])
}

fn columns_differ(taken: &Lent) -> bool {
    differ(&taken.segment_columns)
        || differ(&taken.node_columns)
        || differ(&taken.exemption_columns)
}

fn too_many(taken: &Lent) -> bool {
    taken.segment_columns[0] > CALL_LIMITS.segments
        || taken.node_columns[0] > CALL_LIMITS.nodes
        || taken.exemption_columns[0] > CALL_LIMITS.exemptions
}

fn scratch_short(taken: &Lent) -> bool {
    taken.scratch_words < scratch_need(taken.segment_columns[0], taken.node_columns[0])
}

/// The least words of scratch that a call must be lent.
pub fn scratch_need(segments: usize, nodes: usize) -> usize {
    32 * (segments + nodes) + 64
}

fn fit(measure: Measure, drawing: &Drawing) -> bool {
    match measure {
        Measure::Clearance => {
            entries_fit(drawing) && drawing.threshold.is_finite() && drawing.threshold >= 0.0
        }
        Measure::Separation => segments_fit(drawing),
        Measure::Congestion => segments_fit(drawing) && drawing.cutoff.is_finite(),
    }
}

fn segments_fit(drawing: &Drawing) -> bool {
    drawing.segments.iter().all(segment_fits)
}

fn entries_fit(drawing: &Drawing) -> bool {
    segments_fit(drawing) && drawing.nodes.iter().all(node_fits)
}

fn segment_fits(segment: &Segment) -> bool {
    let numbers = [segment.fixed, segment.start, segment.end];
    segment.orientation <= 1
        && numbers.iter().all(|number| number.is_finite())
        // Equal as numbers: +0 and -0 are the ends of no wire.
        && segment.start != segment.end
}

fn node_fits(node: &Node) -> bool {
    let numbers = [
        node.x,
        node.y,
        node.width,
        node.height,
        node.right(),
        node.bottom(),
    ];
    numbers.iter().all(|number| number.is_finite()) && node.width > 0.0 && node.height > 0.0
}

fn on_grid(drawing: &Drawing) -> bool {
    value_on_grid(drawing.cutoff)
        && drawing.segments.iter().all(|segment| {
            [segment.fixed, segment.start, segment.end]
                .into_iter()
                .all(value_on_grid)
        })
}

/// A whole multiple of 1/64, at most 1,048,576 from 0. Within that range the
/// product is exact.
fn value_on_grid(value: f64) -> bool {
    value.abs() <= 1_048_576.0 && (value * 64.0).fract() == 0.0
}
