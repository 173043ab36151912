//! The joiner of SCOPE 16, written from the request's words and not from the port.
//!
//! It neither puts the segments in order nor walks along a line. It takes them as
//! they come: each one takes in the pieces of its line with which it shares a
//! point, whatever their number, and the pieces are put in order last.

use std::{cmp::Ordering, collections::HashMap};

use crate::{
    drawing::{plus_zero, Segment},
    refusals::{before_join, Refusal},
};

/// The pieces, or the refusal.
pub type Answer = Result<Vec<Segment>, Refusal>;

/// What a call answers that is lent input columns and output columns of these
/// lengths. Where the input columns are as long as the list, they are its columns.
pub fn answer(segments: &[Segment], columns: [usize; 5], room: [usize; 5]) -> Answer {
    if let Some(refusal) = before_join(segments, columns) {
        return Err(refusal);
    }
    let pieces = joined(segments);
    if room.iter().any(|entries| *entries < pieces.len()) {
        return Err(Refusal::ShortOutput);
    }
    Ok(pieces)
}

/// The fewest pieces with the same points. The segments have to be fit.
pub fn joined(segments: &[Segment]) -> Vec<Segment> {
    let mut lines: HashMap<Line, Vec<Extent>> = HashMap::new();
    for segment in segments {
        let pieces = lines.entry(Line::of(segment)).or_default();
        take_in(pieces, Extent::of(segment));
    }
    let mut pieces: Vec<Segment> = lines
        .iter()
        .flat_map(|(line, extents)| extents.iter().map(|extent| line.piece(extent)))
        .collect();
    pieces.sort_by(order);
    pieces
}

/// A line of one net. Lines at -0 and +0 are one.
#[derive(PartialEq, Eq, Hash)]
struct Line {
    net: u32,
    orientation: u8,
    fixed_bits: u64,
}

impl Line {
    fn of(segment: &Segment) -> Self {
        Self {
            net: segment.net,
            orientation: segment.orientation,
            fixed_bits: plus_zero(segment.fixed).to_bits(),
        }
    }

    fn piece(&self, extent: &Extent) -> Segment {
        Segment {
            net: self.net,
            orientation: self.orientation,
            fixed: f64::from_bits(self.fixed_bits),
            start: plus_zero(extent.least),
            end: plus_zero(extent.greatest),
        }
    }
}

/// All points of a line from one number to another, both included.
#[derive(Clone, Copy)]
struct Extent {
    least: f64,
    greatest: f64,
}

impl Extent {
    fn of(segment: &Segment) -> Self {
        Self {
            least: segment.start.min(segment.end),
            greatest: segment.start.max(segment.end),
        }
    }

    fn shares_a_point_with(&self, other: &Self) -> bool {
        self.least <= other.greatest && other.least <= self.greatest
    }

    fn united_with(&self, other: &Self) -> Self {
        Self {
            least: self.least.min(other.least),
            greatest: self.greatest.max(other.greatest),
        }
    }
}

/// The pieces share no points before and none after.
fn take_in(pieces: &mut Vec<Extent>, mut extent: Extent) {
    pieces.retain(|piece| {
        let taken = piece.shares_a_point_with(&extent);
        if taken {
            extent = extent.united_with(piece);
        }
        !taken
    });
    pieces.push(extent);
}

/// Net, horizontal before vertical, fixed, start, end, floats by totalOrder.
pub fn order(one: &Segment, other: &Segment) -> Ordering {
    one.net
        .cmp(&other.net)
        .then(other.orientation.cmp(&one.orientation))
        .then(one.fixed.total_cmp(&other.fixed))
        .then(one.start.total_cmp(&other.start))
        .then(one.end.total_cmp(&other.end))
}
