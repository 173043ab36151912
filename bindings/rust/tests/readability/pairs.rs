//! The figures over all pairs, written from the request (SCOPE 3): no tree and no sweep.
//! Every pair is looked at.

use readability::{
    EdgeNodeClearance, NodeGeometry, ParallelCongestion, ParallelSegment, ParallelSeparation,
};

use crate::drawing::Drawing;

/// The larger of the gaps along x and along y.
pub fn distance(wire: &ParallelSegment, node: &NodeGeometry) -> f64 {
    let along = extent(wire);
    let across = (wire.fixed, wire.fixed);
    let (in_x, in_y) = if wire.horizontal {
        (along, across)
    } else {
        (across, along)
    };
    let gap_x = extent_gap(in_x, (node.x, node.x + node.width));
    let gap_y = extent_gap(in_y, (node.y, node.y + node.height));
    if gap_x > gap_y {
        gap_x
    } else {
        gap_y
    }
}

/// The lesser and the greater end, whichever was given first (SCOPE 2.8).
fn extent(wire: &ParallelSegment) -> (f64, f64) {
    (wire.start.min(wire.end), wire.start.max(wire.end))
}

/// One rounded subtraction, or 0 where two extents touch or overlap.
fn extent_gap(one: (f64, f64), other: (f64, f64)) -> f64 {
    if one.1 < other.0 {
        other.0 - one.1
    } else if other.1 < one.0 {
        one.0 - other.1
    } else {
        0.0
    }
}

pub fn is_exempt(drawing: &Drawing, wire: &ParallelSegment, node: &NodeGeometry) -> bool {
    drawing
        .relations
        .iter()
        .any(|relation| relation.net == wire.net && relation.node == node.id)
}

pub fn clearance(drawing: &Drawing) -> EdgeNodeClearance {
    let mut found = EdgeNodeClearance::default();
    for wire in &drawing.wires {
        for node in &drawing.nodes {
            if !is_exempt(drawing, wire, node) {
                let distance = distance(wire, node);
                found.minimum_clearance = lesser(found.minimum_clearance, distance);
                found.violations += usize::from(distance < drawing.threshold);
            }
        }
    }
    found
}

pub fn separation(drawing: &Drawing) -> ParallelSeparation {
    let mut found = ParallelSeparation::default();
    for (one, other) in pairs(&drawing.wires) {
        if one.net != other.net && overlap(one, other).is_some() {
            let gap = (one.fixed - other.fixed).abs();
            found.minimum = lesser(found.minimum, gap);
            if gap > 0.0 {
                found.minimum_positive = lesser(found.minimum_positive, gap);
            }
        }
    }
    found
}

/// The figures of congestion with the least gap that is not 0. On the grid every
/// sum is exact, in whatever order it is taken.
pub fn congestion(drawing: &Drawing) -> (ParallelCongestion, Option<f64>) {
    let mut figures = ParallelCongestion::default();
    let mut least = None;
    for (place, wire) in drawing.wires.iter().enumerate() {
        let (from, to) = extent(wire);
        figures.total_length += to - from;
        let mut shared = Vec::new();
        for (other_place, other) in drawing.wires.iter().enumerate() {
            let stretch = close_overlap(wire, other, drawing.cutoff);
            let Some(stretch) = stretch.filter(|_| wire.net != other.net) else {
                continue;
            };
            shared.push(stretch);
            if place < other_place {
                figures.pair_overlap_length += stretch.1 - stretch.0;
                let gap = (wire.fixed - other.fixed).abs();
                if gap > 0.0 {
                    least = lesser(least, gap);
                }
            }
        }
        add_neighbours(&mut figures, &shared);
    }
    (figures, least)
}

/// Cuts a wire wherever a stretch that it shares begins or ends, so that its
/// neighbours are the same all along a piece.
fn add_neighbours(figures: &mut ParallelCongestion, shared: &[(f64, f64)]) {
    let mut cuts: Vec<f64> = shared.iter().flat_map(|part| [part.0, part.1]).collect();
    cuts.sort_by(f64::total_cmp);
    for piece in cuts.windows(2) {
        let neighbours = shared
            .iter()
            .filter(|part| part.0 <= piece[0] && piece[1] <= part.1)
            .count();
        if neighbours > 0 && piece[0] < piece[1] {
            figures.congested_length += piece[1] - piece[0];
            figures.peak_close_neighbors = figures.peak_close_neighbors.max(neighbours);
        }
    }
}

/// The formula of SCOPE 4.5.
pub fn congestion_visits(drawing: &Drawing) -> usize {
    if drawing.cutoff <= 0.0 {
        return 0;
    }
    let close = pairs(&drawing.wires)
        .filter(|(one, other)| close_overlap(one, other, drawing.cutoff).is_some())
        .count();
    by_orientation(drawing, |segments, _| segments) + 2 * close
}

/// The most visits that SCOPE 4.4 leaves to separation.
pub fn most_separation_visits(drawing: &Drawing) -> usize {
    by_orientation(drawing, |segments, levels| segments * (10 * levels + 5))
}

/// Sums over the orientations that hold two segments or more. `cost` is given
/// the segments and the levels of a tree with a leaf for each different fixed
/// coordinate.
fn by_orientation(drawing: &Drawing, cost: impl Fn(usize, usize) -> usize) -> usize {
    let mut sum = 0;
    for horizontal in [true, false] {
        let mut lines: Vec<f64> = drawing
            .wires
            .iter()
            .filter(|wire| wire.horizontal == horizontal)
            .map(|wire| wire.fixed)
            .collect();
        let segments = lines.len();
        lines.sort_by(f64::total_cmp);
        lines.dedup();
        if segments >= 2 {
            let levels = lines.len().next_power_of_two().trailing_zeros();
            sum += cost(segments, levels as usize);
        }
    }
    sum
}

fn close_overlap(
    one: &ParallelSegment,
    other: &ParallelSegment,
    cutoff: f64,
) -> Option<(f64, f64)> {
    overlap(one, other).filter(|_| (one.fixed - other.fixed).abs() < cutoff)
}

/// The stretch that two wires of one orientation share, if it has a length.
fn overlap(one: &ParallelSegment, other: &ParallelSegment) -> Option<(f64, f64)> {
    let (one_extent, other_extent) = (extent(one), extent(other));
    let from = one_extent.0.max(other_extent.0);
    let stretch = (from, one_extent.1.min(other_extent.1));
    (one.horizontal == other.horizontal && stretch.0 < stretch.1).then_some(stretch)
}

fn pairs(wires: &[ParallelSegment]) -> impl Iterator<Item = (&ParallelSegment, &ParallelSegment)> {
    wires
        .iter()
        .enumerate()
        .flat_map(|(place, one)| wires[place + 1..].iter().map(move |other| (one, other)))
}

fn lesser(least: Option<f64>, gap: f64) -> Option<f64> {
    Some(least.map_or(gap, |least| if gap < least { gap } else { least }))
}
