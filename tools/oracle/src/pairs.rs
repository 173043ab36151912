//! The figures over all pairs, written from the request alone (SCOPE 3): no tree, no
//! sweep, no order of the lists and no limit. Every pair is looked at.
//!
//! It is slow on purpose. What it shares with the reference is only the
//! arithmetic of f64, one rounded step where SCOPE 3 names one. Congestion
//! is worked in whole numbers of 1/64.

use std::ops::RangeInclusive;

use crate::{
    drawing::{plus_zero, Drawing, Node, Segment, HORIZONTAL, VERTICAL},
    refusals::settle,
    report::{Answer, Figure, Measure, Report},
};

/// The answer under the drawing's own allowance. The visits of clearance and
/// separation are those of a walk, which is not here, so `walked` says what the
/// walk answers where no allowance runs out.
pub fn answer(measure: Measure, drawing: &Drawing, walked: &Answer) -> Answer {
    let visits = match (measure, walked) {
        (_, Err(refusal)) => return Err(*refusal),
        (Measure::Congestion, Ok(_)) => congestion_visits(drawing),
        (Measure::Clearance | Measure::Separation, Ok(report)) => report.visits,
    };
    let figures = figures(measure, drawing);
    settle(Report { figures, visits }, measure.allowance(drawing))
}

/// The figures of a measure on a fit drawing, in the sheet's order.
pub fn figures(measure: Measure, drawing: &Drawing) -> Vec<Figure> {
    match measure {
        Measure::Clearance => clearance(drawing),
        Measure::Separation => separation(drawing),
        Measure::Congestion => Congestion::of(drawing).figures(),
    }
}

/// The visit counts that SCOPE 4 leaves possible. For congestion that is
/// one count only, its formula's.
///
/// The lower ends of the other two follow from its rules: a leaf nearer than
/// the threshold is never pruned, and a segment of separation costs a look at
/// its own line, two searches that touch the root at least, and two settings
/// of a leaf with everything above it.
pub fn visit_range(measure: Measure, drawing: &Drawing) -> RangeInclusive<u64> {
    match measure {
        Measure::Clearance => pairs_below_threshold(drawing)..=most_visits(measure, drawing),
        Measure::Separation => {
            let least = by_orientation(drawing, |n, levels| n * (2 * levels + 5));
            least..=most_visits(measure, drawing)
        }
        Measure::Congestion => {
            let exactly = congestion_visits(drawing);
            exactly..=exactly
        }
    }
}

/// Visits that are enough for every drawing with lists of these lengths (for
/// separation: with these lines).
pub fn most_visits(measure: Measure, drawing: &Drawing) -> u64 {
    let segments = drawing.segments.len() as u64;
    match measure {
        Measure::Clearance => segments * drawing.nodes.len() as u64,
        Measure::Separation => by_orientation(drawing, |n, levels| n * (10 * levels + 5)),
        Measure::Congestion => segments * segments,
    }
}

// Clearance

fn clearance(drawing: &Drawing) -> Vec<Figure> {
    let mut least = None;
    let mut violations = 0;
    for_each_route_and_node(drawing, |distance, exempt| {
        if !exempt {
            least = lesser(least, distance);
            violations += u64::from(distance < drawing.threshold);
        }
    });
    vec![Figure::Gap(least), Figure::Count(violations)]
}

/// Pairs nearer than the threshold, exempt ones included: each costs a visit.
fn pairs_below_threshold(drawing: &Drawing) -> u64 {
    let mut below = 0;
    for_each_route_and_node(drawing, |distance, _| {
        below += u64::from(distance < drawing.threshold);
    });
    below
}

/// Calls with the distance of every segment and node, and whether the pair is
/// exempt.
fn for_each_route_and_node(drawing: &Drawing, mut pair: impl FnMut(f64, bool)) {
    for segment in &drawing.segments {
        let exempt_ids: Vec<u32> = drawing
            .exemptions
            .iter()
            .filter(|exemption| exemption.net == segment.net)
            .map(|exemption| exemption.node)
            .collect();
        for node in &drawing.nodes {
            pair(distance(segment, node), exempt_ids.contains(&node.id));
        }
    }
}

/// The larger of the gaps along x and along y.
pub fn distance(segment: &Segment, node: &Node) -> f64 {
    let along = extent(segment);
    let across = (segment.fixed, segment.fixed);
    let (in_x, in_y) = if segment.orientation == HORIZONTAL {
        (along, across)
    } else {
        (across, along)
    };
    let gap_x = extent_gap(in_x, (node.x, node.right()));
    let gap_y = extent_gap(in_y, (node.y, node.bottom()));
    if gap_x > gap_y {
        gap_x
    } else {
        gap_y
    }
}

/// The lesser and the greater end of a segment, whichever was given first
/// (SCOPE 2.8). Worked out here and not taken from what the reference is fed.
fn extent(segment: &Segment) -> (f64, f64) {
    let (one, other) = (segment.start, segment.end);
    (one.min(other), one.max(other))
}

/// One rounded subtraction, or 0 where two extents touch or overlap.
fn extent_gap(one: (f64, f64), other: (f64, f64)) -> f64 {
    if one.1 < other.0 {
        other.0 - one.1
    } else if other.1 < one.0 {
        one.0 - other.1
    } else {
        0.0
    }
}

/// The lesser of a gap that may be absent and one that is there.
fn lesser(least: Option<f64>, gap: f64) -> Option<f64> {
    match least {
        Some(least) if least <= gap => Some(least),
        _ => Some(gap),
    }
}

// Separation

fn separation(drawing: &Drawing) -> Vec<Figure> {
    let mut least = None;
    let mut least_nonzero = None;
    for (index, one) in drawing.segments.iter().enumerate() {
        for other in &drawing.segments[index + 1..] {
            if one.net == other.net || !run_side_by_side(one, other) {
                continue;
            }
            let gap = (one.fixed - other.fixed).abs();
            least = lesser(least, gap);
            if gap > 0.0 {
                least_nonzero = lesser(least_nonzero, gap);
            }
        }
    }
    vec![Figure::Gap(least), Figure::Gap(least_nonzero)]
}

/// Same orientation and an overlap of positive length.
fn run_side_by_side(one: &Segment, other: &Segment) -> bool {
    let (from, to) = extent(one);
    let (other_from, other_to) = extent(other);
    one.orientation == other.orientation && from.max(other_from) < to.min(other_to)
}

/// Sums `cost` over the orientations that hold two segments or more. It is
/// given the number of segments and the levels of a tree with a leaf for each
/// different fixed coordinate, their number rounded up to a power of two.
fn by_orientation(drawing: &Drawing, cost: impl Fn(u64, u64) -> u64) -> u64 {
    let mut sum = 0;
    for orientation in [HORIZONTAL, VERTICAL] {
        let mut lines: Vec<u64> = drawing
            .segments
            .iter()
            .filter(|segment| segment.orientation == orientation)
            .map(|segment| plus_zero(segment.fixed).to_bits())
            .collect();
        let segments = lines.len() as u64;
        lines.sort_unstable();
        lines.dedup();
        if segments >= 2 {
            let levels = lines.len().next_power_of_two().trailing_zeros();
            sum += cost(segments, u64::from(levels));
        }
    }
    sum
}

// Congestion

/// A segment on the grid, its coordinates counted in 1/64, `start` its lesser end.
#[derive(Clone, Copy)]
struct Wire {
    net: u32,
    orientation: u8,
    fixed: i64,
    start: i64,
    end: i64,
}

/// Part of a wire, from the first coordinate to the second.
type Stretch = (i64, i64);

/// The figures of congestion, lengths and the gap counted in 1/64.
#[derive(Default)]
pub struct Congestion {
    total: i64,
    congested: i64,
    pair_overlap: i64,
    peak: u64,
    least_nonzero: Option<i64>,
}

impl Congestion {
    pub fn of(drawing: &Drawing) -> Self {
        let wires = wires(drawing);
        let cutoff = in_64ths(drawing.cutoff);
        let mut sums = Self::default();
        for (index, wire) in wires.iter().enumerate() {
            sums.total += wire.end - wire.start;
            sums.add_neighbours(wire, &close_other_nets(wire, &wires, cutoff));
            for other in &wires[index + 1..] {
                sums.add_pair(wire, other, cutoff);
            }
        }
        sums
    }

    /// The wire's stretches that some neighbour shares, and the most
    /// neighbours on one of them.
    fn add_neighbours(&mut self, wire: &Wire, shared: &[Stretch]) {
        for (from, to) in cut(wire, shared) {
            let neighbours = shared
                .iter()
                .filter(|stretch| stretch.0 <= from && to <= stretch.1)
                .count() as u64;
            if neighbours > 0 {
                self.congested += to - from;
            }
            self.peak = self.peak.max(neighbours);
        }
    }

    fn add_pair(&mut self, one: &Wire, other: &Wire, cutoff: i64) {
        if one.net == other.net {
            return;
        }
        if let Some((from, to)) = close_stretch(one, other, cutoff) {
            self.pair_overlap += to - from;
            let gap = (one.fixed - other.fixed).abs();
            if gap > 0 {
                self.least_nonzero = Some(self.least_nonzero.map_or(gap, |least| least.min(gap)));
            }
        }
    }

    pub fn figures(&self) -> Vec<Figure> {
        vec![
            Figure::Length(from_64ths(self.total)),
            Figure::Length(from_64ths(self.congested)),
            Figure::Length(from_64ths(self.pair_overlap)),
            Figure::Count(self.peak),
            Figure::Gap(self.least_nonzero.map(from_64ths)),
        ]
    }

    /// The figures of the call that leaves pair overlap and peak out.
    pub fn profile_figures(&self) -> Vec<Figure> {
        let without_density = Self {
            pair_overlap: 0,
            peak: 0,
            ..*self
        };
        without_density.figures()
    }

    /// The figures of the call without a limit, which the reference returns
    /// without the gap, followed by their ratio: congested over total, rounded
    /// once, and 0 for a total of 0.
    pub fn figures_without_limit(&self) -> Vec<Figure> {
        let mut figures = self.figures();
        figures.pop();
        let ratio = if self.total > 0 {
            self.congested as f64 / self.total as f64
        } else {
            0.0
        };
        figures.push(Figure::Length(ratio));
        figures
    }
}

/// The formula of SCOPE 4.5: segments in orientations holding at least two, plus
/// twice the close pairs of all nets; 0 if the cutoff is 0 or less.
fn congestion_visits(drawing: &Drawing) -> u64 {
    if drawing.cutoff <= 0.0 {
        return 0;
    }
    let wires = wires(drawing);
    let cutoff = in_64ths(drawing.cutoff);
    let mut close_pairs = 0;
    for (index, wire) in wires.iter().enumerate() {
        for other in &wires[index + 1..] {
            close_pairs += u64::from(close_stretch(wire, other, cutoff).is_some());
        }
    }
    by_orientation(drawing, |segments, _| segments) + 2 * close_pairs
}

/// The stretches of the wire along which a wire of another net is close.
fn close_other_nets(wire: &Wire, wires: &[Wire], cutoff: i64) -> Vec<Stretch> {
    wires
        .iter()
        .filter(|other| other.net != wire.net)
        .filter_map(|other| close_stretch(wire, other, cutoff))
        .collect()
}

/// The overlap of two close wires: same orientation, a gap below the cutoff,
/// and an overlap of positive length.
fn close_stretch(one: &Wire, other: &Wire, cutoff: i64) -> Option<Stretch> {
    let overlap = (one.start.max(other.start), one.end.min(other.end));
    let close = one.orientation == other.orientation
        && (one.fixed - other.fixed).abs() < cutoff
        && overlap.0 < overlap.1;
    close.then_some(overlap)
}

/// The wire cut wherever a neighbour begins or ends, so that the neighbours
/// are the same all along each piece.
fn cut(wire: &Wire, shared: &[Stretch]) -> Vec<Stretch> {
    let mut places = vec![wire.start, wire.end];
    places.extend(shared.iter().flat_map(|stretch| [stretch.0, stretch.1]));
    places.sort_unstable();
    places.dedup();
    places.windows(2).map(|ends| (ends[0], ends[1])).collect()
}

fn wires(drawing: &Drawing) -> Vec<Wire> {
    drawing
        .segments
        .iter()
        .map(|segment| {
            let (one, other) = (in_64ths(segment.start), in_64ths(segment.end));
            Wire {
                net: segment.net,
                orientation: segment.orientation,
                fixed: in_64ths(segment.fixed),
                start: one.min(other),
                end: one.max(other),
            }
        })
        .collect()
}

/// Exact for values on the grid.
fn in_64ths(value: f64) -> i64 {
    (value * 64.0) as i64
}

/// Exact below 2^53, which sums over 4,096 segments stay under.
fn from_64ths(count: i64) -> f64 {
    count as f64 / 64.0
}
