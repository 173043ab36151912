//! Random drawings against the computation over all pairs: figures bit by bit,
//! visit counts within the bounds of SCOPE 4, allowances, and the order of the
//! lists.

use readability::{
    measure_parallel_congestion, tight_pair, try_measure_edge_node_clearance_bounded,
    try_measure_parallel_congestion, try_measure_parallel_congestion_profile_bounded,
    try_measure_parallel_density_profile_bounded, try_measure_parallel_separation_bounded,
    ClearanceReport, CongestionReport, ParallelCongestion, Refusal, SeparationReport,
};

use crate::{
    drawing::Drawing,
    generate::{drawings, reordered},
    pairs,
};

/// Drawings of each kind of numbers.
const EACH: u64 = 200;

fn clearance(drawing: &Drawing, allowance: usize) -> Result<ClearanceReport, Refusal> {
    try_measure_edge_node_clearance_bounded(
        &drawing.routes(),
        &drawing.nodes,
        &drawing.relations,
        drawing.threshold,
        allowance,
    )
}

fn separation(drawing: &Drawing, allowance: usize) -> Result<SeparationReport, Refusal> {
    try_measure_parallel_separation_bounded(&drawing.wires, allowance)
}

fn density(drawing: &Drawing, allowance: usize) -> Result<CongestionReport, Refusal> {
    try_measure_parallel_density_profile_bounded(&drawing.wires, drawing.cutoff, allowance)
}

fn profile(drawing: &Drawing, allowance: usize) -> Result<CongestionReport, Refusal> {
    try_measure_parallel_congestion_profile_bounded(&drawing.wires, drawing.cutoff, allowance)
}

/// Equal floats with equal signs of zero. No figure is a NaN, and two floats
/// that are not NaN are written alike only where their bits are equal.
fn same<T: std::fmt::Debug>(found: &T, expected: &T, about: &str) {
    assert_eq!(format!("{found:?}"), format!("{expected:?}"), "{about}");
}

/// An allowance that reaches the visit count gives the same report; any other
/// is spent. Another order of the lists gives the same.
fn allowances<R: std::fmt::Debug>(
    measure: impl Fn(&Drawing, usize) -> Result<R, Refusal>,
    drawing: &Drawing,
    report: R,
    visits: usize,
    about: &str,
) {
    let expected = Ok(report);
    let other = reordered(drawing, visits as u64);
    same(&measure(drawing, visits), &expected, about);
    same(&measure(&other, visits), &expected, about);
    if visits > 0 {
        let spent = Err(Refusal::WorkLimitExceeded);
        for allowance in [0, visits / 2, visits - 1] {
            same(&measure(drawing, allowance), &spent, about);
            same(&measure(&other, allowance), &spent, about);
        }
    }
}

#[test]
fn clearance_is_that_over_all_pairs() {
    for (numbers, seed, drawing) in drawings(EACH) {
        let about = format!("{numbers:?} {seed}");
        let report = clearance(&drawing, usize::MAX).expect("the drawing is fit");
        same(&report.clearance, &pairs::clearance(&drawing), &about);
        assert!(report.visits >= report.clearance.violations, "{about}");
        assert!(
            report.visits <= drawing.wires.len() * drawing.nodes.len(),
            "{about}"
        );
        allowances(clearance, &drawing, report, report.visits, &about);
    }
}

#[test]
fn the_tight_pair_is_at_the_least_clearance() {
    for (numbers, seed, drawing) in drawings(EACH) {
        let about = format!("{numbers:?} {seed}");
        let least = pairs::clearance(&drawing).minimum_clearance;
        let found = tight_pair(&drawing.routes(), &drawing.nodes, &drawing.relations)
            .expect("the drawing is fit");
        let distance = found.map(|pair| {
            let (wire, node) = (&drawing.wires[pair.segment], &drawing.nodes[pair.node]);
            assert!(!pairs::is_exempt(&drawing, wire, node), "{about}");
            pairs::distance(wire, node)
        });
        same(&distance, &least, &about);
    }
}

#[test]
fn separation_is_that_over_all_pairs() {
    for (numbers, seed, drawing) in drawings(EACH) {
        let about = format!("{numbers:?} {seed}");
        let report = separation(&drawing, usize::MAX).expect("the drawing is fit");
        same(&report.separation, &pairs::separation(&drawing), &about);
        assert!(
            report.visits <= pairs::most_separation_visits(&drawing),
            "{about}"
        );
        allowances(separation, &drawing, report, report.visits, &about);
    }
}

#[test]
fn congestion_is_that_over_all_pairs() {
    for (numbers, seed, drawing) in drawings(EACH).filter(|(numbers, ..)| numbers.on_grid()) {
        let about = format!("{numbers:?} {seed}");
        let report = density(&drawing, usize::MAX).expect("the drawing is fit");
        let figures = (report.congestion, report.minimum_positive);
        same(&figures, &pairs::congestion(&drawing), &about);
        assert_eq!(report.visits, pairs::congestion_visits(&drawing), "{about}");
        allowances(density, &drawing, report, report.visits, &about);

        let unlimited = try_measure_parallel_congestion(&drawing.wires, drawing.cutoff);
        same(&unlimited, &Ok(report), &about);
        let without_density = CongestionReport {
            congestion: ParallelCongestion {
                pair_overlap_length: 0.0,
                peak_close_neighbors: 0,
                ..report.congestion
            },
            ..report
        };
        allowances(profile, &drawing, without_density, report.visits, &about);
    }
}

#[test]
fn off_the_grid_congestion_is_refused() {
    let mut refused = 0;
    for (numbers, seed, drawing) in drawings(EACH).filter(|(numbers, ..)| !numbers.on_grid()) {
        let fine = |value: f64| value.abs() <= 1_048_576.0 && (value * 64.0).fract() == 0.0;
        let on_grid = fine(drawing.cutoff)
            && drawing
                .wires
                .iter()
                .all(|wire| fine(wire.fixed) && fine(wire.start) && fine(wire.end));
        let measured = try_measure_parallel_congestion(&drawing.wires, drawing.cutoff);
        assert_eq!(
            measured.err(),
            (!on_grid).then_some(Refusal::OffGrid),
            "{numbers:?} {seed}"
        );
        refused += u64::from(!on_grid);
    }
    assert!(refused > EACH, "most of these drawings are off the grid");
}

#[test]
fn the_ratio_is_congested_over_total() {
    for (numbers, seed, drawing) in drawings(EACH).filter(|(numbers, ..)| numbers.on_grid()) {
        let measured = measure_parallel_congestion(&drawing.wires, drawing.cutoff);
        let expected = if measured.total_length > 0.0 {
            measured.congested_length / measured.total_length
        } else {
            0.0
        };
        same(&measured.ratio(), &expected, &format!("{numbers:?} {seed}"));
    }
    let of = |total_length, congested_length| {
        ParallelCongestion {
            total_length,
            congested_length,
            ..ParallelCongestion::default()
        }
        .ratio()
    };
    same(&of(2.0, 3.0), &1.0, "above the total");
    same(&of(2.0, -3.0), &0.0, "below 0");
    same(&of(2.0, -0.0), &-0.0, "-0 stays");
    same(&of(0.0, 1.0), &0.0, "no total");
    same(&of(f64::NAN, 1.0), &0.0, "a total that is NaN");
    assert!(of(1.0, f64::NAN).is_nan());
    assert!(of(f64::INFINITY, f64::INFINITY).is_nan());
}
