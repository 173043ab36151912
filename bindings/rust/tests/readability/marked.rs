//! Drawing D and the marked cases of SCOPE 13, (a) to (l).

use readability::{
    measure_edge_node_clearance_bounded, measure_parallel_congestion,
    measure_parallel_congestion_profile_bounded, measure_parallel_density_profile_bounded,
    measure_parallel_separation_bounded, tight_pair, try_measure_edge_node_clearance_bounded,
    try_measure_parallel_density_profile_bounded, try_measure_parallel_separation_bounded,
    ClearanceReport, CongestionReport, EdgeNodeClearance, EdgeNodeClearanceError,
    ParallelCongestion, ParallelSegment, ParallelSeparation, ParallelSeparationError, Refusal,
    SeparationReport, TightPair,
};

use crate::drawing::{drawing_d, horizontal, node, Drawing};

/// The congestion of drawing D.
const CONGESTION: ParallelCongestion = ParallelCongestion {
    total_length: 20.0,
    congested_length: 10.0,
    pair_overlap_length: 5.0,
    peak_close_neighbors: 1,
};

/// The separation of wires alone under an allowance that is large enough for
/// each of the cases.
fn separation(wires: &[ParallelSegment]) -> ParallelSeparation {
    measure_parallel_separation_bounded(wires, 1_000).expect("the wires are fit")
}

fn clearance(drawing: &Drawing) -> Result<ClearanceReport, Refusal> {
    try_measure_edge_node_clearance_bounded(
        &drawing.routes(),
        &drawing.nodes,
        &drawing.relations,
        drawing.threshold,
        1_000,
    )
}

fn congestion(wires: &[ParallelSegment], cutoff: f64) -> Result<CongestionReport, Refusal> {
    try_measure_parallel_density_profile_bounded(wires, cutoff, 1_000)
}

#[test]
fn drawing_d_has_its_clearance() {
    let d = drawing_d();
    let figures = EdgeNodeClearance {
        minimum_clearance: Some(1.0),
        violations: 1,
    };
    assert_eq!(
        clearance(&d),
        Ok(ClearanceReport {
            clearance: figures,
            visits: 2
        })
    );
    let measure = |allowance| {
        measure_edge_node_clearance_bounded(&d.routes(), &d.nodes, &d.relations, 2.0, allowance)
    };
    assert_eq!(measure(2), Ok(figures));
    assert_eq!(measure(1), Err(EdgeNodeClearanceError::WorkLimitExceeded));
    assert_eq!(
        tight_pair(&d.routes(), &d.nodes, &d.relations),
        Ok(Some(TightPair {
            segment: 0,
            node: 0
        }))
    );
}

#[test]
fn drawing_d_has_its_separation_and_b() {
    let d = drawing_d();
    let figures = ParallelSeparation {
        minimum: Some(4.0),
        minimum_positive: Some(4.0),
    };
    assert_eq!(
        try_measure_parallel_separation_bounded(&d.wires, 1_000),
        Ok(SeparationReport {
            separation: figures,
            visits: 16
        })
    );
    assert_eq!(
        measure_parallel_separation_bounded(&d.wires, 16),
        Ok(figures)
    );
    assert_eq!(
        measure_parallel_separation_bounded(&d.wires, 15),
        Err(ParallelSeparationError::WorkLimitExceeded)
    );
}

#[test]
fn drawing_d_has_its_congestion_and_c() {
    let d = drawing_d();
    assert_eq!(
        congestion(&d.wires, d.cutoff),
        Ok(CongestionReport {
            congestion: CONGESTION,
            minimum_positive: Some(4.0),
            visits: 4
        })
    );
    let density = |allowance| measure_parallel_density_profile_bounded(&d.wires, 6.0, allowance);
    assert_eq!(density(4), Some((CONGESTION, Some(4.0))));
    assert_eq!(density(3), None);
    let profile = |allowance| measure_parallel_congestion_profile_bounded(&d.wires, 6.0, allowance);
    let without_density = ParallelCongestion {
        pair_overlap_length: 0.0,
        peak_close_neighbors: 0,
        ..CONGESTION
    };
    assert_eq!(profile(4), Some((without_density, Some(4.0))));
    assert_eq!(profile(3), None);
    assert_eq!(measure_parallel_congestion(&d.wires, 6.0), CONGESTION);
    assert_eq!(CONGESTION.ratio(), 0.5);
}

#[test]
fn a_one_segment_costs_separation_nothing() {
    let measured = try_measure_parallel_separation_bounded(&[horizontal(1, 0.0, 0.0, 10.0)], 0);
    assert_eq!(
        measured,
        Ok(SeparationReport {
            separation: ParallelSeparation::default(),
            visits: 0
        })
    );
}

#[test]
fn d_ends_that_meet_do_not_overlap() {
    let wires = [horizontal(1, 0.0, 0.0, 5.0), horizontal(2, 1.0, 5.0, 9.0)];
    assert_eq!(separation(&wires), ParallelSeparation::default());
}

#[test]
fn e_one_line_is_at_0() {
    let wires = [horizontal(1, 3.0, 0.0, 5.0), horizontal(2, 3.0, 4.0, 9.0)];
    assert_eq!(
        separation(&wires),
        ParallelSeparation {
            minimum: Some(0.0),
            minimum_positive: None
        }
    );
}

#[test]
fn f_one_net_has_no_separation() {
    let wires = [horizontal(1, 0.0, 0.0, 5.0), horizontal(1, 1.0, 0.0, 5.0)];
    assert_eq!(separation(&wires), ParallelSeparation::default());
}

#[test]
fn g_the_threshold_itself_is_no_violation() {
    let mut drawing = Drawing::of_wires(&[horizontal(1, 0.0, 0.0, 10.0)], 1.0);
    drawing.nodes.push(node(1, 0.0, 2.0, 1.0, 1.0));
    drawing.threshold = 2.0;
    let report = clearance(&drawing).expect("the drawing is fit");
    assert_eq!(report.clearance.minimum_clearance, Some(2.0));
    assert_eq!(report.clearance.violations, 0);
}

#[test]
fn h_a_threshold_below_0_is_unfit() {
    let mut drawing = Drawing::of_wires(&[horizontal(1, 0.0, 0.0, 10.0)], 1.0);
    drawing.threshold = -1.0;
    assert_eq!(clearance(&drawing), Err(Refusal::InvalidInput));
    drawing.threshold = -0.0;
    assert!(clearance(&drawing).is_ok());
}

#[test]
fn i_no_segments_have_no_clearance() {
    let mut drawing = Drawing::of_wires(&[], 1.0);
    drawing.nodes.push(node(1, 0.0, 2.0, 1.0, 1.0));
    assert_eq!(
        clearance(&drawing),
        Ok(ClearanceReport {
            clearance: EdgeNodeClearance::default(),
            visits: 0
        })
    );
}

/// Two wires of length 10 that are not close to each other.
fn assert_not_close(measured: Result<CongestionReport, Refusal>) {
    let congestion = ParallelCongestion {
        total_length: 20.0,
        ..ParallelCongestion::default()
    };
    assert_eq!(
        measured,
        Ok(CongestionReport {
            congestion,
            minimum_positive: None,
            visits: 2
        })
    );
}

#[test]
fn j_the_cutoff_itself_is_not_close() {
    let wires = [horizontal(1, 0.0, 0.0, 10.0), horizontal(2, 4.0, 0.0, 10.0)];
    assert_not_close(congestion(&wires, 4.0));
}

#[test]
fn k_the_grid_ends_where_scope_says() {
    let last = 1_048_576.0;
    assert!(congestion(&[horizontal(1, 1.0 / 64.0, 0.0, last)], 1.0).is_ok());
    assert!(congestion(&[horizontal(1, -last, -last, last)], last).is_ok());
    let off = [
        (horizontal(1, 1.0 / 128.0, 0.0, 1.0), 1.0),
        (horizontal(1, 0.0, 0.0, last + 1.0 / 64.0), 1.0),
        (horizontal(1, 0.0, 0.0, 1.0), 1.0 / 128.0),
    ];
    for (wire, cutoff) in off {
        assert_eq!(congestion(&[wire], cutoff), Err(Refusal::OffGrid));
    }
}

#[test]
fn l_a_zero_of_either_sign_is_one_place() {
    let wires = [
        horizontal(1, -1.0, 0.0, 10.0),
        horizontal(2, -0.0, 0.0, 10.0),
    ];
    assert_not_close(congestion(&wires, 1.0));
}
