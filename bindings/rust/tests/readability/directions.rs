//! Wires given in other directions: every call gives the same answer, and the
//! columns, records and files that it is given stay as they are (SCOPE 2.8).

use std::fmt::Debug;

use readability::{
    columns::{self, scratch_words, NodeColumns, PieceColumns, RelationColumns, SegmentColumns},
    join, measure_edge_node_clearance_bounded, measure_parallel_congestion,
    measure_parallel_congestion_profile_bounded, measure_parallel_density_profile_bounded,
    measure_parallel_separation_bounded, sheet, tight_pair,
    try_measure_edge_node_clearance_bounded, try_measure_parallel_congestion,
    try_measure_parallel_congestion_profile_bounded, try_measure_parallel_density_profile_bounded,
    try_measure_parallel_separation_bounded, NodeGeometry, ParallelSegment,
};

use crate::{
    drawing::{drawing_d, reversed, Drawing},
    generate::drawings,
    sheet::file,
};

/// Drawings of each kind of numbers.
const EACH: u64 = 60;

/// What every function of the package says of a drawing under an allowance, in
/// words. No figure is a NaN, and two floats that are not NaN are written alike
/// only where their bits are equal.
fn answers(drawing: &Drawing, allowance: usize) -> Vec<String> {
    let mut answers = by_records(drawing, allowance);
    answers.extend(by_columns(drawing, allowance));
    answers.push(sheet(&file(drawing, allowance as u64)));
    answers
}

fn by_records(drawing: &Drawing, allowance: usize) -> Vec<String> {
    let (routes, wires) = (&drawing.routes(), &drawing.wires);
    let (nodes, relations) = (&drawing.nodes, &drawing.relations);
    let (threshold, cutoff) = (drawing.threshold, drawing.cutoff);
    let before = words(&(routes, wires));
    let answers = vec![
        words(&measure_edge_node_clearance_bounded(
            routes, nodes, relations, threshold, allowance,
        )),
        words(&try_measure_edge_node_clearance_bounded(
            routes, nodes, relations, threshold, allowance,
        )),
        words(&tight_pair(routes, nodes, relations)),
        words(&measure_parallel_separation_bounded(wires, allowance)),
        words(&try_measure_parallel_separation_bounded(wires, allowance)),
        words(&measure_parallel_density_profile_bounded(
            wires, cutoff, allowance,
        )),
        words(&try_measure_parallel_density_profile_bounded(
            wires, cutoff, allowance,
        )),
        words(&measure_parallel_congestion_profile_bounded(
            wires, cutoff, allowance,
        )),
        words(&try_measure_parallel_congestion_profile_bounded(
            wires, cutoff, allowance,
        )),
        words(&measure_parallel_congestion(wires, cutoff)),
        words(&try_measure_parallel_congestion(wires, cutoff)),
        words(&join(wires)),
    ];
    assert_eq!(words(&(routes, wires)), before);
    answers
}

fn words(answer: &impl Debug) -> String {
    format!("{answer:?}")
}

fn column<E, T>(list: &[E], field: impl Fn(&E) -> T) -> Vec<T> {
    list.iter().map(field).collect()
}

/// The answers by columns, each with what it leaves in the scratch or, of joining, in
/// the output.
fn by_columns(drawing: &Drawing, allowance: usize) -> Vec<String> {
    let (threshold, cutoff) = (drawing.threshold, drawing.cutoff);
    let of_wires = |field: fn(&ParallelSegment) -> f64| column(&drawing.wires, field);
    let of_nodes = |field: fn(&NodeGeometry) -> f64| column(&drawing.nodes, field);
    let segments = SegmentColumns {
        net: &column(&drawing.wires, |wire| wire.net),
        orientation: &column(&drawing.wires, |wire| u8::from(wire.horizontal)),
        fixed: &of_wires(|wire| wire.fixed),
        start: &of_wires(|wire| wire.start),
        end: &of_wires(|wire| wire.end),
    };
    let nodes = NodeColumns {
        id: &column(&drawing.nodes, |node| node.id),
        x: &of_nodes(|node| node.x),
        y: &of_nodes(|node| node.y),
        width: &of_nodes(|node| node.width),
        height: &of_nodes(|node| node.height),
    };
    let relations = RelationColumns {
        net: &column(&drawing.relations, |relation| relation.net),
        node: &column(&drawing.relations, |relation| relation.node),
    };
    let before = words(&segments);
    let need = scratch_words(drawing.wires.len(), drawing.nodes.len());
    let mut scratch = vec![0x5555_5555_5555_5555; need];
    let mut answers = Vec::new();
    let clearance = columns::clearance(
        segments,
        nodes,
        relations,
        threshold,
        allowance,
        &mut scratch,
    );
    answers.push(words(&(clearance, &scratch)));
    let separation = columns::separation(segments, allowance, &mut scratch);
    answers.push(words(&(separation, &scratch)));
    let density = columns::density_profile(segments, cutoff, allowance, &mut scratch);
    answers.push(words(&(density, &scratch)));
    let profile = columns::congestion_profile(segments, cutoff, allowance, &mut scratch);
    answers.push(words(&(profile, &scratch)));
    let congestion = columns::congestion(segments, cutoff, &mut scratch);
    answers.push(words(&(congestion, &scratch)));
    answers.push(words(&columns::tight_pair(segments, nodes, relations)));
    answers.push(joined(segments));
    assert_eq!(words(&segments), before);
    answers
}

/// What joining by columns gives, with what it leaves in columns as long as the
/// segments'.
fn joined(segments: SegmentColumns<'_>) -> String {
    let mut net = vec![0; segments.net.len()];
    let mut orientation = vec![0; segments.net.len()];
    let mut floats = [(); 3].map(|()| vec![0.0; segments.net.len()]);
    let [fixed, start, end] = &mut floats;
    let pieces = PieceColumns {
        net: &mut net,
        orientation: &mut orientation,
        fixed,
        start,
        end,
    };
    let joined = columns::join(segments, pieces);
    words(&(joined, net, orientation, floats))
}

#[test]
fn every_call_answers_alike_in_every_direction() {
    let mut some_reversed = 0;
    for (numbers, seed, drawing) in drawings(EACH) {
        let rising = drawing.rising();
        some_reversed += usize::from(rising.wires != drawing.wires);
        for allowance in [0, 3, 16, usize::MAX] {
            let expected = answers(&rising, allowance);
            for other in [&drawing, &drawing.reversed(), &rising.reversed()] {
                let about = format!("{numbers:?} {seed} {allowance}");
                assert_eq!(answers(other, allowance), expected, "{about}");
            }
        }
    }
    assert!(some_reversed > 4 * EACH as usize, "{some_reversed}");
}

/// Unfit in one direction is unfit in the other.
#[test]
fn unfit_ends_are_unfit_in_every_direction() {
    let ends = [
        (5.0, 5.0),
        (0.0, -0.0),
        (f64::NAN, 3.0),
        (f64::INFINITY, 3.0),
        (f64::NEG_INFINITY, 3.0),
        (f64::INFINITY, f64::NEG_INFINITY),
    ];
    for (start, end) in ends {
        let mut drawing = drawing_d();
        (drawing.wires[0].start, drawing.wires[0].end) = (start, end);
        let expected = answers(&drawing, 1_000);
        assert!(expected[1].contains("InvalidInput"), "{}", expected[1]);
        assert_eq!(answers(&drawing.reversed(), 1_000), expected, "{start}");
    }
}

/// D with net 2 from 15 to 5, and with both wires reversed: its figures, its
/// visits, and 7 one visit below each.
#[test]
fn drawing_d_is_d_in_every_direction() {
    let d = drawing_d();
    let mut net_2_reversed = drawing_d();
    net_2_reversed.wires[1] = reversed(d.wires[1]);
    for other in [net_2_reversed, d.reversed()] {
        for allowance in [1, 2, 3, 4, 15, 16, 1_000] {
            assert_eq!(answers(&other, allowance), answers(&d, allowance));
        }
    }
    let lines = [
        "clearance 3ff0000000000000 1 2\n",
        "separation 4010000000000000 4010000000000000 16\n",
        "congestion 4034000000000000 4024000000000000 4014000000000000 1 4010000000000000 4\n",
    ];
    assert_eq!(sheet(&file(&d.reversed(), 1_000)), lines.concat());
}

/// Two nets lie on one another though they run in opposite directions.
#[test]
fn one_wire_both_ways_is_at_0() {
    let wire = drawing_d().wires[0];
    let back = ParallelSegment {
        net: 2,
        ..reversed(wire)
    };
    let measured = measure_parallel_separation_bounded(&[wire, back], 1_000);
    let separation = measured.expect("the wires are fit");
    assert_eq!(separation.minimum, Some(0.0));
    assert_eq!(separation.minimum_positive, None);
    let congestion = measure_parallel_congestion(&[wire, back], 1.0);
    assert_eq!(congestion.total_length, 20.0);
    assert_eq!(congestion.congested_length, 20.0);
}
