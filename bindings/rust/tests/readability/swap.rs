//! The swap: one piece of code, compiled once with the names of the original
//! module and once with those of this crate, gives the same, bit by bit.
//!
//! The original is asked only where SCOPE 9 has no departure from it: it is fed
//! each wire with its lesser end first, and in congestion drawings on the grid,
//! with a segment at least and +0 for every zero.

/// A caller of the module. Nothing in it but the `use` depends on where the names
/// come from. It works as far as both have the same signatures, fields, variants
/// and traits; its answers are bits.
#[cfg(original)]
macro_rules! caller {
    ($name:ident, $($from:ident)::+) => {
        mod $name {
            use std::fmt::Debug;

            use crate::drawing::Drawing;
            use $($from)::+::{
                measure_edge_node_clearance_bounded, measure_parallel_congestion,
                measure_parallel_congestion_profile_bounded,
                measure_parallel_density_profile_bounded, measure_parallel_separation_bounded,
                EdgeNodeClearance, EdgeNodeClearanceError, EdgeNodeSegment, NetId,
                NetNodeRelation, NodeGeometry, NodeId, ParallelCongestion, ParallelSegment,
                ParallelSeparation, ParallelSeparationError,
            };

            type Clearance = fn(
                &[EdgeNodeSegment],
                &[NodeGeometry],
                &[NetNodeRelation],
                f64,
                usize,
            ) -> Result<EdgeNodeClearance, EdgeNodeClearanceError>;
            type Separation = fn(
                &[ParallelSegment],
                usize,
            ) -> Result<ParallelSeparation, ParallelSeparationError>;
            type Profile =
                fn(&[ParallelSegment], f64, usize) -> Option<(ParallelCongestion, Option<f64>)>;
            type Congestion = fn(&[ParallelSegment], f64) -> ParallelCongestion;

            const CLEARANCE: Clearance = measure_edge_node_clearance_bounded;
            const SEPARATION: Separation = measure_parallel_separation_bounded;
            const PROFILE: Profile = measure_parallel_congestion_profile_bounded;
            const DENSITY: Profile = measure_parallel_density_profile_bounded;
            const CONGESTION: Congestion = measure_parallel_congestion;

            pub fn clearance(drawing: &Drawing, limit: usize) -> String {
                let segments: Vec<EdgeNodeSegment> = drawing
                    .wires
                    .iter()
                    .map(|wire| EdgeNodeSegment {
                        net: wire.net,
                        horizontal: wire.horizontal,
                        fixed: wire.fixed,
                        start: wire.start,
                        end: wire.end,
                    })
                    .collect();
                let nodes: Vec<NodeGeometry> = drawing
                    .nodes
                    .iter()
                    .map(|node| NodeGeometry {
                        id: node.id,
                        x: node.x,
                        y: node.y,
                        width: node.width,
                        height: node.height,
                    })
                    .collect();
                let relations: Vec<NetNodeRelation> = drawing
                    .relations
                    .iter()
                    .map(|relation| NetNodeRelation {
                        net: relation.net,
                        node: relation.node,
                    })
                    .collect();
                #[allow(unreachable_patterns)]
                match CLEARANCE(&segments, &nodes, &relations, drawing.threshold, limit) {
                    Ok(EdgeNodeClearance {
                        minimum_clearance,
                        violations,
                    }) => format!("{:?} {violations}", bits(minimum_clearance)),
                    Err(EdgeNodeClearanceError::InvalidInput) => "unfit".to_string(),
                    Err(EdgeNodeClearanceError::WorkLimitExceeded) => "spent".to_string(),
                    Err(other) => format!("{other:?}"),
                }
            }

            pub fn separation(drawing: &Drawing, limit: usize) -> String {
                #[allow(unreachable_patterns)]
                match SEPARATION(&wires(drawing), limit) {
                    Ok(ParallelSeparation {
                        minimum,
                        minimum_positive,
                    }) => format!("{:?} {:?}", bits(minimum), bits(minimum_positive)),
                    Err(ParallelSeparationError::InvalidInput) => "unfit".to_string(),
                    Err(ParallelSeparationError::WorkLimitExceeded) => "spent".to_string(),
                    Err(other) => format!("{other:?}"),
                }
            }

            pub fn profile(drawing: &Drawing, limit: usize) -> String {
                of_profile(PROFILE(&wires(drawing), drawing.cutoff, limit))
            }

            pub fn density(drawing: &Drawing, limit: usize) -> String {
                of_profile(DENSITY(&wires(drawing), drawing.cutoff, limit))
            }

            pub fn congestion(drawing: &Drawing) -> String {
                of_congestion(CONGESTION(&wires(drawing), drawing.cutoff))
            }

            fn wires(drawing: &Drawing) -> Vec<ParallelSegment> {
                drawing
                    .wires
                    .iter()
                    .map(|wire| ParallelSegment {
                        net: wire.net,
                        horizontal: wire.horizontal,
                        fixed: wire.fixed,
                        start: wire.start,
                        end: wire.end,
                    })
                    .collect()
            }

            fn of_profile(measured: Option<(ParallelCongestion, Option<f64>)>) -> String {
                match measured {
                    Some((congestion, gap)) => {
                        format!("{} {:?}", of_congestion(congestion), bits(gap))
                    }
                    None => "spent".to_string(),
                }
            }

            fn of_congestion(congestion: ParallelCongestion) -> String {
                let ratio = congestion.ratio().to_bits();
                let ParallelCongestion {
                    total_length,
                    congested_length,
                    pair_overlap_length,
                    peak_close_neighbors,
                } = congestion;
                let lengths = [total_length, congested_length, pair_overlap_length];
                format!("{:x?} {peak_close_neighbors} {ratio:x}", lengths.map(f64::to_bits))
            }

            fn bits(gap: Option<f64>) -> Option<u64> {
                gap.map(f64::to_bits)
            }

            /// Compiles only where the types have the traits.
            pub fn traits() -> (NetId, NodeId) {
                fn value<T: Clone + Debug + PartialEq>() {}
                fn copied<T: Copy>() {}
                fn with_default<T: Default>() {}
                fn ordered<T: Eq + Ord>() {}
                fn equal<T: Eq>() {}
                value::<EdgeNodeSegment>();
                value::<NodeGeometry>();
                value::<NetNodeRelation>();
                value::<EdgeNodeClearance>();
                value::<EdgeNodeClearanceError>();
                value::<ParallelSegment>();
                value::<ParallelSeparation>();
                value::<ParallelSeparationError>();
                value::<ParallelCongestion>();
                copied::<EdgeNodeSegment>();
                copied::<NetNodeRelation>();
                copied::<EdgeNodeClearance>();
                copied::<EdgeNodeClearanceError>();
                copied::<ParallelSegment>();
                copied::<ParallelSeparation>();
                copied::<ParallelSeparationError>();
                copied::<ParallelCongestion>();
                with_default::<EdgeNodeClearance>();
                with_default::<ParallelSeparation>();
                with_default::<ParallelCongestion>();
                ordered::<NetNodeRelation>();
                equal::<EdgeNodeClearanceError>();
                equal::<ParallelSeparationError>();
                (u32::MAX, u32::MAX)
            }
        }
    };
}

/// The names as the drawing library has them at its root. The original module
/// takes the first three from there and does not define them, so they are this
/// package's on both sides: of these three the tests show nothing.
#[cfg(original)]
mod drawing_library {
    pub use readability::{NetId, NodeGeometry, NodeId};

    pub(crate) use crate::original::*;
}

#[cfg(original)]
caller!(before, super::drawing_library);
#[cfg(original)]
caller!(after, readability);

#[cfg(original)]
mod tests {
    use super::{after, before};
    use crate::{
        drawing::{drawing_d, horizontal, node, reversed, Drawing},
        generate::drawings,
    };
    use readability::{
        measure_parallel_congestion, try_measure_edge_node_clearance_bounded,
        try_measure_parallel_density_profile_bounded, try_measure_parallel_separation_bounded,
    };

    /// Drawings of each kind of numbers.
    const EACH: u64 = 200;

    /// Limits around the visit count, which the original keeps to itself: it has
    /// to accept from the same limit on.
    fn limits(visits: usize) -> [usize; 6] {
        let below = visits.saturating_sub(1);
        [0, visits / 2, below, visits, visits + 1, usize::MAX]
    }

    fn assert_same_clearance(drawing: &Drawing, limit: usize) {
        assert_eq!(
            after::clearance(drawing, limit),
            before::clearance(&drawing.rising(), limit),
            "{drawing:?}"
        );
    }

    fn assert_same_separation(drawing: &Drawing, limit: usize) {
        assert_eq!(
            after::separation(drawing, limit),
            before::separation(&drawing.rising(), limit),
            "{drawing:?}"
        );
    }

    #[test]
    fn the_names_have_the_same_types_and_traits() {
        assert_eq!(after::traits(), before::traits());
    }

    #[test]
    fn clearance_is_the_originals() {
        for (_, _, drawing) in drawings(EACH) {
            let report = try_measure_edge_node_clearance_bounded(
                &drawing.routes(),
                &drawing.nodes,
                &drawing.relations,
                drawing.threshold,
                usize::MAX,
            );
            for limit in limits(report.expect("the drawing is fit").visits) {
                assert_same_clearance(&drawing, limit);
            }
        }
    }

    #[test]
    fn separation_is_the_originals() {
        for (_, _, drawing) in drawings(EACH) {
            let report = try_measure_parallel_separation_bounded(&drawing.wires, usize::MAX);
            for limit in limits(report.expect("the drawing is fit").visits) {
                assert_same_separation(&drawing, limit);
            }
        }
    }

    #[test]
    fn congestion_is_the_originals() {
        for (numbers, seed, mut drawing) in drawings(EACH) {
            if !numbers.on_grid() || drawing.wires.is_empty() {
                continue;
            }
            for wire in &mut drawing.wires {
                // -0 + 0 is +0, and any other number stays.
                wire.fixed += 0.0;
                wire.start += 0.0;
                wire.end += 0.0;
            }
            let about = format!("{numbers:?} {seed}");
            let rising = drawing.rising();
            assert_eq!(
                after::congestion(&drawing),
                before::congestion(&rising),
                "{about}"
            );
            let report = try_measure_parallel_density_profile_bounded(
                &drawing.wires,
                drawing.cutoff,
                usize::MAX,
            );
            let visits = report.expect("the drawing is fit").visits;
            for limit in limits(visits) {
                assert_eq!(
                    after::density(&drawing, limit),
                    before::density(&rising, limit),
                    "{about}"
                );
                assert_eq!(
                    after::profile(&drawing, limit),
                    before::profile(&rising, limit),
                    "{about}"
                );
            }
        }
    }

    #[test]
    fn unfit_input_is_the_originals() {
        let numbers = [
            f64::NAN,
            f64::INFINITY,
            f64::NEG_INFINITY,
            -1.0,
            -0.0,
            1e308,
        ];
        for number in numbers {
            let mut drawings = vec![drawing_d(); 8];
            drawings[0].wires.push(horizontal(1, number, 0.0, 1.0));
            drawings[1].wires.push(horizontal(1, 0.0, number, 1.0));
            drawings[2].wires.push(horizontal(1, 0.0, 0.0, number));
            drawings[3].nodes.push(node(1, number, 0.0, 1e308, 1.0));
            drawings[4].nodes.push(node(1, 0.0, number, 1.0, 1e308));
            drawings[5].nodes.push(node(1, 0.0, 0.0, number, 1.0));
            drawings[6].nodes.push(node(1, 0.0, 0.0, 1.0, number));
            drawings[7].threshold = number;
            for drawing in drawings {
                for limit in [0, usize::MAX] {
                    assert_same_clearance(&drawing, limit);
                    assert_same_separation(&drawing, limit);
                }
            }
        }
    }

    /// The original, fed the wires as they are given, refuses what is measured here.
    #[test]
    fn a_reversed_wire_is_the_originals_invalid_input() {
        let mut drawing = drawing_d();
        drawing.wires[1] = reversed(drawing.wires[1]);
        assert_eq!(before::clearance(&drawing, usize::MAX), "unfit");
        assert_eq!(before::separation(&drawing, usize::MAX), "unfit");
        assert_same_clearance(&drawing, usize::MAX);
        assert_same_separation(&drawing, usize::MAX);
        assert_ne!(after::clearance(&drawing, usize::MAX), "unfit");
        assert_ne!(after::separation(&drawing, usize::MAX), "unfit");
    }

    /// The one departure of a drawing that both accept: the sign of a total.
    #[test]
    fn no_segments_have_a_total_of_plus_0() {
        let ours = measure_parallel_congestion(&[], 1.0);
        let originals = crate::original::measure_parallel_congestion(&[], 1.0);
        assert_eq!(ours.total_length.to_bits(), 0);
        assert_eq!(ours.total_length, originals.total_length);
    }
}

#[cfg(not(original))]
#[test]
#[ignore = "the original readability.rs is not here; READABILITY_RS names its place"]
fn the_swap_gives_the_same() {
    panic!("build the tests with READABILITY_RS set");
}
