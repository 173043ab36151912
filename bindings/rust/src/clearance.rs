//! Clearance of route segments from nodes.

use crate::{
    columns,
    refusal::Refusal,
    unpack::{scratch_for, Nodes, Relations, Segments},
    NetId, NodeId,
};

/// A straight route segment of one net, along one axis, in either direction: it is
/// measured as if its lesser end had been given first.
#[derive(Clone, Copy, Debug, PartialEq)]
pub struct EdgeNodeSegment {
    /// The net that the segment belongs to.
    pub net: NetId,
    /// Whether it runs along x; otherwise it runs along y.
    pub horizontal: bool,
    /// Its coordinate on the other axis.
    pub fixed: f64,
    /// Where it begins.
    pub start: f64,
    /// Where it ends, above or below `start`. Equal ends, +0 and -0 among them, are
    /// unfit.
    pub end: f64,
}

/// The box of a node.
#[derive(Clone, Debug, PartialEq)]
pub struct NodeGeometry {
    /// The node's number.
    pub id: NodeId,
    /// The left edge.
    pub x: f64,
    /// The top edge.
    pub y: f64,
    /// From the left edge to the right one, above 0.
    pub width: f64,
    /// From the top edge to the bottom one, above 0.
    pub height: f64,
}

/// A net and a node that belong together: every segment of the net and every
/// node of that number are exempt from each other.
#[derive(Clone, Copy, Debug, Eq, Ord, PartialEq, PartialOrd)]
pub struct NetNodeRelation {
    /// The net.
    pub net: NetId,
    /// The node.
    pub node: NodeId,
}

/// The figures of clearance.
#[derive(Clone, Copy, Debug, Default, PartialEq)]
pub struct EdgeNodeClearance {
    /// The least distance of a segment and a node over all pairs that are not
    /// exempt; `None` where there is no such pair.
    pub minimum_clearance: Option<f64>,
    /// The pairs that are not exempt and nearer than the threshold.
    pub violations: usize,
}

/// Why clearance was not measured.
#[derive(Clone, Copy, Debug, Eq, PartialEq)]
#[non_exhaustive]
pub enum EdgeNodeClearanceError {
    /// An entry or the threshold is unfit. A start above its end is fit; the module
    /// that these names come from refuses it.
    InvalidInput,
    /// The drawing takes more visits than were allowed.
    WorkLimitExceeded,
    /// A list holds more than 4,096 entries. The module that these names come
    /// from has no such limit.
    TooManyEntries,
}

/// The figures of clearance with the visits used.
#[derive(Clone, Copy, Debug, PartialEq)]
pub struct ClearanceReport {
    /// The figures.
    pub clearance: EdgeNodeClearance,
    /// The least allowance that is enough for this drawing.
    pub visits: usize,
}

/// A segment and a node by their positions in the lists.
#[derive(Clone, Copy, Debug, Eq, Hash, PartialEq)]
pub struct TightPair {
    /// The position of the segment.
    pub segment: usize,
    /// The position of the node.
    pub node: usize,
}

/// Measures the clearance of segments from nodes that are not related to their
/// net. A distance equal to the threshold is no violation.
///
/// Each segment and node that the walk compares costs a visit, related ones
/// included; a drawing that takes more than `max_pair_visits` is refused.
pub fn measure_edge_node_clearance_bounded(
    segments: &[EdgeNodeSegment],
    nodes: &[NodeGeometry],
    relations: &[NetNodeRelation],
    threshold: f64,
    max_pair_visits: usize,
) -> Result<EdgeNodeClearance, EdgeNodeClearanceError> {
    try_measure_edge_node_clearance_bounded(segments, nodes, relations, threshold, max_pair_visits)
        .map(|report| report.clearance)
        .map_err(|refusal| match refusal {
            Refusal::WorkLimitExceeded => EdgeNodeClearanceError::WorkLimitExceeded,
            Refusal::TooManyEntries => EdgeNodeClearanceError::TooManyEntries,
            // Columns and scratch are made here, the grid is congestion's and the output
            // the joiner's: 5 is left.
            _ => EdgeNodeClearanceError::InvalidInput,
        })
}

/// [`measure_edge_node_clearance_bounded`] with the visits used, and with the
/// refusal as its error.
pub fn try_measure_edge_node_clearance_bounded(
    segments: &[EdgeNodeSegment],
    nodes: &[NodeGeometry],
    relations: &[NetNodeRelation],
    threshold: f64,
    max_pair_visits: usize,
) -> Result<ClearanceReport, Refusal> {
    let mut scratch = scratch_for(segments.len(), nodes.len());
    columns::clearance(
        Segments::of_routes(segments).columns(),
        Nodes::of(nodes).columns(),
        Relations::of(relations).columns(),
        threshold,
        max_pair_visits,
        &mut scratch,
    )
}

/// A segment and a node that are not related and whose distance is the least
/// clearance; `None` where every pair is related or there is none. Where several
/// pairs are that near, any of them may come.
pub fn tight_pair(
    segments: &[EdgeNodeSegment],
    nodes: &[NodeGeometry],
    relations: &[NetNodeRelation],
) -> Result<Option<TightPair>, Refusal> {
    columns::tight_pair(
        Segments::of_routes(segments).columns(),
        Nodes::of(nodes).columns(),
        Relations::of(relations).columns(),
    )
}
