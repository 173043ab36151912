//! Separation of parallel wires.

use crate::{
    columns,
    refusal::Refusal,
    unpack::{scratch_for, Segments},
    NetId,
};

/// A straight wire of one net, along one axis, in either direction: it is measured
/// as if its lesser end had been given first.
#[derive(Clone, Copy, Debug, PartialEq)]
pub struct ParallelSegment {
    /// The net that the wire belongs to.
    pub net: NetId,
    /// Whether it runs along x; otherwise it runs along y.
    pub horizontal: bool,
    /// Its coordinate on the other axis.
    pub fixed: f64,
    /// Where it begins.
    pub start: f64,
    /// Where it ends, above or below `start`. Equal ends, +0 and -0 among them, are
    /// unfit.
    pub end: f64,
}

/// The figures of separation, over the pairs of wires with the same orientation,
/// different nets and an overlap of positive length.
#[derive(Clone, Copy, Debug, Default, PartialEq)]
pub struct ParallelSeparation {
    /// The least gap of their fixed coordinates, 0 on one line; `None` where
    /// there is no such pair.
    pub minimum: Option<f64>,
    /// The least gap that is not 0.
    pub minimum_positive: Option<f64>,
}

/// Why separation was not measured.
#[derive(Clone, Copy, Debug, Eq, PartialEq)]
#[non_exhaustive]
pub enum ParallelSeparationError {
    /// A segment is unfit. A start above its end is fit; the module that these names
    /// come from refuses it.
    InvalidInput,
    /// The drawing takes more visits than were allowed.
    WorkLimitExceeded,
    /// The list holds more than 4,096 entries. The module that these names come
    /// from has no such limit.
    TooManyEntries,
}

/// The figures of separation with the visits used.
#[derive(Clone, Copy, Debug, PartialEq)]
pub struct SeparationReport {
    /// The figures.
    pub separation: ParallelSeparation,
    /// The least allowance that is enough for this drawing.
    pub visits: usize,
}

/// Measures the least separation of parallel wires of different nets. Wires
/// that only meet end to end do not overlap.
///
/// Each node of the sweep's tree that is touched costs a visit; a drawing that
/// takes more than `max_tree_visits` is refused.
pub fn measure_parallel_separation_bounded(
    segments: &[ParallelSegment],
    max_tree_visits: usize,
) -> Result<ParallelSeparation, ParallelSeparationError> {
    try_measure_parallel_separation_bounded(segments, max_tree_visits)
        .map(|report| report.separation)
        .map_err(|refusal| match refusal {
            Refusal::WorkLimitExceeded => ParallelSeparationError::WorkLimitExceeded,
            Refusal::TooManyEntries => ParallelSeparationError::TooManyEntries,
            // Columns and scratch are made here, the grid is congestion's and the output
            // the joiner's: 5 is left.
            _ => ParallelSeparationError::InvalidInput,
        })
}

/// [`measure_parallel_separation_bounded`] with the visits used, and with the
/// refusal as its error.
pub fn try_measure_parallel_separation_bounded(
    segments: &[ParallelSegment],
    max_tree_visits: usize,
) -> Result<SeparationReport, Refusal> {
    columns::separation(
        Segments::of_wires(segments).columns(),
        max_tree_visits,
        &mut scratch_for(segments.len(), 0),
    )
}
