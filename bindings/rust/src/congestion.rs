//! Congestion of parallel wires.

use crate::{
    columns, exported,
    refusal::Refusal,
    separation::ParallelSegment,
    unpack::{scratch_for, Segments},
};

/// Lengths of wires that run side by side. Two wires are close where they have
/// the same orientation, an overlap of positive length and a gap below the
/// cutoff.
#[derive(Clone, Copy, Debug, Default, PartialEq)]
pub struct ParallelCongestion {
    /// The length of all wires.
    pub total_length: f64,
    /// The length of each wire's stretches with a close wire of another net,
    /// summed.
    pub congested_length: f64,
    /// The overlap of each close pair of different nets, summed.
    pub pair_overlap_length: f64,
    /// The most wires of other nets that are close to one wire on one stretch.
    pub peak_close_neighbors: usize,
}

impl ParallelCongestion {
    /// What [`measure_parallel_congestion`] answers for a drawing that is
    /// refused: the greatest lengths and count that there are, with a ratio of
    /// 1. No drawing has these figures.
    pub const REFUSED: Self = Self {
        total_length: f64::MAX,
        congested_length: f64::MAX,
        pair_overlap_length: f64::MAX,
        peak_close_neighbors: usize::MAX,
    };

    /// The congested part of the total length, from 0 to 1; 0 unless the total
    /// is above 0.
    pub fn ratio(self) -> f64 {
        exported::ratio(self.total_length, self.congested_length)
    }
}

/// The figures of congestion with what the sweep finds besides.
#[derive(Clone, Copy, Debug, PartialEq)]
pub struct CongestionReport {
    /// The figures.
    pub congestion: ParallelCongestion,
    /// The least gap of a close pair of different nets that is not 0.
    pub minimum_positive: Option<f64>,
    /// The least allowance that is enough for this drawing.
    pub visits: usize,
}

impl CongestionReport {
    /// What the module's two profiles return.
    fn profile(self) -> (ParallelCongestion, Option<f64>) {
        (self.congestion, self.minimum_positive)
    }
}

/// Measures congestion, however many visits it takes.
///
/// A drawing that is refused (more than 4,096 segments, an unfit one, or a
/// coordinate or cutoff off the grid) has the figures
/// [`ParallelCongestion::REFUSED`]; [`try_measure_parallel_congestion`] says why.
pub fn measure_parallel_congestion(
    segments: &[ParallelSegment],
    cutoff: f64,
) -> ParallelCongestion {
    try_measure_parallel_congestion(segments, cutoff)
        .map_or(ParallelCongestion::REFUSED, |report| report.congestion)
}

/// Measures congestion, and the least gap of a close pair that is not 0, but not
/// pair overlap and peak, which are 0. `None` where the drawing takes more than
/// `max_active_visits` or is refused.
pub fn measure_parallel_congestion_profile_bounded(
    segments: &[ParallelSegment],
    cutoff: f64,
    max_active_visits: usize,
) -> Option<(ParallelCongestion, Option<f64>)> {
    try_measure_parallel_congestion_profile_bounded(segments, cutoff, max_active_visits)
        .ok()
        .map(CongestionReport::profile)
}

/// Measures congestion, and the least gap of a close pair that is not 0. `None`
/// where the drawing takes more than `max_active_visits` or is refused.
pub fn measure_parallel_density_profile_bounded(
    segments: &[ParallelSegment],
    cutoff: f64,
    max_active_visits: usize,
) -> Option<(ParallelCongestion, Option<f64>)> {
    try_measure_parallel_density_profile_bounded(segments, cutoff, max_active_visits)
        .ok()
        .map(CongestionReport::profile)
}

/// [`measure_parallel_congestion`] with the least gap and the visits used, and
/// with the refusal as its error.
pub fn try_measure_parallel_congestion(
    segments: &[ParallelSegment],
    cutoff: f64,
) -> Result<CongestionReport, Refusal> {
    columns::congestion(
        Segments::of_wires(segments).columns(),
        cutoff,
        &mut scratch_for(segments.len(), 0),
    )
}

/// [`measure_parallel_congestion_profile_bounded`] with the visits used, and
/// with the refusal as its error.
pub fn try_measure_parallel_congestion_profile_bounded(
    segments: &[ParallelSegment],
    cutoff: f64,
    max_active_visits: usize,
) -> Result<CongestionReport, Refusal> {
    columns::congestion_profile(
        Segments::of_wires(segments).columns(),
        cutoff,
        max_active_visits,
        &mut scratch_for(segments.len(), 0),
    )
}

/// [`measure_parallel_density_profile_bounded`] with the visits used, and
/// with the refusal as its error.
pub fn try_measure_parallel_density_profile_bounded(
    segments: &[ParallelSegment],
    cutoff: f64,
    max_active_visits: usize,
) -> Result<CongestionReport, Refusal> {
    columns::density_profile(
        Segments::of_wires(segments).columns(),
        cutoff,
        max_active_visits,
        &mut scratch_for(segments.len(), 0),
    )
}
