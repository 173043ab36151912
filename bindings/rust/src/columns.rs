//! The port's own calls: lists by columns, the scratch and the columns for pieces
//! lent by the caller. Nothing is allocated.
//!
//! A call may be given anything. Columns of different lengths, a scratch or an
//! output that is too short and unfit values are refused, in the order of
//! [`Refusal`].
//!
//! What the scratch holds before a call decides nothing. Afterwards all of it is
//! zero where there is a report or [`Refusal::WorkLimitExceeded`], and it is
//! untouched after any other refusal.

use crate::{
    clearance::{ClearanceReport, EdgeNodeClearance, TightPair},
    congestion::{CongestionReport, ParallelCongestion},
    exported,
    join::Joined,
    refusal::Refusal,
    separation::{ParallelSeparation, SeparationReport},
};

/// The most entries that a list may hold.
pub const MOST_ENTRIES: usize = 4_096;

/// The words of scratch that a call needs; more may be lent. The calls that take
/// no nodes count 0 of them.
pub fn scratch_words(segments: usize, nodes: usize) -> usize {
    segments
        .saturating_add(nodes)
        .saturating_mul(32)
        .saturating_add(64)
}

/// Segments by columns: an orientation is 1 where the segment is horizontal and
/// 0 where it is vertical. A start may be above or below its end: which of the two
/// changes no answer.
#[derive(Clone, Copy, Debug, Default)]
#[allow(missing_docs)]
pub struct SegmentColumns<'a> {
    pub net: &'a [u32],
    pub orientation: &'a [u8],
    pub fixed: &'a [f64],
    pub start: &'a [f64],
    pub end: &'a [f64],
}

/// Columns that [`join`] writes pieces to, of the meaning that they have in
/// [`SegmentColumns`]. They need not be equally long: the shortest decides how many
/// pieces there is room for.
#[derive(Debug, Default)]
#[allow(missing_docs)]
pub struct PieceColumns<'a> {
    pub net: &'a mut [u32],
    pub orientation: &'a mut [u8],
    pub fixed: &'a mut [f64],
    pub start: &'a mut [f64],
    pub end: &'a mut [f64],
}

/// Nodes by columns.
#[derive(Clone, Copy, Debug, Default)]
#[allow(missing_docs)]
pub struct NodeColumns<'a> {
    pub id: &'a [u32],
    pub x: &'a [f64],
    pub y: &'a [f64],
    pub width: &'a [f64],
    pub height: &'a [f64],
}

/// Exempt pairs of net and node by columns.
#[derive(Clone, Copy, Debug, Default)]
#[allow(missing_docs)]
pub struct RelationColumns<'a> {
    pub net: &'a [u32],
    pub node: &'a [u32],
}

/// Least clearance and violations.
pub fn clearance(
    segments: SegmentColumns<'_>,
    nodes: NodeColumns<'_>,
    relations: RelationColumns<'_>,
    threshold: f64,
    allowance: usize,
    scratch: &mut [u64],
) -> Result<ClearanceReport, Refusal> {
    let (status, [present, least, violations, visits]) =
        exported::clearance(segments, nodes, relations, threshold, allowance, scratch);
    Refusal::check(status)?;
    Ok(ClearanceReport {
        clearance: EdgeNodeClearance {
            minimum_clearance: gap(present, least),
            violations: count(violations),
        },
        visits: count(visits),
    })
}

/// Least separation, and the least nonzero one.
pub fn separation(
    segments: SegmentColumns<'_>,
    allowance: usize,
    scratch: &mut [u64],
) -> Result<SeparationReport, Refusal> {
    let (status, [present, least, nonzero_present, least_nonzero, visits]) =
        exported::separation(segments, allowance, scratch);
    Refusal::check(status)?;
    Ok(SeparationReport {
        separation: ParallelSeparation {
            minimum: gap(present, least),
            minimum_positive: gap(nonzero_present, least_nonzero),
        },
        visits: count(visits),
    })
}

/// All figures of congestion.
pub fn density_profile(
    segments: SegmentColumns<'_>,
    cutoff: f64,
    allowance: usize,
    scratch: &mut [u64],
) -> Result<CongestionReport, Refusal> {
    congestion_report(exported::density_profile(
        segments, cutoff, allowance, scratch,
    ))
}

/// The figures of congestion with pair overlap and peak zero.
pub fn congestion_profile(
    segments: SegmentColumns<'_>,
    cutoff: f64,
    allowance: usize,
    scratch: &mut [u64],
) -> Result<CongestionReport, Refusal> {
    congestion_report(exported::congestion_profile(
        segments, cutoff, allowance, scratch,
    ))
}

/// All figures of congestion, without an allowance.
pub fn congestion(
    segments: SegmentColumns<'_>,
    cutoff: f64,
    scratch: &mut [u64],
) -> Result<CongestionReport, Refusal> {
    congestion_report(exported::congestion(segments, cutoff, scratch))
}

/// A pair at the least clearance, if there is a pair that is not exempt. Only 2,
/// 3 and 5 are checked.
pub fn tight_pair(
    segments: SegmentColumns<'_>,
    nodes: NodeColumns<'_>,
    relations: RelationColumns<'_>,
) -> Result<Option<TightPair>, Refusal> {
    let (status, [present, segment, node]) = exported::tight_pair(segments, nodes, relations);
    Refusal::check(status)?;
    Ok((present == 1).then_some(TightPair {
        segment: count(segment),
        node: count(node),
    }))
}

/// Joins segments as [`join`](crate::join()) does, and writes the pieces to the
/// front of lent columns. Entries past the last piece keep their contents, and after
/// a refusal all of them do. As many entries as there are segments are always
/// enough.
///
/// Only 2, 3, 5 and 8 are checked; 2 and 3 speak of the segments alone.
///
/// ```
/// use readability::columns::{join, PieceColumns, SegmentColumns};
///
/// let (net, orientation, fixed) = (&[1, 1], &[1, 1], &[0.0, 0.0]);
/// let (start, end) = (&[0.0, 9.0], &[5.0, 5.0]);
/// let segments = SegmentColumns { net, orientation, fixed, start, end };
///
/// let (net, orientation, fixed) = (&mut [0; 2], &mut [0; 2], &mut [0.0; 2]);
/// let (start, end) = (&mut [0.0; 2], &mut [0.0; 2]);
/// let joined = join(segments, PieceColumns { net, orientation, fixed, start, end });
/// assert_eq!(joined.map(|joined| (joined.pieces, joined.gone)), Ok((1, 1)));
/// assert_eq!((start[0], end[0]), (0.0, 9.0));
/// ```
pub fn join(segments: SegmentColumns<'_>, pieces: PieceColumns<'_>) -> Result<Joined, Refusal> {
    let (status, [pieces, gone]) = exported::join(segments, pieces);
    Refusal::check(status)?;
    Ok(Joined {
        pieces: count(pieces),
        gone: count(gone),
    })
}

fn congestion_report((status, words): (u32, [u64; 7])) -> Result<CongestionReport, Refusal> {
    Refusal::check(status)?;
    let [total, congested, pair_overlap, peak, present, least_nonzero, visits] = words;
    Ok(CongestionReport {
        congestion: ParallelCongestion {
            total_length: f64::from_bits(total),
            congested_length: f64::from_bits(congested),
            pair_overlap_length: f64::from_bits(pair_overlap),
            peak_close_neighbors: count(peak),
        },
        minimum_positive: gap(present, least_nonzero),
        visits: count(visits),
    })
}

/// A gap's two words: whether it is present, and its bits.
fn gap(present: u64, bits: u64) -> Option<f64> {
    (present == 1).then(|| f64::from_bits(bits))
}

/// The library counts in words of 64 bits, as `usize` is where it links.
fn count(word: u64) -> usize {
    word as usize
}
