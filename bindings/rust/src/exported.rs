//! The functions of the port's library, called with slices. All unsafe code is
//! here.
//!
//! Every call is sound. The pointers and lengths are those of slices that live
//! through it. Only the scratch, the words of the report, the columns of the
//! pieces and the text of the sheet are written, and each is borrowed for writing,
//! so that nothing overlaps it. The library lays no condition on the values or the
//! lengths.

#![allow(unsafe_code)]

use crate::{
    columns::{NodeColumns, PieceColumns, RelationColumns, SegmentColumns},
    declarations::{
        readability_clearance, readability_congestion, readability_congestion_profile,
        readability_density_profile, readability_join, readability_ratio, readability_separation,
        readability_sheet, readability_tight_pair, readability_version_0_3, SHEET_BYTES,
    },
};

/// Calls a function with columns, each as a pointer and a length, then with the
/// other arguments, and last with the words that it writes. Gives its status and
/// the words.
macro_rules! call {
    ($function:ident, [$($column:expr),*], [$($other:expr),*], $words:literal) => {{
        let mut words = [0; $words];
        // SAFETY: see the top of the file.
        let status = unsafe {
            $function($($column.as_ptr(), $column.len(),)* $($other,)* &mut words)
        };
        (status, words)
    }};
}

pub fn clearance(
    segments: SegmentColumns<'_>,
    nodes: NodeColumns<'_>,
    relations: RelationColumns<'_>,
    threshold: f64,
    allowance: usize,
    scratch: &mut [u64],
) -> (u32, [u64; 4]) {
    let (s, n, r) = (segments, nodes, relations);
    call!(
        readability_clearance,
        [
            s.net,
            s.orientation,
            s.fixed,
            s.start,
            s.end,
            n.id,
            n.x,
            n.y,
            n.width,
            n.height,
            r.net,
            r.node
        ],
        [threshold, allowance, scratch.as_mut_ptr(), scratch.len()],
        4
    )
}

pub fn separation(
    segments: SegmentColumns<'_>,
    allowance: usize,
    scratch: &mut [u64],
) -> (u32, [u64; 5]) {
    let s = segments;
    call!(
        readability_separation,
        [s.net, s.orientation, s.fixed, s.start, s.end],
        [allowance, scratch.as_mut_ptr(), scratch.len()],
        5
    )
}

pub fn density_profile(
    segments: SegmentColumns<'_>,
    cutoff: f64,
    allowance: usize,
    scratch: &mut [u64],
) -> (u32, [u64; 7]) {
    let s = segments;
    call!(
        readability_density_profile,
        [s.net, s.orientation, s.fixed, s.start, s.end],
        [cutoff, allowance, scratch.as_mut_ptr(), scratch.len()],
        7
    )
}

pub fn congestion_profile(
    segments: SegmentColumns<'_>,
    cutoff: f64,
    allowance: usize,
    scratch: &mut [u64],
) -> (u32, [u64; 7]) {
    let s = segments;
    call!(
        readability_congestion_profile,
        [s.net, s.orientation, s.fixed, s.start, s.end],
        [cutoff, allowance, scratch.as_mut_ptr(), scratch.len()],
        7
    )
}

pub fn congestion(
    segments: SegmentColumns<'_>,
    cutoff: f64,
    scratch: &mut [u64],
) -> (u32, [u64; 7]) {
    let s = segments;
    call!(
        readability_congestion,
        [s.net, s.orientation, s.fixed, s.start, s.end],
        [cutoff, scratch.as_mut_ptr(), scratch.len()],
        7
    )
}

pub fn tight_pair(
    segments: SegmentColumns<'_>,
    nodes: NodeColumns<'_>,
    relations: RelationColumns<'_>,
) -> (u32, [u64; 3]) {
    let (s, n, r) = (segments, nodes, relations);
    call!(
        readability_tight_pair,
        [
            s.net,
            s.orientation,
            s.fixed,
            s.start,
            s.end,
            n.id,
            n.x,
            n.y,
            n.width,
            n.height,
            r.net,
            r.node
        ],
        [],
        3
    )
}

pub fn join(segments: SegmentColumns<'_>, pieces: PieceColumns<'_>) -> (u32, [u64; 2]) {
    let (s, p) = (segments, pieces);
    call!(
        readability_join,
        [s.net, s.orientation, s.fixed, s.start, s.end],
        [
            p.net.as_mut_ptr(),
            p.net.len(),
            p.orientation.as_mut_ptr(),
            p.orientation.len(),
            p.fixed.as_mut_ptr(),
            p.fixed.len(),
            p.start.as_mut_ptr(),
            p.start.len(),
            p.end.as_mut_ptr(),
            p.end.len()
        ],
        2
    )
}

/// It takes and gives numbers only.
pub fn ratio(total: f64, congested: f64) -> f64 {
    // SAFETY: there is no pointer.
    unsafe { readability_ratio(total, congested) }
}

/// The version, as one number.
pub fn version() -> u32 {
    // SAFETY: there is no pointer.
    unsafe { readability_version_0_3() }
}

/// The length of a sheet's text, and the text with zeros after it.
pub fn sheet(bytes: &[u8]) -> (usize, [u8; SHEET_BYTES]) {
    let mut text = [0; SHEET_BYTES];
    // SAFETY: see the top of the file.
    let length = unsafe { readability_sheet(bytes.as_ptr(), bytes.len(), &mut text) };
    (length, text)
}
