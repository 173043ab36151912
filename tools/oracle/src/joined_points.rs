//! Whether pieces are the joined list of some segments, seen by points of the
//! lines and without joining anything: it shares nothing with `joiner.rs`.
//!
//! On each line of a net the points looked at are all ends of segments and of
//! pieces, and one point between any two neighbouring ends, however close they
//! are: between two neighbouring floats lie points of the real line too. No
//! extent begins or ends within such a gap, so that one point of it speaks for
//! all. Each point must be in some segment exactly where it is in a piece, and in
//! one piece at most. Pieces that share no point and have a point outside them
//! between any two are as few as can be.

use std::cmp::Ordering;

use crate::drawing::Segment;

/// What is wrong with the pieces, in words. The segments have to be fit.
pub fn fault(segments: &[Segment], pieces: &[Segment]) -> Option<String> {
    let form = pieces.iter().find(|piece| !has_form(piece));
    if let Some(piece) = form {
        return Some(format!("{piece:?} is not written as SCOPE 16.4 says"));
    }
    let neighbours = pieces.windows(2).find(|pair| !comes_before(pair));
    if let Some(pair) = neighbours {
        return Some(format!("{:?} does not come after {:?}", pair[1], pair[0]));
    }
    fault_of_points(segments, pieces)
}

/// The start is below the end, and no number is -0, infinite or a NaN.
fn has_form(piece: &Segment) -> bool {
    let numbers = [piece.fixed, piece.start, piece.end];
    let minus_zero = (-0.0_f64).to_bits();
    piece.orientation <= 1
        && piece.start < piece.end
        && numbers
            .iter()
            .all(|number| number.is_finite() && number.to_bits() != minus_zero)
}

/// Whether the first of two pieces comes before the second: by net, then
/// orientation 1 before 0, then fixed, start and end by totalOrder.
fn comes_before(pair: &[Segment]) -> bool {
    let place = |piece: &Segment| (piece.net, 1 - piece.orientation);
    let numbers = |piece: &Segment| [piece.fixed, piece.start, piece.end];
    let mut compared = place(&pair[0]).cmp(&place(&pair[1]));
    for (one, other) in numbers(&pair[0]).iter().zip(&numbers(&pair[1])) {
        compared = compared.then(one.total_cmp(other));
    }
    compared == Ordering::Less
}

/// An extent on a line: a segment's, or a piece's.
#[derive(Clone, Copy)]
struct Extent<'a> {
    segment: &'a Segment,
    is_piece: bool,
}

fn fault_of_points(segments: &[Segment], pieces: &[Segment]) -> Option<String> {
    let of = |segment, is_piece| Extent { segment, is_piece };
    let of_segments = segments.iter().map(|segment| of(segment, false));
    let of_pieces = pieces.iter().map(|piece| of(piece, true));
    let mut extents: Vec<Extent> = of_segments.chain(of_pieces).collect();
    extents.sort_by(compare_lines);
    extents
        .chunk_by(|one, other| compare_lines(one, other).is_eq())
        .find_map(fault_on_line)
}

/// Fixed coordinates are compared as numbers: -0 and +0 are equal.
fn compare_lines(one: &Extent, other: &Extent) -> Ordering {
    let (one, other) = (one.segment, other.segment);
    (one.net, one.orientation)
        .cmp(&(other.net, other.orientation))
        .then(compare_numbers(&one.fixed, &other.fixed))
}

fn compare_numbers(one: &f64, other: &f64) -> Ordering {
    one.partial_cmp(other).expect("every number is finite")
}

/// The points of a line are numbered along it: its ends have even numbers, and
/// the point between two neighbouring ends has the odd number between theirs.
fn fault_on_line(extents: &[Extent]) -> Option<String> {
    let ends = ends(extents);
    let holding = holding(extents, &ends);
    let point = holding
        .iter()
        .position(|[segments, pieces]| *pieces != i64::from(*segments > 0))?;
    let line = extents[0].segment;
    let [segments, pieces] = holding[point];
    Some(format!(
        "net {}, orientation {}, at {:?}: {} is in {segments} segments and {pieces} pieces",
        line.net,
        line.orientation,
        line.fixed,
        in_words(&ends, point)
    ))
}

/// The ends on a line in order, each once.
fn ends(extents: &[Extent]) -> Vec<f64> {
    let mut ends: Vec<f64> = extents
        .iter()
        .flat_map(|extent| [extent.segment.start, extent.segment.end])
        .collect();
    ends.sort_by(compare_numbers);
    ends.dedup();
    ends
}

/// Of each point, how many segments and how many pieces it is in.
fn holding(extents: &[Extent], ends: &[f64]) -> Vec<[i64; 2]> {
    let number = |value: f64| 2 * ends.partition_point(|end| *end < value);
    // First how many more they are than at the point before.
    let mut holding = vec![[0; 2]; 2 * ends.len()];
    for extent in extents {
        let numbers = [extent.segment.start, extent.segment.end].map(number);
        let kind = usize::from(extent.is_piece);
        holding[numbers[0].min(numbers[1])][kind] += 1;
        holding[numbers[0].max(numbers[1]) + 1][kind] -= 1;
    }
    for point in 1..holding.len() {
        let [segments, pieces] = holding[point - 1];
        holding[point][0] += segments;
        holding[point][1] += pieces;
    }
    holding
}

fn in_words(ends: &[f64], point: usize) -> String {
    let end = ends[point / 2];
    match ends.get(point / 2 + 1) {
        Some(next) if point % 2 == 1 => format!("a point between {end:?} and {next:?}"),
        _ => format!("the point {end:?}"),
    }
}
