//! Joining the wires of one conductor.

use crate::{columns, refusal::Refusal, separation::ParallelSegment, unpack::Segments};

/// How many pieces were written, and how many went away.
#[derive(Clone, Copy, Debug, Eq, Hash, PartialEq)]
pub struct Joined {
    /// The pieces that were written.
    pub pieces: usize,
    /// The segments less the pieces.
    pub gone: usize,
}

/// Joins wires of one net that lie on one line: the fewest pieces of each net,
/// orientation and fixed coordinate that cover the same points of the real line.
///
/// Wires that touch at an end become one piece. Where one ends at a float and the
/// next starts at the next greater float, they do not touch. Each piece has its start
/// below its end, whichever way its wires were given; -0 and +0 are one coordinate,
/// and every zero is +0. The pieces are in the order net, horizontal first, fixed,
/// start, end, floats by [`f64::total_cmp`]. Nothing is rounded, and every finite
/// float is taken.
///
/// The order of the wires decides nothing. Joining the pieces again gives them back,
/// and lists that cover the same points have equal pieces, bit by bit. As many wires
/// went away as the result is shorter than the list.
///
/// Refused are more than 4,096 wires ([`Refusal::TooManyEntries`]) and an unfit one
/// ([`Refusal::InvalidInput`]).
///
/// ```
/// use readability::{join, ParallelSegment};
///
/// let wire = |start, end| ParallelSegment { net: 1, horizontal: true, fixed: 0.0, start, end };
/// let wires = [wire(12.0, 20.0), wire(0.0, 5.0), wire(9.0, 5.0)];
/// let pieces = join(&wires).expect("the wires are fit");
/// assert_eq!(pieces, [wire(0.0, 9.0), wire(12.0, 20.0)]);
/// assert_eq!(wires.len() - pieces.len(), 1);
/// assert_eq!(join(&pieces), Ok(pieces));
/// ```
pub fn join(segments: &[ParallelSegment]) -> Result<Vec<ParallelSegment>, Refusal> {
    let mut pieces = Segments::room_for_pieces(segments.len());
    let joined = columns::join(Segments::of_wires(segments).columns(), pieces.lent())?;
    Ok(pieces.first(joined.pieces))
}
