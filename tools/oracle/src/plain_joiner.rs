//! A plain joiner, for the port's to be timed against: the reference has none.
//!
//! It is what a program in Rust would do: check the columns as the call does, gather
//! them into records, sort these with the standard library's sort, and make pieces
//! of them on one walk. The ends are not compared in sorting, since the walk takes
//! the greatest. It needs no second list: the pieces replace the records from the
//! front. A second form of it leaves the checks out, which a program may that has
//! made its list itself; the port's call cannot.

use std::cmp::Ordering;

use crate::{
    drawing::{plus_zero, VERTICAL},
    refusals::CALL_LIMITS,
    segment_columns::SegmentColumns,
};

/// Writes the pieces to the front of other columns and returns how many they are,
/// and how many went away; nothing where the port's call would refuse.
pub fn join(columns: &SegmentColumns, to: &mut SegmentColumns) -> Option<[usize; 2]> {
    if !is_fit(columns) {
        return None;
    }
    let (records, pieces) = joined(columns);
    if lengths(to).iter().any(|&length| length < pieces) {
        return None;
    }
    write(&records, pieces, to);
    Some([pieces, records.len() - pieces])
}

/// The same of segments that are fit, into columns that have room.
pub fn join_unchecked(columns: &SegmentColumns, to: &mut SegmentColumns) -> Option<[usize; 2]> {
    let (records, pieces) = joined(columns);
    write(&records, pieces, to);
    Some([pieces, records.len() - pieces])
}

/// The records, with the pieces at their front, and how many pieces there are.
fn joined(columns: &SegmentColumns) -> (Vec<Record>, usize) {
    let mut records: Vec<Record> = (0..columns.net.len())
        .map(|place| Record::of(columns, place))
        .collect();
    records.sort_unstable_by(Record::order);
    let pieces = merge(&mut records);
    (records, pieces)
}

fn write(records: &[Record], pieces: usize, to: &mut SegmentColumns) {
    for (place, piece) in records[..pieces].iter().enumerate() {
        to.net[place] = (piece.net_and_orientation / 2) as u32;
        to.orientation[place] = 1 - (piece.net_and_orientation % 2) as u8;
        to.fixed[place] = piece.fixed;
        to.start[place] = piece.start;
        to.end[place] = piece.end;
    }
}

fn lengths(columns: &SegmentColumns) -> [usize; 5] {
    [
        columns.net.len(),
        columns.orientation.len(),
        columns.fixed.len(),
        columns.start.len(),
        columns.end.len(),
    ]
}

/// None of refusals 2, 3 and 5 applies.
fn is_fit(columns: &SegmentColumns) -> bool {
    let count = columns.net.len();
    lengths(columns) == [count; 5]
        && count <= CALL_LIMITS.segments
        && (0..count).all(|place| {
            let (fixed, start, end) = (
                columns.fixed[place],
                columns.start[place],
                columns.end[place],
            );
            columns.orientation[place] <= 1
                && fixed.is_finite()
                && start.is_finite()
                && end.is_finite()
                && start != end
        })
}

#[derive(Clone, Copy)]
struct Record {
    /// Twice the net, and 1 more where the segment is vertical: the sort takes up to
    /// a quarter longer where the two are compared one after the other.
    net_and_orientation: u64,
    fixed: f64,
    start: f64,
    end: f64,
}

impl Record {
    fn of(columns: &SegmentColumns, place: usize) -> Self {
        let (start, end) = (columns.start[place], columns.end[place]);
        let (start, end) = if end < start {
            (end, start)
        } else {
            (start, end)
        };
        let vertical = columns.orientation[place] == VERTICAL;
        Self {
            net_and_orientation: 2 * u64::from(columns.net[place]) + u64::from(vertical),
            fixed: plus_zero(columns.fixed[place]),
            start: plus_zero(start),
            end: plus_zero(end),
        }
    }

    fn order(&self, other: &Self) -> Ordering {
        self.net_and_orientation
            .cmp(&other.net_and_orientation)
            .then_with(|| self.fixed.total_cmp(&other.fixed))
            .then_with(|| self.start.total_cmp(&other.start))
    }

    /// Whether the next record in order shares a point with this piece.
    fn reaches(&self, next: &Self) -> bool {
        self.net_and_orientation == next.net_and_orientation
            && self.fixed == next.fixed
            && next.start <= self.end
    }
}

/// Makes pieces of records in order, at their front, and returns how many.
fn merge(records: &mut [Record]) -> usize {
    let mut pieces = 0;
    for place in 0..records.len() {
        let record = records[place];
        if pieces > 0 && records[pieces - 1].reaches(&record) {
            let piece = &mut records[pieces - 1];
            if piece.end < record.end {
                piece.end = record.end;
            }
        } else {
            records[pieces] = record;
            pieces += 1;
        }
    }
    pieces
}
