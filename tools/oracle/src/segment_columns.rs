//! The five columns of a list of segments, as a call is lent them to be read or
//! to be written.

use crate::drawing::Segment;

#[derive(Clone, Debug)]
pub struct SegmentColumns {
    pub net: Vec<u32>,
    pub orientation: Vec<u8>,
    pub fixed: Vec<f64>,
    pub start: Vec<f64>,
    pub end: Vec<f64>,
}

impl SegmentColumns {
    pub const NAMES: [&'static str; 5] = ["net", "orientation", "fixed", "start", "end"];

    pub fn of(segments: &[Segment]) -> Self {
        Self {
            net: segments.iter().map(|segment| segment.net).collect(),
            orientation: segments.iter().map(|segment| segment.orientation).collect(),
            fixed: segments.iter().map(|segment| segment.fixed).collect(),
            start: segments.iter().map(|segment| segment.start).collect(),
            end: segments.iter().map(|segment| segment.end).collect(),
        }
    }

    /// Columns of these lengths, each entry with the bits of a word.
    pub fn of_words(lengths: [usize; 5], mut word: impl FnMut() -> u64) -> Self {
        Self {
            net: (0..lengths[0]).map(|_| word() as u32).collect(),
            orientation: (0..lengths[1]).map(|_| word() as u8).collect(),
            fixed: (0..lengths[2]).map(|_| f64::from_bits(word())).collect(),
            start: (0..lengths[3]).map(|_| f64::from_bits(word())).collect(),
            end: (0..lengths[4]).map(|_| f64::from_bits(word())).collect(),
        }
    }

    /// Cuts each column to a length, or fills it up with zeros.
    pub fn set_lengths(&mut self, lengths: [usize; 5]) {
        self.net.resize(lengths[0], 0);
        self.orientation.resize(lengths[1], 0);
        self.fixed.resize(lengths[2], 0.0);
        self.start.resize(lengths[3], 0.0);
        self.end.resize(lengths[4], 0.0);
    }

    /// Writes segments to the front of the columns, which are long enough.
    pub fn write(&mut self, segments: &[Segment]) {
        for (place, segment) in segments.iter().enumerate() {
            self.net[place] = segment.net;
            self.orientation[place] = segment.orientation;
            self.fixed[place] = segment.fixed;
            self.start[place] = segment.start;
            self.end[place] = segment.end;
        }
    }

    /// The entries of each column, floats by their bits.
    pub fn words(&self) -> [Vec<u64>; 5] {
        [
            self.net.iter().copied().map(u64::from).collect(),
            self.orientation.iter().copied().map(u64::from).collect(),
            bits(&self.fixed).collect(),
            bits(&self.start).collect(),
            bits(&self.end).collect(),
        ]
    }
}

fn bits(column: &[f64]) -> impl Iterator<Item = u64> + '_ {
    column.iter().map(|value| value.to_bits())
}

/// Two are equal where they are the same bit by bit.
impl PartialEq for SegmentColumns {
    fn eq(&self, other: &Self) -> bool {
        self.net == other.net
            && self.orientation == other.orientation
            && bits(&self.fixed).eq(bits(&other.fixed))
            && bits(&self.start).eq(bits(&other.start))
            && bits(&self.end).eq(bits(&other.end))
    }
}
