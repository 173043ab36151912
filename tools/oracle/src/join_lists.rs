//! Lists made for joining, and the comparison of many of them: up to 29 segments
//! on a few lines, with few numbers for their ends, so that they touch, cover and
//! repeat each other; some unfit, some in columns of different lengths, and for
//! some no room.
//!
//! The ends in a list are numbers of one family: small whole ones, floats next to
//! one another, the least ones, the greatest ones, or some of these together. The
//! fixed coordinates are drawn alike.

use crate::{
    drawing::{Segment, HORIZONTAL, VERTICAL},
    join::{spoil, Join, Tried, PORT},
    joiner::{self, Answer},
    random::Random,
    refusals::Refusal,
    segment_columns::SegmentColumns,
};

/// How many lists every run of the comparison joins.
const LISTS: u64 = 100_000;

const MOST_ENTRIES: usize = 29;

const NETS: [u32; 4] = [0, 1, 2, u32::MAX];

/// Where the numbers of a list come from. A zero may be -0.
const FAMILIES: [fn(&mut Random) -> f64; 5] = [
    |random| {
        let whole = random.between(0, 12) as f64;
        random.either_sign(whole)
    },
    next_to_one,
    least,
    greatest,
    |random| {
        let family = random.pick(&[next_to_one, least, greatest]);
        let choices = [-1.0, -0.0, 0.0, 1.0, 2.0, family(random)];
        random.pick(&choices)
    },
];

/// Floats that are neighbours, around 1, where their distance changes.
fn next_to_one(random: &mut Random) -> f64 {
    f64::from_bits(1.0_f64.to_bits() - 8 + random.below(20) as u64)
}

/// Zero and the floats next to it.
fn least(random: &mut Random) -> f64 {
    let value = f64::from_bits(random.below(10) as u64);
    random.either_sign(value)
}

/// The greatest floats, and some that are nearly as great.
fn greatest(random: &mut Random) -> f64 {
    let value = f64::from_bits(f64::MAX.to_bits() - random.below(5) as u64);
    let value = random.pick(&[value, value, 1.79e308, 1e308]);
    random.either_sign(value)
}

/// A call of join: a list, and the lengths of what is lent.
#[derive(Clone)]
pub struct JoinCall {
    pub segments: Vec<Segment>,
    /// How many entries each input column has above those of the list.
    columns_above: [isize; 5],
    /// How many entries each output column has above the pieces; above the
    /// segments, where these are not joined. A column that would have fewer than
    /// none has none.
    room_above: [isize; 5],
}

impl JoinCall {
    pub fn made(random: &mut Random) -> Self {
        let mut segments = segments(random);
        if !segments.is_empty() && random.once_in(8) {
            let place = random.below(segments.len());
            spoil(&mut segments[place], random);
        }
        let mut columns_above = [0; 5];
        if random.once_in(16) {
            columns_above[random.below(5)] = random.pick(&[-1, 1, 2]);
        }
        Self {
            segments,
            columns_above,
            room_above: room_above(random),
        }
    }

    fn columns(&self) -> [usize; 5] {
        let count = self.segments.len();
        self.columns_above
            .map(|above| count.saturating_add_signed(above))
    }

    fn room(&self) -> [usize; 5] {
        let need = match joiner::answer(&self.segments, self.columns(), [usize::MAX; 5]) {
            Ok(pieces) => pieces.len(),
            Err(_) => self.segments.len(),
        };
        self.room_above
            .map(|above| need.saturating_add_signed(above))
    }

    pub fn answer(&self) -> Answer {
        joiner::answer(&self.segments, self.columns(), self.room())
    }

    /// What differs: the call as it is and, where it is accepted, by points and
    /// with other lists of the same points.
    pub fn differences(&self, join: Option<Join>) -> Vec<String> {
        let mut columns = SegmentColumns::of(&self.segments);
        let bytes: Vec<u8> = columns
            .words()
            .concat()
            .iter()
            .flat_map(|word| word.to_be_bytes())
            .collect();
        let mut tried = Tried::new(Random::of_bytes(&bytes), join);
        columns.set_lengths(self.columns());
        let answer = self.answer();
        tried.compare("as made", &columns, self.room(), &answer);
        if let Ok(pieces) = &answer {
            tried.compare_points(&self.segments, pieces);
            tried.compare_other_lists(&self.segments, pieces);
        }
        tried.found
    }

    /// The call with as many segments dropped as still leave a difference.
    fn smallest(&self, join: Option<Join>) -> Self {
        let mut kept = self.clone();
        let mut place = 0;
        while place < kept.segments.len() {
            let mut shorter = kept.clone();
            shorter.segments.remove(place);
            if shorter.differences(join).is_empty() {
                place += 1;
            } else {
                kept = shorter;
                place = 0;
            }
        }
        kept
    }

    /// The call in words.
    fn listing(&self) -> String {
        let mut lines = vec!["segments (net, orientation, fixed, start, end):".to_string()];
        for segment in &self.segments {
            lines.push(format!(
                "  ({}, {}, {:?}, {:?}, {:?})",
                segment.net, segment.orientation, segment.fixed, segment.start, segment.end
            ));
        }
        lines.push(format!("in columns of {:?} entries", self.columns()));
        lines.push(format!("to columns of {:?} entries", self.room()));
        lines.join("\n")
    }
}

/// Columns that are exact, longer, one short, missing, of five different lengths,
/// or of which one is short.
fn room_above(random: &mut Random) -> [isize; 5] {
    let mut different = [0, 1, 2, 5, 9];
    random.shuffle(&mut different);
    match random.below(8) {
        0..=2 => [0; 5],
        3 => [3; 5],
        4 => [-1; 5],
        5 => [isize::MIN; 5],
        6 => different,
        _ => {
            different[random.below(5)] = -1;
            different
        }
    }
}

fn segments(random: &mut Random) -> Vec<Segment> {
    let family = random.pick(&FAMILIES);
    let maker = Maker {
        nets: (0..1 + random.below(3))
            .map(|_| random.pick(&NETS))
            .collect(),
        orientations: random.pick(&[&[HORIZONTAL][..], &[VERTICAL], &[HORIZONTAL, VERTICAL]]),
        fixed: (0..1 + random.below(3)).map(|_| family(random)).collect(),
        ends: some_ends(random),
    };
    let mut made: Vec<Segment> = Vec::new();
    for _ in 0..random.below(MOST_ENTRIES + 1) {
        let mut segment = match random.below(6) {
            0 if !made.is_empty() => random.pick(&made),
            1 if !made.is_empty() => maker.beside(&random.pick(&made), random),
            _ => maker.segment(random),
        };
        if random.once_in(3) {
            segment = segment.reversed();
        }
        made.push(segment);
    }
    made
}

/// What the segments of one list are made of. The ends are in order.
struct Maker {
    nets: Vec<u32>,
    orientations: &'static [u8],
    fixed: Vec<f64>,
    ends: Vec<f64>,
}

impl Maker {
    fn segment(&self, random: &mut Random) -> Segment {
        let (start, end) = self.extent(random);
        Segment {
            net: random.pick(&self.nets),
            orientation: random.pick(self.orientations),
            fixed: random.pick(&self.fixed),
            start,
            end,
        }
    }

    /// A segment of the same line that begins where the other one ends.
    fn beside(&self, other: &Segment, random: &mut Random) -> Segment {
        let (start, end) = self.extent(random);
        let farther = if end == other.end { start } else { end };
        Segment {
            start: other.end,
            end: farther,
            ..*other
        }
    }

    /// Mostly a short extent, so that there are gaps too.
    fn extent(&self, random: &mut Random) -> (f64, f64) {
        loop {
            let from = random.below(self.ends.len() - 1);
            let most = random.pick(&[1, 1, 2, self.ends.len()]);
            let to = from + 1 + random.below(most);
            match self.ends.get(to) {
                Some(end) if *end != self.ends[from] => return (self.ends[from], *end),
                _ => {}
            }
        }
    }
}

/// Some numbers of one family, in order. Two of them differ.
fn some_ends(random: &mut Random) -> Vec<f64> {
    let family = random.pick(&FAMILIES);
    let count = 2 + random.below(20);
    let mut ends: Vec<f64> = (0..count).map(|_| family(random)).collect();
    while ends.iter().all(|end| *end == ends[0]) {
        ends.push(family(random));
    }
    ends.sort_by(f64::total_cmp);
    ends
}

/// What was met in the lists.
#[derive(Default)]
pub struct Joins {
    accepted: u64,
    gone: u64,
    short: u64,
    refused: u64,
    pub differ: u64,
    smallest: Option<JoinCall>,
}

impl Joins {
    /// Compares every `step`th list from number `first` on.
    pub fn part(first: u64, step: u64, seed: u64) -> Self {
        let mut joins = Self::default();
        for index in (first..LISTS).step_by(step as usize) {
            // Numbered from the other end, so that no drawing has its generator.
            let mut random = Random::for_drawing(seed, u64::MAX - index);
            joins.add(JoinCall::made(&mut random));
        }
        joins
    }

    fn add(&mut self, call: JoinCall) {
        match call.answer() {
            Ok(pieces) => {
                self.accepted += 1;
                self.gone += (call.segments.len() - pieces.len()) as u64;
            }
            Err(Refusal::ShortOutput) => self.short += 1,
            Err(_) => self.refused += 1,
        }
        if !call.differences(PORT).is_empty() {
            self.differ += 1;
            self.note_smallest(call);
        }
    }

    /// What another thread met besides.
    pub fn join(&mut self, other: Self) {
        self.accepted += other.accepted;
        self.gone += other.gone;
        self.short += other.short;
        self.refused += other.refused;
        self.differ += other.differ;
        if let Some(call) = other.smallest {
            self.note_smallest(call);
        }
    }

    fn note_smallest(&mut self, call: JoinCall) {
        let fewest = self.smallest.as_ref().map(|kept| kept.segments.len());
        if fewest.is_none_or(|fewest| call.segments.len() < fewest) {
            self.smallest = Some(call);
        }
    }

    pub fn summary(&self) -> String {
        format!(
            "{} lists, {} accepted, in which {} pieces went away, {} refused with 8, {} with 2 or 5; {} differ",
            self.accepted + self.short + self.refused,
            self.accepted,
            self.gone,
            self.short,
            self.refused,
            self.differ
        )
    }

    /// The smallest list that differs, as small as it can be made, if one does.
    pub fn smallest_difference(&self) -> Option<String> {
        let call = self.smallest.as_ref()?.smallest(PORT);
        let found = call.differences(PORT).join("\n");
        Some(format!("{}\n{found}", call.listing()))
    }
}
