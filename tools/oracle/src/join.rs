//! The joining of one list of segments: our own joiner against the points of the
//! lines, and the port's join against our joiner, bit by bit: status, words, the
//! five output columns with what lies past the pieces and past what was lent, and
//! the input columns.

use crate::{
    drawing::Segment,
    joined_points,
    joiner::{joined, order, Answer},
    random::Random,
    refusals::{before_join, Refusal, CALL_LIMITS},
    segment_columns::SegmentColumns,
};

/// A join by columns: it reads the first ones and writes to the second ones, of
/// which so many entries are lent. It returns its status and its two words.
pub type Join = fn(&SegmentColumns, &mut SegmentColumns, [usize; 5]) -> (u32, [u64; 2]);

/// The port's, where it is linked.
#[cfg(port)]
pub const PORT: Option<Join> = Some(crate::port::run_join);
#[cfg(not(port))]
pub const PORT: Option<Join> = None;

/// Entries after the lent ones, to see that nothing is written there.
const GUARDS: usize = 4;

/// The faults that a call can have, in the order of checking.
const FAULTS: [Refusal; 4] = [
    Refusal::Columns,
    Refusal::TooMany,
    Refusal::Unfit,
    Refusal::ShortOutput,
];

/// Joins a list, and what can be made of it, and returns what differs.
pub fn differences(segments: &[Segment], random: Random, join: Option<Join>) -> Vec<String> {
    let mut tried = Tried::new(random, join);
    let count = segments.len();
    let columns = SegmentColumns::of(segments);
    if let Some(refusal) = before_join(segments, [count; 5]) {
        for room in [0, count] {
            let about = format!("outputs of {room}");
            tried.compare(&about, &columns, [room; 5], &Err(refusal));
        }
        return tried.found;
    }
    let pieces = joined(segments);
    tried.compare_points(segments, &pieces);
    tried.compare_other_lists(segments, &pieces);
    tried.compare_rooms(&columns, &pieces);
    if !segments.is_empty() {
        tried.compare_faults(segments, pieces.len());
    }
    tried.found
}

/// Joins lists about as long as the port's short table is for, about as long as a
/// list may be, and longer ones, of which some segments meet.
pub fn differences_at_sizes(join: Option<Join>) -> Vec<String> {
    let mut found = Vec::new();
    for count in [127, 128, 129, 4_095, 4_096, 4_097, 5_000] {
        let mut random = Random::new(count);
        let segments: Vec<Segment> = (0..count).map(|_| short_segment(&mut random)).collect();
        for difference in differences(&segments, random, join) {
            found.push(format!("{count} segments: {difference}"));
        }
    }
    found
}

/// A segment as the order of pieces compares it.
fn taken(segment: &Segment) -> Segment {
    segment.rising().with_plus_zeros()
}

/// On one of 30 lines, of three nets.
fn short_segment(random: &mut Random) -> Segment {
    let start = random.below(2_000) as f64;
    Segment {
        net: random.below(3) as u32,
        orientation: random.below(2) as u8,
        fixed: random.below(5) as f64,
        start,
        end: start + random.between(1, 7) as f64,
    }
}

/// Gives a segment something that refusal 5 names.
pub fn spoil(segment: &mut Segment, random: &mut Random) {
    let not_finite = random.pick(&[f64::NAN, f64::INFINITY, f64::NEG_INFINITY]);
    match random.below(7) {
        0 => segment.orientation = random.pick(&[2, 3, 128, 255]),
        1 => segment.fixed = not_finite,
        2 => segment.start = not_finite,
        3 => segment.end = not_finite,
        4 => segment.start = segment.end,
        5 => (segment.start, segment.end) = (-0.0, 0.0),
        _ => (segment.start, segment.end) = (0.0, -0.0),
    }
}

/// What lists are tried with, and what was found.
pub struct Tried {
    random: Random,
    join: Option<Join>,
    pub found: Vec<String>,
}

impl Tried {
    pub fn new(random: Random, join: Option<Join>) -> Self {
        Self {
            random,
            join,
            found: Vec::new(),
        }
    }

    pub fn compare_points(&mut self, segments: &[Segment], pieces: &[Segment]) {
        let fault = joined_points::fault(segments, pieces);
        self.found
            .extend(fault.map(|fault| format!("our joiner: {fault}")));
    }

    /// The same points by other lists, which join to the very same pieces: the
    /// entries in another order, each in the one direction and in the other, in the
    /// order of pieces, which the port does not sort, in that order but for the last
    /// two, and the pieces themselves, of which none goes away (SCOPE 16.5). Output
    /// columns have room for the pieces, or for the list, or lack one entry.
    pub fn compare_other_lists(&mut self, segments: &[Segment], pieces: &[Segment]) {
        let mut reordered = segments.to_vec();
        self.random.shuffle(&mut reordered);
        let rising = segments.iter().map(|segment| segment.rising()).collect();
        let reversed = segments.iter().map(|segment| segment.reversed()).collect();
        let mut in_order = segments.to_vec();
        in_order.sort_by(|one, other| order(&taken(one), &taken(other)));
        let mut last_two_exchanged = in_order.clone();
        if let [.., one, other] = last_two_exchanged.as_mut_slice() {
            std::mem::swap(one, other);
        }
        for (about, list) in [
            ("in another order", reordered),
            ("every segment rising", rising),
            ("every segment reversed", reversed),
            ("in order", in_order),
            ("in order but for the last two", last_two_exchanged),
            ("joined again", pieces.to_vec()),
        ] {
            if SegmentColumns::of(&joined(&list)) != SegmentColumns::of(pieces) {
                let text = format!("our joiner, {about}: other pieces");
                self.found.push(text);
            }
            let columns = SegmentColumns::of(&list);
            for room in [pieces.len(), list.len()] {
                self.compare(about, &columns, [room; 5], &Ok(pieces.to_vec()));
            }
            if let Some(room) = pieces.len().checked_sub(1) {
                self.compare(about, &columns, [room; 5], &Err(Refusal::ShortOutput));
            }
        }
    }

    /// Output columns that are exact, longer, of five different lengths, one short,
    /// missing, and one of the five too short.
    fn compare_rooms(&mut self, columns: &SegmentColumns, pieces: &[Segment]) {
        let need = pieces.len();
        let mut different = [need, need + 1, need + 3, need + 7, need + 5_000];
        self.random.shuffle(&mut different);
        for room in [[need; 5], [need + 3; 5], different] {
            let about = format!("outputs of {room:?}");
            self.compare(&about, columns, room, &Ok(pieces.to_vec()));
        }
        if need == 0 {
            return;
        }
        let mut one_short = different;
        one_short[self.random.below(5)] = need - 1;
        for room in [[need - 1; 5], [0; 5], one_short] {
            let about = format!("outputs of {room:?}");
            self.compare(&about, columns, room, &Err(Refusal::ShortOutput));
        }
    }

    /// Each fault alone, and each two at once, of which the first counts. The list
    /// has entries, and is accepted where so many pieces find room.
    fn compare_faults(&mut self, segments: &[Segment], need: usize) {
        for (place, first) in FAULTS.into_iter().enumerate() {
            self.compare_refusal(segments, need, &[first]);
            for second in &FAULTS[place + 1..] {
                self.compare_refusal(segments, need, &[first, *second]);
            }
        }
    }

    fn compare_refusal(&mut self, segments: &[Segment], need: usize, faults: &[Refusal]) {
        let mut list = segments.to_vec();
        if faults.contains(&Refusal::TooMany) {
            let endless = segments.iter().copied().cycle();
            list = endless.take(CALL_LIMITS.segments + 1).collect();
        }
        if faults.contains(&Refusal::Unfit) {
            let place = self.random.below(list.len());
            spoil(&mut list[place], &mut self.random);
        }
        let mut columns = SegmentColumns::of(&list);
        if faults.contains(&Refusal::Columns) {
            let mut lengths = [list.len(); 5];
            let other = self.random.pick(&[list.len() - 1, list.len() + 1]);
            lengths[self.random.below(5)] = other;
            columns.set_lengths(lengths);
        }
        let short = faults.contains(&Refusal::ShortOutput);
        let room = if short { 0 } else { need };
        let about = format!("with {faults:?}");
        self.compare(&about, &columns, [room; 5], &Err(faults[0]));
    }

    /// One call: what it returns, and what it leaves in the columns.
    pub fn compare(
        &mut self,
        about: &str,
        columns: &SegmentColumns,
        room: [usize; 5],
        answer: &Answer,
    ) {
        let Some(join) = self.join else {
            return;
        };
        let lent = columns.clone();
        let mut expected = self.contents(room.map(|entries| entries + GUARDS));
        let mut written = expected.clone();
        let returned = join(&lent, &mut written, room);
        if let Ok(pieces) = answer {
            expected.write(pieces);
        }
        let mut note = |text: String| self.found.push(format!("the port's join, {about}: {text}"));
        let words = expected_words(answer, columns.net.len());
        if returned != words {
            note(format!("{returned:?}, where {words:?} is expected"));
        }
        if written != expected {
            let difference = first_difference(&written, &expected);
            note(format!("what is lent for the pieces: {difference}"));
        }
        if lent != *columns {
            note("the columns are not as they were lent".to_string());
        }
    }

    /// What the output columns hold before a call: zeros, ones, or anything.
    fn contents(&mut self, lengths: [usize; 5]) -> SegmentColumns {
        match self.random.below(3) {
            0 => SegmentColumns::of_words(lengths, || 0),
            1 => SegmentColumns::of_words(lengths, || u64::MAX),
            _ => SegmentColumns::of_words(lengths, || self.random.word()),
        }
    }
}

/// The status and the words of an answer to a list of so many entries.
fn expected_words(answer: &Answer, count: usize) -> (u32, [u64; 2]) {
    match answer {
        Ok(pieces) => {
            let gone = count - pieces.len();
            (0, [pieces.len() as u64, gone as u64])
        }
        Err(refusal) => (u32::from(refusal.number()), [0, 0]),
    }
}

/// The first entry that is not the expected one, by its bits.
fn first_difference(written: &SegmentColumns, expected: &SegmentColumns) -> String {
    let columns = written.words().into_iter().zip(expected.words());
    for (name, (written, expected)) in SegmentColumns::NAMES.into_iter().zip(columns) {
        for (place, (found, expected)) in written.iter().zip(&expected).enumerate() {
            if found != expected {
                return format!("{name} {place} is {found:x}, where {expected:x} is expected");
            }
        }
    }
    "other lengths".to_string()
}
