//! The port against the reference's answer to one measure of one drawing, by
//! every call of that measure.

use crate::{
    drawing::{drawing_d, Drawing, Segment, HORIZONTAL, VERTICAL},
    port::{run, run_by_records, run_ratio, scratch_words, Call, Columns, Returned, CALLS},
    random::Random,
    reference::{self, Fed, Run},
    refusals::{before_work, settle},
    report::{Answer, Figure, Measure, Report},
    values::{GRID_END, GRID_STEP},
};

/// Words after the lent scratch, to see that nothing is written there.
const GUARDS: usize = 8;

/// Compares the port with the answer where no allowance runs out. `reordered`
/// holds the same entries in another order, and `fed` what the reference is fed
/// for its other calls. Returns what differs.
pub fn differences(
    measure: Measure,
    drawing: &Drawing,
    reordered: &Drawing,
    fed: &Fed,
    answer: &Answer,
) -> Vec<String> {
    let mut found = Vec::new();
    for call in CALLS {
        if call.measure() != measure {
            continue;
        }
        match answer_by(call, fed, answer) {
            Ok(answer) => found.extend(differences_by(call, drawing, reordered, &answer)),
            Err(run) => found.push(format!("the Rust's {}: {run:?}", call.name())),
        }
    }
    found
}

/// The reference's answer by one call of the measure, where `answer` is its
/// answer by the call that the sheet shows. What the reference keeps to itself
/// is taken from there: the visits, and the gap where there is no limit.
fn answer_by(call: Call, fed: &Fed, answer: &Answer) -> Result<Answer, Run> {
    let Ok(report) = answer else {
        return Ok(answer.clone());
    };
    let figures = match call {
        Call::Clearance | Call::Separation | Call::DensityProfile => report.figures.clone(),
        Call::CongestionProfile => figures_of(fed.run_profile(u64::MAX))?,
        Call::Congestion => {
            let mut figures = figures_of(fed.run_without_limit())?;
            let ratio = figures.len() - 1;
            figures[ratio] = report.figures[ratio];
            figures
        }
    };
    let visits = report.visits;
    Ok(Ok(Report { figures, visits }))
}

fn figures_of(run: Run) -> Result<Vec<Figure>, Run> {
    match run {
        Run::Done(figures) => Ok(figures),
        run => Err(run),
    }
}

fn differences_by(
    call: Call,
    drawing: &Drawing,
    reordered: &Drawing,
    answer: &Answer,
) -> Vec<String> {
    let measure = call.measure();
    let mut tried = Tried {
        call,
        random: drawing.random(),
        found: Vec::new(),
    };
    let need = scratch_words(measure, drawing);
    let more = need + tried.random.below(40);
    for (about, lists, words) in [
        ("lists as given", drawing, need),
        ("lists in another order", reordered, more),
    ] {
        let columns = Columns::of(lists);
        for allowance in allowances(call, drawing, answer) {
            let expected = answer.clone().and_then(|report| settle(report, allowance));
            let about = format!("{about}, allowance {allowance}");
            tried.compare(&about, &columns, words, allowance, &expected);
        }
        if !columns.are_those_of(lists) {
            let call = call.name();
            let difference = "the columns are not as they were lent";
            let found = format!("the port's {call}, {about}: {difference}");
            tried.found.push(found);
        }
    }
    compare_directions(drawing, need, answer, &mut tried);
    compare_refusals(drawing, need, &mut tried);
    tried.found
}

/// The same answer to the drawing with its segments as they are taken, and to the
/// one with every segment reversed: the direction in which a segment is given
/// decides nothing (SCOPE 2.8), refusals and scratch included. One allowance is
/// enough, and the lists as given have been compared under all of them.
fn compare_directions(drawing: &Drawing, need: usize, answer: &Answer, tried: &mut Tried) {
    let allowance = match tried.call {
        Call::Congestion => u64::MAX,
        call => call.measure().allowance(drawing),
    };
    let expected = answer.clone().and_then(|report| settle(report, allowance));
    for (about, lists) in [
        ("every segment rising", drawing.rising()),
        ("every segment reversed", drawing.reversed()),
    ] {
        let columns = Columns::of(&lists);
        tried.compare(about, &columns, need, allowance, &expected);
    }
}

/// Allowances around the visit count, and around the least that the segments in
/// orientations holding at least two can cost, 1 each in congestion and 5 in
/// separation, where the port returns 7 before it walks; the drawing's own where
/// there is no count. A call that is given no allowance counts as having one that
/// always reaches.
fn allowances(call: Call, drawing: &Drawing, answer: &Answer) -> Vec<u64> {
    let own = call.measure().allowance(drawing);
    match answer {
        _ if call == Call::Congestion => vec![u64::MAX],
        Ok(report) => {
            let visits = report.visits;
            let swept = swept_segments(drawing);
            vec![
                visits,
                visits.saturating_sub(1),
                visits.saturating_add(1),
                visits / 2,
                swept,
                swept.saturating_sub(1),
                5 * swept,
                (5 * swept).saturating_sub(1),
                0,
                own,
                u64::MAX,
            ]
        }
        Err(_) => vec![own],
    }
}

fn swept_segments(drawing: &Drawing) -> u64 {
    [HORIZONTAL, VERTICAL]
        .iter()
        .map(|&orientation| {
            let segments = drawing.segments.iter();
            segments
                .filter(|segment| segment.orientation == orientation)
                .count() as u64
        })
        .filter(|&count| count >= 2)
        .sum()
}

/// The refusals that come of what is lent and not of the drawing: a column
/// one longer or shorter, scratch one word short or none, an orientation above
/// 1, a number off the grid, and any of these together.
fn compare_refusals(drawing: &Drawing, need: usize, tried: &mut Tried) {
    let columns = Columns::of(drawing);
    let columns_taken = columns_taken(tried.call.measure());
    for place in 0..columns_taken {
        for longer in [false, true] {
            let mut uneven = columns.clone();
            change_length(&mut uneven, place, longer);
            let about = format!(
                "column {place} {}",
                if longer { "longer" } else { "shorter" }
            );
            tried.compare_refusal(&about, drawing, &uneven, need);
        }
    }
    for words in [need - 1, 0] {
        tried.compare_refusal("short scratch", drawing, &columns, words);
    }
    let mut moved = drawing.clone();
    move_some(&mut moved, &mut tried.random);
    tried.compare_refusal("off the grid", &moved, &Columns::of(&moved), need);
    let mut unfit = drawing.clone();
    spoil_orientation(&mut unfit, &mut tried.random);
    tried.compare_refusal("an orientation", &unfit, &Columns::of(&unfit), need);

    move_some(&mut unfit, &mut tried.random);
    let mut several = Columns::of(&unfit);
    if tried.random.once_in(2) {
        let place = tried.random.below(columns_taken);
        change_length(&mut several, place, true);
    }
    let words = need - tried.random.below(2);
    tried.compare_refusal("several at once", &unfit, &several, words);
}

/// How many of the columns that `change_length` knows, from the first on, the
/// measure is given.
fn columns_taken(measure: Measure) -> usize {
    if measure.takes_nodes() {
        ALL_COLUMNS
    } else {
        5
    }
}

pub const ALL_COLUMNS: usize = 12;

pub fn change_length(columns: &mut Columns, place: usize, longer: bool) {
    fn change<T: Default>(column: &mut Vec<T>, longer: bool) {
        if longer {
            column.push(T::default());
        } else {
            column.pop();
        }
    }
    match place {
        0 => change(&mut columns.net, longer),
        1 => change(&mut columns.orientation, longer),
        2 => change(&mut columns.fixed, longer),
        3 => change(&mut columns.start, longer),
        4 => change(&mut columns.end, longer),
        5 => change(&mut columns.id, longer),
        6 => change(&mut columns.x, longer),
        7 => change(&mut columns.y, longer),
        8 => change(&mut columns.width, longer),
        9 => change(&mut columns.height, longer),
        10 => change(&mut columns.exempt_net, longer),
        _ => change(&mut columns.exempt_node, longer),
    }
}

/// Gives one segment an orientation above 1, if there is a segment.
pub fn spoil_orientation(drawing: &mut Drawing, random: &mut Random) {
    if !drawing.segments.is_empty() {
        let place = random.below(drawing.segments.len());
        drawing.segments[place].orientation = random.pick(&[2, 3, 128, 255]);
    }
}

/// Moves one segment off the grid, or the cutoff.
fn move_some(drawing: &mut Drawing, random: &mut Random) {
    let off = random.pick(&[GRID_STEP / 2.0, 0.1, GRID_END + GRID_STEP]);
    let off = random.either_sign(off);
    let place = random.below(drawing.segments.len() + 1);
    match drawing.segments.get_mut(place) {
        Some(segment) => segment.fixed = off,
        None => drawing.cutoff = off,
    }
}

struct Tried {
    call: Call,
    random: Random,
    found: Vec<String>,
}

impl Tried {
    /// The call is refused as SCOPE 7 says of what it is lent. Where it is
    /// not refused there is nothing to see here.
    fn compare_refusal(&mut self, about: &str, drawing: &Drawing, columns: &Columns, words: usize) {
        let lent = columns.lent(words);
        if let Some(refusal) = before_work(self.call.measure(), drawing, &lent) {
            let allowance = self.random.pick(&[0, 1_000, u64::MAX]);
            self.compare(about, columns, words, allowance, &Err(refusal));
        }
    }

    /// One call by columns: what it returns, and what it leaves in the scratch;
    /// and the same of the entry that takes the segments as records.
    fn compare(
        &mut self,
        about: &str,
        columns: &Columns,
        words: usize,
        allowance: u64,
        answer: &Answer,
    ) {
        let before = self.contents(words + GUARDS);
        let mut after = before.clone();
        let returned = run(self.call, columns, allowance, &mut after[..words]);
        let expected = Returned::expected(answer, returned.words.len());
        let call = self.call.name();
        if returned != expected {
            self.found.push(format!(
                "the port's {call}, {about}: {returned:x?}, where {expected:x?} is expected"
            ));
        }
        let (lent, guards) = after.split_at(words);
        let worked = expected.status == 0 || expected.status == 7;
        let scratch_is_well = if worked {
            lent.iter().all(|word| *word == 0)
        } else {
            *lent == before[..words]
        };
        if !scratch_is_well || *guards != before[words..] {
            self.found.push(format!(
                "the port's {call}, {about}: the scratch is not as SCOPE 6.5 says"
            ));
        }
        self.found.extend(
            differs_by_records(
                self.call, columns, allowance, words, before, &returned, &after,
            )
            .map(|difference| format!("the port's {call} by records, {about}: {difference}")),
        );
    }

    /// What the scratch holds before a call: zeros, ones, or anything.
    fn contents(&mut self, words: usize) -> Vec<u64> {
        match self.random.below(3) {
            0 => vec![0; words],
            1 => vec![u64::MAX; words],
            _ => (0..words).map(|_| self.random.word()).collect(),
        }
    }
}

/// The entry by records against what the call by columns returned and left, from
/// the same scratch; nothing where no records represent the columns.
fn differs_by_records(
    call: Call,
    columns: &Columns,
    allowance: u64,
    words: usize,
    mut scratch: Vec<u64>,
    returned: &Returned,
    left: &[u64],
) -> Option<String> {
    let records = columns.records()?;
    let lent = records.clone();
    let by_records = run_by_records(call, &lent, columns, allowance, &mut scratch[..words]);
    if !lent.iter().zip(&records).all(|(one, other)| one.is(other)) {
        Some("the records are not as they were lent".to_string())
    } else if by_records != *returned {
        Some(format!(
            "{by_records:x?}, where by columns it is {returned:x?}"
        ))
    } else if scratch != left {
        Some("the scratch is not as by columns".to_string())
    } else {
        None
    }
}

/// Compares the entries by records with the calls by columns at the ends of
/// what a list may hold, and past them: with scratch enough and one word short,
/// with every allowance that matters, and for clearance with nodes whose
/// columns differ too, a refusal that comes before the number of entries.
pub fn differences_at_sizes() -> Vec<String> {
    let mut found = Vec::new();
    for count in [0, 1, 2, 4_095, 4_096, 4_097, 5_000] {
        let columns = Columns::of(&drawing_of(count));
        let mut uneven = columns.clone();
        uneven.width.pop();
        for call in CALLS {
            let need = scratch_words(call.measure(), &drawing_of(count));
            for (lists, words) in [(&columns, need), (&columns, need - 1), (&uneven, need)] {
                let mut visits = vec![u64::MAX];
                let (returned, _) = from_ones(call, lists, words, u64::MAX);
                let expected = if count > 4_096 { 3 } else { 0 };
                if words == need && lists.width.len() == 3 && returned.status != expected {
                    found.push(format!(
                        "the port's {}, {count} segments: {returned:x?}",
                        call.name()
                    ));
                }
                visits.extend([returned.visits(), returned.visits().saturating_sub(1), 0]);
                for allowance in visits {
                    let (returned, left) = from_ones(call, lists, words, allowance);
                    let ones = vec![u64::MAX; words + GUARDS];
                    let differs =
                        differs_by_records(call, lists, allowance, words, ones, &returned, &left);
                    found.extend(differs.map(|difference| {
                        let call = call.name();
                        format!("the port's {call} by records, {count} segments: {difference}")
                    }));
                }
            }
        }
    }
    found
}

/// A call by columns from a scratch of ones: what it returns and leaves.
fn from_ones(call: Call, columns: &Columns, words: usize, allowance: u64) -> (Returned, Vec<u64>) {
    let mut scratch = vec![u64::MAX; words + GUARDS];
    let returned = run(call, columns, allowance, &mut scratch[..words]);
    (returned, scratch)
}

/// A fit drawing with this many segments, of both orientations and some nets, a
/// third of them reversed, and three nodes.
fn drawing_of(count: usize) -> Drawing {
    let mut drawing = drawing_d();
    let node = drawing.nodes[0];
    drawing.nodes = vec![node; 3];
    drawing.segments = (0..count)
        .map(|place| {
            let segment = Segment {
                net: (place % 7) as u32,
                orientation: (place % 2) as u8,
                fixed: (place % 501) as f64,
                start: (place % 97) as f64,
                end: (place % 97 + 1 + place % 13) as f64,
            };
            if place % 3 == 0 {
                segment.reversed()
            } else {
                segment
            }
        })
        .collect();
    drawing
}

/// Lengths that no congestion call reports, and some that one does.
const LENGTHS: [f64; 12] = [
    0.0,
    1.0,
    GRID_STEP,
    1.0 / 3.0,
    GRID_END,
    5e-324,
    f64::MIN_POSITIVE,
    f64::MAX,
    f64::EPSILON,
    f64::INFINITY,
    f64::NAN,
    1.0 + f64::EPSILON,
];

/// Compares the port's ratio with the reference's: that of the report's
/// lengths, if there is a report, and some of any lengths. The bits of a NaN
/// are left open.
pub fn ratio_differences(drawing: &Drawing, answer: &Answer) -> Vec<String> {
    let mut random = drawing.random();
    let mut pairs: Vec<[f64; 2]> = (0..8)
        .map(|_| [(); 2].map(|()| any_length(&mut random)))
        .collect();
    if let Ok(report) = answer {
        if let [Figure::Length(total), Figure::Length(congested), ..] = report.figures[..] {
            pairs.push([total, congested]);
        }
    }
    let mut found = Vec::new();
    for [total, congested] in pairs {
        let returned = run_ratio(total, congested);
        let expected = reference::ratio(total, congested);
        if returned.to_bits() != expected.to_bits() && !(returned.is_nan() && expected.is_nan()) {
            found.push(format!(
                "the port's ratio of {congested:?} to {total:?}: {returned:?}, where {expected:?} is expected"
            ));
        }
    }
    found
}

fn any_length(random: &mut Random) -> f64 {
    if random.once_in(4) {
        f64::from_bits(random.word())
    } else {
        let length = random.pick(&LENGTHS);
        random.either_sign(length)
    }
}
