//! One drawing examined: everything in which the reference differs from all
//! pairs, or from what else SCOPE says of it, and in which the port
//! differs from the reference, or in joining from our own joiner.

use std::fmt::Debug;

#[cfg(port)]
use crate::{against_port, tight_pair};
use crate::{
    drawing::Drawing,
    file,
    generate::Aim,
    join,
    listing::listing,
    pairs::{self, Congestion},
    reference::{self, Fault, Fed, Run},
    refusals::{settle, Refusal, PROGRAM_LIMITS},
    report::{Answer, Measure, Report, MEASURES},
    sheet, shrink,
};

/// A drawing with the reference's answers where no allowance runs out, in the
/// sheet's order.
pub struct Examined {
    pub drawing: Drawing,
    fed: Fed,
    pub answers: [Result<Answer, Fault>; 3],
}

impl Examined {
    pub fn new(drawing: Drawing) -> Self {
        let fed = Fed::in_list_order(&drawing);
        let answers =
            MEASURES.map(|measure| reference::answer_without_limit(measure, &drawing, &fed));
        Self {
            drawing,
            fed,
            answers,
        }
    }

    /// Sets the drawing's allowances as the aims say.
    pub fn aim(&mut self, aims: [Aim; 3]) {
        for (index, measure) in MEASURES.into_iter().enumerate() {
            let count = match &self.answers[index] {
                Ok(Ok(report)) => Some(report.visits),
                _ => None,
            };
            measure.set_allowance(&mut self.drawing, aims[index].allowance(count));
        }
    }

    /// Everything in which the two computations differ, or in which the
    /// reference is not as SCOPE says. Nothing, where all is well.
    pub fn differences(&self) -> Vec<String> {
        let mut found = Differences::default();
        let reordered = reordered(&self.drawing);
        for (measure, answer) in MEASURES.into_iter().zip(&self.answers) {
            found.prefix = measure.name();
            match answer {
                Ok(Ok(report)) => {
                    compare_with_pairs(measure, report, self, &reordered, &mut found);
                    compare_limits(measure, report, self, &mut found);
                    compare_reordered(measure, report, &reordered, &mut found);
                    if measure == Measure::Congestion {
                        compare_sister_calls(report, self, &mut found);
                    }
                }
                Ok(Err(_)) => {}
                Err(fault) => found.texts.push(fault.to_string()),
            }
            compare_port(measure, answer, self, &reordered, &mut found);
        }
        compare_tight_pair(&self.drawing, &reordered, &mut found);
        compare_join(&self.drawing, &mut found);
        found.prefix = "file";
        compare_file(&self.drawing, &mut found);
        found.texts
    }
}

#[derive(Default)]
struct Differences {
    prefix: &'static str,
    texts: Vec<String>,
}

impl Differences {
    fn unless_equal<T: PartialEq + Debug>(&mut self, about: &str, found: T, expected: T) {
        if found != expected {
            self.texts.push(format!(
                "{}, {about}: {found:?}, where {expected:?} is expected",
                self.prefix
            ));
        }
    }
}

/// The figures bit by bit, and the visits within what SCOPE 4 allows.
fn compare_with_pairs(
    measure: Measure,
    report: &Report,
    examined: &Examined,
    reordered: &Drawing,
    found: &mut Differences,
) {
    let by_pairs = pairs::figures(measure, &examined.drawing);
    found.unless_equal(
        "the Rust against all pairs",
        sheet::fields(&report.figures),
        sheet::fields(&by_pairs),
    );
    found.unless_equal(
        "all pairs, lists in another order",
        sheet::fields(&pairs::figures(measure, reordered)),
        sheet::fields(&by_pairs),
    );
    let range = pairs::visit_range(measure, &examined.drawing);
    if !range.contains(&report.visits) {
        found.texts.push(format!(
            "{}, visits: {}, which is not in {range:?}",
            measure.name(),
            report.visits
        ));
    }
}

/// Every limit that reaches the visit count gives the same report, and every
/// other one is spent.
fn compare_limits(measure: Measure, report: &Report, examined: &Examined, found: &mut Differences) {
    let visits = report.visits;
    let limits = [
        0,
        visits / 2,
        visits.saturating_sub(1),
        visits,
        visits.saturating_add(1),
        measure.allowance(&examined.drawing),
        u64::MAX,
    ];
    for limit in limits {
        let about = format!("under the limit {limit}");
        let run = examined.fed.run(measure, limit);
        found.unless_equal(&about, run, expected_run(report, limit));
    }
}

/// The same entries in another order give the same figures and the same count,
/// even where the reference is fed the lists as they come.
fn compare_reordered(
    measure: Measure,
    report: &Report,
    reordered: &Drawing,
    found: &mut Differences,
) {
    let fed = Fed::in_given_order(reordered);
    for limit in [report.visits.saturating_sub(1), report.visits] {
        let about = format!("lists in another order, under the limit {limit}");
        let run = fed.run(measure, limit);
        found.unless_equal(&about, run, expected_run(report, limit));
    }
}

/// The two other congestion calls agree with the first.
fn compare_sister_calls(report: &Report, examined: &Examined, found: &mut Differences) {
    let congestion = Congestion::of(&examined.drawing);
    let profile = Report {
        figures: congestion.profile_figures(),
        visits: report.visits,
    };
    for limit in [report.visits.saturating_sub(1), report.visits] {
        let about = format!("profile call, under the limit {limit}");
        let run = examined.fed.run_profile(limit);
        found.unless_equal(&about, run, expected_run(&profile, limit));
    }
    found.unless_equal(
        "call without a limit",
        examined.fed.run_without_limit(),
        Run::Done(congestion.figures_without_limit()),
    );
}

/// The port answers as the reference does, by every call of the measure.
#[cfg(port)]
fn compare_port(
    measure: Measure,
    answer: &Result<Answer, Fault>,
    examined: &Examined,
    reordered: &Drawing,
    found: &mut Differences,
) {
    let Ok(answer) = answer else {
        return;
    };
    let (drawing, fed) = (&examined.drawing, &examined.fed);
    let differences = against_port::differences(measure, drawing, reordered, fed, answer);
    found.texts.extend(differences);
    if measure == Measure::Congestion {
        let differences = against_port::ratio_differences(drawing, answer);
        found.texts.extend(differences);
    }
}

#[cfg(not(port))]
fn compare_port(
    _measure: Measure,
    _answer: &Result<Answer, Fault>,
    _examined: &Examined,
    _reordered: &Drawing,
    _found: &mut Differences,
) {
}

/// The port's tight pair is one that a search over all pairs finds.
#[cfg(port)]
fn compare_tight_pair(drawing: &Drawing, reordered: &Drawing, found: &mut Differences) {
    found
        .texts
        .extend(tight_pair::differences(drawing, reordered));
}

#[cfg(not(port))]
fn compare_tight_pair(_drawing: &Drawing, _reordered: &Drawing, _found: &mut Differences) {}

/// Our joiner against the points of the lines, and the port's join against it.
fn compare_join(drawing: &Drawing, found: &mut Differences) {
    found.texts.extend(join::differences(
        &drawing.segments,
        drawing.random(),
        join::PORT,
    ));
}

fn expected_run(report: &Report, limit: u64) -> Run {
    match settle(report.clone(), limit) {
        Ok(report) => Run::Done(report.figures),
        Err(_) => Run::Spent,
    }
}

/// A written file reads back to the same bytes, or is refused for its length.
fn compare_file(drawing: &Drawing, found: &mut Differences) {
    let written = file::write(drawing);
    let same_bytes = file::read(&written).map(|read_back| file::write(&read_back) == written);
    let expected = if within_program_limits(drawing) {
        Ok(true)
    } else {
        Err(Refusal::TooMany)
    };
    found.unless_equal("read back to the same bytes", same_bytes, expected);
}

fn within_program_limits(drawing: &Drawing) -> bool {
    drawing.segments.len() <= PROGRAM_LIMITS.segments
        && drawing.nodes.len() <= PROGRAM_LIMITS.nodes
        && drawing.exemptions.len() <= PROGRAM_LIMITS.exemptions
}

/// The drawing with its lists shuffled, always in the same way.
fn reordered(drawing: &Drawing) -> Drawing {
    let mut random = drawing.random();
    let mut reordered = drawing.clone();
    random.shuffle(&mut reordered.segments);
    random.shuffle(&mut reordered.nodes);
    random.shuffle(&mut reordered.exemptions);
    reordered
}

/// The smallest part of the drawing that still differs, with its differences,
/// or nothing where the whole does not.
pub fn smallest_difference(drawing: &Drawing) -> Option<String> {
    let differences = |drawing: &Drawing| Examined::new(drawing.clone()).differences();
    if differences(drawing).is_empty() {
        return None;
    }
    let smallest = shrink::smallest(drawing, |part| !differences(part).is_empty());
    let found = differences(&smallest).join("\n");
    Some(format!("{}\n{found}", listing(&smallest)))
}
