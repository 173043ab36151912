//! The reference: the unchanged Rust, run on a drawing's lists.
//!
//! It is given segments as they are taken, the lesser end first (SCOPE 9.6), and
//! then lists in the order of SCOPE 9.4. Congestion gets +0 for every zero, and
//! the total of an empty list is read as +0: SCOPE 9.2 and 9.3. A panic of the
//! reference is caught and reported as a fault.

use std::{
    cell::Cell,
    fmt,
    panic::{self, AssertUnwindSafe},
    sync::Once,
};

use crate::{
    drawing::{plus_zero, Drawing, Segment, HORIZONTAL},
    pairs,
    readability::{
        measure_edge_node_clearance_bounded, measure_parallel_congestion,
        measure_parallel_congestion_profile_bounded, measure_parallel_density_profile_bounded,
        measure_parallel_separation_bounded, EdgeNodeClearance, EdgeNodeClearanceError,
        EdgeNodeSegment, NetNodeRelation, ParallelCongestion, ParallelSegment, ParallelSeparation,
        ParallelSeparationError,
    },
    refusals::{before_work, Lent, Refusal},
    report::{Answer, Figure, Measure, Report},
    NodeGeometry,
};

/// How one call of the reference ended.
#[derive(Clone, Debug, PartialEq)]
pub enum Run {
    Done(Vec<Figure>),
    Unfit,
    Spent,
    Panicked(String),
}

/// What a measure of the sheet gives, as the reference returns it.
pub enum Measured {
    Clearance(Result<EdgeNodeClearance, EdgeNodeClearanceError>),
    Separation(Result<ParallelSeparation, ParallelSeparationError>),
    Congestion(Option<(ParallelCongestion, Option<f64>)>),
}

impl From<Measured> for Run {
    fn from(measured: Measured) -> Self {
        match measured {
            Measured::Clearance(Ok(clearance)) => Self::Done(vec![
                Figure::Gap(clearance.minimum_clearance),
                Figure::Count(clearance.violations as u64),
            ]),
            Measured::Separation(Ok(separation)) => Self::Done(vec![
                Figure::Gap(separation.minimum),
                Figure::Gap(separation.minimum_positive),
            ]),
            Measured::Congestion(congestion) => congestion_run(congestion),
            Measured::Clearance(Err(EdgeNodeClearanceError::InvalidInput))
            | Measured::Separation(Err(ParallelSeparationError::InvalidInput)) => Self::Unfit,
            Measured::Clearance(Err(EdgeNodeClearanceError::WorkLimitExceeded))
            | Measured::Separation(Err(ParallelSeparationError::WorkLimitExceeded)) => Self::Spent,
        }
    }
}

/// The reference did what SCOPE leaves no room for.
#[derive(Clone, Debug)]
pub struct Fault(pub String);

impl fmt::Display for Fault {
    fn fmt(&self, formatter: &mut fmt::Formatter<'_>) -> fmt::Result {
        formatter.write_str(&self.0)
    }
}

/// A drawing as the reference takes it.
pub struct Fed {
    routes: Vec<EdgeNodeSegment>,
    nodes: Vec<NodeGeometry>,
    relations: Vec<NetNodeRelation>,
    wires: Vec<ParallelSegment>,
    wires_with_plus_zeros: Vec<ParallelSegment>,
    threshold: f64,
    cutoff: f64,
}

impl Fed {
    /// The lists in the order of SCOPE 9.4, which sorts the segments as they are
    /// taken: what every comparison rests on.
    pub fn in_list_order(drawing: &Drawing) -> Self {
        let taken = drawing.rising();
        Self::new(
            &taken.in_list_order(),
            &taken.with_plus_zeros().in_list_order(),
        )
    }

    /// The segments as they are taken, the lists in the order that they are given
    /// in: to see that the order decides nothing, and for times.
    pub fn in_given_order(drawing: &Drawing) -> Self {
        let taken = drawing.rising();
        Self::new(&taken, &taken.with_plus_zeros())
    }

    /// The lists as they are given, ends included: only to see what the reference
    /// does with a segment whose start is above its end.
    #[cfg(test)]
    pub fn with_ends_as_given(drawing: &Drawing) -> Self {
        Self::new(drawing, &drawing.with_plus_zeros())
    }

    fn new(drawing: &Drawing, with_plus_zeros: &Drawing) -> Self {
        Self {
            routes: drawing.segments.iter().map(route).collect(),
            nodes: drawing
                .nodes
                .iter()
                .map(|node| NodeGeometry {
                    id: node.id,
                    x: node.x,
                    y: node.y,
                    width: node.width,
                    height: node.height,
                })
                .collect(),
            relations: drawing
                .exemptions
                .iter()
                .map(|exemption| NetNodeRelation {
                    net: exemption.net,
                    node: exemption.node,
                })
                .collect(),
            wires: drawing.segments.iter().map(wire).collect(),
            wires_with_plus_zeros: with_plus_zeros.segments.iter().map(wire).collect(),
            threshold: drawing.threshold,
            cutoff: drawing.cutoff,
        }
    }

    /// Calls a measure of the sheet and does nothing else, so that it can be
    /// timed.
    pub fn measured(&self, measure: Measure, limit: usize) -> Measured {
        match measure {
            Measure::Clearance => Measured::Clearance(measure_edge_node_clearance_bounded(
                &self.routes,
                &self.nodes,
                &self.relations,
                self.threshold,
                limit,
            )),
            Measure::Separation => {
                Measured::Separation(measure_parallel_separation_bounded(&self.wires, limit))
            }
            Measure::Congestion => Measured::Congestion(measure_parallel_density_profile_bounded(
                &self.wires_with_plus_zeros,
                self.cutoff,
                limit,
            )),
        }
    }

    /// Runs a measure of the sheet under a limit of visits.
    pub fn run(&self, measure: Measure, limit: u64) -> Run {
        let limit = usize::try_from(limit).unwrap_or(usize::MAX);
        catching_panics(|| self.measured(measure, limit).into())
    }

    /// Runs the congestion call that leaves pair overlap and peak out.
    pub fn run_profile(&self, limit: u64) -> Run {
        let limit = usize::try_from(limit).unwrap_or(usize::MAX);
        catching_panics(|| {
            congestion_run(measure_parallel_congestion_profile_bounded(
                &self.wires_with_plus_zeros,
                self.cutoff,
                limit,
            ))
        })
    }

    /// Runs the congestion call that has no limit. Its figures are the four
    /// lengths and counts, which come without a gap, and then their ratio.
    pub fn run_without_limit(&self) -> Run {
        catching_panics(|| {
            let congestion = measure_parallel_congestion(&self.wires_with_plus_zeros, self.cutoff);
            let mut figures = congestion_figures(congestion);
            figures.push(Figure::Length(congestion.ratio()));
            Run::Done(figures)
        })
    }
}

/// The answer that the reference gives where no allowance runs out: its
/// figures with its visit count, or the refusal that comes before work.
pub fn answer_without_limit(
    measure: Measure,
    drawing: &Drawing,
    fed: &Fed,
) -> Result<Answer, Fault> {
    match before_work(measure, drawing, &Lent::enough_for(drawing)) {
        None => report(measure, drawing, fed).map(Ok),
        Some(Refusal::Unfit) if checks_its_input(measure) => match fed.run(measure, u64::MAX) {
            Run::Unfit => Ok(Err(Refusal::Unfit)),
            run => Err(unexpected(measure, "the drawing is unfit", &run)),
        },
        Some(refusal) => Ok(Err(refusal)),
    }
}

/// The answer that the reference gives under the drawing's own allowance.
pub fn answer(measure: Measure, drawing: &Drawing) -> Result<Answer, Fault> {
    let fed = Fed::in_list_order(drawing);
    match answer_without_limit(measure, drawing, &fed)? {
        Err(refusal) => Ok(Err(refusal)),
        Ok(report) => match fed.run(measure, measure.allowance(drawing)) {
            Run::Done(figures) => Ok(Ok(Report { figures, ..report })),
            Run::Spent => Ok(Err(Refusal::Spent)),
            run => Err(unexpected(measure, "the drawing is fit", &run)),
        },
    }
}

/// Congestion takes every float, so that the reference says nothing there.
fn checks_its_input(measure: Measure) -> bool {
    measure != Measure::Congestion
}

/// Figures and visit count. The reference keeps its count to itself, so the
/// count is the least limit that it accepts, found by halving.
fn report(measure: Measure, drawing: &Drawing, fed: &Fed) -> Result<Report, Fault> {
    let mut enough = pairs::most_visits(measure, drawing);
    let mut figures = match fed.run(measure, enough) {
        Run::Done(figures) => figures,
        Run::Spent => {
            let suffice = format!("{enough} visits always suffice");
            return Err(unexpected(measure, &suffice, &Run::Spent));
        }
        run => return Err(unexpected(measure, "the drawing is fit", &run)),
    };
    let mut least = 0;
    while least < enough {
        let limit = least + (enough - least) / 2;
        match fed.run(measure, limit) {
            Run::Done(found) => {
                figures = found;
                enough = limit;
            }
            Run::Spent => least = limit + 1,
            run => return Err(unexpected(measure, "the drawing is fit", &run)),
        }
    }
    Ok(Report {
        figures,
        visits: enough,
    })
}

fn unexpected(measure: Measure, though: &str, run: &Run) -> Fault {
    Fault(format!(
        "{}: {though}, yet the Rust answers {run:?}",
        measure.name()
    ))
}

/// The reference's ratio of two lengths, whatever they are.
#[cfg(port)]
pub fn ratio(total_length: f64, congested_length: f64) -> f64 {
    let lengths = ParallelCongestion {
        total_length,
        congested_length,
        ..ParallelCongestion::default()
    };
    lengths.ratio()
}

fn route(segment: &Segment) -> EdgeNodeSegment {
    EdgeNodeSegment {
        net: segment.net,
        horizontal: segment.orientation == HORIZONTAL,
        fixed: segment.fixed,
        start: segment.start,
        end: segment.end,
    }
}

fn wire(segment: &Segment) -> ParallelSegment {
    ParallelSegment {
        net: segment.net,
        horizontal: segment.orientation == HORIZONTAL,
        fixed: segment.fixed,
        start: segment.start,
        end: segment.end,
    }
}

fn congestion_run(measured: Option<(ParallelCongestion, Option<f64>)>) -> Run {
    match measured {
        Some((congestion, least_nonzero)) => {
            let mut figures = congestion_figures(congestion);
            figures.push(Figure::Gap(least_nonzero));
            Run::Done(figures)
        }
        None => Run::Spent,
    }
}

/// The figures without the gap. Only an empty list can have a total of -0.
fn congestion_figures(congestion: ParallelCongestion) -> Vec<Figure> {
    vec![
        Figure::Length(plus_zero(congestion.total_length)),
        Figure::Length(congestion.congested_length),
        Figure::Length(congestion.pair_overlap_length),
        Figure::Count(congestion.peak_close_neighbors as u64),
    ]
}

thread_local! {
    /// Whether this thread is inside a call of the reference.
    static IN_REFERENCE: Cell<bool> = const { Cell::new(false) };
}

/// Runs a call of the reference; where it panics, returns its words and keeps
/// them off the terminal. Panics of our own stay loud.
fn catching_panics(call: impl FnOnce() -> Run) -> Run {
    static QUIET: Once = Once::new();
    QUIET.call_once(|| {
        let loud = panic::take_hook();
        panic::set_hook(Box::new(move |panicked| {
            if !IN_REFERENCE.get() {
                loud(panicked);
            }
        }));
    });
    IN_REFERENCE.set(true);
    let ended = panic::catch_unwind(AssertUnwindSafe(call));
    IN_REFERENCE.set(false);
    ended.unwrap_or_else(|payload| {
        let words = payload
            .downcast_ref::<String>()
            .map(String::as_str)
            .or_else(|| payload.downcast_ref::<&str>().copied());
        Run::Panicked(words.unwrap_or("no words").to_string())
    })
}
