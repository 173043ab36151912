//! The times of the reference and of the port, in one process, on the same
//! drawings with their lists in the same order.
//!
//! Each time is that of one whole call, the checks, the sorting and the tree
//! included. What each side is given is ready before: records for the
//! reference, columns and scratch for the port. The reference allocates what it
//! works in, and that is a part of its call. What it returns is put into a report
//! after its time is taken; the port's time has the copying of a few words in it,
//! some tens of nanoseconds.

use std::{fmt, hint::black_box, time::Instant};

use crate::{
    drawing::Drawing,
    kinds::{Kind, CLEARANCE, CONGESTION, JOIN, SEPARATION, SHORT_JOIN, TIGHT_PAIR},
    pairs, plain_joiner, plain_tight_pair,
    port::{self, run_join, run_tight_pair, scratch_words, Call, Columns, Returned},
    reference::{Fed, Measured, Run},
    refusals::Refusal,
    report::{Measure, Report},
    segment_columns::SegmentColumns,
    tight_pair,
};

const PREFACE: &str = "\
Rust: opt-level 3, one codegen unit, x86-64 without extensions. Port: -O3, one module, x86-64-v2.
The port's scratch is zero before each run; that it clears it is timed.";

/// Prints for each measure, and for the tight pair and the join where there is no
/// allowance to be spent, a line for each kind: segments, visits, the best time of each
/// side, the port's best over the reference's, the median of that ratio over
/// the runs, which a busy machine disturbs less, and the best time that clearing
/// the scratch takes alone: the port's calls clear theirs, and the reference has
/// nothing to clear. Closes with the greatest ratio of each. Fails where the two
/// answers differ.
pub fn bench(runs: u64, allowance: Option<u64>) -> Result<(), String> {
    if !is_built_as_said() {
        return Err(
            "built otherwise than for times: run tools/bench, without RUSTFLAGS".to_string(),
        );
    }
    println!("{PREFACE}");
    let mut greatest = Vec::new();
    for (measure, kinds) in [
        (Measure::Clearance, &CLEARANCE[..]),
        (Measure::Separation, &SEPARATION[..]),
        (Measure::Congestion, &CONGESTION[..]),
    ] {
        let limit = allowance.unwrap_or(u64::MAX);
        let rows = print_rows(measure.name(), kinds, |drawing| {
            measure_times(measure, drawing, runs, limit)
        })?;
        greatest.push((measure.name(), greatest_ratio(rows, allowance)));
    }
    if allowance.is_none() {
        println!("The Rust has no tight pair: its times are those of a plain loop over all pairs.");
        let rows = print_rows("tight pair", &TIGHT_PAIR, |drawing| {
            tight_pair_times(drawing, runs)
        })?;
        greatest.push(("tight pair", greatest_ratio(rows, allowance)));
        println!(
            "The Rust has no joiner: its times are those of a plain one that checks, sorts and walks,\n\
             and then of one that does not check."
        );
        for (name, kinds, plain) in [
            ("join", &JOIN[..], plain_joiner::join as PlainJoiner),
            ("short join", &SHORT_JOIN[..], plain_joiner::join),
            (
                "join, unchecked Rust",
                &JOIN[..],
                plain_joiner::join_unchecked,
            ),
            (
                "short join, unchecked Rust",
                &SHORT_JOIN[..],
                plain_joiner::join_unchecked,
            ),
        ] {
            let rows = print_rows(name, kinds, |drawing| join_times(drawing, runs, plain))?;
            greatest.push((name, greatest_ratio(rows, allowance)));
        }
    }
    print_greatest(&greatest, allowance);
    Ok(())
}

/// Other profiles leave the checks on, and RUSTFLAGS may ask for another level,
/// other units or a newer processor than the port's library is made for.
fn is_built_as_said() -> bool {
    !cfg!(debug_assertions)
        && !cfg!(target_feature = "sse3")
        && env!("BUILT_AT_LEVEL") == "3"
        && env!("BUILT_WITH_FLAGS").is_empty()
}

/// What a call did, in the place of its visits.
#[derive(Clone, Copy, PartialEq)]
enum Work {
    Visits(u64),
    /// The call was refused with 7.
    Spent,
    /// The tight pair and the join count no visits.
    Uncounted,
}

impl fmt::Display for Work {
    fn fmt(&self, formatter: &mut fmt::Formatter<'_>) -> fmt::Result {
        match self {
            Self::Visits(visits) => formatter.pad(&visits.to_string()),
            Self::Spent => formatter.pad("spent"),
            Self::Uncounted => formatter.pad("-"),
        }
    }
}

/// The times of one kind.
struct Times {
    work: Work,
    turns: Vec<Turn>,
    /// The best of clearing the scratch alone, where there is one.
    clearing: Option<f64>,
}

/// One run of each side, in milliseconds.
struct Turn {
    rust: f64,
    port: f64,
}

impl Times {
    fn best(&self, side: fn(&Turn) -> f64) -> f64 {
        self.turns.iter().map(side).fold(f64::INFINITY, f64::min)
    }

    fn ratio(&self) -> f64 {
        self.best(|turn| turn.port) / self.best(|turn| turn.rust)
    }

    fn median_ratio(&self) -> f64 {
        let mut ratios: Vec<f64> = self
            .turns
            .iter()
            .map(|turn| turn.port / turn.rust)
            .collect();
        ratios.sort_by(f64::total_cmp);
        ratios[ratios.len() / 2]
    }
}

type Row<'a> = (&'a Kind, Times);

/// Prints each row as soon as it is there, since some take seconds.
fn print_rows<'a>(
    name: &str,
    kinds: &'a [Kind],
    times_of: impl Fn(&Drawing) -> Result<Times, Returned>,
) -> Result<Vec<Row<'a>>, String> {
    println!(
        "{name:<38}{:>8}{:>10}{:>10}{:>10}{:>8}{:>8}{:>10}",
        "segments", "visits", "Rust ms", "port ms", "ratio", "median", "clear ms"
    );
    let mut rows = Vec::new();
    for kind in kinds {
        let times = times_of(&kind.drawing()).map_err(|returned| {
            let kind = kind.name;
            format!("{name}, {kind}: the port returns {returned:?}, the Rust otherwise")
        })?;
        let clearing = times
            .clearing
            .map_or("-".to_string(), |clearing| format!("{clearing:.3}"));
        println!(
            "{:<38}{:>8}{:>10}{:>10.3}{:>10.3}{:>8.3}{:>8.3}{clearing:>10}",
            kind.name,
            kind.segments,
            times.work,
            times.best(|turn| turn.rust),
            times.best(|turn| turn.port),
            times.ratio(),
            times.median_ratio()
        );
        rows.push((kind, times));
    }
    Ok(rows)
}

/// The row with the greatest ratio, of those with something to walk. Of calls
/// with an allowance only those count that spend it: the others do what they do
/// without one.
fn greatest_ratio(rows: Vec<Row>, allowance: Option<u64>) -> Option<Row> {
    rows.into_iter()
        .filter(|(_, times)| match allowance {
            None => times.work != Work::Visits(0),
            Some(_) => times.work == Work::Spent,
        })
        .max_by(|one, other| one.1.ratio().total_cmp(&other.1.ratio()))
}

fn print_greatest(greatest: &[(&str, Option<Row>)], allowance: Option<u64>) {
    match allowance {
        None => println!("The greatest ratio where there is something to walk:"),
        Some(_) => println!("The greatest ratio where the allowance is spent, refusal 7:"),
    }
    for (name, row) in greatest {
        match row {
            Some((kind, times)) => println!(
                "{name:<28}{:>8.3}, median {:.3}: {}, {} segments",
                times.ratio(),
                times.median_ratio(),
                kind.name,
                kind.segments
            ),
            None => println!("{name:<28}no such row"),
        }
    }
}

/// The times of one measure's call.
fn measure_times(
    measure: Measure,
    drawing: &Drawing,
    runs: u64,
    limit: u64,
) -> Result<Times, Returned> {
    let call = Call::of_sheet(measure);
    let fed = Fed::in_given_order(drawing);
    let limit_of_rust = usize::try_from(limit).unwrap_or(usize::MAX);
    let columns = Columns::of(drawing);
    let mut scratch = vec![0; scratch_words(measure, drawing)];
    let (returned, turns) = in_turn(
        runs,
        || black_box(&fed).measured(measure, black_box(limit_of_rust)),
        || port::run(call, black_box(&columns), black_box(limit), &mut scratch),
        agree,
    )?;
    let work = if returned.status == u32::from(Refusal::Spent.number()) {
        Work::Spent
    } else {
        Work::Visits(returned.visits())
    };
    let clearing = (0..turns.len())
        .map(|_| timed(|| black_box(&mut scratch[..]).fill(0)).1)
        .fold(f64::INFINITY, f64::min);
    Ok(Times {
        work,
        turns,
        clearing: Some(clearing),
    })
}

/// The times of the tight pair, and of the loop in the reference's place. Which of
/// several pairs at the least distance is answered is left to the port.
fn tight_pair_times(drawing: &Drawing, runs: u64) -> Result<Times, Returned> {
    let columns = Columns::of(drawing);
    let (_, turns) = in_turn(
        runs,
        || {
            let drawing = black_box(drawing);
            plain_tight_pair::tight_pair(&drawing.segments, &drawing.nodes, &drawing.exemptions)
        },
        || run_tight_pair(black_box(&columns)),
        |pair, returned| {
            let least = pair.map(|(segment, node)| {
                pairs::distance(&drawing.segments[segment], &drawing.nodes[node])
            });
            tight_pair::is_answer(returned, drawing, least)
        },
    )?;
    Ok(Times {
        work: Work::Uncounted,
        turns,
        clearing: None,
    })
}

/// A joiner in the reference's place: the pieces, and those that went away.
type PlainJoiner = fn(&SegmentColumns, &mut SegmentColumns) -> Option<[usize; 2]>;

/// The times of the join, and of a plain joiner in the reference's place. Both
/// are lent columns as long as the list, and have to leave the same in them.
fn join_times(drawing: &Drawing, runs: u64, plain: PlainJoiner) -> Result<Times, Returned> {
    let columns = SegmentColumns::of(&drawing.segments);
    let room = [drawing.segments.len(); 5];
    let mut by_rust = SegmentColumns::of_words(room, || 0);
    let mut by_port = by_rust.clone();
    let (returned, turns) = in_turn(
        runs,
        || plain(black_box(&columns), black_box(&mut by_rust)),
        || {
            let (status, words) = run_join(black_box(&columns), black_box(&mut by_port), room);
            Returned {
                status,
                words: words.to_vec(),
            }
        },
        |counts: Option<[usize; 2]>, returned| {
            counts.is_some_and(|counts| {
                let words = counts.map(|count| count as u64).to_vec();
                *returned == Returned { status: 0, words }
            })
        },
    )?;
    if by_rust != by_port {
        return Err(returned);
    }
    Ok(Times {
        work: Work::Uncounted,
        turns,
        clearing: None,
    })
}

/// What the port returns, and the times of each run; the port's answer where it
/// does not agree with the other. Both are run once before anything is timed.
/// Then they take turns, so that a machine that is slow for a while is slow for
/// both, and each begins every other time, so that neither always finds the
/// memory as the other has left it.
fn in_turn<R>(
    runs: u64,
    mut rust: impl FnMut() -> R,
    mut port: impl FnMut() -> Returned,
    agree: impl Fn(R, &Returned) -> bool,
) -> Result<(Returned, Vec<Turn>), Returned> {
    rust();
    let mut returned = port();
    let mut turns = Vec::new();
    for run in 0..runs.max(1) {
        let (by_rust, of_rust, of_port);
        if run % 2 == 0 {
            (by_rust, of_rust) = timed(&mut rust);
            (returned, of_port) = timed(&mut port);
        } else {
            (returned, of_port) = timed(&mut port);
            (by_rust, of_rust) = timed(&mut rust);
        }
        if !agree(by_rust, &returned) {
            return Err(returned);
        }
        turns.push(Turn {
            rust: of_rust,
            port: of_port,
        });
    }
    Ok((returned, turns))
}

fn timed<T>(call: impl FnOnce() -> T) -> (T, f64) {
    let start = Instant::now();
    let answer = black_box(call());
    (answer, start.elapsed().as_secs_f64() * 1_000.0)
}

/// The figures are the same, or both are spent; the reference does not report its
/// visits.
fn agree(by_reference: Measured, by_port: &Returned) -> bool {
    let answer = match Run::from(by_reference) {
        Run::Done(figures) => Ok(Report {
            figures,
            visits: by_port.visits(),
        }),
        Run::Spent => Err(Refusal::Spent),
        Run::Unfit | Run::Panicked(_) => return false,
    };
    Returned::expected(&answer, by_port.words.len()) == *by_port
}
