//! Tests of what `check` does not reach: the bytes of a file, the stored files,
//! the grid, the refusals that no file can bring about, and what the reference
//! does with segments that it is never fed there.

use std::{fs, path::Path};

use crate::{
    drawing::{drawing_d, horizontal, Drawing, Segment, SHEET_OF_D, VERTICAL},
    drawings, file,
    generate::{self, KINDS, MIDDLE, SMALL_KINDS},
    listing::hexadecimal,
    pairs,
    random::Random,
    reference::{Fed, Run},
    refusals::{before_tight_pair, before_work, Lent, Refusal},
    report::{Figure, Measure, MEASURES},
    reversed,
    sample::sample,
    sheet,
};

#[test]
fn file_of_drawing_d_is_written_byte_for_byte() {
    let digits = concat!(
        "01",
        "00000002",
        "00000001",
        "01",
        "0000000000000000",
        "0000000000000000",
        "4024000000000000",
        "00000002",
        "01",
        "4010000000000000",
        "4014000000000000",
        "402e000000000000",
        "00000001",
        "00000007",
        "4000000000000000",
        "3ff0000000000000",
        "4008000000000000",
        "4000000000000000",
        "00000001",
        "00000002",
        "00000007",
        "4000000000000000",
        "4018000000000000",
        "00000000000003e8",
        "00000000000003e8",
        "00000000000003e8",
    );
    assert_eq!(hexadecimal(&file::write(&drawing_d())), digits);
}

#[test]
fn columns_of_different_lengths_come_first() {
    let drawing = drawing_d();
    let mut lent = Lent::enough_for(&drawing);
    lent.scratch_words = 0;
    for measure in MEASURES {
        let refusal = before_work(measure, &drawing, &lent);
        assert_eq!(refusal, Some(Refusal::Scratch));
    }
    lent.node_columns[4] = 0;
    let refusals = MEASURES.map(|measure| before_work(measure, &drawing, &lent));
    let scratch = Some(Refusal::Scratch);
    assert_eq!(refusals, [Some(Refusal::Columns), scratch, scratch]);
    lent.segment_columns[0] = 5_000;
    let refusal = before_work(Measure::Separation, &drawing, &lent);
    assert_eq!(refusal, Some(Refusal::Columns));
    lent.segment_columns = [5_000; 5];
    let refusal = before_work(Measure::Separation, &drawing, &lent);
    assert_eq!(refusal, Some(Refusal::TooMany));
}

#[test]
fn an_orientation_above_one_in_a_column_is_unfit() {
    let mut drawing = drawing_d();
    drawing.segments[1].orientation = 2;
    for measure in MEASURES {
        let refusal = before_work(measure, &drawing, &Lent::enough_for(&drawing));
        assert_eq!(refusal, Some(Refusal::Unfit));
    }
}

#[test]
fn scratch_that_suffices_to_the_word_is_accepted() {
    let drawing = drawing_d();
    let mut lent = Lent::enough_for(&drawing);
    for (measure, need) in MEASURES.into_iter().zip([160, 128, 128]) {
        lent.scratch_words = need;
        assert_eq!(before_work(measure, &drawing, &lent), None);
        lent.scratch_words = need - 1;
        let refusal = before_work(measure, &drawing, &lent);
        assert_eq!(refusal, Some(Refusal::Scratch));
    }
}

#[test]
fn the_tight_pair_checks_columns_lengths_and_entries() {
    let mut drawing = drawing_d();
    let mut lent = Lent::enough_for(&drawing);
    lent.scratch_words = 0;
    drawing.threshold = f64::NAN;
    drawing.cutoff = f64::NAN;
    assert_eq!(before_tight_pair(&drawing, &lent), None);
    drawing.nodes[0].width = 0.0;
    assert_eq!(before_tight_pair(&drawing, &lent), Some(Refusal::Unfit));
    lent.node_columns = [4_097; 5];
    assert_eq!(before_tight_pair(&drawing, &lent), Some(Refusal::TooMany));
    lent.exemption_columns[1] = 0;
    assert_eq!(before_tight_pair(&drawing, &lent), Some(Refusal::Columns));
}

/// D with other ends of its first wire.
fn d_with_ends(start: f64, end: f64) -> Drawing {
    let mut drawing = drawing_d();
    drawing.segments[0].start = start;
    drawing.segments[0].end = end;
    drawing
}

/// What each measure and the tight pair refuse of a drawing that is lent enough.
fn refusals(drawing: &Drawing) -> [Option<Refusal>; 4] {
    let lent = Lent::enough_for(drawing);
    let [clearance, separation, congestion] =
        MEASURES.map(|measure| before_work(measure, drawing, &lent));
    let tight_pair = before_tight_pair(drawing, &lent);
    [clearance, separation, congestion, tight_pair]
}

/// The figures of D, its visits and 7 one visit below each, with its wires given
/// in other directions, and more, by the reference and over all pairs.
#[test]
fn reversed_drawings_have_their_sheets() {
    for case in reversed::cases() {
        for of_drawing in [sheet::by_reference, sheet::by_pairs] {
            let sheet = of_drawing(&case.drawing).map_err(|fault| fault.to_string());
            assert_eq!(sheet, Ok(case.sheet.to_string()), "{}", case.name);
        }
    }
}

#[test]
fn a_start_above_its_end_is_fit_and_one_equal_to_it_is_not() {
    let least = f64::from_bits(1);
    for (start, end) in [
        (10.0, 0.0),
        (10.0, -10.0),
        (0.0, -1.0),
        (1.0, -0.0),
        (f64::MAX, -f64::MAX),
        (-0.0, -least),
        (least, 0.0),
    ] {
        let [clearance, separation, _, tight_pair] = refusals(&d_with_ends(start, end));
        assert_eq!([clearance, separation, tight_pair], [None; 3], "{start}");
    }
    for (start, end) in [
        (5.0, 5.0),
        (0.0, 0.0),
        (0.0, -0.0),
        (-0.0, 0.0),
        (f64::NAN, 3.0),
        (3.0, f64::NAN),
        (f64::NAN, f64::NAN),
        (f64::INFINITY, 3.0),
        (3.0, f64::INFINITY),
        (f64::NEG_INFINITY, 3.0),
        (3.0, f64::NEG_INFINITY),
        (f64::INFINITY, f64::NEG_INFINITY),
        (f64::INFINITY, f64::INFINITY),
    ] {
        let refused = refusals(&d_with_ends(start, end));
        assert_eq!(refused, [Some(Refusal::Unfit); 4], "{start} to {end}");
    }
}

/// A reversed segment has the refusals that it has for other reasons, in their
/// order.
#[test]
fn a_reversed_segment_is_refused_for_other_faults_alone() {
    let off_grid = d_with_ends(10.0, 1.0 / 128.0);
    assert_eq!(
        refusals(&off_grid),
        [None, None, Some(Refusal::OffGrid), None]
    );
    let mut orientation = drawing_d().reversed();
    orientation.segments[1].orientation = 2;
    assert_eq!(refusals(&orientation), [Some(Refusal::Unfit); 4]);
    let mut many = drawing_d().reversed();
    many.segments = vec![many.segments[0]; 4_096];
    assert_eq!(refusals(&many), [None; 4]);
    many.segments.push(many.segments[0]);
    assert_eq!(refusals(&many), [Some(Refusal::TooMany); 4]);
}

/// The generated drawings of the kinds that fit into small files.
fn small_drawings(count: u64) -> impl Iterator<Item = Drawing> {
    (0..count).map(|index| {
        let (kind, _, _) = KINDS[index as usize % SMALL_KINDS];
        generate::drawing(kind, &MIDDLE, &mut Random::for_drawing(5, index))
    })
}

#[test]
fn a_third_of_the_generated_segments_are_reversed() {
    let (mut all, mut reversed) = (0, 0);
    for drawing in small_drawings(500) {
        all += drawing.segments.len();
        reversed += drawing
            .segments
            .iter()
            .filter(|segment| segment.end < segment.start)
            .count();
    }
    let share = reversed as f64 / all as f64;
    assert!((0.3..0.36).contains(&share), "{reversed} of {all}");
}

/// The reference is fed segments that `Drawing::rising` has turned, and all pairs
/// take the ends as they are.
#[test]
fn all_pairs_see_no_direction() {
    for drawing in small_drawings(500) {
        for measure in MEASURES {
            if before_work(measure, &drawing, &Lent::enough_for(&drawing)).is_some() {
                continue;
            }
            let expected = pairs::figures(measure, &drawing);
            for other in [drawing.rising(), drawing.reversed()] {
                assert_eq!(pairs::figures(measure, &other), expected, "{drawing:?}");
            }
        }
    }
}

/// What the reference does where it is fed the ends as they are given.
fn run_as_given(measure: Measure, segments: &[Segment]) -> Run {
    let drawing = Drawing {
        segments: segments.to_vec(),
        ..drawing_d()
    };
    Fed::with_ends_as_given(&drawing).run(measure, u64::MAX)
}

fn total_alone(total: f64) -> Run {
    Run::Done(vec![
        Figure::Length(total),
        Figure::Length(0.0),
        Figure::Length(0.0),
        Figure::Count(0),
        Figure::Gap(None),
    ])
}

/// What docs/DIFFERENCES.md says of the reference and a start above its end:
/// clearance and separation refuse it, and congestion, which checks nothing, takes
/// its length as negative and panics where it sweeps. The cutoff is D's, 6. In a
/// build without checks, `cargo test --profile speed`, one panic has other words.
#[test]
fn the_reference_has_no_answer_to_a_reversed_segment() {
    let reversed = horizontal(1, 0.0, 10.0, 0.0);
    let upright = Segment {
        orientation: VERTICAL,
        ..horizontal(2, 4.0, 0.0, 30.0)
    };
    let longer = horizontal(2, 4.0, 0.0, 30.0);
    for measure in [Measure::Clearance, Measure::Separation] {
        assert_eq!(run_as_given(measure, &[reversed]), Run::Unfit);
        assert_eq!(run_as_given(measure, &[longer, reversed]), Run::Unfit);
    }
    let congestion = |segments: &[Segment]| run_as_given(Measure::Congestion, segments);
    let panicked = |words: &str| Run::Panicked(words.to_string());

    // Nothing is swept: the total is not above 0, or no two wires are parallel.
    assert_eq!(congestion(&[reversed]), total_alone(-10.0));
    let as_long = horizontal(2, 4.0, 5.0, 15.0);
    assert_eq!(congestion(&[reversed, as_long]), total_alone(0.0));
    assert_eq!(congestion(&[reversed, upright]), total_alone(20.0));

    // The end is met before the start: nothing is active on the wire's line, ..
    let not_active = "ending parallel segment is active";
    assert_eq!(congestion(&[reversed, longer]), panicked(not_active));
    // .. another wire is active there, ..
    let one_line = horizontal(2, 0.0, -5.0, 30.0);
    assert_eq!(
        congestion(&[reversed, Segment { net: 1, ..one_line }]),
        panicked("assertion failed: members.remove(&segment_index)")
    );
    // .. or a close one is, whose neighbours have not been counted.
    let close = horizontal(2, 4.0, -5.0, 30.0);
    let words = if cfg!(debug_assertions) {
        "attempt to subtract with overflow"
    } else {
        not_active
    };
    assert_eq!(congestion(&[reversed, close]), panicked(words));
}

/// Files of the project that the oracle's commands write.
#[test]
fn stored_files_are_what_the_commands_write() {
    let root = Path::new(env!("CARGO_MANIFEST_DIR")).join("../..");
    let stored = |place: &str| fs::read(root.join(place)).expect(place);
    for (name, bytes) in drawings::files() {
        assert!(stored(&format!("drawings/{name}")) == bytes, "{name}");
    }
    assert!(stored("crates/sheet/stdin") == file::write(&drawing_d()));
    assert!(stored("crates/sheet/stdout") == SHEET_OF_D.as_bytes());
    assert!(stored("crates/replay/stdin") == sample(1, 400).expect("a sample"));
}

#[test]
fn one_seed_gives_one_sample() {
    let first = sample(3, 80).expect("a sample");
    let second = sample(3, 80).expect("a sample");
    assert!(first == second);
}

#[test]
fn what_is_tried_on_a_drawing_depends_on_every_part_of_it() {
    let mut drawing = drawing_d();
    let first = drawing.random().word();
    assert_eq!(drawing.random().word(), first);
    drawing.allowances.congestion += 1;
    assert_ne!(drawing.random().word(), first);
}

/// The reference knows no grid, so that `check` cannot hold refusal 6 against
/// it.
#[test]
fn the_grid_ends_where_scope_says() {
    let refusal_of_cutoff = |cutoff| {
        let mut drawing = drawing_d();
        drawing.cutoff = cutoff;
        before_work(Measure::Congestion, &drawing, &Lent::enough_for(&drawing))
    };
    let step = 1.0 / 64.0;
    let end = 1_048_576.0;
    for on in [0.0, -0.0, step, -step, 1.0 + step, end - step, end, -end] {
        assert_eq!(refusal_of_cutoff(on), None, "{on}");
    }
    let least = f64::from_bits(1);
    for off in [step / 2.0, 0.1, least, end + step, -end - step, 1e300] {
        assert_eq!(refusal_of_cutoff(off), Some(Refusal::OffGrid), "{off}");
    }
    for unfit in [f64::NAN, f64::INFINITY, f64::NEG_INFINITY] {
        assert_eq!(refusal_of_cutoff(unfit), Some(Refusal::Unfit), "{unfit}");
    }
}

/// What SCOPE 11.5 says of D, in the words of `crates/exports`, without the
/// reference between.
#[cfg(port)]
mod port {
    use crate::{
        drawing::{drawing_d, Drawing, SHEET_OF_D},
        file,
        port::{
            run, run_by_records, run_ratio, run_tight_pair, scratch_words, Call, Columns, Returned,
            CALLS,
        },
        port_sheet::{difference_in_process, difference_through_the_program},
        reversed,
    };

    /// What a call returns by columns. By records it returns the same.
    fn returned(call: Call, drawing: &Drawing, allowance: u64) -> Returned {
        let columns = Columns::of(drawing);
        let words = scratch_words(call.measure(), drawing);
        let returned = run(call, &columns, allowance, &mut vec![1; words]);
        if let Some(records) = columns.records() {
            let scratch = &mut vec![1; words];
            let by_records = run_by_records(call, &records, &columns, allowance, scratch);
            assert_eq!(by_records, returned, "{call:?}");
        }
        returned
    }

    fn statuses(drawing: &Drawing) -> [u32; 5] {
        CALLS.map(|call| returned(call, drawing, u64::MAX).status)
    }

    /// D, and D with its wires given in other directions.
    fn drawings_like_d() -> Vec<Drawing> {
        let mut drawings = vec![drawing_d()];
        drawings.extend(reversed::d_in_other_directions());
        drawings
    }

    #[test]
    fn drawing_d_is_measured_as_its_sheet_says() {
        let [one, four, five] = [1.0_f64, 4.0, 5.0].map(f64::to_bits);
        let [ten, twenty] = [10.0_f64, 20.0].map(f64::to_bits);
        let reports = [
            (Call::Clearance, vec![1, one, 1, 2]),
            (Call::Separation, vec![1, four, 1, four, 16]),
            (Call::DensityProfile, vec![twenty, ten, five, 1, 1, four, 4]),
            (Call::CongestionProfile, vec![twenty, ten, 0, 0, 1, four, 4]),
            (Call::Congestion, vec![twenty, ten, five, 1, 1, four, 4]),
        ];
        for drawing in drawings_like_d() {
            for (call, words) in reports.clone() {
                let report = Returned { status: 0, words };
                let visits = report.visits();
                for allowance in [visits, 1_000, u64::MAX] {
                    let returned = returned(call, &drawing, allowance);
                    assert_eq!(returned, report, "{call:?} {drawing:?}");
                }
                if call != Call::Congestion {
                    let spent = returned(call, &drawing, visits - 1);
                    assert_eq!(spent.status, 7, "{call:?} {drawing:?}");
                    assert!(spent.words.iter().all(|word| *word == 0), "{call:?}");
                }
            }
            let pair = run_tight_pair(&Columns::of(&drawing));
            let words = vec![1, 0, 0];
            assert_eq!(pair, Returned { status: 0, words }, "{drawing:?}");
        }
    }

    #[test]
    fn reversed_drawings_have_their_sheets() {
        for case in reversed::cases() {
            let bytes = file::write(&case.drawing);
            for difference in [difference_in_process, difference_through_the_program] {
                assert_eq!(difference(&bytes, case.sheet), None, "{}", case.name);
            }
        }
    }

    #[test]
    fn a_reversed_segment_is_refused_for_other_faults_alone() {
        let mut drawing = drawing_d().reversed();
        drawing.segments[0].end = 1.0 / 128.0;
        assert_eq!(statuses(&drawing), [0, 0, 6, 6, 6]);
        drawing.segments[1].orientation = 2;
        assert_eq!(statuses(&drawing), [5; 5]);
        assert_eq!(run_tight_pair(&Columns::of(&drawing)).status, 5);
        let mut many = drawing_d().reversed();
        many.segments = vec![many.segments[0]; 4_096];
        assert_eq!(statuses(&many), [0; 5]);
        assert_eq!(run_tight_pair(&Columns::of(&many)).status, 0);
        many.segments.push(many.segments[0]);
        assert_eq!(statuses(&many), [3; 5]);
        assert_eq!(run_tight_pair(&Columns::of(&many)).status, 3);
    }

    #[test]
    fn congestion_has_no_allowance_to_spend() {
        for (call, status) in [
            (Call::DensityProfile, 7),
            (Call::CongestionProfile, 7),
            (Call::Congestion, 0),
        ] {
            assert_eq!(returned(call, &drawing_d(), 3).status, status, "{call:?}");
        }
    }

    #[test]
    fn the_tight_pair_of_d_is_the_pair_that_is_not_exempt() {
        let mut drawing = drawing_d();
        drawing.segments.swap(0, 1);
        let pair = run_tight_pair(&Columns::of(&drawing));
        let words = vec![1, 1, 0];
        assert_eq!(pair, Returned { status: 0, words });
        drawing.exemptions[0].net = 1;
        let pair = run_tight_pair(&Columns::of(&drawing));
        let words = vec![1, 0, 0];
        assert_eq!(pair, Returned { status: 0, words });
        drawing.segments.truncate(1);
        drawing.exemptions[0].net = 2;
        let pair = run_tight_pair(&Columns::of(&drawing));
        let words = vec![0; 3];
        assert_eq!(pair, Returned { status: 0, words });
    }

    #[test]
    fn the_ratio_is_clamped_and_keeps_a_nan() {
        let ratios = [
            (20.0, 10.0, 0.5),
            (3.0, 1.0, 1.0 / 3.0),
            (1.0, 2.0, 1.0),
            (1.0, -1.0, 0.0),
            (1.0, -0.0, -0.0),
            (0.0, 1.0, 0.0),
            (-0.0, f64::NAN, 0.0),
            (-1.0, -1.0, 0.0),
            (f64::NAN, 1.0, 0.0),
            (f64::INFINITY, 1.0, 0.0),
        ];
        for (total, congested, expected) in ratios {
            let ratio: f64 = run_ratio(total, congested);
            let expected: f64 = expected;
            assert_eq!(
                ratio.to_bits(),
                expected.to_bits(),
                "{congested} over {total}"
            );
        }
        assert!(run_ratio(1.0, f64::NAN).is_nan());
        assert!(run_ratio(f64::INFINITY, f64::INFINITY).is_nan());
    }

    /// A comparison that passed whatever the port writes would show nothing.
    #[test]
    fn a_sheet_that_is_not_the_expected_one_is_seen() {
        let bytes = file::write(&drawing_d());
        let one_visit_more = SHEET_OF_D.replace(" 16\n", " 17\n");
        let no_last_line_feed = &SHEET_OF_D[..SHEET_OF_D.len() - 1];
        for difference in [difference_in_process, difference_through_the_program] {
            assert_eq!(difference(&bytes, SHEET_OF_D), None);
            for wrong in ["", "file refused 1\n", &one_visit_more, no_last_line_feed] {
                assert!(difference(&bytes, wrong).is_some(), "{wrong}");
            }
        }
    }
}
