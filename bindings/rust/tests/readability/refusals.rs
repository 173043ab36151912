//! Each refusal, by records and by columns, and what the scratch holds after.

use readability::{
    columns::{self, scratch_words, NodeColumns, RelationColumns, SegmentColumns, MOST_ENTRIES},
    join, measure_edge_node_clearance_bounded, measure_parallel_congestion,
    measure_parallel_congestion_profile_bounded, measure_parallel_density_profile_bounded,
    measure_parallel_separation_bounded, tight_pair, try_measure_edge_node_clearance_bounded,
    try_measure_parallel_congestion, try_measure_parallel_congestion_profile_bounded,
    try_measure_parallel_density_profile_bounded, try_measure_parallel_separation_bounded,
    EdgeNodeClearanceError, NetNodeRelation, ParallelCongestion, ParallelSegment,
    ParallelSeparationError, Refusal,
};

use crate::drawing::{drawing_d, horizontal, node, Drawing};

const ENOUGH: usize = usize::MAX;

/// What clearance and the tight pair answer, if they refuse.
fn with_nodes(drawing: &Drawing) -> [Option<Refusal>; 2] {
    let routes = drawing.routes();
    let (nodes, relations) = (&drawing.nodes, &drawing.relations);
    [
        try_measure_edge_node_clearance_bounded(
            &routes,
            nodes,
            relations,
            drawing.threshold,
            ENOUGH,
        )
        .err(),
        tight_pair(&routes, nodes, relations).err(),
    ]
}

fn separation(wires: &[ParallelSegment]) -> Option<Refusal> {
    try_measure_parallel_separation_bounded(wires, ENOUGH).err()
}

/// All calls of congestion refuse alike, and so do the module's names.
fn congestion(wires: &[ParallelSegment], cutoff: f64) -> Option<Refusal> {
    let refusal = try_measure_parallel_congestion(wires, cutoff).err();
    let profile = try_measure_parallel_congestion_profile_bounded(wires, cutoff, ENOUGH);
    let density = try_measure_parallel_density_profile_bounded(wires, cutoff, ENOUGH);
    assert_eq!(profile.err(), refusal);
    assert_eq!(density.err(), refusal);
    let refused = refusal.is_some();
    let profile = measure_parallel_congestion_profile_bounded(wires, cutoff, ENOUGH);
    let density = measure_parallel_density_profile_bounded(wires, cutoff, ENOUGH);
    let unlimited = measure_parallel_congestion(wires, cutoff);
    assert_eq!(profile.is_none(), refused);
    assert_eq!(density.is_none(), refused);
    assert_eq!(unlimited == ParallelCongestion::REFUSED, refused);
    refusal
}

#[test]
fn more_than_4096_entries_are_3() {
    let too_many = Some(Refusal::TooManyEntries);
    let mut wires = vec![horizontal(1, 0.0, 0.0, 1.0); MOST_ENTRIES];
    assert_eq!(separation(&wires), None);
    assert_eq!(congestion(&wires, 0.0), None);
    assert_eq!(with_nodes(&Drawing::of_wires(&wires, 0.0)), [None; 2]);
    wires.push(horizontal(1, f64::NAN, 0.0, 1.0));
    assert_eq!(separation(&wires), too_many);
    assert_eq!(congestion(&wires, 0.0), too_many);
    assert_eq!(with_nodes(&Drawing::of_wires(&wires, 0.0)), [too_many; 2]);
    assert_eq!(
        measure_parallel_separation_bounded(&wires, ENOUGH),
        Err(ParallelSeparationError::TooManyEntries)
    );

    let mut nodes = drawing_d();
    nodes.nodes = vec![node(1, 0.0, 0.0, 1.0, 1.0); MOST_ENTRIES + 1];
    assert_eq!(with_nodes(&nodes), [too_many; 2]);
    let mut relations = drawing_d();
    relations.relations = vec![NetNodeRelation { net: 1, node: 1 }; MOST_ENTRIES + 1];
    assert_eq!(with_nodes(&relations), [too_many; 2]);
    let clearance = |list: &[NetNodeRelation]| {
        let d = drawing_d();
        measure_edge_node_clearance_bounded(&d.routes(), &d.nodes, list, d.threshold, ENOUGH)
    };
    assert_eq!(
        clearance(&relations.relations),
        Err(EdgeNodeClearanceError::TooManyEntries)
    );
    assert!(clearance(&relations.relations[1..]).is_ok());
}

#[test]
fn an_unfit_segment_is_5() {
    let unfit = Some(Refusal::InvalidInput);
    let mut segments = Vec::new();
    for number in [f64::NAN, f64::INFINITY, f64::NEG_INFINITY] {
        segments.push(horizontal(1, number, 0.0, 1.0));
        segments.push(horizontal(1, 0.0, number, 1.0));
        segments.push(horizontal(1, 0.0, 0.0, number));
    }
    // Ends that are equal as numbers, and ends of which one alone is finite, in both
    // directions.
    segments.push(horizontal(1, 0.0, 1.0, 1.0));
    segments.push(horizontal(1, 0.0, -0.0, 0.0));
    segments.push(horizontal(1, 0.0, 0.0, -0.0));
    segments.push(horizontal(1, 0.0, f64::INFINITY, 3.0));
    segments.push(horizontal(1, 0.0, 3.0, f64::NEG_INFINITY));
    for segment in segments {
        let mut drawing = drawing_d();
        drawing.wires.push(segment);
        assert_eq!(with_nodes(&drawing), [unfit; 2], "{segment:?}");
        assert_eq!(separation(&drawing.wires), unfit, "{segment:?}");
        assert_eq!(congestion(&drawing.wires, 6.0), unfit, "{segment:?}");
        assert_eq!(join(&drawing.wires).err(), unfit, "{segment:?}");
        assert_eq!(
            measure_parallel_separation_bounded(&drawing.wires, 0),
            Err(ParallelSeparationError::InvalidInput)
        );
    }
}

/// A reversed wire is refused for what it would be refused for without being
/// reversed.
#[test]
fn a_start_above_its_end_is_no_refusal() {
    let least = f64::from_bits(1);
    let ends = [(2.0, 1.0), (0.0, -1.0), (1.0, -0.0), (1_048_576.0, 0.0)];
    for (start, end) in ends {
        let mut drawing = drawing_d().reversed();
        drawing.wires.push(horizontal(1, 0.0, start, end));
        assert_eq!(with_nodes(&drawing), [None; 2], "{start}");
        assert_eq!(separation(&drawing.wires), None, "{start}");
        assert_eq!(congestion(&drawing.wires, 6.0), None, "{start}");
    }
    for (start, end) in [(1.0, 1.0 / 128.0), (0.0, -least), (f64::MAX, -f64::MAX)] {
        let mut drawing = drawing_d().reversed();
        drawing.wires.push(horizontal(1, 0.0, start, end));
        assert_eq!(with_nodes(&drawing), [None; 2], "{start}");
        assert_eq!(separation(&drawing.wires), None, "{start}");
        let off_grid = Some(Refusal::OffGrid);
        assert_eq!(congestion(&drawing.wires, 6.0), off_grid, "{start}");
    }
    let mut many = Drawing::of_wires(&[horizontal(1, 0.0, 1.0, 0.0); MOST_ENTRIES], 0.0);
    assert_eq!(with_nodes(&many), [None; 2]);
    assert_eq!(separation(&many.wires), None);
    assert_eq!(congestion(&many.wires, 0.0), None);
    many.wires.push(many.wires[0]);
    let too_many = Some(Refusal::TooManyEntries);
    assert_eq!(with_nodes(&many), [too_many; 2]);
    assert_eq!(separation(&many.wires), too_many);
    assert_eq!(congestion(&many.wires, 0.0), too_many);
}

#[test]
fn an_unfit_node_is_5() {
    let unfit = Some(Refusal::InvalidInput);
    let mut nodes = Vec::new();
    for number in [f64::NAN, f64::INFINITY, f64::NEG_INFINITY] {
        nodes.push(node(1, number, 0.0, 1.0, 1.0));
        nodes.push(node(1, 0.0, number, 1.0, 1.0));
        nodes.push(node(1, 0.0, 0.0, number, 1.0));
        nodes.push(node(1, 0.0, 0.0, 1.0, number));
    }
    nodes.push(node(1, 0.0, 0.0, 0.0, 1.0));
    nodes.push(node(1, 0.0, 0.0, 1.0, -1.0));
    nodes.push(node(1, f64::MAX, 0.0, f64::MAX, 1.0));
    nodes.push(node(1, 0.0, f64::MAX, 1.0, f64::MAX));
    for node in nodes {
        let mut drawing = drawing_d();
        drawing.nodes.push(node.clone());
        assert_eq!(with_nodes(&drawing), [unfit; 2], "{node:?}");
        let measured = measure_edge_node_clearance_bounded(
            &drawing.routes(),
            &drawing.nodes,
            &drawing.relations,
            2.0,
            0,
        );
        assert_eq!(measured, Err(EdgeNodeClearanceError::InvalidInput));
    }
}

#[test]
fn an_unfit_setting_is_5() {
    let unfit = Some(Refusal::InvalidInput);
    for threshold in [f64::NAN, f64::INFINITY, f64::NEG_INFINITY, -1.0] {
        let mut drawing = drawing_d();
        drawing.threshold = threshold;
        assert_eq!(with_nodes(&drawing), [unfit, None], "{threshold}");
    }
    for cutoff in [f64::NAN, f64::INFINITY, f64::NEG_INFINITY] {
        assert_eq!(congestion(&drawing_d().wires, cutoff), unfit, "{cutoff}");
    }
}

#[test]
fn off_the_grid_is_6_in_congestion_alone() {
    let off_grid = Some(Refusal::OffGrid);
    for number in [
        0.1,
        1.0 / 128.0,
        1_048_577.0,
        -1_048_577.0,
        1e-300,
        f64::MAX,
    ] {
        let mut drawing = drawing_d();
        drawing.wires[0].fixed = number;
        assert_eq!(with_nodes(&drawing), [None; 2], "{number}");
        assert_eq!(separation(&drawing.wires), None, "{number}");
        assert_eq!(congestion(&drawing.wires, 6.0), off_grid, "{number}");
        assert_eq!(join(&drawing.wires).err(), None, "{number}");
        assert_eq!(congestion(&[], number), off_grid, "{number}");
    }
}

#[test]
fn a_refused_drawing_reads_as_wholly_congested() {
    let refused = measure_parallel_congestion(&[horizontal(1, 0.1, 0.0, 1.0)], 1.0);
    assert_eq!(refused, ParallelCongestion::REFUSED);
    assert_eq!(refused.ratio(), 1.0);
}

/// Drawing D by columns, each of which a test may change.
#[derive(Clone)]
struct Columns {
    net: Vec<u32>,
    orientation: Vec<u8>,
    floats: [Vec<f64>; 3],
    id: Vec<u32>,
    boxes: [Vec<f64>; 4],
    exempt_net: Vec<u32>,
    exempt_node: Vec<u32>,
    scratch: usize,
}

impl Columns {
    fn of_d() -> Self {
        Self {
            net: vec![1, 2],
            orientation: vec![1, 1],
            floats: [vec![0.0, 4.0], vec![0.0, 5.0], vec![10.0, 15.0]],
            id: vec![7],
            boxes: [vec![2.0], vec![1.0], vec![3.0], vec![2.0]],
            exempt_net: vec![2],
            exempt_node: vec![7],
            scratch: scratch_words(2, 1),
        }
    }

    fn segments(&self) -> SegmentColumns<'_> {
        SegmentColumns {
            net: &self.net,
            orientation: &self.orientation,
            fixed: &self.floats[0],
            start: &self.floats[1],
            end: &self.floats[2],
        }
    }

    fn nodes(&self) -> NodeColumns<'_> {
        NodeColumns {
            id: &self.id,
            x: &self.boxes[0],
            y: &self.boxes[1],
            width: &self.boxes[2],
            height: &self.boxes[3],
        }
    }

    fn relations(&self) -> RelationColumns<'_> {
        RelationColumns {
            net: &self.exempt_net,
            node: &self.exempt_node,
        }
    }

    /// What each of the five measures answers, if it refuses; and the scratch is
    /// as SCOPE 7 says.
    fn measures(&self, threshold: f64, cutoff: f64, allowance: usize) -> [Option<Refusal>; 5] {
        let (s, n, r) = (self.segments(), self.nodes(), self.relations());
        [
            self.measure(|w| columns::clearance(s, n, r, threshold, allowance, w).err()),
            self.measure(|w| columns::separation(s, allowance, w).err()),
            self.measure(|w| columns::density_profile(s, cutoff, allowance, w).err()),
            self.measure(|w| columns::congestion_profile(s, cutoff, allowance, w).err()),
            self.measure(|w| columns::congestion(s, cutoff, w).err()),
        ]
    }

    fn measure(&self, call: impl FnOnce(&mut [u64]) -> Option<Refusal>) -> Option<Refusal> {
        const BEFORE: u64 = 0x5555_5555_5555_5555;
        let mut scratch = vec![BEFORE; self.scratch];
        let refusal = call(&mut scratch);
        let after = match refusal {
            None | Some(Refusal::WorkLimitExceeded) => 0,
            Some(_) => BEFORE,
        };
        assert!(scratch.iter().all(|word| *word == after), "{refusal:?}");
        refusal
    }

    fn tight_pair(&self) -> Option<Refusal> {
        columns::tight_pair(self.segments(), self.nodes(), self.relations()).err()
    }
}

#[test]
fn an_accepted_call_clears_the_whole_scratch() {
    let mut longer = Columns::of_d();
    longer.scratch += 100;
    assert_eq!(longer.measures(2.0, 6.0, ENOUGH), [None; 5]);
    assert_eq!(longer.tight_pair(), None);
}

#[test]
fn columns_of_different_lengths_are_2() {
    let differ = Some(Refusal::ColumnsDiffer);
    let mut of_segments = vec![Columns::of_d(); 5];
    of_segments[0].net.push(1);
    of_segments[1].orientation.pop();
    of_segments[2].floats[0].push(f64::NAN);
    of_segments[3].floats[1].pop();
    of_segments[4].floats[2].clear();
    for mut columns in of_segments {
        columns.scratch = 0;
        assert_eq!(columns.measures(2.0, 6.0, ENOUGH), [differ; 5]);
        assert_eq!(columns.tight_pair(), differ);
    }
    let mut of_others = vec![Columns::of_d(); 7];
    of_others[0].id.push(1);
    of_others[1].boxes[0].pop();
    of_others[2].boxes[1].push(0.0);
    of_others[3].boxes[2].pop();
    of_others[4].boxes[3].push(0.0);
    of_others[5].exempt_net.pop();
    of_others[6].exempt_node.push(1);
    for columns in of_others {
        let expected = [differ, None, None, None, None];
        assert_eq!(columns.measures(2.0, 6.0, ENOUGH), expected);
        assert_eq!(columns.tight_pair(), differ);
    }
}

#[test]
fn too_little_scratch_is_4() {
    let short = Some(Refusal::ShortScratch);
    let mut columns = Columns::of_d();
    columns.scratch = scratch_words(2, 1) - 1;
    assert_eq!(
        columns.measures(2.0, 6.0, ENOUGH),
        [short, None, None, None, None]
    );
    columns.scratch = scratch_words(2, 0) - 1;
    columns.orientation[0] = 2;
    assert_eq!(columns.measures(f64::NAN, f64::NAN, 0), [short; 5]);
    assert_eq!(scratch_words(0, 0), 64);
    assert_eq!(scratch_words(usize::MAX, 1), usize::MAX);
}

#[test]
fn an_orientation_above_1_is_5() {
    let unfit = Some(Refusal::InvalidInput);
    let mut columns = Columns::of_d();
    columns.orientation[1] = 2;
    assert_eq!(columns.measures(2.0, 1.0 / 128.0, 0), [unfit; 5]);
    assert_eq!(columns.tight_pair(), unfit);
    // The same of reversed wires.
    columns.floats.swap(1, 2);
    assert_eq!(columns.measures(2.0, 1.0 / 128.0, 0), [unfit; 5]);
    assert_eq!(columns.tight_pair(), unfit);
}

#[test]
fn equal_ends_in_columns_are_5() {
    let unfit = Some(Refusal::InvalidInput);
    for (start, end) in [(5.0, 5.0), (0.0, -0.0), (-0.0, 0.0)] {
        let mut columns = Columns::of_d();
        (columns.floats[1][0], columns.floats[2][0]) = (start, end);
        assert_eq!(columns.measures(2.0, 1.0 / 128.0, 0), [unfit; 5]);
        assert_eq!(columns.tight_pair(), unfit);
    }
}

#[test]
fn a_spent_allowance_is_7_and_clears_the_scratch() {
    let spent = Some(Refusal::WorkLimitExceeded);
    let mut columns = Columns::of_d();
    columns.scratch += 100;
    assert_eq!(
        columns.measures(2.0, 6.0, 0),
        [spent, spent, spent, spent, None]
    );
    assert_eq!(
        columns.measures(2.0, 6.0, 3),
        [None, spent, spent, spent, None]
    );
    assert_eq!(
        columns.measures(2.0, 6.0, 15),
        [None, spent, None, None, None]
    );
}

#[test]
fn refusals_have_scopes_numbers() {
    let refusals = [
        Refusal::ColumnsDiffer,
        Refusal::TooManyEntries,
        Refusal::ShortScratch,
        Refusal::InvalidInput,
        Refusal::OffGrid,
        Refusal::ShortOutput,
        Refusal::WorkLimitExceeded,
    ];
    assert_eq!(refusals.map(Refusal::number), [2, 3, 4, 5, 6, 8, 7]);
}
