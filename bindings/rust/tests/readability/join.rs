//! Joining (SCOPE 16): the pieces of small lists, the refusals, what is left in the
//! lent columns, and random drawings, whose pieces are held against their wires
//! point by point.

use readability::{
    columns::{self, PieceColumns, SegmentColumns, MOST_ENTRIES},
    join, Joined, ParallelSegment, Refusal,
};

use crate::{
    drawing::{horizontal, Drawing},
    generate::{drawings, reordered},
};

/// Drawings of each kind of numbers.
const EACH: u64 = 200;

fn vertical(net: u32, fixed: f64, start: f64, end: f64) -> ParallelSegment {
    ParallelSegment {
        horizontal: false,
        ..horizontal(net, fixed, start, end)
    }
}

/// Wires by their bits, by which zeros of different sign differ.
fn bits(wires: &[ParallelSegment]) -> Vec<(u32, bool, [u64; 3])> {
    let floats = |wire: &ParallelSegment| [wire.fixed, wire.start, wire.end].map(f64::to_bits);
    let of = |wire: &ParallelSegment| (wire.net, wire.horizontal, floats(wire));
    wires.iter().map(of).collect()
}

fn assert_joins(wires: &[ParallelSegment], expected: &[ParallelSegment]) {
    let pieces = join(wires).expect("the wires are fit");
    assert_eq!(bits(&pieces), bits(expected), "{wires:?}");
}

/// Columns of which a test may change each.
#[derive(Clone, Debug)]
struct Columns {
    net: Vec<u32>,
    orientation: Vec<u8>,
    floats: [Vec<f64>; 3],
}

impl Columns {
    fn of(wires: &[ParallelSegment]) -> Self {
        let floats = |field: fn(&ParallelSegment) -> f64| wires.iter().map(field).collect();
        Self {
            net: wires.iter().map(|wire| wire.net).collect(),
            orientation: wires.iter().map(|wire| u8::from(wire.horizontal)).collect(),
            floats: [
                floats(|wire| wire.fixed),
                floats(|wire| wire.start),
                floats(|wire| wire.end),
            ],
        }
    }

    /// Columns of these lengths that hold no piece.
    fn blank([net, orientation, fixed, start, end]: [usize; 5]) -> Self {
        Self {
            net: vec![77; net],
            orientation: vec![77; orientation],
            floats: [fixed, start, end].map(|length| vec![-77.0; length]),
        }
    }

    fn lengths(&self) -> [usize; 5] {
        let [fixed, start, end] = &self.floats;
        let (net, orientation) = (self.net.len(), self.orientation.len());
        [net, orientation, fixed.len(), start.len(), end.len()]
    }

    fn segments(&self) -> SegmentColumns<'_> {
        SegmentColumns {
            net: &self.net,
            orientation: &self.orientation,
            fixed: &self.floats[0],
            start: &self.floats[1],
            end: &self.floats[2],
        }
    }

    fn pieces(&mut self) -> PieceColumns<'_> {
        let [fixed, start, end] = &mut self.floats;
        PieceColumns {
            net: &mut self.net,
            orientation: &mut self.orientation,
            fixed,
            start,
            end,
        }
    }

    /// These columns with pieces written over their first entries.
    fn overwritten(mut self, pieces: &[ParallelSegment]) -> Self {
        let (count, written) = (pieces.len(), Self::of(pieces));
        self.net[..count].copy_from_slice(&written.net);
        self.orientation[..count].copy_from_slice(&written.orientation);
        for (column, floats) in self.floats.iter_mut().zip(&written.floats) {
            column[..count].copy_from_slice(floats);
        }
        self
    }

    /// The columns in words, by which zeros of different sign differ.
    fn words(&self) -> String {
        format!("{self:?}")
    }
}

/// Joins columns into blank ones of these lengths. Afterwards they hold the pieces
/// that are expected, none where a refusal is, and behind them what they held before;
/// the segments are as they were.
fn join_into(
    segments: &Columns,
    lengths: [usize; 5],
    pieces: &[ParallelSegment],
) -> Result<Joined, Refusal> {
    let lent = segments.words();
    let mut output = Columns::blank(lengths);
    let expected = Columns::blank(lengths).overwritten(pieces);
    let joined = columns::join(segments.segments(), output.pieces());
    assert_eq!(output.words(), expected.words(), "{lengths:?}");
    assert_eq!(segments.words(), lent);
    joined
}

#[test]
fn wires_that_touch_at_an_end_are_one() {
    let wires = [horizontal(1, 0.0, 0.0, 5.0), horizontal(1, 0.0, 5.0, 9.0)];
    let piece = [horizontal(1, 0.0, 0.0, 9.0)];
    assert_joins(&wires, &piece);
    let joined = join_into(&Columns::of(&wires), [2; 5], &piece);
    assert_eq!(joined, Ok(Joined { pieces: 1, gone: 1 }));
    // Each given from its greater end.
    let back = [horizontal(1, 0.0, 5.0, 0.0), horizontal(1, 0.0, 9.0, 5.0)];
    assert_joins(&back, &piece);
    assert_joins(&[back[1], wires[0]], &piece);
}

#[test]
fn neighbouring_floats_do_not_touch() {
    let after_1 = 1.0 + f64::EPSILON;
    assert_eq!(after_1.to_bits(), 1.0_f64.to_bits() + 1);
    let of_ones = [
        horizontal(1, 0.0, 0.0, 1.0),
        horizontal(1, 0.0, after_1, 2.0),
    ];
    let least = f64::from_bits(1);
    let subnormal = [
        horizontal(1, 0.0, 0.0, least),
        horizontal(1, 0.0, 2.0 * least, 3.0 * least),
    ];
    let lines = [
        horizontal(1, 1.0, 0.0, 1.0),
        horizontal(1, after_1, 0.0, 1.0),
    ];
    for wires in [of_ones, subnormal, lines] {
        assert_joins(&wires, &wires);
        let joined = join_into(&Columns::of(&wires), [2; 5], &wires);
        assert_eq!(joined, Ok(Joined { pieces: 2, gone: 0 }));
    }
}

#[test]
fn zeros_of_either_sign_are_one_place() {
    let ends = [horizontal(1, 0.0, -1.0, -0.0), horizontal(1, 0.0, 0.0, 1.0)];
    assert_joins(&ends, &[horizontal(1, 0.0, -1.0, 1.0)]);
    let lines = [
        horizontal(1, -0.0, 0.0, 5.0),
        horizontal(1, 0.0, 5.0, 9.0),
        vertical(1, -0.0, 9.0, -0.0),
    ];
    let pieces = [horizontal(1, 0.0, 0.0, 9.0), vertical(1, 0.0, 0.0, 9.0)];
    assert_joins(&lines, &pieces);
    assert_joins(
        &[horizontal(1, 0.0, -0.0, -1.0)],
        &[horizontal(1, 0.0, -1.0, 0.0)],
    );
}

/// The last wire that overlaps need not be the one that reaches farthest.
#[test]
fn wires_that_overlap_or_contain_another_are_one() {
    let wires = [
        horizontal(1, 0.0, 0.0, 10.0),
        horizontal(1, 0.0, 2.0, 3.0),
        horizontal(1, 0.0, 9.0, 12.0),
    ];
    assert_joins(&wires, &[horizontal(1, 0.0, 0.0, 12.0)]);
    assert_joins(&wires[..2], &wires[..1]);
    let equal_starts = [horizontal(1, 0.0, 0.0, 10.0), horizontal(1, 0.0, 0.0, 3.0)];
    assert_joins(&equal_starts, &equal_starts[..1]);
}

/// Another net, orientation or fixed coordinate is another line.
#[test]
fn pieces_of_different_lines_stay_apart_and_in_order() {
    let pieces = [
        horizontal(0, 2.0, 0.0, 5.0),
        vertical(0, -3.0, 0.0, 5.0),
        horizontal(1, -4.0, 0.0, 5.0),
        horizontal(1, -3.5, -9.0, 0.0),
        horizontal(1, -3.5, 1.0, 5.0),
        horizontal(1, 2.0, -3.0, -1.0),
        horizontal(1, 2.0, 0.0, 5.0),
        vertical(1, 2.0, 0.0, 5.0),
        horizontal(u32::MAX, -5.0, 0.0, 5.0),
    ];
    let mut wires = pieces;
    for _ in &pieces {
        wires.rotate_left(1);
        assert_joins(&wires, &pieces);
    }
    wires.reverse();
    assert_joins(&wires, &pieces);
    let nets = [horizontal(1, 0.0, 0.0, 5.0), horizontal(2, 0.0, 3.0, 9.0)];
    assert_joins(&nets, &nets);
    // One extent along x and along y.
    let crossing = [vertical(1, 0.0, 0.0, 5.0), horizontal(1, 0.0, 0.0, 5.0)];
    assert_joins(&crossing, &[crossing[1], crossing[0]]);
}

#[test]
fn the_greatest_floats_are_joined() {
    let wires = [
        horizontal(1, f64::MAX, -f64::MAX, f64::MIN_POSITIVE),
        horizontal(1, f64::MAX, f64::MAX, f64::from_bits(1)),
    ];
    let piece = horizontal(1, f64::MAX, -f64::MAX, f64::MAX);
    assert_joins(&wires, &[piece]);
}

#[test]
fn none_are_joined_into_nothing() {
    assert_eq!(join(&[]), Ok(Vec::new()));
    let none = SegmentColumns::default();
    let joined = columns::join(none, PieceColumns::default());
    assert_eq!(joined, Ok(Joined { pieces: 0, gone: 0 }));
    let joined = join_into(&Columns::of(&[]), [0, 1, 2, 0, 3], &[]);
    assert_eq!(joined, Ok(Joined { pieces: 0, gone: 0 }));
}

#[test]
fn as_many_as_4096_are_joined() {
    let mut equal = vec![horizontal(1, 0.0, 0.0, 1.0); MOST_ENTRIES];
    assert_joins(&equal, &equal[..1]);
    let joined = join_into(&Columns::of(&equal), [1; 5], &equal[..1]);
    let gone = MOST_ENTRIES - 1;
    assert_eq!(joined, Ok(Joined { pieces: 1, gone }));

    let line = |place: usize| horizontal(1, place as f64, 0.0, 1.0);
    let mut apart: Vec<_> = (0..MOST_ENTRIES).map(line).collect();
    assert_joins(&apart, &apart);
    let longer = [MOST_ENTRIES + 1; 5];
    let joined = join_into(&Columns::of(&apart), longer, &apart);
    let pieces = MOST_ENTRIES;
    assert_eq!(joined, Ok(Joined { pieces, gone: 0 }));

    for wires in [&mut equal, &mut apart] {
        wires.push(horizontal(1, 0.0, 0.0, f64::NAN));
        assert_eq!(join(wires), Err(Refusal::TooManyEntries));
        let many = Columns::of(wires);
        let refused = Err(Refusal::TooManyEntries);
        assert_eq!(join_into(&many, many.lengths(), &[]), refused);
        assert_eq!(join_into(&many, [0; 5], &[]), refused);
    }
}

/// 8 is judged by the pieces, and by the shortest column alone.
#[test]
fn too_little_room_for_the_pieces_is_8() {
    let two = [
        horizontal(1, 0.0, 0.0, 5.0),
        horizontal(1, 0.0, 5.0, 9.0),
        horizontal(2, 4.0, 5.0, 15.0),
    ];
    let pieces = [horizontal(1, 0.0, 0.0, 9.0), two[2]];
    let joined = Ok(Joined { pieces: 2, gone: 1 });
    assert_eq!(
        join_into(&Columns::of(&two), [3, 2, 9, 9, 9], &pieces),
        joined
    );

    let three = [two[0], horizontal(1, 0.0, 6.0, 9.0), two[2]];
    let short = Err(Refusal::ShortOutput);
    let segments = Columns::of(&three);
    assert_eq!(join_into(&segments, [3, 2, 9, 9, 9], &[]), short);
    for column in 0..5 {
        for room in 0..3 {
            let mut lengths = [3; 5];
            lengths[column] = room;
            assert_eq!(join_into(&segments, lengths, &[]), short, "{lengths:?}");
        }
    }
    let joined = Ok(Joined { pieces: 3, gone: 0 });
    assert_eq!(join_into(&segments, [3; 5], &three), joined);
}

#[test]
fn the_first_refusal_counts() {
    let fit = Columns::of(&[horizontal(1, 0.0, 0.0, 5.0), vertical(2, 4.0, 5.0, 15.0)]);
    let mut unfit = vec![fit.clone(); 5];
    unfit[0].orientation[1] = 2;
    unfit[1].floats[0][0] = f64::INFINITY;
    unfit[2].floats[1][1] = f64::NAN;
    unfit[3].floats[2][1] = f64::NEG_INFINITY;
    (unfit[4].floats[1][0], unfit[4].floats[2][0]) = (0.0, -0.0);
    for segments in &unfit {
        for room in [0, 1, 2] {
            let refused = Err(Refusal::InvalidInput);
            assert_eq!(join_into(segments, [room; 5], &[]), refused);
        }
    }
    let mut unequal = vec![unfit[2].clone(); 5];
    unequal[0].net.push(1);
    unequal[1].orientation.pop();
    unequal[2].floats[0].push(0.0);
    unequal[3].floats[1].pop();
    unequal[4].floats[2].resize(MOST_ENTRIES + 1, 1.0);
    for segments in &unequal {
        let refused = Err(Refusal::ColumnsDiffer);
        assert_eq!(join_into(segments, [0; 5], &[]), refused);
        assert_eq!(join_into(segments, [9; 5], &[]), refused);
    }
    let mut too_many = Columns::of(&[horizontal(1, 0.0, 0.0, 5.0); MOST_ENTRIES + 2]);
    too_many.floats[1].pop();
    assert_eq!(
        join_into(&too_many, [9; 5], &[]),
        Err(Refusal::ColumnsDiffer)
    );
}

/// Whether two wires are of one net and lie on one line.
fn on_one_line(one: &ParallelSegment, other: &ParallelSegment) -> bool {
    (one.net, one.horizontal, one.fixed) == (other.net, other.horizontal, other.fixed)
}

/// Whether some wire of the line covers everything from one place to another.
fn covered(wires: &[ParallelSegment], line: &ParallelSegment, from: f64, to: f64) -> bool {
    wires.iter().any(|wire| {
        let (lesser, greater) = (wire.start.min(wire.end), wire.start.max(wire.end));
        on_one_line(wire, line) && lesser <= from && to <= greater
    })
}

/// Wires and pieces cover the same points of a line. Between two neighbouring ends
/// nothing begins or ends, so that each end, and each stretch from one to the next,
/// is covered whole by a wire or not at all.
fn assert_same_points(wires: &[ParallelSegment], pieces: &[ParallelSegment]) {
    for line in wires.iter().chain(pieces) {
        let on_line = wires.iter().chain(pieces).filter(|w| on_one_line(w, line));
        let mut ends: Vec<f64> = on_line.flat_map(|wire| [wire.start, wire.end]).collect();
        ends.sort_by(f64::total_cmp);
        let places = ends.iter().map(|end| (*end, *end));
        let stretches = ends.windows(2).map(|pair| (pair[0], pair[1]));
        for (from, to) in places.chain(stretches) {
            assert_eq!(
                covered(wires, line, from, to),
                covered(pieces, line, from, to),
                "{line:?} from {from} to {to}"
            );
        }
    }
}

/// In order, each from its lesser end, with no -0, and two of one line apart: then no
/// fewer pieces cover the same points.
fn assert_joined(pieces: &[ParallelSegment]) {
    for piece in pieces {
        assert!(piece.start < piece.end, "{piece:?}");
        for float in [piece.fixed, piece.start, piece.end] {
            assert!(float.to_bits() != (-0.0_f64).to_bits(), "{piece:?}");
        }
    }
    for pair in pieces.windows(2) {
        let (one, next) = (&pair[0], &pair[1]);
        let line = |piece: &ParallelSegment| (piece.net, !piece.horizontal, piece.fixed);
        let in_order = line(one) < line(next) || on_one_line(one, next) && one.end < next.start;
        assert!(in_order, "{one:?} before {next:?}");
    }
}

/// The lists that the drawing's wires are in other orders and directions, and with
/// some wires twice.
fn of_same_points(drawing: &Drawing, seed: u64) -> [Vec<ParallelSegment>; 4] {
    let mut doubled = drawing.wires.clone();
    doubled.extend_from_within(..drawing.wires.len() / 2);
    [
        reordered(drawing, seed).wires,
        reordered(&drawing.reversed(), seed).wires,
        drawing.rising().wires,
        doubled,
    ]
}

#[test]
fn pieces_cover_what_the_wires_cover() {
    let (mut joined, mut kept) = (0, 0);
    for (numbers, seed, drawing) in drawings(EACH) {
        let pieces = join(&drawing.wires).expect("the wires are fit");
        assert_joined(&pieces);
        assert_same_points(&drawing.wires, &pieces);
        assert_joins(&pieces, &pieces);
        for other in of_same_points(&drawing, seed) {
            assert_joins(&other, &pieces);
        }
        let columns = Columns::of(&drawing.wires);
        let gone = drawing.wires.len() - pieces.len();
        let counts = Joined {
            pieces: pieces.len(),
            gone,
        };
        let room = [0, 1, 2, 3, 4].map(|more| pieces.len() + more);
        let about = format!("{numbers:?} {seed}");
        assert_eq!(join_into(&columns, room, &pieces), Ok(counts), "{about}");
        joined += usize::from(gone > 0);
        kept += usize::from(gone == 0);
    }
    assert!(joined > EACH as usize && kept > EACH as usize);
}
