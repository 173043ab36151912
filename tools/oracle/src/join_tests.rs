//! Tests of joining: the request's cases by our joiner, by points and by the port
//! where it is linked, and that wrong joiners are seen.

use std::cmp::Ordering;

use crate::{
    drawing::{horizontal, Segment, VERTICAL},
    join::{differences, Join, PORT},
    join_lists::JoinCall,
    joined_points,
    joiner::{self, joined},
    random::Random,
    segment_columns::SegmentColumns,
};

fn vertical(net: u32, fixed: f64, start: f64, end: f64) -> Segment {
    Segment {
        orientation: VERTICAL,
        ..horizontal(net, fixed, start, end)
    }
}

/// Horizontal segments of net 1 at 0.
fn on_one_line(extents: &[(f64, f64)]) -> Vec<Segment> {
    extents
        .iter()
        .map(|(start, end)| horizontal(1, 0.0, *start, *end))
        .collect()
}

type Joiner = fn(&[Segment]) -> Vec<Segment>;

/// Lists with the pieces that they join to.
fn cases() -> Vec<(Vec<Segment>, Vec<Segment>)> {
    let least = f64::from_bits(1);
    let after_one = 1.0 + f64::EPSILON;
    let mut cases: Vec<(Vec<Segment>, Vec<Segment>)> = [
        (vec![], vec![]),
        (vec![(0.0, 5.0), (5.0, 9.0)], vec![(0.0, 9.0)]),
        (vec![(9.0, 5.0), (0.0, 5.0)], vec![(0.0, 9.0)]),
        (
            vec![(after_one, 2.0), (0.0, 1.0)],
            vec![(0.0, 1.0), (after_one, 2.0)],
        ),
        (
            vec![(0.0, least), (2.0 * least, 3.0 * least)],
            vec![(0.0, least), (2.0 * least, 3.0 * least)],
        ),
        (vec![(-1.0, -0.0), (0.0, 1.0)], vec![(-1.0, 1.0)]),
        (
            vec![(0.0, 10.0), (2.0, 3.0), (9.0, 12.0)],
            vec![(0.0, 12.0)],
        ),
        (
            vec![(-f64::MAX, 1.0), (f64::MAX, 1.0), (1.79e308, -1.79e308)],
            vec![(-f64::MAX, f64::MAX)],
        ),
        (
            vec![(3.0, 4.0), (-0.0, 1.0), (-2.0, -1.0)],
            vec![(-2.0, -1.0), (0.0, 1.0), (3.0, 4.0)],
        ),
        (vec![(7.0, 8.0); 4_096], vec![(7.0, 8.0)]),
    ]
    .iter()
    .map(|(list, pieces)| (on_one_line(list), on_one_line(pieces)))
    .collect();
    cases.extend([
        (
            vec![vertical(1, 0.0, 0.0, 5.0), horizontal(1, 0.0, 0.0, 5.0)],
            vec![horizontal(1, 0.0, 0.0, 5.0), vertical(1, 0.0, 0.0, 5.0)],
        ),
        (
            vec![
                horizontal(u32::MAX, 3.0, 0.0, 5.0),
                horizontal(0, 3.0, 5.0, 9.0),
            ],
            vec![
                horizontal(0, 3.0, 5.0, 9.0),
                horizontal(u32::MAX, 3.0, 0.0, 5.0),
            ],
        ),
        (
            vec![vertical(1, 0.0, 0.0, 5.0), vertical(1, -0.0, 9.0, 5.0)],
            vec![vertical(1, 0.0, 0.0, 9.0)],
        ),
        (
            vec![
                horizontal(1, least, 0.0, 5.0),
                horizontal(1, -0.0, 5.0, 9.0),
            ],
            vec![horizontal(1, 0.0, 5.0, 9.0), horizontal(1, least, 0.0, 5.0)],
        ),
    ]);
    cases
}

/// Our joiner, called as the port is.
fn ours(columns: &SegmentColumns, to: &mut SegmentColumns, room: [usize; 5]) -> (u32, [u64; 2]) {
    answer_of(joined, columns, to, room)
}

/// The refusals of a join, and the pieces of any joiner.
fn answer_of(
    pieces_of: Joiner,
    columns: &SegmentColumns,
    to: &mut SegmentColumns,
    room: [usize; 5],
) -> (u32, [u64; 2]) {
    let segments = segments_of(columns);
    match joiner::answer(&segments, columns.words().map(|column| column.len()), room) {
        Ok(_) => {
            let pieces = pieces_of(&segments);
            to.write(&pieces);
            let gone = segments.len() - pieces.len();
            (0, [pieces.len() as u64, gone as u64])
        }
        Err(refusal) => (u32::from(refusal.number()), [0, 0]),
    }
}

/// As many segments as the shortest column has entries.
fn segments_of(columns: &SegmentColumns) -> Vec<Segment> {
    let shortest = columns.words().map(|column| column.len()).into_iter().min();
    (0..shortest.unwrap_or(0))
        .map(|place| Segment {
            net: columns.net[place],
            orientation: columns.orientation[place],
            fixed: columns.fixed[place],
            start: columns.start[place],
            end: columns.end[place],
        })
        .collect()
}

/// Our joiner, and the port where it is linked.
fn joins() -> Vec<Join> {
    let ours: Join = ours;
    [ours].into_iter().chain(PORT).collect()
}

/// What a join returns, and what it leaves in output columns that are as `before`
/// makes them.
fn run(join: Join, segments: &[Segment], room: [usize; 5]) -> ((u32, [u64; 2]), SegmentColumns) {
    let mut to = before(room);
    let returned = join(&SegmentColumns::of(segments), &mut to, room);
    (returned, to)
}

/// Output columns with 77 for each net, which no list here has, and zeros.
fn before(room: [usize; 5]) -> SegmentColumns {
    let mut columns = SegmentColumns::of_words(room, || 0);
    columns.net.fill(77);
    columns
}

#[test]
fn the_cases_join_to_their_pieces() {
    for (segments, pieces) in cases() {
        assert_eq!(joined_points::fault(&segments, &pieces), None);
        let (all, left) = (segments.len() as u64, pieces.len() as u64);
        for join in joins() {
            let (returned, columns) = run(join, &segments, [pieces.len(); 5]);
            assert_eq!(returned, (0, [left, all - left]), "{pieces:?}");
            assert_eq!(columns, SegmentColumns::of(&pieces));
            let found = differences(&segments, Random::new(1), Some(join));
            assert_eq!(found, [""; 0], "{pieces:?}");
        }
    }
}

#[test]
fn the_shortest_output_column_decides_and_entries_past_the_pieces_stay() {
    let two = on_one_line(&[(0.0, 1.0), (2.0, 3.0)]);
    let three = on_one_line(&[(0.0, 1.0), (2.0, 3.0), (4.0, 5.0)]);
    let room = [3, 2, 9, 9, 9];
    let mut expected = before(room);
    expected.write(&two);
    for join in joins() {
        assert_eq!(run(join, &two, room), ((0, [2, 0]), expected.clone()));
        assert_eq!(run(join, &three, room), ((8, [0, 0]), before(room)));
    }
}

#[test]
fn refusals_come_in_their_order() {
    let one = on_one_line(&[(0.0, 1.0)]);
    let mut unfit = one.clone();
    unfit[0].end = f64::NAN;
    for join in joins() {
        let status = |segments: &[Segment], room| {
            let (returned, columns) = run(join, segments, [room; 5]);
            assert_eq!(columns, before([room; 5]));
            assert_eq!(returned.1, [0, 0]);
            returned.0
        };
        assert_eq!(status(&one, 0), 8);
        assert_eq!(status(&unfit, 0), 5);
        assert_eq!(status(&unfit, 1), 5);
        assert_eq!(status(&[], 0), 0);
        let mut many = vec![one[0]; 4_097];
        assert_eq!(status(&many, 1), 3);
        many[4_000].fixed = f64::INFINITY;
        assert_eq!(status(&many, 0), 3);

        let mut uneven = SegmentColumns::of(&many);
        uneven.end.pop();
        let returned = join(&uneven, &mut before([0; 5]), [0; 5]);
        assert_eq!(returned, (2, [0, 0]));
    }
}

#[test]
fn equal_ends_infinite_numbers_and_other_orientations_are_unfit() {
    let good = horizontal(1, 0.0, 0.0, 1.0);
    for unfit in [
        horizontal(1, 0.0, -0.0, 0.0),
        horizontal(1, 0.0, 0.0, -0.0),
        horizontal(1, 0.0, 4.0, 4.0),
        horizontal(1, 0.0, f64::NEG_INFINITY, 4.0),
        horizontal(1, 0.0, 4.0, f64::INFINITY),
        horizontal(1, f64::NAN, 3.0, 4.0),
        Segment {
            orientation: 2,
            ..good
        },
    ] {
        for join in joins() {
            let (returned, columns) = run(join, &[good, unfit], [2; 5]);
            assert_eq!((returned, columns), ((5, [0, 0]), before([2; 5])));
        }
    }
}

/// The points see what is wrong with a list of pieces.
#[test]
fn wrong_pieces_are_seen_by_points() {
    let segments = on_one_line(&[(0.0, 5.0), (5.0, 9.0), (11.0, 12.0)]);
    let right = on_one_line(&[(0.0, 9.0), (11.0, 12.0)]);
    assert_eq!(joined_points::fault(&segments, &right), None);
    for wrong in [
        &[(0.0, 9.0)][..],
        &[(0.0, 9.0), (11.0, 12.0), (13.0, 14.0)],
        &[(0.0, 9.0), (11.0, 11.5)],
        &[(0.0, 9.0), (10.0, 12.0)],
        &[(0.0, 5.0), (5.0, 9.0), (11.0, 12.0)],
        &[(0.0, 12.0)],
        &[(0.0, 9.0), (0.0, 9.0), (11.0, 12.0)],
        &[(11.0, 12.0), (0.0, 9.0)],
        &[(9.0, 0.0), (11.0, 12.0)],
        &[(-0.0, 9.0), (11.0, 12.0)],
        &[(0.0, 9.0), (11.0, f64::NAN)],
        &[(0.0, 9.0), (11.0, 12.0), (20.0, 20.0)],
    ] {
        let fault = joined_points::fault(&segments, &on_one_line(wrong));
        assert!(fault.is_some(), "{wrong:?}");
    }
    for change in [
        |piece: &mut Segment| piece.net = 2,
        |piece: &mut Segment| piece.orientation = VERTICAL,
        |piece: &mut Segment| piece.orientation = 2,
        |piece: &mut Segment| piece.fixed = -0.0,
        |piece: &mut Segment| piece.fixed = 1.0,
    ] {
        let mut wrong = right.clone();
        change(&mut wrong[1]);
        assert!(
            joined_points::fault(&segments, &wrong).is_some(),
            "{wrong:?}"
        );
    }
    let vertical_first = [vertical(1, 0.0, 0.0, 5.0), horizontal(1, 0.0, 0.0, 5.0)];
    assert!(joined_points::fault(&vertical_first, &vertical_first).is_some());
}

/// Segments as they are taken, with zeros made +0.
fn zeros_plus(segments: &[Segment]) -> Vec<Segment> {
    let zeros_plus = |segment: &Segment| {
        let Segment {
            fixed, start, end, ..
        } = segment.rising();
        // Adding +0 makes -0 into +0 and changes nothing else.
        Segment {
            fixed: fixed + 0.0,
            start: start + 0.0,
            end: end + 0.0,
            ..*segment
        }
    };
    segments.iter().map(zeros_plus).collect()
}

fn in_order(one: &Segment, other: &Segment) -> Ordering {
    (one.net, 1 - one.orientation)
        .cmp(&(other.net, 1 - other.orientation))
        .then(one.fixed.total_cmp(&other.fixed))
        .then(one.start.total_cmp(&other.start))
        .then(one.end.total_cmp(&other.end))
}

/// A joiner that sorts and then walks, with what decides whether the next segment
/// goes into the piece before it, and what the end of the piece then is.
fn walked(
    segments: &[Segment],
    continues: fn(&Segment, &Segment) -> bool,
    end_of: fn(f64, f64) -> f64,
) -> Vec<Segment> {
    let mut sorted = zeros_plus(segments);
    sorted.sort_by(in_order);
    walked_as_given(sorted, continues, end_of)
}

fn walked_as_given(
    segments: Vec<Segment>,
    continues: fn(&Segment, &Segment) -> bool,
    end_of: fn(f64, f64) -> f64,
) -> Vec<Segment> {
    let mut pieces: Vec<Segment> = Vec::new();
    for segment in segments {
        match pieces.last_mut() {
            Some(piece) if continues(piece, &segment) => {
                piece.end = end_of(piece.end, segment.end);
            }
            _ => pieces.push(segment),
        }
    }
    pieces
}

fn one_line(piece: &Segment, next: &Segment) -> bool {
    piece.net == next.net && piece.orientation == next.orientation && piece.fixed == next.fixed
}

fn touches(piece: &Segment, next: &Segment) -> bool {
    one_line(piece, next) && next.start <= piece.end
}

const RIGHT: Joiner = |segments| walked(segments, touches, f64::max);

/// Joiners by what is wrong with them.
const WRONG: [(&str, Joiner); 7] = [
    ("glues neighbouring floats", |segments| {
        let near = |piece: &Segment, next: &Segment| {
            one_line(piece, next) && next.start <= piece.end.next_up()
        };
        walked(segments, near, f64::max)
    }),
    ("takes the end of the last segment", |segments| {
        walked(segments, touches, |_, last| last)
    }),
    ("does not compare the net", |segments| {
        let any_net = |piece: &Segment, next: &Segment| {
            let next = Segment {
                net: piece.net,
                ..*next
            };
            touches(piece, &next)
        };
        walked(segments, any_net, f64::max)
    }),
    ("does not compare the orientation", |segments| {
        let any_orientation = |piece: &Segment, next: &Segment| {
            let next = Segment {
                orientation: piece.orientation,
                ..*next
            };
            touches(piece, &next)
        };
        walked(segments, any_orientation, f64::max)
    }),
    ("does not compare the line", |segments| {
        let any_line = |piece: &Segment, next: &Segment| {
            let next = Segment {
                fixed: piece.fixed,
                ..*next
            };
            touches(piece, &next)
        };
        walked(segments, any_line, f64::max)
    }),
    ("leaves apart what touches at an end", |segments| {
        let overlaps =
            |piece: &Segment, next: &Segment| one_line(piece, next) && next.start < piece.end;
        walked(segments, overlaps, f64::max)
    }),
    ("puts vertical pieces first", |segments| {
        let mut pieces = joined(segments);
        pieces.sort_by_key(|piece| (piece.net, piece.orientation));
        pieces
    }),
];

/// The fit ones of the made lists.
fn fit_lists(count: u64) -> impl Iterator<Item = Vec<Segment>> {
    (0..count)
        .map(|index| JoinCall::made(&mut Random::for_drawing(1, index)).segments)
        .filter(|segments| joiner::answer(segments, [segments.len(); 5], [usize::MAX; 5]).is_ok())
}

#[test]
fn wrong_joiners_are_seen_by_points_on_the_made_lists() {
    let faulty = |pieces_of: Joiner| {
        fit_lists(2_000)
            .filter(|list| joined_points::fault(list, &pieces_of(list)).is_some())
            .count()
    };
    assert_eq!(faulty(joined), 0);
    assert_eq!(faulty(RIGHT), 0);
    for (about, wrong) in WRONG {
        assert!(
            faulty(wrong) > 20,
            "a joiner that {about}: {}",
            faulty(wrong)
        );
    }
}

/// What takes the port's place, by what is wrong with it.
const WRONG_PORTS: [(&str, Join); 8] = [
    ("glues neighbouring floats", |columns, to, room| {
        answer_of(WRONG[0].1, columns, to, room)
    }),
    ("writes an entry more", |columns, to, room| {
        let returned = ours(columns, to, room);
        if returned.1[0] > 0 {
            to.end[returned.1[0] as usize] = 0.5;
        }
        returned
    }),
    ("writes where there is no room", |columns, to, room| {
        let returned = ours(columns, to, room);
        if returned.0 == 8 && room[0] > 0 {
            to.net[0] ^= 1;
        }
        returned
    }),
    (
        "counts the pieces in place of those gone",
        |columns, to, room| {
            let (status, [pieces, _]) = ours(columns, to, room);
            (status, [pieces, pieces])
        },
    ),
    ("wants room for every segment", |columns, to, room| {
        if ours(columns, &mut to.clone(), room).0 == 0
            && room.iter().any(|entries| *entries < columns.net.len())
        {
            return (8, [0, 0]);
        }
        ours(columns, to, room)
    }),
    ("looks for room first", |columns, to, room| {
        if room.contains(&0) && !columns.net.is_empty() {
            return (8, [0, 0]);
        }
        ours(columns, to, room)
    }),
    (
        "looks at the first output column alone",
        |columns, to, room| ours(columns, to, [room[0]; 5]),
    ),
    (
        "takes a list for one in order whatever its last two are",
        |columns, to, room| answer_of(NOT_THE_LAST_TWO, columns, to, room),
    ),
];

/// Sorts only where two neighbours before the last one are out of order.
const NOT_THE_LAST_TWO: Joiner = |segments| {
    let list = zeros_plus(segments);
    let before_last = &list[..list.len().saturating_sub(1)];
    if before_last
        .windows(2)
        .all(|pair| in_order(&pair[0], &pair[1]).is_le())
    {
        return walked_as_given(list, touches, f64::max);
    }
    RIGHT(segments)
};

/// A comparison that passed whatever the port answers would show nothing.
#[test]
fn wrong_ports_are_seen() {
    let differing = |join: Join| {
        (0..2_000)
            .map(|index| JoinCall::made(&mut Random::for_drawing(1, index)))
            .filter(|call| !call.differences(Some(join)).is_empty())
            .count()
    };
    assert_eq!(differing(ours), 0);
    for (about, wrong) in WRONG_PORTS {
        assert!(
            differing(wrong) > 20,
            "a port that {about}: {}",
            differing(wrong)
        );
    }
}

/// Each of them is seen on a drawing's segments too.
#[test]
fn wrong_ports_are_seen_on_one_list() {
    let neighbours = [(0.0, 1.0), (1.0 + f64::EPSILON, 2.0), (0.0, 1.0)];
    wrong_ports_are_seen_on(&neighbours, &WRONG_PORTS[..WRONG_PORTS.len() - 1]);
}

/// So is the one that looks at no more than the entries before the last.
#[test]
fn every_wrong_port_is_seen_on_a_longer_list() {
    let neighbours = [
        (0.0, 1.0),
        (1.0 + f64::EPSILON, 2.0),
        (0.0, 1.0),
        (5.0, 6.0),
    ];
    wrong_ports_are_seen_on(&neighbours, &WRONG_PORTS);
}

fn wrong_ports_are_seen_on(neighbours: &[(f64, f64)], ports: &[(&str, Join)]) {
    let list = on_one_line(neighbours);
    assert_eq!(differences(&list, Random::new(1), Some(ours)), [""; 0]);
    for (about, wrong) in ports {
        let found = differences(&list, Random::new(1), Some(*wrong));
        assert!(!found.is_empty(), "a port that {about}");
    }
}

/// The joiner that the port is timed against.
#[cfg(port)]
#[test]
fn the_plain_joiner_joins_to_the_same_pieces() {
    joins_to_the_same_pieces(crate::plain_joiner::join);
}

/// And the one without checks.
#[cfg(port)]
#[test]
fn the_unchecked_joiner_joins_to_the_same_pieces() {
    joins_to_the_same_pieces(crate::plain_joiner::join_unchecked);
}

#[cfg(port)]
fn joins_to_the_same_pieces(
    plain: fn(&SegmentColumns, &mut SegmentColumns) -> Option<[usize; 2]>,
) {
    for segments in fit_lists(2_000) {
        let columns = SegmentColumns::of(&segments);
        let pieces = joined(&segments);
        let mut to = SegmentColumns::of_words([pieces.len(); 5], || 0);
        let counts = plain(&columns, &mut to);
        assert_eq!(counts, Some([pieces.len(), segments.len() - pieces.len()]));
        assert_eq!(to, SegmentColumns::of(&pieces));
    }
}
