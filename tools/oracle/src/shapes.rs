//! The kinds of drawings that are more than a palette of numbers: what is
//! repeated, lined up, spoilt or made long in them. Every segment that is not
//! spoilt has its start below its end here; `generate` reverses some afterwards.

use crate::{
    drawing::{Drawing, Exemption, Node, Segment, HORIZONTAL},
    maker::{fit, fit_with_entries, up_to, Maker},
    random::Random,
    refusals::{Limits, CALL_LIMITS, PROGRAM_LIMITS},
    values::{
        ANY_BITS, DECIMALS, GRID, GRID_EDGE, GRID_END, GRID_STEP, HUGE, NEIGHBOURS, SUBNORMAL,
        TINY, WIDE, ZEROS,
    },
};

/// Even nets at one end of the range and odd nets, which are exempt, at the
/// other, where the boxes are.
pub fn apart(most: &Limits, random: &mut Random) -> Drawing {
    let mut drawing = fit_with_entries(HUGE, most, random);
    let orientation = drawing.segments[0].orientation;
    drawing.exemptions.clear();
    for segment in &mut drawing.segments {
        segment.net = random.below(2) as u32;
        segment.orientation = orientation;
        segment.fixed = [-f64::MAX, f64::MAX][segment.net as usize];
    }
    for node in &mut drawing.nodes {
        (node.x, node.y) = (1e308, 1e308);
        (node.width, node.height) = (1e292, 1e300);
        drawing.exemptions.push(Exemption {
            net: 1,
            node: node.id,
        });
    }
    drawing
}

pub fn repeats(most: &Limits, random: &mut Random) -> Drawing {
    let palette = random.pick(&[TINY, GRID, ZEROS, DECIMALS]);
    let mut drawing = fit_with_entries(palette, most, random);
    repeat_some(&mut drawing.segments, most.segments, random);
    repeat_some(&mut drawing.nodes, most.nodes, random);
    repeat_some(&mut drawing.exemptions, most.exemptions, random);
    let only_id = drawing.nodes[0].id;
    if random.once_in(2) {
        drawing.nodes.iter_mut().for_each(|node| node.id = only_id);
        drawing.exemptions[0].node = only_id;
    }
    if random.once_in(2) {
        move_some_to_the_next_net(&mut drawing.segments, random);
    }
    drawing
}

/// Fills a list up to a length with copies of its own entries.
fn repeat_some<T: Copy>(list: &mut Vec<T>, length: usize, random: &mut Random) {
    while list.len() < length {
        let copy = random.pick(list);
        list.push(copy);
    }
}

/// So that equal wires of two nets lie on one another.
fn move_some_to_the_next_net(segments: &mut [Segment], random: &mut Random) {
    for segment in segments {
        if random.once_in(3) {
            segment.net = segment.net.wrapping_add(1);
        }
    }
}

/// Segments that begin where one before them ends, and boxes with a corner at
/// the end of a segment.
pub fn touching(most: &Limits, random: &mut Random) -> Drawing {
    let mut drawing = fit_with_entries(random.pick(&[TINY, GRID]), most, random);
    let orientation = drawing.segments[0].orientation;
    let mut place = drawing.segments[0].start;
    for segment in &mut drawing.segments {
        let length = segment.end - segment.start;
        segment.orientation = orientation;
        segment.start = place;
        segment.end = place + length;
        if random.once_in(2) {
            place += length;
        }
    }
    for node in &mut drawing.nodes {
        let segment = random.pick(&drawing.segments);
        (node.x, node.y) = if orientation == HORIZONTAL {
            (segment.end, segment.fixed)
        } else {
            (segment.fixed, segment.end)
        };
    }
    drawing
}

pub fn one_line(most: &Limits, random: &mut Random) -> Drawing {
    let palette = random.pick(&[TINY, GRID, GRID_EDGE, DECIMALS, HUGE]);
    let mut drawing = fit_with_entries(palette, most, random);
    let line = drawing.segments[0];
    for segment in &mut drawing.segments {
        segment.orientation = line.orientation;
        segment.fixed = line.fixed;
        segment.net = random.below(6) as u32;
    }
    drawing
}

pub fn one_net(most: &Limits, random: &mut Random) -> Drawing {
    let palette = random.pick(&[TINY, GRID, ANY_BITS]);
    let mut drawing = fit_with_entries(palette, most, random);
    let net = drawing.segments[0].net;
    for segment in &mut drawing.segments {
        segment.net = net;
    }
    drawing
}

/// Every pair of net and id is exempt four times in five.
pub fn exempt(most: &Limits, random: &mut Random) -> Drawing {
    let mut drawing = fit_with_entries(random.pick(&[TINY, GRID, DECIMALS]), most, random);
    drawing.exemptions.clear();
    for segment in &drawing.segments {
        for node in &drawing.nodes {
            if drawing.exemptions.len() < PROGRAM_LIMITS.exemptions && !random.once_in(5) {
                drawing.exemptions.push(Exemption {
                    net: segment.net,
                    node: node.id,
                });
            }
        }
    }
    drawing
}

/// The threshold is about as large as the farthest edge of any box lies from some
/// segment, so that the walk cannot prune in large parts of the tree, or just can.
pub fn in_reach(most: &Limits, random: &mut Random) -> Drawing {
    let palette = random.pick(&[
        TINY, ZEROS, GRID, GRID_EDGE, DECIMALS, NEIGHBOURS, HUGE, SUBNORMAL,
    ]);
    let mut lengths = up_to(most, random);
    lengths.segments = lengths.segments.max(1);
    lengths.nodes = 8 + random.below(33);
    let mut drawing = Maker::new(palette, most, random).drawing(lengths);
    let segment = random.pick(&drawing.segments);
    let farthest = drawing
        .nodes
        .iter()
        .map(|node| farthest_edge(&segment, node))
        .fold(0.0, f64::max)
        .min(f64::MAX / 2.0);
    drawing.threshold = random.pick(&[
        farthest.next_up(),
        farthest,
        farthest / 2.0,
        farthest * 1.5,
        f64::MAX,
    ]);
    drawing
}

/// How far the node's edges lie beyond the segment's box at the most.
fn farthest_edge(segment: &Segment, node: &Node) -> f64 {
    let along = [segment.start, segment.end];
    let across = [segment.fixed, segment.fixed];
    let ([left, right], [top, bottom]) = if segment.orientation == HORIZONTAL {
        (along, across)
    } else {
        (across, along)
    };
    [
        node.right() - right,
        left - node.x,
        node.bottom() - bottom,
        top - node.y,
    ]
    .into_iter()
    .fold(0.0, f64::max)
}

pub fn cutoffs(most: &Limits, random: &mut Random) -> Drawing {
    let mut drawing = fit(random.pick(&[TINY, GRID, GRID_EDGE]), most, random);
    drawing.cutoff = random.pick(&[
        0.0,
        -0.0,
        GRID_STEP,
        -GRID_STEP,
        -1.0,
        GRID_END,
        GRID_END - GRID_STEP,
        -GRID_END,
        GRID_STEP / 2.0,
        GRID_END + GRID_STEP,
        1e300,
        -1e300,
        f64::from_bits(1),
    ]);
    drawing
}

const NOT_FINITE: [f64; 5] = [
    f64::NAN,
    f64::INFINITY,
    f64::NEG_INFINITY,
    // A negative quiet NaN with a payload, and a signalling one.
    f64::from_bits(0xfff8_0000_0000_1234),
    f64::from_bits(0x7ff0_0000_0000_0001),
];

const NOT_ABOVE_ZERO: [f64; 5] = [0.0, -0.0, -1.0, -f64::MAX, -f64::from_bits(1)];

pub fn unfit(most: &Limits, random: &mut Random) -> Drawing {
    let palette = random.pick(&[TINY, GRID, GRID_EDGE, DECIMALS, HUGE, SUBNORMAL]);
    let mut drawing = fit_with_entries(palette, most, random);
    match random.below(8) {
        0..=2 => spoil_segment(&mut drawing.segments, random),
        3..=5 => spoil_node(&mut drawing.nodes, random),
        6 => {
            drawing.threshold = match random.below(3) {
                0 => random.pick(&NOT_FINITE),
                1 => random.pick(&[-1.0, -GRID_STEP, -f64::from_bits(1), -f64::MAX]),
                _ => -0.0,
            }
        }
        _ => drawing.cutoff = random.pick(&NOT_FINITE),
    }
    drawing
}

fn spoil_segment(segments: &mut [Segment], random: &mut Random) {
    let place = random.below(segments.len());
    let segment = &mut segments[place];
    match random.below(7) {
        0 => segment.fixed = random.pick(&NOT_FINITE),
        1 => segment.start = random.pick(&NOT_FINITE),
        2 => segment.end = random.pick(&NOT_FINITE),
        3 => segment.start = segment.end,
        // Turned into rising order it has an end that is not finite.
        4 => (segment.start, segment.end) = (f64::INFINITY, 3.0),
        // Zeros are equal whatever their signs.
        5 => (segment.start, segment.end) = (-0.0, 0.0),
        _ => (segment.start, segment.end) = (0.0, -0.0),
    }
}

fn spoil_node(nodes: &mut [Node], random: &mut Random) {
    let place = random.below(nodes.len());
    let node = &mut nodes[place];
    match random.below(8) {
        0 => node.x = random.pick(&NOT_FINITE),
        1 => node.y = random.pick(&NOT_FINITE),
        2 => node.width = random.pick(&NOT_FINITE),
        3 => node.height = random.pick(&NOT_FINITE),
        4 => node.width = random.pick(&NOT_ABOVE_ZERO),
        5 => node.height = random.pick(&NOT_ABOVE_ZERO),
        6 => (node.x, node.width) = (f64::MAX, f64::MAX),
        _ => (node.y, node.height) = (1e308, 1.7e308),
    }
}

/// One value off the grid in a drawing that is fit and otherwise on it.
pub fn off_grid(most: &Limits, random: &mut Random) -> Drawing {
    let mut drawing = fit_with_entries(random.pick(&[TINY, GRID, GRID_EDGE]), most, random);
    let off = random.pick(&[
        GRID_STEP / 2.0,
        0.1,
        f64::from_bits(1),
        GRID_END + GRID_STEP,
        GRID_END + 1.0,
        1e300,
    ]);
    let off = random.either_sign(off);
    let place = random.below(drawing.segments.len());
    let segment = &mut drawing.segments[place];
    match random.below(4) {
        0 => segment.fixed = off,
        1 if off < segment.end => segment.start = off,
        2 if segment.start < off => segment.end = off,
        _ => drawing.cutoff = off,
    }
    drawing
}

pub fn at_limits(random: &mut Random) -> Drawing {
    let palette = random.pick(&[TINY, GRID, GRID_EDGE, DECIMALS, HUGE, SUBNORMAL, WIDE]);
    Maker::new(palette, &PROGRAM_LIMITS, random).drawing(PROGRAM_LIMITS)
}

pub fn over_limits(most: &Limits, random: &mut Random) -> Drawing {
    one_over(&PROGRAM_LIMITS, most, random)
}

pub fn too_many(most: &Limits, random: &mut Random) -> Drawing {
    one_over(&CALL_LIMITS, most, random)
}

/// One list longer by one than its limit, the others as short as `most` says.
fn one_over(limits: &Limits, most: &Limits, random: &mut Random) -> Drawing {
    let mut lengths = up_to(most, random);
    match random.below(3) {
        0 => lengths.segments = limits.segments + 1,
        1 => lengths.nodes = limits.nodes + 1,
        _ => lengths.exemptions = limits.exemptions + 1,
    }
    Maker::new(random.pick(&[TINY, GRID, WIDE]), most, random).drawing(lengths)
}

pub fn crowded(random: &mut Random) -> Drawing {
    let lengths = Limits {
        segments: 150 + random.below(100),
        nodes: 100 + random.below(100),
        exemptions: random.below(300),
    };
    let mut maker = Maker::new(random.pick(&[TINY, GRID]), &CALL_LIMITS, random);
    maker.nets = 60;
    maker.drawing(lengths)
}

/// For deep trees with odd halves, whatever the numbers, and for many wires that
/// are close at once.
pub fn long(random: &mut Random) -> Drawing {
    let palette = random.pick(&[
        TINY, ZEROS, GRID, GRID_EDGE, DECIMALS, NEIGHBOURS, HUGE, SUBNORMAL, ANY_BITS,
    ]);
    let nets = random.pick(&[2, 60, 1_000]);
    let lengths = Limits {
        segments: 250 + random.below(750),
        nodes: 250 + random.below(750),
        exemptions: random.below(1_000),
    };
    let mut maker = Maker::new(palette, &CALL_LIMITS, random);
    maker.nets = nets;
    maker.drawing(lengths)
}

/// Short wires and small boxes, far and wide, so that looking at every pair
/// stays affordable.
pub fn full_size(random: &mut Random) -> Drawing {
    let mut maker = Maker::new(WIDE, &CALL_LIMITS, random);
    maker.nets = 300;
    let mut drawing = maker.drawing(CALL_LIMITS);
    for segment in &mut drawing.segments {
        segment.end = segment.start + (WIDE.size)(random);
    }
    drawing.threshold = random.pick(&[0.0, GRID_STEP, 20.0]);
    drawing.cutoff = random.pick(&[GRID_STEP, 20.0, 3_000.0]);
    drawing
}

/// Wires of any length, for separation's tree. No nodes and a cutoff of 0 keep
/// the other measures short.
pub fn many_wires(random: &mut Random) -> Drawing {
    let palette = random.pick(&[DECIMALS, NEIGHBOURS, HUGE, SUBNORMAL, ANY_BITS, ZEROS, WIDE]);
    let nets = random.pick(&[2, 300]);
    let lengths = Limits {
        segments: CALL_LIMITS.segments - random.below(2_097),
        nodes: 0,
        exemptions: 0,
    };
    let mut maker = Maker::new(palette, &CALL_LIMITS, random);
    maker.nets = nets;
    let mut drawing = maker.drawing(lengths);
    drawing.cutoff = 0.0;
    drawing
}
