//! A drawing: the lists and settings that the measures of SCOPE 6.1 are given,
//! the orders in which its lists are walked, and drawing D.

use std::cmp::Ordering;

use crate::{file, random::Random};

pub const VERTICAL: u8 = 0;
pub const HORIZONTAL: u8 = 1;

/// A straight wire. `fixed` is y for a horizontal wire and x for a vertical
/// one; `start` and `end` lie along the other axis, in the direction in which the
/// wire was drawn: either may be the greater.
#[derive(Clone, Copy, Debug)]
pub struct Segment {
    pub net: u32,
    /// A byte and not a bool, because a column of bytes may hold an unfit one.
    pub orientation: u8,
    pub fixed: f64,
    pub start: f64,
    pub end: f64,
}

#[derive(Clone, Copy, Debug)]
pub struct Node {
    pub id: u32,
    pub x: f64,
    pub y: f64,
    pub width: f64,
    pub height: f64,
}

/// Says that clearance leaves out the net's segments against every node of
/// that id.
#[derive(Clone, Copy, Debug)]
pub struct Exemption {
    pub net: u32,
    pub node: u32,
}

/// The most visits that each measure may make.
#[derive(Clone, Copy, Debug)]
pub struct Allowances {
    pub clearance: u64,
    pub separation: u64,
    pub congestion: u64,
}

#[derive(Clone, Debug)]
pub struct Drawing {
    pub segments: Vec<Segment>,
    pub nodes: Vec<Node>,
    pub exemptions: Vec<Exemption>,
    pub threshold: f64,
    pub cutoff: f64,
    pub allowances: Allowances,
}

/// Zero of either sign becomes +0; every other value stays.
pub fn plus_zero(value: f64) -> f64 {
    if value == 0.0 {
        0.0
    } else {
        value
    }
}

impl Segment {
    /// The same wire given in the other direction.
    pub fn reversed(self) -> Self {
        Self {
            start: self.end,
            end: self.start,
            ..self
        }
    }

    /// The segment as it is taken (SCOPE 2.8): reversed exactly where its end is
    /// below its start.
    pub fn rising(self) -> Self {
        if self.end < self.start {
            self.reversed()
        } else {
            self
        }
    }

    pub fn with_plus_zeros(self) -> Self {
        Self {
            fixed: plus_zero(self.fixed),
            start: plus_zero(self.start),
            end: plus_zero(self.end),
            ..self
        }
    }

    /// The order of segments of SCOPE 9.4: net, orientation byte, fixed, start,
    /// end, floats by totalOrder.
    fn list_order(&self, other: &Self) -> Ordering {
        self.net
            .cmp(&other.net)
            .then(self.orientation.cmp(&other.orientation))
            .then(self.fixed.total_cmp(&other.fixed))
            .then(self.start.total_cmp(&other.start))
            .then(self.end.total_cmp(&other.end))
    }
}

impl Node {
    /// The right edge: x + width, rounded once.
    pub fn right(&self) -> f64 {
        self.x + self.width
    }

    /// The bottom edge: y + height, rounded once.
    pub fn bottom(&self) -> f64 {
        self.y + self.height
    }

    /// The order of nodes of SCOPE 9.4: id, x, y, width, height, floats by
    /// totalOrder.
    fn list_order(&self, other: &Self) -> Ordering {
        self.id
            .cmp(&other.id)
            .then(self.x.total_cmp(&other.x))
            .then(self.y.total_cmp(&other.y))
            .then(self.width.total_cmp(&other.width))
            .then(self.height.total_cmp(&other.height))
    }
}

impl Drawing {
    /// How many entries its three lists hold together.
    pub fn entries(&self) -> usize {
        self.segments.len() + self.nodes.len() + self.exemptions.len()
    }

    /// A generator for what is tried on the drawing. It depends on every bit of
    /// the drawing and on nothing else, so that drawings are tried differently and
    /// each one is tried the same way again.
    pub fn random(&self) -> Random {
        Random::of_bytes(&file::write(self))
    }

    /// The same drawing with the zeros of its segments made +0.
    pub fn with_plus_zeros(&self) -> Self {
        self.with_each_segment(Segment::with_plus_zeros)
    }

    /// The same drawing with its segments as they are taken.
    pub fn rising(&self) -> Self {
        self.with_each_segment(Segment::rising)
    }

    /// The same drawing with each segment given in the other direction.
    pub fn reversed(&self) -> Self {
        self.with_each_segment(Segment::reversed)
    }

    fn with_each_segment(&self, change: fn(Segment) -> Segment) -> Self {
        Self {
            segments: self.segments.iter().copied().map(change).collect(),
            ..self.clone()
        }
    }

    /// The same drawing with its lists in the orders of SCOPE 9.4. Exemptions are
    /// a set, so their order stays as it is.
    pub fn in_list_order(&self) -> Self {
        let mut ordered = self.clone();
        ordered.segments.sort_by(Segment::list_order);
        ordered.nodes.sort_by(Node::list_order);
        ordered
    }
}

/// The sheet of drawing D in SCOPE 11.5.
pub const SHEET_OF_D: &str = "\
clearance 3ff0000000000000 1 2
separation 4010000000000000 4010000000000000 16
congestion 4034000000000000 4024000000000000 4014000000000000 1 4010000000000000 4
";

/// Drawing D of SCOPE 11.5.
pub fn drawing_d() -> Drawing {
    Drawing {
        segments: vec![horizontal(1, 0.0, 0.0, 10.0), horizontal(2, 4.0, 5.0, 15.0)],
        nodes: vec![Node {
            id: 7,
            x: 2.0,
            y: 1.0,
            width: 3.0,
            height: 2.0,
        }],
        exemptions: vec![Exemption { net: 2, node: 7 }],
        threshold: 2.0,
        cutoff: 6.0,
        allowances: Allowances {
            clearance: 1_000,
            separation: 1_000,
            congestion: 1_000,
        },
    }
}

pub fn horizontal(net: u32, fixed: f64, start: f64, end: f64) -> Segment {
    Segment {
        net,
        orientation: HORIZONTAL,
        fixed,
        start,
        end,
    }
}
