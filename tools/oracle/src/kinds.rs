//! The drawings that are timed: their kinds, and what is timed on which.

use crate::{
    drawing::{horizontal, Allowances, Drawing, Exemption, Node, Segment, HORIZONTAL, VERTICAL},
    joiner,
    random::Random,
    refusals::CALL_LIMITS,
    values::GRID_STEP,
};

/// A drawing, by the numbers that decide how far a walk goes.
pub struct Kind {
    pub name: &'static str,
    pub segments: usize,
    nodes: usize,
    lines: Lines,
    /// The side of the squares that the corners of wires and of nodes lie in, and
    /// where the nodes' square begins along x. That of the wires begins at 0.
    side: i64,
    nodes_from: i64,
    /// The least and the most that a wire is long; a box is at most 16 wide and
    /// high.
    shortest: i64,
    longest: i64,
    /// Clearance's threshold and congestion's cutoff.
    reach: f64,
    nets: usize,
    exempt: Exempt,
    order: Order,
    /// Whether a third of the wires are given from the greater end to the lesser
    /// one. The wires are otherwise the same.
    reversed: bool,
}

/// The order that the segments come in.
enum Order {
    Shuffled,
    /// The nodes too: the order of SCOPE 9.4.
    OfLists,
    /// The order of joined pieces, SCOPE 16.4.
    OfPieces,
}

/// The lines that the wires lie on.
enum Lines {
    /// Any, in both orientations.
    Any,
    /// This many, 1 apart, in both orientations.
    Few(usize),
    /// One for all of them.
    One,
    /// One for each of them, in one orientation, 1 apart.
    Own,
    /// One for all of them, which begin and end together, each in its own net.
    Alike,
    /// One for all of them, which begin and end together, in one net.
    Equal,
}

/// What is exempt.
enum Exempt {
    /// This many pairs, each of any net and any node.
    Any(usize),
    /// Every node, from net 0.
    All,
}

const SPARSE: Kind = Kind {
    name: "sparse",
    segments: CALL_LIMITS.segments,
    nodes: CALL_LIMITS.nodes,
    lines: Lines::Any,
    side: 8_192,
    nodes_from: 0,
    shortest: 1,
    longest: 200,
    reach: 8.0,
    nets: 256,
    exempt: Exempt::Any(0),
    order: Order::Shuffled,
    reversed: false,
};

/// The reference is fed the wires in rising order, ready before its time begins.
const SPARSE_REVERSED: Kind = Kind {
    name: "sparse, a third reversed",
    reversed: true,
    ..SPARSE
};

const DENSE: Kind = Kind {
    name: "dense",
    side: 1_024,
    longest: 300,
    reach: 32.0,
    ..SPARSE
};

const ALL_IN_REACH: Kind = Kind {
    name: "all boxes in reach",
    reach: 1_000_000.0,
    ..DENSE
};

const ONE_NET: Kind = Kind {
    name: "one net",
    nets: 1,
    ..DENSE
};

/// The shortest wire is longer than the starts lie apart, so that any two
/// overlap.
const ALL_OVERLAPPING: Kind = Kind {
    name: "own lines, all overlapping",
    lines: Lines::Own,
    side: 64,
    shortest: 65,
    ..DENSE
};

const ONE_LINE: Kind = Kind {
    name: "one line",
    lines: Lines::One,
    ..DENSE
};

/// The Rust's sort takes one look at a list that is in order.
const ONE_LINE_IN_ORDER: Kind = Kind {
    name: "one line, one net, in order",
    nets: 1,
    order: Order::OfLists,
    ..ONE_LINE
};

/// Nothing is close, and nothing is swept.
const CUTOFF_ZERO: Kind = Kind {
    name: "cutoff 0",
    reach: 0.0,
    ..DENSE
};

/// The lines lie as far apart as the cutoff, so that no two wires are close.
const OUT_OF_REACH: Kind = Kind {
    name: "own lines, out of reach",
    reach: 1.0,
    ..ALL_OVERLAPPING
};

/// The nodes begin where no wire, which starts at 1,024 at most and is 300 long at
/// most, can end.
const APART: Kind = Kind {
    name: "nothing touches",
    nodes_from: 2_048,
    ..DENSE
};

/// Two wires on each line of a net, on average, which seldom meet: 3,983 pieces are
/// left of 4,096.
const FEW_JOIN: Kind = Kind {
    name: "few join",
    nodes: 0,
    lines: Lines::Few(4),
    ..SPARSE
};

/// 64 wires on each line of a net, on average: 242 pieces are left of 4,096.
const MOST_JOIN: Kind = Kind {
    name: "most join",
    nets: 32,
    lines: Lines::Few(1),
    side: 2_048,
    ..FEW_JOIN
};

pub const CLEARANCE: [Kind; 11] = [
    SPARSE,
    SPARSE_REVERSED,
    Kind {
        segments: 256,
        nodes: 256,
        ..DENSE
    },
    Kind {
        segments: 1_024,
        nodes: 1_024,
        ..DENSE
    },
    DENSE,
    ALL_IN_REACH,
    ONE_NET,
    Kind {
        name: "4,096 exemptions",
        exempt: Exempt::Any(CALL_LIMITS.exemptions),
        ..DENSE
    },
    Kind {
        name: "4,096 exemptions, all boxes in reach",
        exempt: Exempt::Any(CALL_LIMITS.exemptions),
        ..ALL_IN_REACH
    },
    Kind {
        name: "no segments, 4,096 nodes",
        segments: 0,
        ..DENSE
    },
    Kind {
        name: "no nodes",
        nodes: 0,
        ..DENSE
    },
];

pub const SEPARATION: [Kind; 9] = [
    SPARSE,
    SPARSE_REVERSED,
    DENSE,
    ONE_NET,
    ONE_LINE,
    ONE_LINE_IN_ORDER,
    Kind {
        segments: 256,
        ..ALL_OVERLAPPING
    },
    Kind {
        segments: 1_024,
        ..ALL_OVERLAPPING
    },
    ALL_OVERLAPPING,
];

pub const CONGESTION: [Kind; 12] = [
    SPARSE,
    SPARSE_REVERSED,
    Kind {
        segments: 256,
        ..DENSE
    },
    Kind {
        segments: 1_024,
        ..DENSE
    },
    DENSE,
    ONE_NET,
    ONE_LINE,
    Kind {
        name: "one line, one extent, own nets",
        segments: 2_048,
        lines: Lines::Alike,
        ..DENSE
    },
    Kind {
        segments: 256,
        ..OUT_OF_REACH
    },
    Kind {
        segments: 1_024,
        ..OUT_OF_REACH
    },
    OUT_OF_REACH,
    CUTOFF_ZERO,
];

/// Where a pair touches, nothing can be nearer. Where the near nodes are exempt,
/// each is looked up.
pub const TIGHT_PAIR: [Kind; 4] = [
    Kind {
        name: "touching",
        ..DENSE
    },
    APART,
    Kind {
        name: "nothing touches, 4,096 exemptions",
        exempt: Exempt::Any(CALL_LIMITS.exemptions),
        ..APART
    },
    Kind {
        name: "one net, all exempt",
        exempt: Exempt::All,
        ..ONE_NET
    },
];

/// Those of 4,096 segments.
pub const JOIN: [Kind; 8] = [
    FEW_JOIN,
    Kind {
        name: "few join, a third reversed",
        reversed: true,
        ..FEW_JOIN
    },
    Kind {
        name: "few join, in order",
        order: Order::OfPieces,
        ..FEW_JOIN
    },
    MOST_JOIN,
    Kind {
        name: "most join, a third reversed",
        reversed: true,
        ..MOST_JOIN
    },
    Kind {
        name: "most join, in order",
        order: Order::OfPieces,
        ..MOST_JOIN
    },
    Kind {
        name: "one line of one net",
        nets: 1,
        lines: Lines::One,
        side: 1_000_000,
        ..FEW_JOIN
    },
    Kind {
        name: "all equal",
        lines: Lines::Equal,
        ..FEW_JOIN
    },
];

pub const SHORT_JOIN: [Kind; 2] = [
    Kind {
        segments: 120,
        ..FEW_JOIN
    },
    Kind {
        segments: 120,
        nets: 1,
        ..MOST_JOIN
    },
];

impl Kind {
    /// The drawing, which is the same at every call.
    pub fn drawing(&self) -> Drawing {
        let random = &mut Random::new(1);
        let mut drawing = Drawing {
            segments: (0..self.segments)
                .map(|place| segment(self, place, random))
                .collect(),
            nodes: (0..self.nodes)
                .map(|id| node(self, id as u32, random))
                .collect(),
            exemptions: exemptions(self, random),
            threshold: self.reach,
            cutoff: self.reach,
            allowances: Allowances {
                clearance: u64::MAX,
                separation: u64::MAX,
                congestion: u64::MAX,
            },
        };
        match self.order {
            Order::OfLists => return drawing.in_list_order(),
            Order::OfPieces => {
                drawing.segments.sort_by(joiner::order);
                return drawing;
            }
            Order::Shuffled => {}
        }
        // Own lines are assigned in order, and so are exemptions of all nodes.
        random.shuffle(&mut drawing.segments);
        if let Exempt::All = self.exempt {
            random.shuffle(&mut drawing.exemptions);
        }
        // Last, so that nothing else of the drawing depends on it.
        if self.reversed {
            for segment in &mut drawing.segments {
                if random.once_in(3) {
                    *segment = segment.reversed();
                }
            }
        }
        drawing
    }
}

fn exemptions(kind: &Kind, random: &mut Random) -> Vec<Exemption> {
    match kind.exempt {
        Exempt::Any(count) => (0..count)
            .map(|_| Exemption {
                net: random.below(kind.nets) as u32,
                node: random.below(kind.nodes) as u32,
            })
            .collect(),
        Exempt::All => (0..kind.nodes as u32)
            .map(|node| Exemption { net: 0, node })
            .collect(),
    }
}

fn segment(kind: &Kind, place: usize, random: &mut Random) -> Segment {
    let start = steps(random, 0, kind.side);
    let net = random.below(kind.nets) as u32;
    let (orientation, fixed) = match kind.lines {
        Lines::Any => (
            random.pick(&[HORIZONTAL, VERTICAL]),
            steps(random, 0, kind.side),
        ),
        Lines::Few(count) => (
            random.pick(&[HORIZONTAL, VERTICAL]),
            random.below(count) as f64,
        ),
        Lines::One | Lines::Alike | Lines::Equal => (HORIZONTAL, 0.0),
        Lines::Own => (HORIZONTAL, place as f64),
    };
    let segment = Segment {
        net,
        orientation,
        fixed,
        start,
        end: start + steps(random, kind.shortest, kind.longest),
    };
    match kind.lines {
        Lines::Alike => horizontal(place as u32, 0.0, 0.0, kind.longest as f64),
        Lines::Equal => horizontal(0, 0.0, 0.0, kind.longest as f64),
        Lines::Any | Lines::Few(_) | Lines::One | Lines::Own => segment,
    }
}

fn node(kind: &Kind, id: u32, random: &mut Random) -> Node {
    Node {
        id,
        x: steps(random, kind.nodes_from, kind.nodes_from + kind.side),
        y: steps(random, 0, kind.side),
        width: steps(random, 1, 16),
        height: steps(random, 1, 16),
    }
}

/// A multiple of the grid's step between two whole numbers.
fn steps(random: &mut Random, least: i64, most: i64) -> f64 {
    let in_steps = (1.0 / GRID_STEP) as i64;
    random.between(least * in_steps, most * in_steps) as f64 * GRID_STEP
}
