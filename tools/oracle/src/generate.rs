//! The generator of drawings.
//!
//! | kind | what it makes |
//! |---|---|
//! | ties | tiny whole numbers, so that most coordinates meet |
//! | zeros | zeros of both signs and ones |
//! | grid | multiples of 1/64 |
//! | grid edge | ±1,048,576, ±1/64 and their neighbours |
//! | decimals | sums of tenths, off the grid |
//! | neighbours | values a few last places apart |
//! | huge | values up to the largest float, many gaps that overflow |
//! | apart | two nets and boxes so far apart that every gap overflows |
//! | subnormal | subnormal values and the least normal ones |
//! | any bits | any finite bits |
//! | repeats | duplicate segments, nodes and exemptions, repeated ids |
//! | touching | chains of segments whose ends meet, boxes on them |
//! | one line | every segment on one line, in many nets |
//! | one net | every segment in one net |
//! | exempt | most pairs of net and node exempt |
//! | in reach | 8 to 40 nodes, of which whole parts of the tree are within the threshold, or just not |
//! | cutoffs | cutoffs that are 0, -0, negative, huge, or off the grid |
//! | unfit | one value that refusal 5 names (or a threshold of -0, which passes) |
//! | off grid | one coordinate or cutoff that refusal 6 names |
//! | at limits | lists of 120, 120 and 240: the program's limits |
//! | over limits | one list longer by one, which the program refuses with 3 |
//! | crowded | some 200 segments that nearly all run side by side |
//! | long | 250 to 999 segments and nodes that meet and overlap, of any palette |
//! | full size | 4,096 segments, nodes and exemptions |
//! | too many | one list of 4,097, which every call that takes it refuses with 3 |
//! | many wires | 2,000 to 4,096 segments on and off the grid, and nothing else |
//!
//! The last five are too long for files of the program. Besides, every
//! drawing draws its orientations (mixed or one only), its lists' lengths (0
//! and 1 among them), its threshold and cutoff, and for each measure an aim
//! for its allowance: the visit count, one below, 0, or 2^64 - 1. Whatever the
//! kind, a third of the segments are given from the greater end to the lesser one.

use crate::{
    drawing::Drawing,
    maker::fit,
    random::Random,
    refusals::Limits,
    shapes,
    values::{ANY_BITS, DECIMALS, GRID, GRID_EDGE, HUGE, NEIGHBOURS, SUBNORMAL, TINY, ZEROS},
};

#[derive(Clone, Copy, Debug)]
pub enum Kind {
    Ties,
    Zeros,
    Grid,
    GridEdge,
    Decimals,
    Neighbours,
    Huge,
    Apart,
    Subnormal,
    AnyBits,
    Repeats,
    Touching,
    OneLine,
    OneNet,
    Exempt,
    InReach,
    Cutoffs,
    Unfit,
    OffGrid,
    AtLimits,
    OverLimits,
    Crowded,
    Long,
    FullSize,
    TooMany,
    ManyWires,
}

/// Each kind with its name and its share of the drawings.
pub const KINDS: [(Kind, &str, usize); 26] = [
    (Kind::Ties, "ties", 600),
    (Kind::Zeros, "zeros", 200),
    (Kind::Grid, "grid", 400),
    (Kind::GridEdge, "grid edge", 300),
    (Kind::Decimals, "decimals", 300),
    (Kind::Neighbours, "neighbours", 150),
    (Kind::Huge, "huge", 300),
    (Kind::Apart, "apart", 50),
    (Kind::Subnormal, "subnormal", 200),
    (Kind::AnyBits, "any bits", 150),
    (Kind::Repeats, "repeats", 250),
    (Kind::Touching, "touching", 250),
    (Kind::OneLine, "one line", 150),
    (Kind::OneNet, "one net", 100),
    (Kind::Exempt, "exempt", 150),
    (Kind::InReach, "in reach", 250),
    (Kind::Cutoffs, "cutoffs", 200),
    (Kind::Unfit, "unfit", 450),
    (Kind::OffGrid, "off grid", 100),
    (Kind::AtLimits, "at limits", 20),
    (Kind::OverLimits, "over limits", 15),
    (Kind::Crowded, "crowded", 10),
    (Kind::Long, "long", 2),
    (Kind::FullSize, "full size", 1),
    (Kind::TooMany, "too many", 4),
    (Kind::ManyWires, "many wires", 5),
];

/// How many kinds, from the front of the table, a small file can hold.
pub const SMALL_KINDS: usize = 19;

/// What a measure's allowance is to be, once its visit count is known.
#[derive(Clone, Copy, Debug)]
pub enum Aim {
    Count,
    OneBelow,
    Nothing,
    Everything,
}

impl Aim {
    /// The allowance. Where the measure is refused before work there is no
    /// count, and any allowance will do.
    pub fn allowance(self, count: Option<u64>) -> u64 {
        match self {
            Self::Count => count.unwrap_or(1_000),
            Self::OneBelow => count.unwrap_or(1_000).saturating_sub(1),
            Self::Nothing => 0,
            Self::Everything => u64::MAX,
        }
    }
}

/// The three aims of a drawing, in the sheet's order.
pub fn aims(random: &mut Random) -> [Aim; 3] {
    let choices = [
        Aim::Count,
        Aim::Count,
        Aim::Count,
        Aim::OneBelow,
        Aim::Nothing,
        Aim::Everything,
    ];
    [(); 3].map(|()| random.pick(&choices))
}

/// A kind and its name, each as often as its share says.
pub fn any_kind(random: &mut Random) -> (Kind, &'static str) {
    let shares = KINDS.iter().map(|(_, _, share)| share).sum();
    let mut place = random.below(shares);
    for (kind, name, share) in KINDS {
        if place < share {
            return (kind, name);
        }
        place -= share;
    }
    unreachable!("a place below all shares lies in one of them")
}

/// The most entries of each list in a drawing of no particular length.
pub const SMALL: Limits = Limits {
    segments: 6,
    nodes: 5,
    exemptions: 4,
};

pub const MIDDLE: Limits = Limits {
    segments: 40,
    nodes: 40,
    exemptions: 30,
};

/// Small drawings for the most part, some of middle length.
pub fn any_length(random: &mut Random) -> Limits {
    if random.once_in(6) {
        MIDDLE
    } else {
        SMALL
    }
}

/// A drawing of the kind. `most` bounds its lists, unless the kind is about
/// their lengths. Every allowance is 2^64 - 1.
pub fn drawing(kind: Kind, most: &Limits, random: &mut Random) -> Drawing {
    let mut drawing = with_rising_segments(kind, most, random);
    reverse_some(&mut drawing);
    drawing
}

/// Reverses a third of the segments, unfit ones included. Which ones is drawn
/// from a generator that belongs to the drawing, so that everything else, its
/// allowances too, is what it would be without.
fn reverse_some(drawing: &mut Drawing) {
    let mut random = drawing.random();
    for segment in &mut drawing.segments {
        if random.once_in(3) {
            *segment = segment.reversed();
        }
    }
}

fn with_rising_segments(kind: Kind, most: &Limits, random: &mut Random) -> Drawing {
    match kind {
        Kind::Ties => fit(TINY, most, random),
        Kind::Zeros => fit(ZEROS, most, random),
        Kind::Grid => fit(GRID, most, random),
        Kind::GridEdge => fit(GRID_EDGE, most, random),
        Kind::Decimals => fit(DECIMALS, most, random),
        Kind::Neighbours => fit(NEIGHBOURS, most, random),
        Kind::Huge => fit(HUGE, most, random),
        Kind::Apart => shapes::apart(most, random),
        Kind::Subnormal => fit(SUBNORMAL, most, random),
        Kind::AnyBits => fit(ANY_BITS, most, random),
        Kind::Repeats => shapes::repeats(most, random),
        Kind::Touching => shapes::touching(most, random),
        Kind::OneLine => shapes::one_line(most, random),
        Kind::OneNet => shapes::one_net(most, random),
        Kind::Exempt => shapes::exempt(most, random),
        Kind::InReach => shapes::in_reach(most, random),
        Kind::Cutoffs => shapes::cutoffs(most, random),
        Kind::Unfit => shapes::unfit(most, random),
        Kind::OffGrid => shapes::off_grid(most, random),
        Kind::AtLimits => shapes::at_limits(random),
        Kind::OverLimits => shapes::over_limits(most, random),
        Kind::Crowded => shapes::crowded(random),
        Kind::Long => shapes::long(random),
        Kind::FullSize => shapes::full_size(random),
        Kind::TooMany => shapes::too_many(most, random),
        Kind::ManyWires => shapes::many_wires(random),
    }
}
