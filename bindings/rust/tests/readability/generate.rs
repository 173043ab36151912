//! Random drawings. One seed gives one drawing, on every machine.

use readability::{NetNodeRelation, NodeGeometry, ParallelSegment};

use crate::drawing::{reversed, Drawing};

/// A generator of random numbers (splitmix64).
pub struct Random {
    state: u64,
}

impl Random {
    pub fn new(seed: u64) -> Self {
        Self { state: seed }
    }

    fn word(&mut self) -> u64 {
        self.state = self.state.wrapping_add(0x9e37_79b9_7f4a_7c15);
        let mut mixed = self.state;
        mixed = (mixed ^ (mixed >> 30)).wrapping_mul(0xbf58_476d_1ce4_e5b9);
        mixed = (mixed ^ (mixed >> 27)).wrapping_mul(0x94d0_49bb_1331_11eb);
        mixed ^ (mixed >> 31)
    }

    /// A number from 0 to `count` - 1.
    pub fn below(&mut self, count: usize) -> usize {
        (self.word() % count as u64) as usize
    }

    pub fn shuffle<T>(&mut self, list: &mut [T]) {
        for last in (1..list.len()).rev() {
            list.swap(last, self.below(last + 1));
        }
    }
}

/// Where a drawing's numbers come from.
#[derive(Clone, Copy, Debug, PartialEq)]
pub enum Numbers {
    /// Few whole numbers, so that much is equal.
    Whole,
    /// 64ths near 0.
    Fine,
    /// The last 64ths of the grid, on both sides.
    GridEnds,
    /// Tenths, which are off the grid and round.
    Tenths,
    /// Near the greatest float, where a gap can overflow.
    Huge,
}

impl Numbers {
    pub const ALL: [Self; 5] = [
        Self::Whole,
        Self::Fine,
        Self::GridEnds,
        Self::Tenths,
        Self::Huge,
    ];

    /// Whether congestion accepts them.
    pub fn on_grid(self) -> bool {
        !matches!(self, Self::Tenths | Self::Huge)
    }

    /// A coordinate. Whole ones include zeros of both signs.
    fn coordinate(self, random: &mut Random) -> f64 {
        let sign = if random.below(2) == 0 { 1.0 } else { -1.0 };
        sign * match self {
            Self::Whole => random.below(8) as f64,
            Self::Fine => random.below(640) as f64 / 64.0,
            Self::GridEnds => 1_048_576.0 - random.below(64) as f64 / 64.0,
            Self::Tenths => random.below(400) as f64 / 10.0,
            Self::Huge => 1.6e308 / (1.0 + random.below(4) as f64),
        }
    }

    /// A width or height. Together with a coordinate it stays finite.
    fn extent(self, random: &mut Random) -> f64 {
        let step = 1.0 + random.below(6) as f64;
        match self {
            Self::Whole => step,
            Self::Fine | Self::GridEnds => step / 64.0,
            Self::Tenths => step / 10.0,
            Self::Huge => step * 1e306,
        }
    }

    /// A threshold, or a cutoff: now and then 0, and as likely small as large.
    fn setting(self, random: &mut Random) -> f64 {
        if random.below(6) == 0 {
            0.0
        } else if random.below(2) == 0 {
            self.extent(random)
        } else {
            self.coordinate(random).abs()
        }
    }
}

/// A fit drawing, a third of its wires from the greater end to the lesser one. Some
/// have no entries in a list, a few have many.
pub fn drawing(numbers: Numbers, seed: u64) -> Drawing {
    let mut random = Random::new(seed);
    let most = if random.below(20) == 0 { 200 } else { 24 };
    let nets = 1 + random.below(6);
    let ids = 1 + random.below(12);
    Drawing {
        wires: (0..random.below(most))
            .map(|_| wire(numbers, nets, &mut random))
            .collect(),
        nodes: (0..random.below(most))
            .map(|_| node(numbers, ids, &mut random))
            .collect(),
        relations: (0..random.below(8))
            .map(|_| NetNodeRelation {
                net: random.below(nets) as u32,
                node: random.below(ids) as u32,
            })
            .collect(),
        threshold: numbers.setting(&mut random),
        cutoff: numbers.setting(&mut random),
    }
}

fn wire(numbers: Numbers, nets: usize, random: &mut Random) -> ParallelSegment {
    let (start, end) = loop {
        let (one, other) = (numbers.coordinate(random), numbers.coordinate(random));
        if one < other {
            break (one, other);
        }
    };
    let wire = ParallelSegment {
        net: random.below(nets) as u32,
        horizontal: random.below(3) != 0,
        fixed: numbers.coordinate(random),
        start,
        end,
    };
    if random.below(3) == 0 {
        reversed(wire)
    } else {
        wire
    }
}

fn node(numbers: Numbers, ids: usize, random: &mut Random) -> NodeGeometry {
    NodeGeometry {
        id: random.below(ids) as u32,
        x: numbers.coordinate(random),
        y: numbers.coordinate(random),
        width: numbers.extent(random),
        height: numbers.extent(random),
    }
}

/// The same entries in another order.
pub fn reordered(drawing: &Drawing, seed: u64) -> Drawing {
    let mut random = Random::new(seed);
    let mut other = drawing.clone();
    random.shuffle(&mut other.wires);
    random.shuffle(&mut other.nodes);
    random.shuffle(&mut other.relations);
    other
}

/// Every drawing that the tests take: `each` of each kind of numbers.
pub fn drawings(each: u64) -> impl Iterator<Item = (Numbers, u64, Drawing)> {
    Numbers::ALL
        .into_iter()
        .flat_map(move |numbers| (0..each).map(move |seed| (numbers, seed, drawing(numbers, seed))))
}
