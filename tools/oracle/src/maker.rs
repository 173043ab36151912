//! Makes drawings that clearance and separation accept, from a palette of
//! numbers.

use crate::{
    drawing::{Allowances, Drawing, Exemption, Node, Segment, HORIZONTAL, VERTICAL},
    random::Random,
    refusals::Limits,
    values::Palette,
};

/// Makes the entries of one drawing.
pub struct Maker<'a> {
    palette: Palette,
    pub nets: u32,
    ids: u32,
    orientations: &'static [u8],
    random: &'a mut Random,
}

impl<'a> Maker<'a> {
    pub fn new(palette: Palette, most: &Limits, random: &'a mut Random) -> Self {
        let orientations: [&[u8]; 3] = [&[HORIZONTAL], &[VERTICAL], &[HORIZONTAL, VERTICAL]];
        Self {
            palette,
            nets: 1 + random.below(4) as u32,
            ids: 1 + random.below(most.nodes) as u32,
            orientations: random.pick(&orientations),
            random,
        }
    }

    fn coordinate(&mut self) -> f64 {
        (self.palette.coordinate)(self.random)
    }

    fn size(&mut self) -> f64 {
        (self.palette.size)(self.random)
    }

    /// Now and then a small number is replaced by a large one, so that the whole
    /// range of ids is used.
    fn id(&mut self, ids: u32) -> u32 {
        let id = self.random.below(ids as usize) as u32;
        if self.random.once_in(8) {
            u32::MAX - id
        } else {
            id
        }
    }

    /// With the lesser end first.
    fn segment(&mut self) -> Segment {
        loop {
            let one = self.coordinate();
            let other = self.coordinate();
            let segment = Segment {
                net: self.id(self.nets),
                orientation: self.random.pick(self.orientations),
                fixed: self.coordinate(),
                start: one.min(other),
                end: one.max(other),
            };
            if segment.start < segment.end {
                return segment;
            }
        }
    }

    fn node(&mut self) -> Node {
        loop {
            let node = Node {
                id: self.id(self.ids),
                x: self.coordinate(),
                y: self.coordinate(),
                width: self.size(),
                height: self.size(),
            };
            if node.right().is_finite() && node.bottom().is_finite() {
                return node;
            }
        }
    }

    fn exemption(&mut self) -> Exemption {
        Exemption {
            net: self.id(self.nets),
            node: self.id(self.ids),
        }
    }

    /// 0 of either sign, a size, or a distance between two coordinates.
    fn threshold(&mut self) -> f64 {
        let apart = (self.coordinate() - self.coordinate()).abs();
        let size = self.size();
        let apart = if apart.is_finite() { apart } else { size };
        self.random.pick(&[0.0, -0.0, size, size, apart, apart])
    }

    /// A size or a coordinate's absolute value; now and then 0 or negative.
    fn cutoff(&mut self) -> f64 {
        let size = self.size();
        let away = self.coordinate().abs();
        if self.random.once_in(12) {
            self.random.pick(&[0.0, -0.0, -size])
        } else {
            self.random.pick(&[size, size, away])
        }
    }

    pub fn drawing(&mut self, lengths: Limits) -> Drawing {
        Drawing {
            segments: (0..lengths.segments).map(|_| self.segment()).collect(),
            nodes: (0..lengths.nodes).map(|_| self.node()).collect(),
            exemptions: (0..lengths.exemptions).map(|_| self.exemption()).collect(),
            threshold: self.threshold(),
            cutoff: self.cutoff(),
            allowances: Allowances {
                clearance: u64::MAX,
                separation: u64::MAX,
                congestion: u64::MAX,
            },
        }
    }
}

/// Lengths from 0 to `most`.
pub fn up_to(most: &Limits, random: &mut Random) -> Limits {
    Limits {
        segments: random.below(most.segments + 1),
        nodes: random.below(most.nodes + 1),
        exemptions: random.below(most.exemptions + 1),
    }
}

/// A drawing with nothing to refuse in clearance and separation; whether its
/// values are on the grid is the palette's affair.
pub fn fit(palette: Palette, most: &Limits, random: &mut Random) -> Drawing {
    let lengths = up_to(most, random);
    Maker::new(palette, most, random).drawing(lengths)
}

/// The same with at least one segment, node and exemption.
pub fn fit_with_entries(palette: Palette, most: &Limits, random: &mut Random) -> Drawing {
    let lengths = up_to(most, random);
    Maker::new(palette, most, random).drawing(Limits {
        segments: lengths.segments.max(1),
        nodes: lengths.nodes.max(1),
        exemptions: lengths.exemptions.max(1),
    })
}
