//! A drawing with its settings, and drawing D.

use readability::{EdgeNodeSegment, NetNodeRelation, NodeGeometry, ParallelSegment};

#[derive(Clone, Debug)]
pub struct Drawing {
    pub wires: Vec<ParallelSegment>,
    pub nodes: Vec<NodeGeometry>,
    pub relations: Vec<NetNodeRelation>,
    pub threshold: f64,
    pub cutoff: f64,
}

impl Drawing {
    /// Wires alone. The threshold is one that passes.
    pub fn of_wires(wires: &[ParallelSegment], cutoff: f64) -> Self {
        Self {
            wires: wires.to_vec(),
            nodes: Vec::new(),
            relations: Vec::new(),
            threshold: 0.0,
            cutoff,
        }
    }

    /// The same drawing with each wire's lesser end first, as it is taken.
    pub fn rising(&self) -> Self {
        self.with_each_wire(|wire| {
            if wire.end < wire.start {
                reversed(wire)
            } else {
                wire
            }
        })
    }

    /// The same drawing with each wire given in the other direction.
    pub fn reversed(&self) -> Self {
        self.with_each_wire(reversed)
    }

    fn with_each_wire(&self, change: fn(ParallelSegment) -> ParallelSegment) -> Self {
        Self {
            wires: self.wires.iter().copied().map(change).collect(),
            ..self.clone()
        }
    }

    /// The wires as clearance takes them.
    pub fn routes(&self) -> Vec<EdgeNodeSegment> {
        self.wires
            .iter()
            .map(|wire| EdgeNodeSegment {
                net: wire.net,
                horizontal: wire.horizontal,
                fixed: wire.fixed,
                start: wire.start,
                end: wire.end,
            })
            .collect()
    }
}

/// The wire given in the other direction.
pub fn reversed(wire: ParallelSegment) -> ParallelSegment {
    ParallelSegment {
        start: wire.end,
        end: wire.start,
        ..wire
    }
}

pub fn horizontal(net: u32, fixed: f64, start: f64, end: f64) -> ParallelSegment {
    ParallelSegment {
        net,
        horizontal: true,
        fixed,
        start,
        end,
    }
}

pub fn node(id: u32, x: f64, y: f64, width: f64, height: f64) -> NodeGeometry {
    NodeGeometry {
        id,
        x,
        y,
        width,
        height,
    }
}

pub fn drawing_d() -> Drawing {
    Drawing {
        wires: vec![horizontal(1, 0.0, 0.0, 10.0), horizontal(2, 4.0, 5.0, 15.0)],
        nodes: vec![node(7, 2.0, 1.0, 3.0, 2.0)],
        relations: vec![NetNodeRelation { net: 2, node: 7 }],
        threshold: 2.0,
        cutoff: 6.0,
    }
}
