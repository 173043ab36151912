//! The tight pair by a plain loop over all pairs, for the port's to be timed
//! against: the reference has none.
//!
//! It is what a program in Rust would do without a tree. A distance is the
//! greatest of differences: the reference's way, which asks which extent comes
//! first, is made of jumps that a processor guesses wrong, and the loop took four
//! to nine times as long with it where no exemption was looked up. It does not
//! stop at a pair that touches, where nothing can be nearer: that is left to the
//! port.

use crate::drawing::{Exemption, Node, Segment, HORIZONTAL};

/// The positions of the first segment and node that are not exempt and at the
/// least distance. That the lists are fit is not checked, and no segment may have
/// its start above its end.
pub fn tight_pair(
    segments: &[Segment],
    nodes: &[Node],
    exemptions: &[Exemption],
) -> Option<(usize, usize)> {
    let mut exempt: Vec<(u32, u32)> = exemptions
        .iter()
        .map(|exemption| (exemption.net, exemption.node))
        .collect();
    exempt.sort_unstable();
    let boxes: Vec<(u32, Bounds)> = nodes
        .iter()
        .map(|node| (node.id, Bounds::of_node(node)))
        .collect();
    let mut least = None::<f64>;
    let mut pair = None;
    for (segment, wire) in segments.iter().enumerate() {
        let of_net = of_net(&exempt, wire.net);
        let bounds = Bounds::of_segment(wire);
        for (node, (id, other)) in boxes.iter().enumerate() {
            let distance = bounds.distance(other);
            if least.is_none_or(|least| distance < least) && !holds(of_net, *id) {
                least = Some(distance);
                pair = Some((segment, node));
            }
        }
    }
    pair
}

/// The part of the exemptions, which are in order, that belongs to a net.
fn of_net(exempt: &[(u32, u32)], net: u32) -> &[(u32, u32)] {
    let from = exempt.partition_point(|exemption| exemption.0 < net);
    let behind = &exempt[from..];
    &behind[..behind.partition_point(|exemption| exemption.0 == net)]
}

fn holds(of_net: &[(u32, u32)], id: u32) -> bool {
    of_net
        .binary_search_by_key(&id, |exemption| exemption.1)
        .is_ok()
}

struct Bounds {
    left: f64,
    top: f64,
    right: f64,
    bottom: f64,
}

impl Bounds {
    fn of_node(node: &Node) -> Self {
        Self {
            left: node.x,
            top: node.y,
            right: node.right(),
            bottom: node.bottom(),
        }
    }

    fn of_segment(segment: &Segment) -> Self {
        let along = (segment.start, segment.end);
        let across = (segment.fixed, segment.fixed);
        let ((left, right), (top, bottom)) = if segment.orientation == HORIZONTAL {
            (along, across)
        } else {
            (across, along)
        };
        Self {
            left,
            top,
            right,
            bottom,
        }
    }

    fn distance(&self, other: &Self) -> f64 {
        let beside = greater(other.left - self.right, self.left - other.right);
        let above = greater(other.top - self.bottom, self.top - other.bottom);
        greater(greater(beside, above), 0.0)
    }
}

/// `f64::max` would look for a NaN as well, and there is none.
fn greater(one: f64, other: f64) -> f64 {
    if one > other {
        one
    } else {
        other
    }
}
