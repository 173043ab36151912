//! Lists of records unpacked into columns, and the scratch that goes with them;
//! columns with room for pieces, and the pieces in them as records.

use crate::{
    clearance::{EdgeNodeSegment, NetNodeRelation, NodeGeometry},
    columns::{
        scratch_words, NodeColumns, PieceColumns, RelationColumns, SegmentColumns, MOST_ENTRIES,
    },
    separation::ParallelSegment,
};

/// Enough scratch for a call. A list longer than a call takes is refused before
/// the scratch is looked at, so it needs no more than the longest.
pub fn scratch_for(segments: usize, nodes: usize) -> Vec<u64> {
    vec![0; scratch_words(segments.min(MOST_ENTRIES), nodes.min(MOST_ENTRIES))]
}

pub struct Segments {
    net: Vec<u32>,
    orientation: Vec<u8>,
    fixed: Vec<f64>,
    start: Vec<f64>,
    end: Vec<f64>,
}

impl Segments {
    pub fn of_routes(list: &[EdgeNodeSegment]) -> Self {
        Self::of(list, |route| ParallelSegment {
            net: route.net,
            horizontal: route.horizontal,
            fixed: route.fixed,
            start: route.start,
            end: route.end,
        })
    }

    pub fn of_wires(list: &[ParallelSegment]) -> Self {
        Self::of(list, |wire| *wire)
    }

    fn of<E>(list: &[E], wire: impl Fn(&E) -> ParallelSegment) -> Self {
        Self {
            net: column(list, |entry| wire(entry).net),
            orientation: column(list, |entry| u8::from(wire(entry).horizontal)),
            fixed: column(list, |entry| wire(entry).fixed),
            start: column(list, |entry| wire(entry).start),
            end: column(list, |entry| wire(entry).end),
        }
    }

    pub fn columns(&self) -> SegmentColumns<'_> {
        SegmentColumns {
            net: &self.net,
            orientation: &self.orientation,
            fixed: &self.fixed,
            start: &self.start,
            end: &self.end,
        }
    }

    /// Room for the pieces of a list. One longer than a call takes is refused before
    /// the room is looked at.
    pub fn room_for_pieces(segments: usize) -> Self {
        let room = segments.min(MOST_ENTRIES);
        Self {
            net: vec![0; room],
            orientation: vec![0; room],
            fixed: vec![0.0; room],
            start: vec![0.0; room],
            end: vec![0.0; room],
        }
    }

    pub fn lent(&mut self) -> PieceColumns<'_> {
        PieceColumns {
            net: &mut self.net,
            orientation: &mut self.orientation,
            fixed: &mut self.fixed,
            start: &mut self.start,
            end: &mut self.end,
        }
    }

    /// The first segments, as records.
    pub fn first(&self, count: usize) -> Vec<ParallelSegment> {
        let wire = |place| ParallelSegment {
            net: self.net[place],
            horizontal: self.orientation[place] == 1,
            fixed: self.fixed[place],
            start: self.start[place],
            end: self.end[place],
        };
        (0..count).map(wire).collect()
    }
}

pub struct Nodes {
    id: Vec<u32>,
    x: Vec<f64>,
    y: Vec<f64>,
    width: Vec<f64>,
    height: Vec<f64>,
}

impl Nodes {
    pub fn of(list: &[NodeGeometry]) -> Self {
        Self {
            id: column(list, |node| node.id),
            x: column(list, |node| node.x),
            y: column(list, |node| node.y),
            width: column(list, |node| node.width),
            height: column(list, |node| node.height),
        }
    }

    pub fn columns(&self) -> NodeColumns<'_> {
        NodeColumns {
            id: &self.id,
            x: &self.x,
            y: &self.y,
            width: &self.width,
            height: &self.height,
        }
    }
}

pub struct Relations {
    net: Vec<u32>,
    node: Vec<u32>,
}

impl Relations {
    pub fn of(list: &[NetNodeRelation]) -> Self {
        Self {
            net: column(list, |relation| relation.net),
            node: column(list, |relation| relation.node),
        }
    }

    pub fn columns(&self) -> RelationColumns<'_> {
        RelationColumns {
            net: &self.net,
            node: &self.node,
        }
    }
}

/// A field of every entry. A call refuses more than `MOST_ENTRIES` whatever they
/// are, so one more of them is enough.
fn column<E, T>(list: &[E], field: impl Fn(&E) -> T) -> Vec<T> {
    list.iter().take(MOST_ENTRIES + 1).map(field).collect()
}
