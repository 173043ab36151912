//! Readability figures of a routed schematic: least clearance of wires from
//! nodes, least separation of parallel wires, congested length.
//!
//! The names and types are those of the module `readability.rs` of the drawing
//! library schemweave; the work is done by the port of that module to Rattle,
//! in which every function is proved to meet its contract. A program that gets
//! these names from schemweave gets them from here by changing the `use`, but for
//! [two things](#what-the-swap-costs), nodes and the grid:
//!
//! ```
//! use readability::{
//!     measure_edge_node_clearance_bounded, EdgeNodeSegment, NetNodeRelation, NodeGeometry,
//! };
//!
//! let wire = EdgeNodeSegment { net: 1, horizontal: true, fixed: 0.0, start: 0.0, end: 10.0 };
//! let near = NodeGeometry { id: 7, x: 2.0, y: 1.0, width: 3.0, height: 2.0 };
//! let own = NodeGeometry { id: 8, x: 9.0, y: 0.0, width: 3.0, height: 2.0 };
//! let relations = [NetNodeRelation { net: 1, node: 8 }];
//!
//! let nodes = [near, own];
//! let measured = measure_edge_node_clearance_bounded(&[wire], &nodes, &relations, 2.0, 1_000);
//! let clearance = measured.expect("a fit drawing of two visits at most");
//! assert_eq!(clearance.minimum_clearance, Some(1.0));
//! assert_eq!(clearance.violations, 1);
//! ```
//!
//! # What the swap costs
//!
//! **Nodes are copied.** [`NodeGeometry`] is this package's own type, and not the
//! one that schemweave's layouts hold. A program that passes `&layout.nodes` does
//! not compile after the swap:
//!
//! ```compile_fail,E0308
//! # mod schemweave {
//! #     pub struct NodeGeometry { pub id: u32, pub x: f64, pub y: f64, pub width: f64, pub height: f64 }
//! #     pub struct Layout { pub nodes: Vec<NodeGeometry> }
//! # }
//! # use readability::{measure_edge_node_clearance_bounded, EdgeNodeClearance, EdgeNodeClearanceError};
//! fn clearance(layout: &schemweave::Layout) -> Result<EdgeNodeClearance, EdgeNodeClearanceError> {
//!     measure_edge_node_clearance_bounded(&[], &layout.nodes, &[], 2.0, 1_000)
//! }
//! ```
//!
//! It copies the nodes first, field by field:
//!
//! ```
//! # mod schemweave {
//! #     pub struct NodeGeometry { pub id: u32, pub x: f64, pub y: f64, pub width: f64, pub height: f64 }
//! #     pub struct Layout { pub nodes: Vec<NodeGeometry> }
//! # }
//! # use readability::{measure_edge_node_clearance_bounded, EdgeNodeClearance, EdgeNodeClearanceError};
//! use readability::NodeGeometry;
//!
//! fn clearance(layout: &schemweave::Layout) -> Result<EdgeNodeClearance, EdgeNodeClearanceError> {
//!     let copy = |node: &schemweave::NodeGeometry| NodeGeometry {
//!         id: node.id,
//!         x: node.x,
//!         y: node.y,
//!         width: node.width,
//!         height: node.height,
//!     };
//!     let nodes: Vec<NodeGeometry> = layout.nodes.iter().map(copy).collect();
//!     measure_edge_node_clearance_bounded(&[], &nodes, &[], 2.0, 1_000)
//! }
//! # assert!(clearance(&schemweave::Layout { nodes: vec![] }).is_ok());
//! ```
//!
//! The type cannot be schemweave's, because the package uses the standard library
//! alone. For the same reason it lacks serde's two traits.
//!
//! **Layouts off the grid get no congestion figure.** Where a coordinate or the
//! cutoff is no whole multiple of 1/64, as 0.1 is not, both profiles return `None`,
//! as for a spent allowance, and [`measure_parallel_congestion`] returns
//! [`ParallelCongestion::REFUSED`]. The module measures such layouts. Clearance
//! and separation take them here too.
//!
//! ```
//! use readability::{
//!     measure_parallel_congestion, measure_parallel_congestion_profile_bounded,
//!     measure_parallel_density_profile_bounded, ParallelCongestion, ParallelSegment,
//! };
//!
//! let wire = ParallelSegment { net: 1, horizontal: true, fixed: 0.1, start: 0.0, end: 10.0 };
//! assert_eq!(measure_parallel_congestion_profile_bounded(&[wire], 6.0, 1_000), None);
//! assert_eq!(measure_parallel_density_profile_bounded(&[wire], 6.0, 1_000), None);
//! assert_eq!(measure_parallel_congestion(&[wire], 6.0), ParallelCongestion::REFUSED);
//! ```
//!
//! # What differs from the module
//!
//! Every figure of an accepted call equals the module's, bit by bit, but for the
//! departures listed in the project's docs/DIFFERENCES.md. Three of them show in
//! what is accepted:
//!
//! - a segment may be given in either direction. Where its start is above its end
//!   it is measured as if the two had been exchanged; the module's clearance and
//!   separation refuse it, and its congestion gives a wrong total or panics. Equal
//!   ends are refused (refusal 5);
//! - a list of more than 4,096 entries is refused (refusal 3);
//! - congestion accepts only coordinates and a cutoff that are whole multiples
//!   of 1/64, at most 1,048,576 in absolute value, and refuses any other
//!   (refusal 6), a NaN or infinite one and equal ends (5). The module takes all
//!   floats there, and may panic or give wrong figures.
//!
//! Congestion turns every -0 into +0 first, as separation does in the module too,
//! and its total for no segments is +0, where the module's sign depends on the
//! version of Rust.
//!
//! # How refusals appear
//!
//! | refusal | clearance, separation | the two profiles | `measure_parallel_congestion` |
//! |---|---|---|---|
//! | 3, too many entries | `TooManyEntries` (added) | `None` | [`ParallelCongestion::REFUSED`] |
//! | 5, unfit | `InvalidInput` | `None` | [`ParallelCongestion::REFUSED`] |
//! | 6, off the grid | never | `None` | [`ParallelCongestion::REFUSED`] |
//! | 7, allowance spent | `WorkLimitExceeded` | `None` | never |
//!
//! - Both error types of the module are `non_exhaustive`, so that every match on
//!   them in another crate has an arm for what is added. `TooManyEntries` is
//!   neither of the two others: the drawing is fit, and no allowance is enough
//!   for it.
//! - `None` is the module's answer where it did not measure, and callers of the
//!   profiles have to do without the figures there already.
//! - `measure_parallel_congestion` has no way to refuse. Zeros would read as a
//!   drawing without congestion, and a panic would take the caller down, so a
//!   refused drawing has the worst figures that there are: its ratio is 1, and
//!   no measured drawing is worse.
//!
//! The functions whose names begin with `try_` return each [`Refusal`] as itself.
//!
//! # What is added
//!
//! Each function of the module has a second one, `try_` before its name, whose
//! report carries the visits used and which returns a [`Refusal`].
//! [`tight_pair`] finds a pair at the least clearance, [`join()`] makes one piece of
//! wires of one net that touch or overlap on one line, and [`sheet()`] gives the text
//! of a drawing file's sheet. The module [`columns`] has the port's own calls, which
//! take lists by columns and allocate nothing. [`library_version`] returns the version
//! of the library that is linked.

#![deny(unsafe_code)]
#![warn(missing_docs)]

#[cfg(not(target_arch = "x86_64"))]
compile_error!("the port's library links only into x86-64 programs");

mod clearance;
pub mod columns;
mod congestion;
mod declarations;
mod exported;
mod join;
mod refusal;
mod separation;
mod sheet;
mod unpack;
mod version;

/// The Rust in docs/CALLING.md is compiled and run with the tests.
#[cfg(doctest)]
#[doc = include_str!("../../../docs/CALLING.md")]
struct Calling;

pub use clearance::{
    measure_edge_node_clearance_bounded, tight_pair, try_measure_edge_node_clearance_bounded,
    ClearanceReport, EdgeNodeClearance, EdgeNodeClearanceError, EdgeNodeSegment, NetNodeRelation,
    NodeGeometry, TightPair,
};
pub use congestion::{
    measure_parallel_congestion, measure_parallel_congestion_profile_bounded,
    measure_parallel_density_profile_bounded, try_measure_parallel_congestion,
    try_measure_parallel_congestion_profile_bounded, try_measure_parallel_density_profile_bounded,
    CongestionReport, ParallelCongestion,
};
pub use join::{join, Joined};
pub use refusal::Refusal;
pub use separation::{
    measure_parallel_separation_bounded, try_measure_parallel_separation_bounded, ParallelSegment,
    ParallelSeparation, ParallelSeparationError, SeparationReport,
};
pub use sheet::sheet;
pub use version::library_version;

/// The number of a node. Several nodes may have one number.
pub type NodeId = u32;

/// The number of a net.
pub type NetId = u32;
