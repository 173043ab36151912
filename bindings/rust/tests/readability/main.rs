//! The bindings: what SCOPE says of drawing D, of the marked cases, of the refusals
//! and of joining; random drawings against a computation over all pairs, against
//! themselves with their wires in other directions, and against their joined pieces;
//! and the original module against this crate.

mod against_pairs;
mod directions;
mod drawing;
mod generate;
mod join;
mod marked;
mod pairs;
mod refusals;
mod sheet;
mod swap;
mod version;

/// What the original module expects to find at its crate's root.
#[cfg(original)]
use readability::{NetId, NodeGeometry, NodeId};

/// The original, taken from where it lies and never copied. It has calls that
/// nobody here makes.
#[cfg(original)]
#[allow(dead_code)]
mod original {
    include!(env!("READABILITY_PATH"));
}
