//! What a measure answers: figures and a visit count, or a refusal.
//!
//! The figures of every measure are a list of fields in the sheet's order, so
//! that the two computations are compared, and printed, in one way.

use crate::{drawing::Drawing, refusals::Refusal};

/// The measures that a sheet shows, in its order.
#[derive(Clone, Copy, Debug, PartialEq, Eq)]
pub enum Measure {
    Clearance,
    Separation,
    Congestion,
}

pub const MEASURES: [Measure; 3] = [Measure::Clearance, Measure::Separation, Measure::Congestion];

impl Measure {
    pub fn name(self) -> &'static str {
        match self {
            Self::Clearance => "clearance",
            Self::Separation => "separation",
            Self::Congestion => "congestion",
        }
    }

    /// Whether it is given nodes and exemptions besides segments.
    pub fn takes_nodes(self) -> bool {
        self == Self::Clearance
    }

    pub fn allowance(self, drawing: &Drawing) -> u64 {
        match self {
            Self::Clearance => drawing.allowances.clearance,
            Self::Separation => drawing.allowances.separation,
            Self::Congestion => drawing.allowances.congestion,
        }
    }

    pub fn set_allowance(self, drawing: &mut Drawing, allowance: u64) {
        match self {
            Self::Clearance => drawing.allowances.clearance = allowance,
            Self::Separation => drawing.allowances.separation = allowance,
            Self::Congestion => drawing.allowances.congestion = allowance,
        }
    }
}

/// One figure. Two are equal where they are the same bit by bit.
#[derive(Clone, Copy, Debug)]
pub enum Figure {
    /// A least gap, absent where there is no pair.
    Gap(Option<f64>),
    Length(f64),
    Count(u64),
}

impl PartialEq for Figure {
    fn eq(&self, other: &Self) -> bool {
        match (self, other) {
            (Self::Gap(left), Self::Gap(right)) => {
                left.map(f64::to_bits) == right.map(f64::to_bits)
            }
            (Self::Length(left), Self::Length(right)) => left.to_bits() == right.to_bits(),
            (Self::Count(left), Self::Count(right)) => left == right,
            _ => false,
        }
    }
}

/// An accepted call: its figures in the sheet's order, and the visits used.
#[derive(Clone, Debug, PartialEq)]
pub struct Report {
    pub figures: Vec<Figure>,
    pub visits: u64,
}

pub type Answer = Result<Report, Refusal>;
