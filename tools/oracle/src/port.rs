//! The port: the proved library, called by columns, by records, or with the
//! bytes of a drawing file.
//!
//! The declarations, those of the Rust package and those below, are those of
//! `crates/exports_c`; nothing holds the two against each other but this
//! comparison. A slice passes as a pointer and a length, an array as a pointer.

use crate::{
    declarations::{
        readability_clearance, readability_congestion, readability_congestion_profile,
        readability_density_profile, readability_join, readability_ratio, readability_separation,
        readability_sheet, readability_tight_pair, readability_version_0_3, SHEET_BYTES,
    },
    drawing::Drawing,
    refusals::{scratch_need, Lent},
    report::{Answer, Figure, Measure, Report},
    segment_columns::SegmentColumns,
};

// The entries by records, which the Rust package does without.
extern "C" {
    fn readability_clearance_by_records(
        records: *const Record,
        records_length: usize,
        id: *const u32,
        id_length: usize,
        x: *const f64,
        x_length: usize,
        y: *const f64,
        y_length: usize,
        width: *const f64,
        width_length: usize,
        height: *const f64,
        height_length: usize,
        exempt_net: *const u32,
        exempt_net_length: usize,
        exempt_node: *const u32,
        exempt_node_length: usize,
        threshold: f64,
        allowance: usize,
        scratch: *mut u64,
        scratch_length: usize,
        out: *mut [u64; 4],
    ) -> u32;

    fn readability_separation_by_records(
        records: *const Record,
        records_length: usize,
        allowance: usize,
        scratch: *mut u64,
        scratch_length: usize,
        out: *mut [u64; 5],
    ) -> u32;

    fn readability_density_profile_by_records(
        records: *const Record,
        records_length: usize,
        cutoff: f64,
        allowance: usize,
        scratch: *mut u64,
        scratch_length: usize,
        out: *mut [u64; 7],
    ) -> u32;

    fn readability_congestion_profile_by_records(
        records: *const Record,
        records_length: usize,
        cutoff: f64,
        allowance: usize,
        scratch: *mut u64,
        scratch_length: usize,
        out: *mut [u64; 7],
    ) -> u32;

    fn readability_congestion_by_records(
        records: *const Record,
        records_length: usize,
        cutoff: f64,
        scratch: *mut u64,
        scratch_length: usize,
        out: *mut [u64; 7],
    ) -> u32;
}

/// A segment as the thin entries take it, `ParallelSegment` and
/// `EdgeNodeSegment` alike.
#[repr(C)]
#[derive(Clone, Copy)]
pub struct Record {
    net: u32,
    horizontal: bool,
    fixed: f64,
    start: f64,
    end: f64,
}

impl Record {
    /// Whether it is the same bit by bit. A call only reads its records.
    pub fn is(&self, other: &Self) -> bool {
        let floats = |record: &Self| [record.fixed, record.start, record.end].map(f64::to_bits);
        self.net == other.net
            && self.horizontal == other.horizontal
            && floats(self) == floats(other)
    }
}

/// The five measures of SCOPE 6.1. Congestion's three have
/// lists, settings, checks and visit count in common.
#[derive(Clone, Copy, Debug, PartialEq, Eq)]
pub enum Call {
    Clearance,
    Separation,
    DensityProfile,
    CongestionProfile,
    /// The one call that is given no allowance.
    Congestion,
}

pub const CALLS: [Call; 5] = [
    Call::Clearance,
    Call::Separation,
    Call::DensityProfile,
    Call::CongestionProfile,
    Call::Congestion,
];

impl Call {
    pub fn name(self) -> &'static str {
        match self {
            Self::Clearance => "clearance",
            Self::Separation => "separation",
            Self::DensityProfile => "density profile",
            Self::CongestionProfile => "congestion profile",
            Self::Congestion => "congestion",
        }
    }

    /// The measure of the sheet that the call belongs to.
    pub fn measure(self) -> Measure {
        match self {
            Self::Clearance => Measure::Clearance,
            Self::Separation => Measure::Separation,
            Self::DensityProfile | Self::CongestionProfile | Self::Congestion => {
                Measure::Congestion
            }
        }
    }

    /// The call that gives a measure's figures on the sheet.
    pub fn of_sheet(measure: Measure) -> Self {
        match measure {
            Measure::Clearance => Self::Clearance,
            Measure::Separation => Self::Separation,
            Measure::Congestion => Self::DensityProfile,
        }
    }
}

/// The least words of scratch that a call must be lent for the drawing.
pub fn scratch_words(measure: Measure, drawing: &Drawing) -> usize {
    let nodes = if measure.takes_nodes() {
        drawing.nodes.len()
    } else {
        0
    };
    scratch_need(drawing.segments.len(), nodes)
}

/// A drawing as the port takes it: its lists by columns, its threshold and its
/// cutoff.
#[derive(Clone)]
pub struct Columns {
    pub net: Vec<u32>,
    pub orientation: Vec<u8>,
    pub fixed: Vec<f64>,
    pub start: Vec<f64>,
    pub end: Vec<f64>,
    pub id: Vec<u32>,
    pub x: Vec<f64>,
    pub y: Vec<f64>,
    pub width: Vec<f64>,
    pub height: Vec<f64>,
    pub exempt_net: Vec<u32>,
    pub exempt_node: Vec<u32>,
    pub threshold: f64,
    pub cutoff: f64,
}

impl Columns {
    pub fn of(drawing: &Drawing) -> Self {
        let segments = &drawing.segments;
        let nodes = &drawing.nodes;
        let exemptions = &drawing.exemptions;
        Self {
            net: column(segments, |segment| segment.net),
            orientation: column(segments, |segment| segment.orientation),
            fixed: column(segments, |segment| segment.fixed),
            start: column(segments, |segment| segment.start),
            end: column(segments, |segment| segment.end),
            id: column(nodes, |node| node.id),
            x: column(nodes, |node| node.x),
            y: column(nodes, |node| node.y),
            width: column(nodes, |node| node.width),
            height: column(nodes, |node| node.height),
            exempt_net: column(exemptions, |exemption| exemption.net),
            exempt_node: column(exemptions, |exemption| exemption.node),
            threshold: drawing.threshold,
            cutoff: drawing.cutoff,
        }
    }

    /// The segments as records, where records can represent the columns:
    /// columns of one length, and no orientation above 1.
    pub fn records(&self) -> Option<Vec<Record>> {
        let count = self.net.len();
        let lengths = [
            self.orientation.len(),
            self.fixed.len(),
            self.start.len(),
            self.end.len(),
        ];
        if lengths != [count; 4] || self.orientation.iter().any(|byte| *byte > 1) {
            return None;
        }
        let record = |place: usize| Record {
            net: self.net[place],
            horizontal: self.orientation[place] == 1,
            fixed: self.fixed[place],
            start: self.start[place],
            end: self.end[place],
        };
        Some((0..count).map(record).collect())
    }

    /// Whether they are the drawing's columns, bit by bit. A call only reads them.
    pub fn are_those_of(&self, drawing: &Drawing) -> bool {
        let other = Self::of(drawing);
        let floats = |columns: &Self| {
            let Self {
                fixed,
                start,
                end,
                x,
                y,
                width,
                height,
                ..
            } = columns;
            [fixed, start, end, x, y, width, height].map(|column| bits(column))
        };
        self.net == other.net
            && self.orientation == other.orientation
            && self.id == other.id
            && self.exempt_net == other.exempt_net
            && self.exempt_node == other.exempt_node
            && floats(self) == floats(&other)
    }

    /// What a call with these columns and this many words is lent.
    pub fn lent(&self, scratch_words: usize) -> Lent {
        Lent {
            segment_columns: [
                self.net.len(),
                self.orientation.len(),
                self.fixed.len(),
                self.start.len(),
                self.end.len(),
            ],
            node_columns: [
                self.id.len(),
                self.x.len(),
                self.y.len(),
                self.width.len(),
                self.height.len(),
            ],
            exemption_columns: [self.exempt_net.len(), self.exempt_node.len()],
            scratch_words,
        }
    }
}

fn column<E, T>(entries: &[E], field: impl Fn(&E) -> T) -> Vec<T> {
    entries.iter().map(field).collect()
}

fn bits(column: &[f64]) -> Vec<u64> {
    column.iter().map(|value| value.to_bits()).collect()
}

/// What the port returns: 0 or the refusal's number, and the report's words.
#[derive(Clone, Debug, PartialEq)]
pub struct Returned {
    pub status: u32,
    pub words: Vec<u64>,
}

impl Returned {
    /// What it has to return, in this many words, where the answer is this one.
    pub fn expected(answer: &Answer, words: usize) -> Self {
        match answer {
            Err(refusal) => Self {
                status: u32::from(refusal.number()),
                words: vec![0; words],
            },
            Ok(report) => Self {
                status: 0,
                words: report_words(report),
            },
        }
    }

    /// The visits, the last word of every report.
    pub fn visits(&self) -> u64 {
        self.words[self.words.len() - 1]
    }
}

/// Two words for a gap, whether it is present and its bits; one for each other
/// figure; then the visits.
fn report_words(report: &Report) -> Vec<u64> {
    let mut words = Vec::new();
    for figure in &report.figures {
        match figure {
            Figure::Gap(gap) => {
                words.extend([u64::from(gap.is_some()), gap.map_or(0, f64::to_bits)]);
            }
            Figure::Length(length) => words.push(length.to_bits()),
            Figure::Count(count) => words.push(*count),
        }
    }
    words.push(report.visits);
    words
}

/// What a report's words hold before a call: no zero, so that a word
/// which is not written shows.
const UNWRITTEN: u64 = 0x5555_5555_5555_5555;

/// Calls the port with the lists named, each as a pointer and a length, then
/// the rest, and last the words that the call is to write. Gives the status and
/// the words.
///
/// A call is sound because the pointers and lengths are those of slices that
/// live through it, and because only the scratch, the columns for the pieces and
/// the words, which no other slice overlaps, are written.
macro_rules! called {
    ($call:ident, [$($list:expr),*], [$($rest:expr),*], $words:literal) => {{
        let mut words = [UNWRITTEN; $words];
        let status = unsafe {
            $call(
                $($list.as_ptr(), $list.len(),)*
                $($rest,)*
                &mut words,
            )
        };
        (status, words)
    }};
}

/// The same as what the port returns.
macro_rules! returned_of {
    ($($argument:tt)*) => {{
        let (status, words) = called!($($argument)*);
        Returned {
            status,
            words: words.to_vec(),
        }
    }};
}

/// The same with the segments' columns first, then the other columns named.
macro_rules! returned {
    ($call:ident, $columns:ident, [$($column:ident),*], [$($rest:expr),*], $words:literal) => {
        returned_of!(
            $call,
            [
                $columns.net,
                $columns.orientation,
                $columns.fixed,
                $columns.start,
                $columns.end
                $(, $columns.$column)*
            ],
            [$($rest),*],
            $words
        )
    };
}

/// One call of the port. The call that is given no allowance leaves it aside.
pub fn run(call: Call, columns: &Columns, allowance: u64, scratch: &mut [u64]) -> Returned {
    let allowance = usize::try_from(allowance).unwrap_or(usize::MAX);
    let (threshold, cutoff) = (columns.threshold, columns.cutoff);
    let (start, length) = (scratch.as_mut_ptr(), scratch.len());
    match call {
        Call::Clearance => returned!(
            readability_clearance,
            columns,
            [id, x, y, width, height, exempt_net, exempt_node],
            [threshold, allowance, start, length],
            4
        ),
        Call::Separation => returned!(
            readability_separation,
            columns,
            [],
            [allowance, start, length],
            5
        ),
        Call::DensityProfile => returned!(
            readability_density_profile,
            columns,
            [],
            [cutoff, allowance, start, length],
            7
        ),
        Call::CongestionProfile => returned!(
            readability_congestion_profile,
            columns,
            [],
            [cutoff, allowance, start, length],
            7
        ),
        Call::Congestion => returned!(
            readability_congestion,
            columns,
            [],
            [cutoff, start, length],
            7
        ),
    }
}

/// The same call by records: the segments as a list of records, the rest as
/// columns.
pub fn run_by_records(
    call: Call,
    records: &[Record],
    columns: &Columns,
    allowance: u64,
    scratch: &mut [u64],
) -> Returned {
    let allowance = usize::try_from(allowance).unwrap_or(usize::MAX);
    let (threshold, cutoff) = (columns.threshold, columns.cutoff);
    let (start, length) = (scratch.as_mut_ptr(), scratch.len());
    match call {
        Call::Clearance => returned_of!(
            readability_clearance_by_records,
            [
                records,
                columns.id,
                columns.x,
                columns.y,
                columns.width,
                columns.height,
                columns.exempt_net,
                columns.exempt_node
            ],
            [threshold, allowance, start, length],
            4
        ),
        Call::Separation => returned_of!(
            readability_separation_by_records,
            [records],
            [allowance, start, length],
            5
        ),
        Call::DensityProfile => returned_of!(
            readability_density_profile_by_records,
            [records],
            [cutoff, allowance, start, length],
            7
        ),
        Call::CongestionProfile => returned_of!(
            readability_congestion_profile_by_records,
            [records],
            [cutoff, allowance, start, length],
            7
        ),
        Call::Congestion => returned_of!(
            readability_congestion_by_records,
            [records],
            [cutoff, start, length],
            7
        ),
    }
}

/// The tight pair: its words say whether there is one, and then the positions
/// of its segment and of its node.
pub fn run_tight_pair(columns: &Columns) -> Returned {
    returned!(
        readability_tight_pair,
        columns,
        [id, x, y, width, height, exempt_net, exempt_node],
        [],
        3
    )
}

/// The join: reads the columns and writes the pieces to the front of others, of
/// which it is lent this many entries. Returns its status and its words, the number
/// of pieces and how many went away.
pub fn run_join(
    columns: &SegmentColumns,
    to: &mut SegmentColumns,
    room: [usize; 5],
) -> (u32, [u64; 2]) {
    called!(
        readability_join,
        [
            columns.net,
            columns.orientation,
            columns.fixed,
            columns.start,
            columns.end
        ],
        [
            to.net[..room[0]].as_mut_ptr(),
            room[0],
            to.orientation[..room[1]].as_mut_ptr(),
            room[1],
            to.fixed[..room[2]].as_mut_ptr(),
            room[2],
            to.start[..room[3]].as_mut_ptr(),
            room[3],
            to.end[..room[4]].as_mut_ptr(),
            room[4]
        ],
        2
    )
}

/// The ratio of two lengths. It takes and gives numbers only.
pub fn run_ratio(total: f64, congested: f64) -> f64 {
    unsafe { readability_ratio(total, congested) }
}

/// The version of the library.
pub fn version() -> String {
    let version = unsafe { readability_version_0_3() };
    let (major, minor) = (version / 1_000_000, version / 1_000 % 1_000);
    format!("{major}.{minor}.{}", version % 1_000)
}

/// The sheet of a drawing file: writes its text to the front of the buffer and
/// returns the text's length.
pub fn run_sheet(bytes: &[u8], text: &mut [u8; SHEET_BYTES]) -> usize {
    unsafe { readability_sheet(bytes.as_ptr(), bytes.len(), text) }
}
