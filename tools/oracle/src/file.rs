//! The drawing file of SCOPE 10, version 1: big-endian, read from front to back,
//! so that the first fault in byte order is the one that counts.

use crate::{
    drawing::{Allowances, Drawing, Exemption, Node, Segment},
    refusals::{Refusal, PROGRAM_LIMITS},
};

const VERSION: u8 = 1;

/// Reads a file as the program does, its limits included. What it returns
/// instead of a drawing is refusal 1 or 3.
pub fn read(bytes: &[u8]) -> Result<Drawing, Refusal> {
    let mut rest = Rest { bytes };
    if rest.byte()? != VERSION {
        return Err(Refusal::File);
    }
    let drawing = Drawing {
        segments: rest.list(PROGRAM_LIMITS.segments, Rest::segment)?,
        nodes: rest.list(PROGRAM_LIMITS.nodes, Rest::node)?,
        exemptions: rest.list(PROGRAM_LIMITS.exemptions, Rest::exemption)?,
        threshold: rest.float()?,
        cutoff: rest.float()?,
        allowances: Allowances {
            clearance: rest.word()?,
            separation: rest.word()?,
            congestion: rest.word()?,
        },
    };
    if rest.bytes.is_empty() {
        Ok(drawing)
    } else {
        Err(Refusal::File)
    }
}

/// The bytes that are still to be read.
struct Rest<'a> {
    bytes: &'a [u8],
}

impl Rest<'_> {
    /// The next `N` bytes; bytes missing are refusal 1.
    fn take<const N: usize>(&mut self) -> Result<[u8; N], Refusal> {
        let (taken, left) = self.bytes.split_first_chunk::<N>().ok_or(Refusal::File)?;
        self.bytes = left;
        Ok(*taken)
    }

    fn byte(&mut self) -> Result<u8, Refusal> {
        self.take().map(u8::from_be_bytes)
    }

    fn number(&mut self) -> Result<u32, Refusal> {
        self.take().map(u32::from_be_bytes)
    }

    fn word(&mut self) -> Result<u64, Refusal> {
        self.take().map(u64::from_be_bytes)
    }

    fn float(&mut self) -> Result<f64, Refusal> {
        self.word().map(f64::from_bits)
    }

    /// A count, refused as soon as it is above the limit, and its entries.
    fn list<T>(
        &mut self,
        limit: usize,
        entry: fn(&mut Self) -> Result<T, Refusal>,
    ) -> Result<Vec<T>, Refusal> {
        let count = self.number()?;
        if u64::from(count) > limit as u64 {
            return Err(Refusal::TooMany);
        }
        (0..count).map(|_| entry(self)).collect()
    }

    fn segment(&mut self) -> Result<Segment, Refusal> {
        let net = self.number()?;
        let orientation = self.byte()?;
        if orientation > 1 {
            return Err(Refusal::File);
        }
        Ok(Segment {
            net,
            orientation,
            fixed: self.float()?,
            start: self.float()?,
            end: self.float()?,
        })
    }

    fn node(&mut self) -> Result<Node, Refusal> {
        Ok(Node {
            id: self.number()?,
            x: self.float()?,
            y: self.float()?,
            width: self.float()?,
            height: self.float()?,
        })
    }

    fn exemption(&mut self) -> Result<Exemption, Refusal> {
        Ok(Exemption {
            net: self.number()?,
            node: self.number()?,
        })
    }
}

/// The file of a drawing, whatever its values and however long its lists.
pub fn write(drawing: &Drawing) -> Vec<u8> {
    let mut file = vec![VERSION];
    write_count(&mut file, drawing.segments.len());
    for segment in &drawing.segments {
        file.extend(segment.net.to_be_bytes());
        file.push(segment.orientation);
        write_floats(&mut file, &[segment.fixed, segment.start, segment.end]);
    }
    write_count(&mut file, drawing.nodes.len());
    for node in &drawing.nodes {
        file.extend(node.id.to_be_bytes());
        write_floats(&mut file, &[node.x, node.y, node.width, node.height]);
    }
    write_count(&mut file, drawing.exemptions.len());
    for exemption in &drawing.exemptions {
        file.extend(exemption.net.to_be_bytes());
        file.extend(exemption.node.to_be_bytes());
    }
    write_floats(&mut file, &[drawing.threshold, drawing.cutoff]);
    file.extend(drawing.allowances.clearance.to_be_bytes());
    file.extend(drawing.allowances.separation.to_be_bytes());
    file.extend(drawing.allowances.congestion.to_be_bytes());
    file
}

fn write_count(file: &mut Vec<u8>, count: usize) {
    let count = u32::try_from(count).expect("a list is far shorter than 2^32 entries");
    file.extend(count.to_be_bytes());
}

fn write_floats(file: &mut Vec<u8>, values: &[f64]) {
    for value in values {
        file.extend(value.to_bits().to_be_bytes());
    }
}
