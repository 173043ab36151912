//! A drawing in words, for a reader who has to look into a difference.

use crate::{
    drawing::{Drawing, HORIZONTAL},
    file,
};

/// Every entry and setting, and the drawing's file in hexadecimal where it is
/// short enough to copy.
pub fn listing(drawing: &Drawing) -> String {
    let mut lines = vec!["segments (net, orientation, fixed, start, end):".to_string()];
    for segment in &drawing.segments {
        let orientation = if segment.orientation == HORIZONTAL {
            "horizontal"
        } else {
            "vertical"
        };
        lines.push(format!(
            "  ({}, {orientation}, {:?}, {:?}, {:?})",
            segment.net, segment.fixed, segment.start, segment.end
        ));
    }
    lines.push("nodes (id, x, y, width, height):".to_string());
    for node in &drawing.nodes {
        lines.push(format!(
            "  ({}, {:?}, {:?}, {:?}, {:?})",
            node.id, node.x, node.y, node.width, node.height
        ));
    }
    lines.push("exemptions (net, node):".to_string());
    for exemption in &drawing.exemptions {
        lines.push(format!("  ({}, {})", exemption.net, exemption.node));
    }
    lines.push(format!("threshold {:?}", drawing.threshold));
    lines.push(format!("cutoff {:?}", drawing.cutoff));
    lines.push(format!(
        "allowances {}, {}, {}",
        drawing.allowances.clearance, drawing.allowances.separation, drawing.allowances.congestion
    ));
    let file = file::write(drawing);
    if file.len() <= 1_000 {
        lines.push(format!("file {}", hexadecimal(&file)));
    }
    lines.join("\n")
}

/// Two digits for each byte.
pub fn hexadecimal(bytes: &[u8]) -> String {
    bytes.iter().map(|byte| format!("{byte:02x}")).collect()
}
