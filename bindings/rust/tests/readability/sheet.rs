//! The text of a drawing file's sheet.

use readability::sheet;

use crate::drawing::{drawing_d, Drawing};

/// The file of a drawing, with one allowance for all measures.
pub fn file(drawing: &Drawing, allowance: u64) -> Vec<u8> {
    let mut bytes = vec![1];
    put_count(&mut bytes, drawing.wires.len());
    for wire in &drawing.wires {
        bytes.extend(wire.net.to_be_bytes());
        bytes.push(u8::from(wire.horizontal));
        put_floats(&mut bytes, &[wire.fixed, wire.start, wire.end]);
    }
    put_count(&mut bytes, drawing.nodes.len());
    for node in &drawing.nodes {
        bytes.extend(node.id.to_be_bytes());
        put_floats(&mut bytes, &[node.x, node.y, node.width, node.height]);
    }
    put_count(&mut bytes, drawing.relations.len());
    for relation in &drawing.relations {
        bytes.extend(relation.net.to_be_bytes());
        bytes.extend(relation.node.to_be_bytes());
    }
    put_floats(&mut bytes, &[drawing.threshold, drawing.cutoff]);
    for _ in 0..3 {
        bytes.extend(allowance.to_be_bytes());
    }
    bytes
}

fn put_count(bytes: &mut Vec<u8>, count: usize) {
    bytes.extend((count as u32).to_be_bytes());
}

fn put_floats(bytes: &mut Vec<u8>, floats: &[f64]) {
    for float in floats {
        bytes.extend(float.to_bits().to_be_bytes());
    }
}

#[test]
fn drawing_d_has_its_three_lines() {
    let file = file(&drawing_d(), 1_000);
    assert_eq!(file.len(), 155);
    let lines = [
        "clearance 3ff0000000000000 1 2\n",
        "separation 4010000000000000 4010000000000000 16\n",
        "congestion 4034000000000000 4024000000000000 4014000000000000 1 4010000000000000 4\n",
    ];
    assert_eq!(sheet(&file), lines.concat());
}

#[test]
fn a_refused_measure_has_its_number() {
    let lines = [
        "clearance 3ff0000000000000 1 2\n",
        "separation refused 7\n",
        "congestion refused 7\n",
    ];
    assert_eq!(sheet(&file(&drawing_d(), 3)), lines.concat());
}

#[test]
fn a_refused_file_has_its_number() {
    let whole = file(&drawing_d(), 1_000);
    for length in 0..whole.len() {
        assert_eq!(sheet(&whole[..length]), "file refused 1\n", "{length}");
    }
    let longer = [whole.as_slice(), &[0]].concat();
    assert_eq!(sheet(&longer), "file refused 1\n");
    let mut drawing = drawing_d();
    drawing.wires = vec![drawing.wires[0]; 121];
    assert_eq!(sheet(&file(&drawing, 1_000)), "file refused 3\n");
}
