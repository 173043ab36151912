//! Makes a drawing that shows a difference as small as dropping entries can.

use crate::drawing::Drawing;

/// The drawing with as many entries dropped as still leave `differs` true.
/// Halves of a list are tried before quarters, and single entries last.
pub fn smallest(drawing: &Drawing, differs: impl Fn(&Drawing) -> bool) -> Drawing {
    let mut kept = drawing.clone();
    loop {
        let entries = kept.entries();
        drop_entries(&mut kept, |drawing| &mut drawing.segments, &differs);
        drop_entries(&mut kept, |drawing| &mut drawing.nodes, &differs);
        drop_entries(&mut kept, |drawing| &mut drawing.exemptions, &differs);
        if kept.entries() == entries {
            return kept;
        }
    }
}

fn drop_entries<T>(
    kept: &mut Drawing,
    list: fn(&mut Drawing) -> &mut Vec<T>,
    differs: &impl Fn(&Drawing) -> bool,
) {
    let mut block = list(kept).len();
    while block > 0 {
        let mut from = 0;
        while from < list(kept).len() {
            let mut shorter = kept.clone();
            let entries = list(&mut shorter);
            let to = entries.len().min(from + block);
            entries.drain(from..to);
            if differs(&shorter) {
                *kept = shorter;
            } else {
                from = to;
            }
        }
        block /= 2;
    }
}
