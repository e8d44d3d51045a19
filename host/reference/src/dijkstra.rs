//! The labels by the plainest algorithm: settle the vertex of least label, relax every arc out of it. No blocks and no heap.

use crate::model::UNREACHED;
use crate::network::{places, Lent, LABELS, NO_PLACE, ROOM};

/// Fills the labels of an accepted network, `LABELS` places.
pub fn label(lent: &Lent, source: u32, labels: &mut [u32]) {
    let places = places(lent);
    let mut settled = [false; LABELS];
    labels.fill(UNREACHED);
    labels[source as usize - 1] = 0;
    while let Some(u) = least_open(&labels[..lent.n as usize], &settled) {
        settled[u] = true;
        for (d, &i) in places[u].iter().enumerate() {
            if i != NO_PLACE {
                relax(lent, d, i as usize, labels[u], labels);
            }
        }
    }
}

/// The vertex of least label among those reached and not settled.
fn least_open(labels: &[u32], settled: &[bool]) -> Option<usize> {
    let mut found = None;
    let mut least = UNREACHED;
    for (v, &label) in labels.iter().enumerate() {
        if !settled[v] && label < least {
            least = label;
            found = Some(v);
        }
    }
    found
}

/// The arcs out of place `i` of piece `d`, whose vertex has this label. A sum with no path is no path, the largest number there is: it
/// lowers no label.
fn relax(lent: &Lent, d: usize, i: usize, label: u32, labels: &mut [u32]) {
    let m = lent.sizes[d] as usize;
    let vertices = &lent.vertices[ROOM * d..][..m];
    let row = &lent.lengths[ROOM * (ROOM * d + i)..][..m];
    for (&v, &length) in vertices.iter().zip(row) {
        let other = &mut labels[v as usize - 1];
        *other = (*other).min(label.saturating_add(length));
    }
}
