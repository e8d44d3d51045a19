//! What document 02, requests 4 and 7, says of every route, whichever of the shortest it is.

use crate::model::{Arc, UNREACHED};
use crate::network::{Plan, NO_PATH};

/// Asserts that the arcs lead from the plan's source to a target with this label: they join up, pass no vertex twice and add up to the
/// label, and each is an arc of its piece. To an unreached target there are none.
pub fn assert_route(plan: &Plan, target: u32, label: u32, arcs: &[Arc]) {
    if label == UNREACHED {
        assert!(arcs.is_empty(), "arcs to an unreached vertex: {arcs:?}");
        return;
    }
    let mut passed = vec![plan.source];
    for arc in arcs {
        assert_arc(plan, arc);
        let [from, to, ..] = *arc;
        assert_eq!(passed.last(), Some(&from), "the arcs do not join up: {arcs:?}");
        assert!(!passed.contains(&to), "vertex {to} stands twice: {arcs:?}");
        passed.push(to);
    }
    assert_eq!(passed.last(), Some(&target), "the arcs lead elsewhere: {arcs:?}");
    assert_eq!(arcs.iter().map(|&[.., length]| length).sum::<u32>(), label, "{arcs:?}");
}

/// Pieces count from 1. No arc is no path.
fn assert_arc(plan: &Plan, &[from, to, number, length]: &Arc) {
    let piece = &plan.pieces[number as usize - 1];
    let place = |v: u32| piece.vertices.iter().position(|&x| x == v).expect("a vertex of the piece");
    assert_ne!(from, to);
    assert_ne!(length, NO_PATH, "from {from} to {to} in piece {number}");
    assert_eq!(piece.lengths[place(from)][place(to)], length, "from {from} to {to} in piece {number}");
}
