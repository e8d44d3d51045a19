//! The index of a row, by document 02, request 5: for the stretch of all columns and for each half the lowest column of least length. Places are
//! those of document 01's splits: a stretch, then all of its first half, then all of its second. A single column has no place. No path is above
//! every number, so that a stretch of nothing else has its lowest column.

use std::ops::Range;

/// The lowest column of least length of a stretch, by looking at each; none if the stretch is empty.
pub fn scan(row: &[u32], stretch: Range<usize>) -> Option<usize> {
    stretch.min_by_key(|&column| row[column]) // the first of equals
}

/// The two halves of a stretch: of an odd number of columns the second has one more.
fn halves(stretch: &Range<usize>) -> [Range<usize>; 2] {
    let middle = stretch.start + stretch.len() / 2;
    [stretch.start..middle, middle..stretch.end]
}

/// The index of a row of all these lengths: one number fewer than there are.
pub fn of_row(row: &[u32]) -> Vec<u8> {
    let mut held = Vec::new();
    push_stretch(row, 0..row.len(), &mut held);
    held
}

fn push_stretch(row: &[u32], stretch: Range<usize>, held: &mut Vec<u8>) {
    if stretch.len() < 2 {
        return;
    }
    held.extend(scan(row, stretch.clone()).map(|column| column as u8));
    for half in halves(&stretch) {
        push_stretch(row, half, held);
    }
}

/// The column that the index has for some columns of a row. It may hold any bytes: a number that is no column of its stretch counts as
/// the first one of it.
pub fn ask(row: &[u32], held: &[u8], asked: Range<usize>) -> Option<usize> {
    ask_stretch(row, held, &asked, 0..row.len())
}

/// Of the columns asked for those of a stretch, whose places begin the held ones.
fn ask_stretch(row: &[u32], held: &[u8], asked: &Range<usize>, stretch: Range<usize>) -> Option<usize> {
    if asked.end <= stretch.start || stretch.end <= asked.start {
        return None;
    }
    if asked.start <= stretch.start && stretch.end <= asked.end {
        return Some(held_for(held, &stretch));
    }
    let [a, b] = halves(&stretch);
    let behind_a = &held[a.len()..];
    let found = [ask_stretch(row, &held[1..], asked, a), ask_stretch(row, behind_a, asked, b)];
    found.into_iter().flatten().min_by_key(|&column| row[column]) // the first of equals
}

fn held_for(held: &[u8], stretch: &Range<usize>) -> usize {
    if stretch.len() < 2 {
        return stretch.start;
    }
    let column = usize::from(held[0]);
    if stretch.contains(&column) {
        column
    } else {
        stretch.start
    }
}
