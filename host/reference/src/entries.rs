//! What each entry of the library returns and leaves in its buffers, with the library's own arguments.

use crate::index;
use crate::model::{label_plan, Model};
use crate::network::{is_length, is_monge, judge_places, judge_question, Lent, Plan};
use crate::network::{
    ANSWERS, ARC_SIZE, CALLS, COLUMNS, INDEX, INDEX_ROW, INTERVALS, INTERVAL_SIZE, LABELS, LINE, LISTING,
    RECTANGLE, ROOM, ROUTE_PLACES,
};
use crate::network::{MAX_CALLS, MAX_SIZE, NO_TARGET};
use crate::number_of;
use crate::text;

/// The number of the cause. Unless that is 1, `value` gets the field, or 0 if there is none.
pub fn read_field(bytes: &[u8], at: usize, value: &mut [u32]) -> u32 {
    if value.len() != 1 {
        return 1;
    }
    let field = text::field_at(bytes, at);
    value[0] = field.unwrap_or(0);
    number_of(field)
}

/// The number of the cause. If there is none, `x` stands in the nine columns of that place of the line.
pub fn write_field(line: &mut [u8], place: usize, x: u32) -> u32 {
    if line.len() != LINE {
        return 1;
    }
    if place > 3 {
        return 4;
    }
    line[COLUMNS * place..][..COLUMNS].copy_from_slice(text::nine_columns(x).as_bytes());
    0
}

/// number, n, p, source, target
pub fn read_text(bytes: &[u8], sizes: &mut [u32], vertices: &mut [u32], lengths: &mut [u32]) -> [u32; 5] {
    if judge_places(sizes, vertices, lengths).is_err() {
        return [1, 0, 0, 0, 0];
    }
    let plan = match text::read(bytes) {
        Err(2) => return [2, 0, 0, 0, 0],
        outcome => outcome,
    };
    sizes.fill(0);
    vertices.fill(0);
    lengths.fill(0);
    match plan {
        Err(number) => [number, 0, 0, 0, 0],
        Ok(plan) => {
            let lent = Lent::of(&plan, 0);
            sizes.copy_from_slice(&lent.sizes);
            vertices.copy_from_slice(&lent.vertices);
            lengths.copy_from_slice(&lent.lengths);
            [0, lent.n, lent.p, plan.source, plan.target.unwrap_or(NO_TARGET)]
        }
    }
}

/// The number of the cause.
pub fn check_network(lent: &Lent) -> u32 {
    number_of(lent.judge_places().and_then(|_| lent.pieces()))
}

/// The plan that a lent network and a question are. `has_room` says whether the buffer for the answer is of its size.
fn judge_lent(lent: &Lent, has_room: bool, source: u32, target: Option<u32>) -> Result<Plan, u32> {
    lent.judge_places()?;
    if !has_room {
        return Err(1);
    }
    let pieces = lent.pieces()?;
    judge_question(lent.n, source, target)?;
    Ok(Plan { n: lent.n, pieces, source, target })
}

/// number, reached, extracted, inserted
pub fn label_network(lent: &Lent, source: u32, labels: &mut [u32]) -> [u32; 4] {
    match judge_lent(lent, labels.len() == LABELS, source, None) {
        Err(number) => [number, 0, 0, 0],
        Ok(plan) => {
            let done = label_plan(&plan);
            labels.copy_from_slice(&done.labels);
            [0, done.reached, done.extracted, done.inserted]
        }
    }
}

/// number, label, how many arcs
pub fn route_network(lent: &Lent, source: u32, target: u32, arcs: &mut [u32]) -> [u32; 3] {
    match judge_lent(lent, arcs.len() == ROUTE_PLACES, source, Some(target)) {
        Err(number) => [number, 0, 0],
        Ok(plan) => {
            let done = label_plan(&plan);
            let route = done.route(target);
            arcs.fill(0);
            for (places, arc) in arcs.chunks_mut(ARC_SIZE).zip(&route) {
                places.copy_from_slice(arc);
            }
            [0, done.label(target), route.len() as u32]
        }
    }
}

/// Cause 4, of rows and columns.
fn judge_sides(rows: u32, cols: u32) -> Result<(), u32> {
    let bounds = 1..=MAX_SIZE;
    if !bounds.contains(&rows) || !bounds.contains(&cols) {
        return Err(4);
    }
    Ok(())
}

/// The rows that are used of a lent rectangle whose sides are within bounds.
fn rows_of(rows: u32, cols: u32, lengths: &[u32]) -> Vec<Vec<u32>> {
    let row = |i: usize| lengths[ROOM * i..][..cols as usize].to_vec();
    (0..rows as usize).map(row).collect()
}

/// The rectangle, or cause 4, 6 or 7.
fn judge_rectangle(rows: u32, cols: u32, lengths: &[u32]) -> Result<Vec<Vec<u32>>, u32> {
    judge_sides(rows, cols)?;
    let rectangle = rows_of(rows, cols, lengths);
    if !rectangle.iter().flatten().all(|&l| is_length(l)) {
        return Err(6);
    }
    if !is_monge(&rectangle) {
        return Err(7);
    }
    Ok(rectangle)
}

fn judge_session(rows: u32, cols: u32, count: u32, lengths: &[u32]) -> Result<Model, u32> {
    if count > MAX_CALLS {
        return Err(4);
    }
    Ok(Model::new(judge_rectangle(rows, cols, lengths)?))
}

/// What a place that no interval uses holds.
const NO_INTERVAL: u32 = 255;

/// number, inserted, removed
pub fn run_session(
    rows: u32,
    cols: u32,
    count: u32,
    lengths: &[u32],
    calls: &[u32],
    answers: &mut [u32],
    intervals: &mut [u32],
) -> [u32; 3] {
    let places = [lengths.len(), calls.len(), answers.len(), intervals.len()];
    if places != [RECTANGLE, CALLS, ANSWERS, INTERVALS] {
        return [1, 0, 0];
    }
    let mut model = match judge_session(rows, cols, count, lengths) {
        Err(number) => return [number, 0, 0],
        Ok(model) => model,
    };
    answers.fill(0);
    for j in 0..count as usize {
        let answer = model.call(calls[3 * j], calls[3 * j + 1], calls[3 * j + 2]);
        answers[3 * j..3 * j + 3].copy_from_slice(&answer);
    }
    intervals.fill(NO_INTERVAL);
    let mut kept = model.intervals();
    kept.sort_by_key(|&[_, first, ..]| first); // document 02, request 2
    for (places, interval) in intervals.chunks_mut(INTERVAL_SIZE).zip(&kept) {
        places.copy_from_slice(interval);
    }
    [0, model.inserted, model.removed]
}

/// Cause 1, of a rectangle and its index.
fn judge_index_places(lengths: &[u32], held: &[u8]) -> Result<(), u32> {
    if [lengths.len(), held.len()] != [RECTANGLE, INDEX] {
        return Err(1);
    }
    Ok(())
}

/// The number of the cause. If there is none, `held` gets the index of each row, and 0 in the places that are not used.
pub fn build_index(rows: u32, cols: u32, lengths: &[u32], held: &mut [u8]) -> u32 {
    let judged = judge_index_places(lengths, held).and_then(|_| judge_rectangle(rows, cols, lengths));
    if let Ok(rectangle) = &judged {
        held.fill(0);
        for (places, row) in held.chunks_mut(INDEX_ROW).zip(rectangle) {
            places[..row.len() - 1].copy_from_slice(&index::of_row(row));
        }
    }
    number_of(judged)
}

/// What a question without an answer gets.
const NONE: u32 = 50;

/// code, column
pub fn ask_index(
    rows: u32,
    cols: u32,
    lengths: &[u32],
    held: &[u8],
    row: u32,
    first: u32,
    end: u32,
) -> [u32; 2] {
    if let Err(number) = judge_index_places(lengths, held).and_then(|_| judge_sides(rows, cols)) {
        return [number, 0];
    }
    if row >= rows || first >= end || end > cols {
        return [NONE, 0];
    }
    let lengths = &lengths[ROOM * row as usize..][..cols as usize];
    let held = &held[INDEX_ROW * row as usize..][..INDEX_ROW];
    let found = index::ask(lengths, held, first as usize..end as usize);
    [0, found.expect("a column was asked for") as u32]
}

/// How many bytes of `out` the listing takes, from the front.
pub fn write_listing(bytes: &[u8], out: &mut [u8]) -> usize {
    if out.len() != LISTING {
        return 0;
    }
    let listing = text::listing(bytes);
    out[..listing.len()].copy_from_slice(&listing);
    listing.len()
}
