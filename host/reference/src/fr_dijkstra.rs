//! The labelling by interval heaps, FR-Dijkstra, unproved: the yardstick for the speed of the proved one.
//!
//! - the lengths of each piece are copied with their columns reversed, so that every block is a window of the matrix;
//! - an interval is five words: parent, first column, last column, best column, best sum; those of a block lie in a part of one array,
//!   packed from the front by rising column;
//! - one function scans columns: it finds the best of an interval when that is written, and nothing else looks for a least length;
//! - an activation walks outward from the place of the new row and ends in a binary search on each side; the best sum of the new
//!   interval is the block's new sum, if it is lower;
//! - as long as some columns of a block are reached by no activated row, an activation also looks for those that the new row has a path
//!   to. They lie where the walk begins, and closed columns between them part the new row's intervals;
//! - an extraction takes the least of the bests and cuts that interval at its best column; the block's new sum is the least of the bests
//!   that are left;
//! - a tournament tree of keys, made of sum and block, gives the block;
//! - the labels of the rows are shared by all blocks of a piece;
//! - the check compares neighbouring rows at neighbouring columns. In a piece with no path, rows of a block that have no path at all and
//!   columns at which neither row has one are left out.
//!
//! The proved one has this design but for six things. It scans no columns: beside each row of the matrix stands an index of its columns,
//! built before the labelling, and the best of an interval is asked of it (document 02, request 5). In the activation it tests the two
//! columns beside the new row's place first, and then finds both ends of the columns won by halving, over the intervals and over the
//! columns of one. It keeps how many intervals there are, how many columns are reached, and a mark for each of these among the words of
//! the heap; here the unreached ones are bits. It looks at the lengths of a row wherever a column is left to reach; here it is known of
//! each piece whether it has no path. So the check goes, too: the proved one tries plain neighbours in each block, and leaves out rows and
//! columns where that fails. And it stores the arc that each vertex was settled by.

use crate::model::UNREACHED;
use crate::network::{
    places, Lent, LABELS, MAX_LENGTH, MAX_PIECES, MAX_VERTICES, NO_PATH, NO_PLACE, ROOM, SIZES, VERTICES,
};
use std::ops::Range;

/// A block: its first row in the matrix, its first column there, and where its intervals begin among all.
#[derive(Clone, Copy)]
struct Block {
    row: u16,
    rows: u16,
    column: u16,
    columns: u16,
    intervals: u16,
}

/// A piece of 24 vertices has 46 blocks, with 112 columns in all.
const MAX_BLOCKS: usize = SIZES * 46;

/// No two intervals of a block share a column.
const MAX_INTERVALS: usize = SIZES * 112;

// ---- sets of columns

/// A set of columns, a bit for each.
type Columns = u32;

/// The columns from `first` to `last`.
fn between(first: u32, last: u32) -> Columns {
    (2 << last) - (1 << first)
}

/// The runs of neighbouring columns, each as its first and its last.
fn runs(mut columns: Columns) -> impl Iterator<Item = (u32, u32)> + Clone {
    std::iter::from_fn(move || {
        if columns == 0 {
            return None;
        }
        let first = columns.trailing_zeros();
        let last = first + (columns >> first).trailing_ones() - 1;
        columns &= !between(first, last);
        Some((first, last))
    })
}

// ---- preparation

/// The lengths with the columns of each piece reversed.
type Matrix = [[u32; ROOM]; VERTICES];

/// Fills the matrix, and in which pieces some length is no path.
fn fill_matrix(matrix: &mut Matrix, has_no_path: &mut [bool; SIZES], lent: &Lent) {
    for d in 0..lent.p as usize {
        let m = lent.sizes[d] as usize;
        let rows = lent.lengths[ROOM * ROOM * d..].chunks(ROOM).take(m);
        let mut bits = 0;
        for (stored, row) in matrix[ROOM * d..].iter_mut().zip(rows) {
            for (place, &length) in stored[..m].iter_mut().rev().zip(row) {
                *place = length;
                bits |= length;
            }
        }
        // no path has all bits, a number only low ones
        has_no_path[d] = bits == NO_PATH;
    }
}

/// The blocks of all pieces in their order, the number of the first one of each piece, and the columns of each block that no activated
/// row has a path to: all of them.
struct Blocks {
    all: [Block; MAX_BLOCKS],
    count: usize,
    columns: u16,
    first: [usize; SIZES],
    unreached: [Columns; MAX_BLOCKS],
}

impl Blocks {
    fn fill(&mut self, lent: &Lent) {
        for d in 0..lent.p as usize {
            self.first[d] = self.count;
            let m = lent.sizes[d] as u16;
            self.split((ROOM * d) as u16, m, 0, m);
        }
    }

    /// The stretch of places `start..end` of a piece of m vertices, whose first row in the matrix is `row`.
    fn split(&mut self, row: u16, m: u16, start: u16, end: u16) {
        if end - start < 2 {
            return;
        }
        let middle = start + (end - start) / 2;
        self.push(row + start, middle - start, m - end, end - middle);
        self.push(row + middle, end - middle, m - middle, middle - start);
        self.split(row, m, start, middle);
        self.split(row, m, middle, end);
    }

    fn push(&mut self, row: u16, rows: u16, column: u16, columns: u16) {
        self.all[self.count] = Block { row, rows, column, columns, intervals: self.columns };
        self.unreached[self.count] = between(0, u32::from(columns) - 1);
        self.count += 1;
        self.columns += columns;
    }
}

// ---- the check

/// The causes 4 to 7 of a network in buffers of the right sizes, 0 if there is none.
pub fn check(lent: &Lent) -> u32 {
    if !(1..=MAX_VERTICES).contains(&lent.n) || !(1..=MAX_PIECES).contains(&lent.p) {
        return 4;
    }
    for d in 0..lent.p as usize {
        let number = check_piece(lent, d);
        if number != 0 {
            return number;
        }
    }
    0
}

fn check_piece(lent: &Lent, d: usize) -> u32 {
    let m = lent.sizes[d] as usize;
    if !(1..=ROOM).contains(&m) {
        return 4;
    }
    let mut seen = [false; LABELS + 1];
    for &v in &lent.vertices[ROOM * d..][..m] {
        if v < 1 || v > lent.n || seen[v as usize] {
            return 5;
        }
        seen[v as usize] = true;
    }
    let table = &lent.lengths[ROOM * ROOM * d..][..ROOM * ROOM];
    let mut has_no_path = false;
    for i in 0..m {
        let row = &table[ROOM * i..][..m];
        // without a way out of the loops
        if row.iter().fold(false, |some, &l| some | (l > MAX_LENGTH)) {
            // no path plus 1 is 0
            if !row.iter().fold(true, |all, l| all & (l.wrapping_add(1) <= MAX_LENGTH + 1)) {
                return 6;
            }
            has_no_path = true;
        }
        if row[i] != 0 {
            return 6;
        }
    }
    if check_blocks(table, has_no_path, 0, m) {
        0
    } else {
        7
    }
}

fn check_blocks(table: &[u32], has_no_path: bool, start: usize, end: usize) -> bool {
    if end - start < 2 {
        return true;
    }
    let middle = start + (end - start) / 2;
    is_monge(table, has_no_path, start..middle, middle..end)
        && is_monge(table, has_no_path, middle..end, start..middle)
        && check_blocks(table, has_no_path, start, middle)
        && check_blocks(table, has_no_path, middle, end)
}

/// A block of a table: neighbouring rows, of those that have a path.
fn is_monge(table: &[u32], has_no_path: bool, rows: Range<usize>, columns: Range<usize>) -> bool {
    let lengths = |i: usize| &table[ROOM * i..][columns.clone()];
    if has_no_path {
        let mut open = rows.map(lengths).filter(|row| row.iter().fold(NO_PATH, |all, l| all & l) != NO_PATH);
        let Some(mut above) = open.next() else {
            return true;
        };
        return open.all(|row| open_rows_agree(std::mem::replace(&mut above, row), row));
    }
    (rows.start + 1..rows.end).all(|i| rows_agree(lengths(i - 1), lengths(i)))
}

/// Two rows of numbers with their columns in clockwise order: the inequality turned round, at neighbouring columns.
fn rows_agree(above: &[u32], row: &[u32]) -> bool {
    let corners = above.windows(2).zip(row.windows(2));
    corners.fold(true, |all, (a, b)| all & (a[1] + b[0] <= a[0] + b[1]))
}

/// The same where some are no path, at neighbouring columns of those at which one of the rows has a path. A sum with no path is no path,
/// the largest number there is: so the first of these columns passes, and those that are left out.
fn open_rows_agree(above: &[u32], row: &[u32]) -> bool {
    let (mut a0, mut b0) = (NO_PATH, NO_PATH);
    above.iter().zip(row).fold(true, |all, (&a, &b)| {
        let agree = a.saturating_add(b0) <= a0.saturating_add(b);
        if a & b != NO_PATH {
            (a0, b0) = (a, b);
        }
        all & agree
    })
}

// ---- the heap of a block

/// An interval with its best: the lowest column of least sum, and that sum.
#[derive(Clone, Copy)]
struct Interval {
    parent: u32,
    first: u32,
    last: u32,
    best_column: u32,
    best_sum: u32,
}

/// A block's lengths and the labels of its rows.
struct Window<'a> {
    lengths: &'a [[u32; ROOM]],
    labels: &'a [u32],
    column: usize,
}

impl Window<'_> {
    /// In 64 bits, so that with no path it is above every sum of numbers.
    fn sum(&self, row: u32, column: u32) -> u64 {
        let length = self.lengths[row as usize][self.column + column as usize];
        u64::from(self.labels[row as usize]) + u64::from(length)
    }

    /// Whether the new row is strictly below the parent there.
    #[inline(always)] // wherever it is asked
    fn wins(&self, new: u32, parent: u32, column: u32) -> bool {
        self.sum(new, column) < self.sum(parent, column)
    }

    /// The columns at which a row has a path, of so many.
    fn paths(&self, row: u32, columns: usize) -> Columns {
        let lengths = &self.lengths[row as usize][self.column..][..columns];
        (0..).zip(lengths).fold(0, |paths, (k, &length)| paths | Columns::from(length != NO_PATH) << k)
    }

    /// The lowest column of least length among columns `first..=last` of a row, and that length.
    fn least(&self, row: u32, first: u32, last: u32) -> (u32, u32) {
        let stretch = &self.lengths[row as usize][self.column + first as usize..=self.column + last as usize];
        let (mut best, mut least) = (first, stretch[0]);
        for (column, &length) in (first..).zip(stretch) {
            if length < least {
                (best, least) = (column, length);
            }
        }
        (best, least)
    }

    /// Columns `first..=last` as an interval of this parent, whose label all their sums share.
    #[inline]
    fn interval(&self, parent: u32, first: u32, last: u32) -> Interval {
        let (best_column, length) = self.least(parent, first, last);
        let best_sum = self.labels[parent as usize] + length;
        Interval { parent, first, last, best_column, best_sum }
    }
}

/// The columns that a new row wins, all from `first` to `last` at which it has a path, and the intervals `low..high` that they meet. It
/// wins none if the last comes before the first.
struct Won {
    low: usize,
    high: usize,
    first: u32,
    last: u32,
}

/// The columns that the new row is the first to reach lie between the intervals of lower parents and those of higher ones.
#[inline(always)] // into both callers
fn search(kept: &[Interval], window: &Window, new: u32, reached_first: Columns) -> Won {
    let middle = kept.iter().position(|v| v.parent > new).unwrap_or(kept.len());
    let mut won = Won { low: middle, high: middle, first: ROOM as u32, last: 0 };
    if reached_first != 0 {
        won.first = reached_first.trailing_zeros();
        won.last = reached_first.ilog2();
    }
    while won.low > 0 {
        let Interval { parent, first, last, .. } = kept[won.low - 1];
        if !window.wins(new, parent, last) {
            break;
        }
        won.low -= 1;
        won.last = won.last.max(last);
        won.first = boundary(first, last, |k| !window.wins(new, parent, k));
        if won.first > first {
            break;
        }
    }
    while won.high < kept.len() {
        let Interval { parent, first, last, .. } = kept[won.high];
        if !window.wins(new, parent, first) {
            break;
        }
        won.high += 1;
        won.first = won.first.min(first);
        won.last = boundary(first, last + 1, |k| window.wins(new, parent, k)) - 1;
        if won.last < last {
            break;
        }
    }
    won
}

/// The first column of `a..b` where the test fails, b if it fails nowhere: true first, then false.
fn boundary(mut a: u32, mut b: u32, test: impl Fn(u32) -> bool) -> u32 {
    while a < b {
        let middle = (a + b) / 2;
        if test(middle) {
            a = middle + 1;
        } else {
            b = middle;
        }
    }
    a
}

/// The heap of a block: room for as many intervals as it has columns, how many it keeps, and the columns that no activated row has a path
/// to.
struct Heap<'a> {
    intervals: &'a mut [Interval],
    count: &'a mut usize,
    unreached: &'a mut Columns,
}

impl Heap<'_> {
    fn kept(&self) -> &[Interval] {
        &self.intervals[..*self.count]
    }

    /// How many intervals an activation inserts, and the least sum of the columns that the new row wins, if it wins one. The row may have
    /// no path to some column if its piece has no path somewhere.
    fn activate(&mut self, window: &Window, new: u32, has_no_path: bool) -> Option<(u32, u32)> {
        if *self.unreached != 0 {
            return self.activate_reaching(window, new, has_no_path);
        }
        let won = search(self.kept(), window, new, 0);
        if won.last < won.first {
            return None;
        }
        // no column is closed, so that between two columns that it wins it has a path everywhere
        Some(self.put_won(window, new, &won, std::iter::once((won.first, won.last))))
    }

    /// The same while some columns are not reached.
    fn activate_reaching(&mut self, window: &Window, new: u32, has_no_path: bool) -> Option<(u32, u32)> {
        let columns = self.intervals.len();
        let all = between(0, columns as u32 - 1);
        let paths = if has_no_path { window.paths(new, columns) } else { all };
        let reached_first = paths & *self.unreached;
        *self.unreached &= !paths;
        if reached_first == all {
            let own = window.interval(new, 0, columns as u32 - 1);
            self.intervals[0] = own;
            *self.count = 1;
            return Some((1, own.best_sum));
        }
        let won = search(self.kept(), window, new, reached_first);
        if won.last < won.first {
            return None;
        }
        Some(self.put_won(window, new, &won, runs(paths & between(won.first, won.last))))
    }

    /// The new row gets these runs of columns; of the first and the last interval that they meet the rest stays.
    #[inline]
    fn put_won(
        &mut self,
        window: &Window,
        new: u32,
        won: &Won,
        own: impl Iterator<Item = (u32, u32)> + Clone,
    ) -> (u32, u32) {
        let met = &self.kept()[won.low..won.high];
        let left = met.first().copied().filter(|v| v.first < won.first);
        let right = met.last().copied().filter(|v| won.last < v.last);
        let inserted = usize::from(left.is_some()) + own.clone().count() + usize::from(right.is_some());
        self.make_room(won.low, won.high, inserted);
        let mut place = won.low;
        if let Some(v) = left {
            self.intervals[place] = window.interval(v.parent, v.first, won.first - 1);
            place += 1;
        }
        let mut least = NO_PATH;
        for (first, last) in own {
            let run = window.interval(new, first, last);
            self.intervals[place] = run;
            least = least.min(run.best_sum);
            place += 1;
        }
        if let Some(v) = right {
            self.intervals[place] = window.interval(v.parent, won.last + 1, v.last);
        }
        (inserted as u32, least)
    }

    /// The place of the interval with the lowest column of least sum.
    fn least(&self) -> Option<usize> {
        let kept = self.kept();
        (0..kept.len()).min_by_key(|&k| kept[k].best_sum) // the first of equals
    }

    /// The lowest column of least sum, that sum, and how many intervals its extraction inserts.
    fn extract(&mut self, window: &Window) -> Option<(u32, u32, u32)> {
        let k = self.least()?;
        let Interval { parent, first, last, best_column, best_sum } = self.intervals[k];
        let keep_left = usize::from(first < best_column);
        let keep_right = usize::from(best_column < last);
        self.make_room(k, k + 1, keep_left + keep_right);
        if keep_left == 1 {
            self.intervals[k] = window.interval(parent, first, best_column - 1);
        }
        if keep_right == 1 {
            self.intervals[k + keep_left] = window.interval(parent, best_column + 1, last);
        }
        Some((best_column, best_sum, (keep_left + keep_right) as u32))
    }

    /// The intervals from place `high` on move, so that `room` places stand instead of those from `low` to `high`.
    fn make_room(&mut self, low: usize, high: usize, room: usize) {
        self.intervals.copy_within(high..*self.count, low + room);
        *self.count = *self.count - (high - low) + room;
    }
}

// ---- the tournament of the blocks

/// The key of a block with no interval.
const IDLE: u64 = u64::MAX;
/// A power of two, as many as there are blocks or more.
const LEAVES: usize = 1024;

fn key(sum: u32, block: usize) -> u64 {
    u64::from(sum) * LEAVES as u64 + block as u64
}

fn block_of(key: u64) -> usize {
    (key % LEAVES as u64) as usize
}

fn lower(tree: &mut [u64; 2 * LEAVES], block: usize, key: u64) {
    let mut t = LEAVES + block;
    while t > 0 && key < tree[t] {
        tree[t] = key;
        t /= 2;
    }
}

fn raise(tree: &mut [u64; 2 * LEAVES], block: usize, key: u64) {
    let mut t = LEAVES + block;
    let mut least = key;
    tree[t] = key;
    while t > 1 {
        least = least.min(tree[t ^ 1]);
        t /= 2;
        tree[t] = least;
    }
}

// ---- the labelling

/// What the labelling counts.
#[derive(Clone, Copy, Debug, PartialEq, Eq)]
pub struct Counts {
    pub reached: u32,
    pub extracted: u32,
    pub inserted: u32,
}

struct State {
    matrix: Matrix,
    blocks: Blocks,
    labels: [u32; VERTICES],
    intervals: [Interval; MAX_INTERVALS],
    counts: [usize; MAX_BLOCKS],
    has_no_path: [bool; SIZES],
    tree: [u64; 2 * LEAVES],
}

impl State {
    /// Nothing but zeros: a constant, so that it is laid down once and not copied together from its parts.
    const ZEROS: State = State {
        matrix: [[0; ROOM]; VERTICES],
        blocks: Blocks {
            all: [Block { row: 0, rows: 0, column: 0, columns: 0, intervals: 0 }; MAX_BLOCKS],
            count: 0,
            columns: 0,
            first: [0; SIZES],
            unreached: [0; MAX_BLOCKS],
        },
        labels: [0; VERTICES],
        intervals: [Interval { parent: 0, first: 0, last: 0, best_column: 0, best_sum: 0 }; MAX_INTERVALS],
        counts: [0; MAX_BLOCKS],
        has_no_path: [false; SIZES],
        tree: [0; 2 * LEAVES],
    };

    fn prepare(&mut self, lent: &Lent) {
        fill_matrix(&mut self.matrix, &mut self.has_no_path, lent);
        self.blocks.fill(lent);
        self.tree.fill(IDLE);
    }

    /// The vertex at place `i` of a piece has its label: it is activated in the blocks where it is a row.
    fn activate_place(&mut self, piece: usize, size: usize, i: usize) -> u32 {
        let (mut start, mut end) = (0, size);
        let mut number = self.blocks.first[piece];
        let mut inserted = 0;
        while end - start > 1 {
            let half = (end - start) / 2;
            let b;
            if i < start + half {
                b = number;
                end = start + half;
                number += 2;
            } else {
                b = number + 1;
                start += half;
                number += 2 * half;
            }
            inserted += self.activate_row(b, (i - start) as u32, self.has_no_path[piece]);
        }
        inserted
    }

    /// The heap of block b, and what it looks up.
    fn block(&mut self, b: usize) -> (Heap<'_>, Window<'_>) {
        let Block { row, rows, column, columns, intervals } = self.blocks.all[b];
        let rows = usize::from(row)..usize::from(row + rows);
        let heap = Heap {
            intervals: &mut self.intervals[usize::from(intervals)..usize::from(intervals + columns)],
            count: &mut self.counts[b],
            unreached: &mut self.blocks.unreached[b],
        };
        let window = Window {
            lengths: &self.matrix[rows.clone()],
            labels: &self.labels[rows],
            column: usize::from(column),
        };
        (heap, window)
    }

    fn activate_row(&mut self, b: usize, row: u32, has_no_path: bool) -> u32 {
        let (mut heap, window) = self.block(b);
        let Some((inserted, sum)) = heap.activate(&window, row, has_no_path) else {
            return 0;
        };
        lower(&mut self.tree, b, key(sum, b));
        inserted
    }

    /// An extraction from block b: the stored column's place in its piece, the sum, how many intervals it inserts.
    fn extract(&mut self, b: usize) -> Option<(usize, u32, u32)> {
        let (mut heap, window) = self.block(b);
        let (column, sum, inserted) = heap.extract(&window)?;
        let next = heap.least().map_or(IDLE, |k| key(heap.intervals[k].best_sum, b));
        let stored = window.column + column as usize;
        raise(&mut self.tree, b, next);
        Some((stored, sum, inserted))
    }
}

/// Fills the labels of an accepted network, `LABELS` places.
pub fn label(lent: &Lent, source: u32, labels: &mut [u32]) -> Counts {
    let places = places(lent);
    let mut state = State::ZEROS;
    state.prepare(lent);
    labels.fill(UNREACHED);
    let mut counts = Counts { reached: 0, extracted: 0, inserted: 0 };
    let (mut v, mut label) = (source as usize - 1, 0);
    loop {
        if labels[v] == UNREACHED {
            labels[v] = label;
            counts.reached += 1;
            for (d, &i) in places[v].iter().enumerate() {
                if i != NO_PLACE {
                    state.labels[ROOM * d + i as usize] = label;
                    let size = lent.sizes[d] as usize;
                    counts.inserted += state.activate_place(d, size, i as usize);
                }
            }
        }
        let chosen = state.tree[1];
        if chosen == IDLE {
            return counts;
        }
        let b = block_of(chosen);
        let Some((column, sum, inserted)) = state.extract(b) else {
            return counts;
        };
        counts.extracted += 1;
        counts.inserted += inserted;
        let piece = usize::from(state.blocks.all[b].row) / ROOM;
        let place = lent.sizes[piece] as usize - 1 - column;
        (v, label) = (lent.vertices[ROOM * piece + place] as usize - 1, sum);
    }
}
