//! Bounds and buffer sizes, a plan as its pieces, the blocks of a piece, the causes 1, 4 to 8 and 12, and a network in lent buffers.

use std::ops::Range;

// The bounds and the sizes of the lent buffers, as documents 01 and 02 have them. They are the reference's own: it knows nothing of the
// proved library, so that a wrong number there shows as a difference.

/// The most vertices of a network.
pub const MAX_VERTICES: u32 = 256;
/// The most pieces of a network.
pub const MAX_PIECES: u32 = 16;
/// The most vertices of a piece, rows of a session and columns of a session.
pub const MAX_SIZE: u32 = 24;
/// The largest length that is a number.
pub const MAX_LENGTH: u32 = 999_999;
/// In place of a length, where no run exists inside the piece. It is above every number.
pub const NO_PATH: u32 = u32::MAX;
/// The most calls of a session.
pub const MAX_CALLS: u32 = 64;
/// The most bytes of a text.
pub const MAX_TEXT: usize = 60_000;
/// The largest number that a field of six columns holds.
pub const MAX_FIELD: u32 = 999_999;

/// How many vertices a piece, and how many lengths a row, has room for in the lent buffers.
pub const ROOM: usize = MAX_SIZE as usize;
/// Places of the buffer of sizes.
pub const SIZES: usize = MAX_PIECES as usize;
/// Places of the buffer of vertices.
pub const VERTICES: usize = SIZES * ROOM;
/// Places of the buffer of lengths.
pub const LENGTHS: usize = SIZES * ROOM * ROOM;
/// Places of the buffer of labels.
pub const LABELS: usize = MAX_VERTICES as usize;
/// Places of a session's rectangle.
pub const RECTANGLE: usize = ROOM * ROOM;
/// Places of the index of one row: one fewer than the columns that it has room for.
pub const INDEX_ROW: usize = ROOM - 1;
/// Places of a rectangle's index.
pub const INDEX: usize = ROOM * INDEX_ROW;
/// Places of a session's calls: kind, row and label of each.
pub const CALLS: usize = 3 * MAX_CALLS as usize;
/// Places of a session's answers: code, column and sum of each.
pub const ANSWERS: usize = CALLS;
/// Numbers of an interval: parent, first column, last column, best column, best sum.
pub const INTERVAL_SIZE: usize = 5;
/// Places of a session's intervals: no two of them share a column.
pub const INTERVALS: usize = INTERVAL_SIZE * ROOM;
/// Bytes of a field that is written.
pub const COLUMNS: usize = 9;
/// Bytes of the line that fields are written into: four of them.
pub const LINE: usize = 4 * COLUMNS;
/// The most arcs of a route: it passes no vertex twice.
pub const MAX_ARCS: usize = MAX_VERTICES as usize - 1;
/// Numbers of an arc: from vertex, to vertex, piece, length.
pub const ARC_SIZE: usize = 4;
/// Places of the buffer of a route's arcs.
pub const ROUTE_PLACES: usize = ARC_SIZE * MAX_ARCS;
/// The target that the text reader returns where a question has none.
pub const NO_TARGET: u32 = u32::MAX;
/// Bytes of the longest listing, that of a route: a line of four fields, and one more for each arc.
pub const LISTING: usize = (1 + MAX_ARCS) * (LINE + 1);

/// The sum of two lengths, or of a label and a length: no path plus anything is no path.
pub fn plus(a: u32, b: u32) -> u32 {
    if a == NO_PATH || b == NO_PATH {
        NO_PATH
    } else {
        a + b
    }
}

/// A piece: its vertices in clockwise order, and the length from each to each.
#[derive(Clone, Debug, PartialEq, Eq)]
pub struct Piece {
    pub vertices: Vec<u32>,
    pub lengths: Vec<Vec<u32>>,
}

/// A network of vertices 1 to n, and a question: from the source the labels of all vertices, or the route to a target.
#[derive(Clone, Debug, PartialEq, Eq)]
pub struct Plan {
    pub n: u32,
    pub pieces: Vec<Piece>,
    pub source: u32,
    pub target: Option<u32>,
}

impl Plan {
    /// Whether some length is no path.
    pub fn has_no_path(&self) -> bool {
        self.pieces.iter().flat_map(|q| q.lengths.iter().flatten()).any(|&l| l == NO_PATH)
    }
}

/// A block by places of its piece: rows clockwise, columns anticlockwise.
pub struct Block {
    pub rows: Vec<usize>,
    pub columns: Vec<usize>,
}

/// The blocks of a piece of `size` vertices, in their order.
pub fn blocks(size: usize) -> Vec<Block> {
    let mut all = Vec::new();
    split(0..size, &mut all);
    all
}

fn split(stretch: Range<usize>, all: &mut Vec<Block>) {
    if stretch.len() < 2 {
        return;
    }
    let middle = stretch.start + stretch.len() / 2;
    let (a, b) = (stretch.start..middle, middle..stretch.end);
    all.push(Block { rows: a.clone().collect(), columns: b.clone().rev().collect() });
    all.push(Block { rows: b.clone().collect(), columns: a.clone().rev().collect() });
    split(a, all);
    split(b, all);
}

/// The lengths of a block of a piece, row by row.
pub fn rectangle(piece: &Piece, block: &Block) -> Vec<Vec<u32>> {
    let row = |&i: &usize| block.columns.iter().map(|&j| piece.lengths[i][j]).collect();
    block.rows.iter().map(row).collect()
}

/// The inequality of rows i and j, i before j, at columns k and l, k before l.
pub fn obey(e: &[Vec<u32>], [i, j]: [usize; 2], [k, l]: [usize; 2]) -> bool {
    plus(e[i][k], e[j][l]) <= plus(e[i][l], e[j][k])
}

/// Whether every two rows and every two columns, neighbours or not, obey the inequality.
pub fn is_monge(e: &[Vec<u32>]) -> bool {
    let pairs = |count: usize| (0..count).flat_map(|b| (0..b).map(move |a| [a, b]));
    pairs(e.len()).all(|rows| pairs(e[0].len()).all(|columns| obey(e, rows, columns)))
}

/// How many columns of a rectangle with at least one row are closed: no row has a path there.
pub fn closed_columns(e: &[Vec<u32>]) -> usize {
    (0..e[0].len()).filter(|&k| e.iter().all(|row| row[k] == NO_PATH)).count()
}

// ---- the causes 4 to 8 and 12

fn refuse_unless(holds: bool, number: u32) -> Result<(), u32> {
    if holds {
        Ok(())
    } else {
        Err(number)
    }
}

/// Cause 4, of how many vertices and pieces there are.
pub fn judge_bounds(n: u32, p: u32) -> Result<(), u32> {
    refuse_unless((1..=MAX_VERTICES).contains(&n) && (1..=MAX_PIECES).contains(&p), 4)
}

/// Cause 4, of how many vertices a piece has.
pub fn judge_size(m: u32) -> Result<(), u32> {
    refuse_unless((1..=MAX_SIZE).contains(&m), 4)
}

/// Cause 5, of the vertices of a piece.
pub fn judge_vertices(n: u32, vertices: &[u32]) -> Result<(), u32> {
    let twice = (1..vertices.len()).any(|i| vertices[..i].contains(&vertices[i]));
    let inside = vertices.iter().all(|v| (1..=n).contains(v));
    refuse_unless(inside && !twice, 5)
}

/// Whether a table may hold it: a number up to the largest length, or no path.
pub fn is_length(l: u32) -> bool {
    l <= MAX_LENGTH || l == NO_PATH
}

/// Cause 6, of the row of place `i`, which has its diagonal there.
pub fn judge_row(i: usize, row: &[u32]) -> Result<(), u32> {
    refuse_unless(row.iter().all(|&l| is_length(l)) && row[i] == 0, 6)
}

/// Cause 7, of a piece.
pub fn judge_blocks(piece: &Piece) -> Result<(), u32> {
    let all = blocks(piece.vertices.len());
    refuse_unless(all.iter().all(|b| is_monge(&rectangle(piece, b))), 7)
}

/// Cause 8, then cause 12 where there is a target.
pub fn judge_question(n: u32, source: u32, target: Option<u32>) -> Result<(), u32> {
    refuse_unless((1..=n).contains(&source), 8)?;
    refuse_unless(target.is_none_or(|target| (1..=n).contains(&target)), 12)
}

// ---- lent buffers

/// Cause 1, of the buffers of sizes, vertices and lengths.
pub fn judge_places(sizes: &[u32], vertices: &[u32], lengths: &[u32]) -> Result<(), u32> {
    let places = [sizes.len(), vertices.len(), lengths.len()];
    refuse_unless(places == [SIZES, VERTICES, LENGTHS], 1)
}

/// A network as it is lent: how many vertices and pieces, and the three buffers, which may be of any length.
#[derive(Clone, Debug, PartialEq, Eq)]
pub struct Lent {
    pub n: u32,
    pub p: u32,
    pub sizes: Vec<u32>,
    pub vertices: Vec<u32>,
    pub lengths: Vec<u32>,
}

impl Lent {
    /// The buffers of a plan, every place that it does not use holding `unused`.
    pub fn of(plan: &Plan, unused: u32) -> Lent {
        let mut lent = Lent {
            n: plan.n,
            p: plan.pieces.len() as u32,
            sizes: vec![unused; SIZES],
            vertices: vec![unused; VERTICES],
            lengths: vec![unused; LENGTHS],
        };
        for (d, piece) in plan.pieces.iter().enumerate() {
            let m = piece.vertices.len();
            lent.sizes[d] = m as u32;
            lent.vertices[ROOM * d..ROOM * d + m].copy_from_slice(&piece.vertices);
            for (i, row) in piece.lengths.iter().enumerate() {
                let at = ROOM * (ROOM * d + i);
                lent.lengths[at..at + m].copy_from_slice(row);
            }
        }
        lent
    }

    /// Cause 1, of the three buffers.
    pub fn judge_places(&self) -> Result<(), u32> {
        judge_places(&self.sizes, &self.vertices, &self.lengths)
    }

    /// The pieces that the buffers hold, judged like a text: 4 to 7, piece by piece.
    pub fn pieces(&self) -> Result<Vec<Piece>, u32> {
        judge_bounds(self.n, self.p)?;
        (0..self.p as usize).map(|d| self.piece(d)).collect()
    }

    fn piece(&self, d: usize) -> Result<Piece, u32> {
        judge_size(self.sizes[d])?;
        let m = self.sizes[d] as usize;
        let vertices = self.vertices[ROOM * d..][..m].to_vec();
        judge_vertices(self.n, &vertices)?;
        let mut lengths = Vec::new();
        for i in 0..m {
            let row = self.lengths[ROOM * (ROOM * d + i)..][..m].to_vec();
            judge_row(i, &row)?;
            lengths.push(row);
        }
        let piece = Piece { vertices, lengths };
        judge_blocks(&piece)?;
        Ok(piece)
    }
}

/// Where a vertex is not in a piece.
pub const NO_PLACE: u8 = 255;

/// The place of vertex v in each piece, at v - 1.
pub fn places(lent: &Lent) -> [[u8; SIZES]; LABELS] {
    let mut places = [[NO_PLACE; SIZES]; LABELS];
    for d in 0..lent.p as usize {
        for i in 0..lent.sizes[d] as usize {
            places[lent.vertices[ROOM * d + i] as usize - 1][d] = i as u8;
        }
    }
    places
}

/// The sum over the pieces of m times the logarithm of m, base 2 and rounded up.
pub fn weight(plan: &Plan) -> u32 {
    let logarithm = |m: u32| u32::BITS - (m - 1).leading_zeros();
    let sizes = plan.pieces.iter().map(|q| q.vertices.len() as u32);
    sizes.map(|m| m * logarithm(m)).sum()
}
