//! The plain book of a block, and the labelling over a fresh one for each block.

use crate::network::{
    blocks, plus, rectangle, Plan, ARC_SIZE, INTERVAL_SIZE, LABELS, MAX_LENGTH, MAX_VERTICES, NO_PATH,
};

/// The largest label of an activation: a shortest walk has fewer arcs than there are vertices.
pub const MAX_LABEL: u32 = (MAX_VERTICES - 1) * MAX_LENGTH;
/// The label of a vertex that is not reached, and of a place above n.
pub const UNREACHED: u32 = u32::MAX;

/// An interval: parent, first column, last column, and its best: the lowest column of least sum in it, and that sum.
pub type Interval = [u32; INTERVAL_SIZE];

/// An interval without its best.
type Stretch = [u32; 3];

/// The activated rows with their labels in order, the extracted columns, the floor; and what all calls inserted and removed.
pub struct Model {
    lengths: Vec<Vec<u32>>,
    activated: Vec<(usize, u32)>,
    extracted: Vec<usize>,
    pub floor: u32,
    pub inserted: u32,
    pub removed: u32,
}

impl Model {
    /// A fresh one, of a rectangle with at least one row and one column.
    pub fn new(lengths: Vec<Vec<u32>>) -> Model {
        Model { lengths, activated: Vec::new(), extracted: Vec::new(), floor: 0, inserted: 0, removed: 0 }
    }

    fn columns(&self) -> usize {
        self.lengths[0].len()
    }

    /// The earliest activated row that reaches the least sum of a column not extracted, with that sum; none if that is no path.
    fn parent(&self, column: usize) -> Option<(usize, u32)> {
        if self.extracted.contains(&column) {
            return None;
        }
        let sums = self.activated.iter();
        let sums = sums.map(|&(row, label)| (row, plus(label, self.lengths[row][column])));
        let least = sums.min_by_key(|&(_, sum)| sum); // the first of equals
        least.filter(|&(_, sum)| sum != NO_PATH)
    }

    /// The lowest of these rising columns that has the least sum, with that sum.
    fn least_of(&self, columns: impl Iterator<Item = usize>) -> Option<(usize, u32)> {
        let sums = columns.filter_map(|c| Some((c, self.parent(c)?.1)));
        sums.min_by_key(|&(_, sum)| sum) // the first of equals
    }

    /// The lowest column of least sum, with that sum.
    pub fn least(&self) -> Option<(usize, u32)> {
        self.least_of(0..self.columns())
    }

    /// The longest stretches of neighbouring columns with one parent.
    fn stretches(&self) -> Vec<Stretch> {
        let mut stretches: Vec<Stretch> = Vec::new();
        for column in 0..self.columns() as u32 {
            let Some((row, _)) = self.parent(column as usize) else {
                continue;
            };
            match stretches.last_mut() {
                Some([parent, _, last]) if *parent == row as u32 && *last + 1 == column => *last = column,
                _ => stretches.push([row as u32, column, column]),
            }
        }
        stretches
    }

    /// The kept intervals: the stretches, each with its best.
    pub fn intervals(&self) -> Vec<Interval> {
        let with_best = |[parent, first, last]: Stretch| {
            let best = self.least_of(first as usize..=last as usize);
            let (column, sum) = best.expect("its columns have a parent");
            [parent, first, last, column as u32, sum]
        };
        self.stretches().into_iter().map(with_best).collect()
    }

    fn judge(&self, kind: u32, row: u32, label: u32) -> u32 {
        if kind == 2 {
            0
        } else if kind != 1 || row as usize >= self.lengths.len() {
            9
        } else if self.activated.iter().any(|&(r, _)| r == row as usize) {
            10
        } else if label > MAX_LABEL || label < self.floor {
            11
        } else {
            0
        }
    }

    fn step(&mut self, kind: u32, row: u32, label: u32) -> [u32; 3] {
        let number = self.judge(kind, row, label);
        if number != 0 {
            return [number, 0, 0];
        }
        if kind == 1 {
            self.activated.push((row as usize, label));
            return [0, 0, 0];
        }
        let Some((column, sum)) = self.least() else {
            return [50, 0, 0];
        };
        self.extracted.push(column);
        self.floor = sum;
        [0, column as u32, sum]
    }

    /// One call, kind 1 or 2 or any other number: code, column, sum. The counts compare intervals by parent, first and last column.
    pub fn call(&mut self, kind: u32, row: u32, label: u32) -> [u32; 3] {
        let before = self.stretches();
        let answer = self.step(kind, row, label);
        let after = self.stretches();
        self.inserted += after.iter().filter(|v| !before.contains(v)).count() as u32;
        self.removed += before.iter().filter(|v| !after.contains(v)).count() as u32;
        answer
    }
}

/// An arc: from vertex, to vertex, the number of its piece, from 1, and its length.
pub type Arc = [u32; ARC_SIZE];

/// What a labelling finds: the labels as they are lent, vertex v at v - 1; there too the arc that the vertex was settled by, which is
/// none for the source; and the counts.
#[derive(Clone, Debug, PartialEq, Eq)]
pub struct Labelling {
    pub labels: Vec<u32>,
    arcs: Vec<Option<Arc>>,
    pub reached: u32,
    pub extracted: u32,
    pub inserted: u32,
}

impl Labelling {
    /// The label of a vertex.
    pub fn label(&self, v: u32) -> u32 {
        self.labels[v as usize - 1]
    }

    /// The arcs that lead to a vertex, in order: each vertex is reached by the arc that it was settled by, the source by none.
    pub fn route(&self, target: u32) -> Vec<Arc> {
        let arc_into = |v: u32| self.arcs[v as usize - 1];
        let back = std::iter::successors(arc_into(target), |&[from, ..]| arc_into(from));
        let mut route: Vec<Arc> = back.collect();
        route.reverse();
        route
    }
}

/// A block of the network: the number of its piece, the vertices of its rows and columns, and its model.
struct Numbered {
    piece: u32,
    rows: Vec<u32>,
    columns: Vec<u32>,
    model: Model,
}

impl Numbered {
    /// The arc into a column that is not extracted: that of the column's parent.
    fn arc_into(&self, column: usize) -> Arc {
        let (row, _) = self.model.parent(column).expect("it has a parent");
        [self.rows[row], self.columns[column], self.piece, self.model.lengths[row][column]]
    }
}

fn numbered_blocks(plan: &Plan) -> Vec<Numbered> {
    let mut all = Vec::new();
    for (number, piece) in (1..).zip(&plan.pieces) {
        for block in blocks(piece.vertices.len()) {
            all.push(Numbered {
                piece: number,
                rows: block.rows.iter().map(|&i| piece.vertices[i]).collect(),
                columns: block.columns.iter().map(|&j| piece.vertices[j]).collect(),
                model: Model::new(rectangle(piece, &block)),
            });
        }
    }
    all
}

/// The labelling of a plan that is accepted.
pub fn label_plan(plan: &Plan) -> Labelling {
    let mut all = numbered_blocks(plan);
    let (mut labels, mut arcs) = (vec![UNREACHED; LABELS], vec![None; LABELS]);
    let (mut v, mut label, mut arc, mut extracted) = (plan.source, 0, None, 0);
    loop {
        if labels[v as usize - 1] == UNREACHED {
            labels[v as usize - 1] = label;
            arcs[v as usize - 1] = arc;
            for b in &mut all {
                if let Some(row) = b.rows.iter().position(|&x| x == v) {
                    let answer = b.model.call(1, row as u32, label);
                    assert_eq!(answer, [0, 0, 0], "an activation is refused");
                }
            }
        }
        let leasts = all.iter_mut().filter_map(|b| Some((b.model.least()?, b)));
        let Some(((column, sum), b)) = leasts.min_by_key(|&((_, sum), _)| sum) else {
            break;
        };
        (v, label, arc) = (b.columns[column], sum, Some(b.arc_into(column)));
        assert_eq!(b.model.call(2, 0, 0), [0, column as u32, sum], "another column is extracted");
        extracted += 1;
    }
    Labelling {
        reached: labels.iter().filter(|&&l| l != UNREACHED).count() as u32,
        labels,
        arcs,
        extracted,
        inserted: all.iter().map(|b| b.model.inserted).sum(),
    }
}
