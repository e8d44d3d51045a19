//! Seeded plans, rectangles and sessions that the rules accept.
//!
//! Where the lengths come from: the shortest runs between vertices on the edge of a planar piece always pass the check, since two
//! runs that cross can be swapped at a common vertex (`city`). And each ordered pair of places lies in one block only, so that a table
//! may be put together from any rectangles that pass, each chosen for itself (`hostile`): these obey no triangle rule.
//!
//! Which places may be no path: a rectangle still passes if some of its rows and columns are closed, and in each other row all but a
//! stretch of columns, where neither end of these stretches falls from a row to the next. For if the two corners on the larger side have
//! a path, so have the other two.

use crate::model::{Model, MAX_LABEL};
use crate::network::{
    blocks, obey, plus, Piece, Plan, CALLS, LABELS, MAX_LENGTH, MAX_SIZE, MAX_VERTICES, NO_PATH, RECTANGLE,
    ROOM, SIZES,
};
use std::ops::Range;

/// SplitMix64.
pub struct Rng(u64);

impl Rng {
    /// Numbers that follow from the seed.
    pub fn new(seed: u64) -> Rng {
        Rng(seed)
    }

    fn next(&mut self) -> u64 {
        self.0 = self.0.wrapping_add(0x9e37_79b9_7f4a_7c15);
        let x = (self.0 ^ (self.0 >> 30)).wrapping_mul(0xbf58_476d_1ce4_e5b9);
        let x = (x ^ (x >> 27)).wrapping_mul(0x94d0_49bb_1331_11eb);
        x ^ (x >> 31)
    }

    /// A number below `bound`, which is not 0.
    pub fn below(&mut self, bound: u32) -> u32 {
        (self.next() % u64::from(bound)) as u32
    }

    /// A number from `low` to `high`, both included.
    pub fn from(&mut self, low: u32, high: u32) -> u32 {
        low + self.below(high - low + 1)
    }

    /// One of the items, of which there are some.
    pub fn pick<T: Copy>(&mut self, items: &[T]) -> T {
        items[self.below(items.len() as u32) as usize]
    }

    /// `count` of the numbers 1 to n, in random order.
    fn choose(&mut self, n: u32, count: usize) -> Vec<u32> {
        let mut all: Vec<u32> = (1..=n).collect();
        for i in 0..count {
            all.swap(i, self.from(i as u32, n - 1) as usize);
        }
        all.truncate(count);
        all
    }
}

// ---- rectangles

/// What a rectangle looks like.
#[derive(Clone, Copy, Debug, PartialEq, Eq)]
pub enum Kind {
    /// all lengths 0
    Zeros,
    /// lengths that differ by little: ties everywhere
    Ties,
    /// the same below the largest length
    Largest,
    /// every row is best somewhere: many intervals
    Diagonal,
    /// row terms, column terms and random steps
    Free,
    /// no path anywhere
    Closed,
    /// about a third of the columns closed, and nothing else: many intervals of one parent
    Gaps,
    /// rows and columns closed, and a stretch of each other row open
    Stretches,
    /// one path in each row
    Thin,
    /// paths laid one by one, each wherever the check still passes
    Laid,
}

/// The kinds without no path.
pub const OPEN_KINDS: [Kind; 5] = [Kind::Zeros, Kind::Ties, Kind::Largest, Kind::Diagonal, Kind::Free];

/// The kinds with no path.
pub const CLOSED_KINDS: [Kind; 5] = [Kind::Closed, Kind::Gaps, Kind::Stretches, Kind::Thin, Kind::Laid];

/// Every kind once.
pub const KINDS: [Kind; 10] = [
    Kind::Zeros,
    Kind::Ties,
    Kind::Largest,
    Kind::Diagonal,
    Kind::Free,
    Kind::Closed,
    Kind::Gaps,
    Kind::Stretches,
    Kind::Thin,
    Kind::Laid,
];

/// A rectangle that passes the check.
pub fn rectangle(rows: usize, columns: usize, kind: Kind, rng: &mut Rng) -> Vec<Vec<u32>> {
    let open = |rng: &mut Rng| rectangle(rows, columns, rng.pick(&OPEN_KINDS), rng);
    match kind {
        Kind::Zeros => vec![vec![0; columns]; rows],
        Kind::Ties => steps(rows, columns, 1, 1, 16, rng),
        Kind::Largest => {
            let small = steps(rows, columns, 1, 1, 16, rng);
            let turned = |row: &Vec<u32>| row.iter().rev().map(|l| MAX_LENGTH - l).collect();
            small.iter().map(turned).collect()
        }
        Kind::Diagonal => diagonal(rows, columns, rng),
        Kind::Free => {
            // two terms and a step at each place are no longer than the largest length
            let term = MAX_LENGTH / 10 * 3;
            let step = (MAX_LENGTH - 2 * term) / (rows * columns) as u32;
            steps(rows, columns, term, step, 2, rng)
        }
        Kind::Closed => vec![vec![NO_PATH; columns]; rows],
        Kind::Gaps => {
            let kept = some(columns, 3, rng);
            keep(open(rng), |_, k| kept[k])
        }
        Kind::Stretches => {
            let (rows_kept, columns_kept) = (some(rows, 8, rng), some(columns, 8, rng));
            let kept = stretches(rows, columns, rng);
            keep(open(rng), |i, k| rows_kept[i] && columns_kept[k] && kept[i].contains(&k))
        }
        Kind::Thin => {
            let kept = rising(rows, columns - 1, rng);
            keep(open(rng), |i, k| kept[i] == k)
        }
        Kind::Laid => laid(rows, columns, rng),
    }
}

/// A rectangle as it is lent, every place not used holding `unused`.
pub fn lent_rectangle<R: AsRef<[u32]>>(rectangle: &[R], unused: u32) -> Vec<u32> {
    let mut lengths = vec![unused; RECTANGLE];
    for (places, row) in lengths.chunks_mut(ROOM).zip(rectangle) {
        places[..row.as_ref().len()].copy_from_slice(row.as_ref());
    }
    lengths
}

/// Entry (i, k) is a term of row i, a term of column k, and the steps at the rows up to i and the columns after k. Terms are at most
/// `term`; one place in `rare` has a step, at most `step`.
fn steps(rows: usize, columns: usize, term: u32, step: u32, rare: u32, rng: &mut Rng) -> Vec<Vec<u32>> {
    let row_terms: Vec<u32> = (0..rows).map(|_| rng.from(0, term)).collect();
    let column_terms: Vec<u32> = (0..columns).map(|_| rng.from(0, term)).collect();
    let mut sums = vec![0; columns];
    let mut e = Vec::new();
    for row_term in row_terms {
        let mut along = 0;
        for sum in sums.iter_mut().rev() {
            *sum += along;
            along += rng.from(0, step) * u32::from(rng.below(rare) == 0);
        }
        let entries = sums.iter().zip(&column_terms);
        e.push(entries.map(|(sum, term)| row_term + term + sum).collect());
    }
    e
}

/// So many numbers from 0 to `last` that never fall.
fn rising(count: usize, last: usize, rng: &mut Rng) -> Vec<usize> {
    let mut numbers: Vec<usize> = (0..count).map(|_| rng.from(0, last as u32) as usize).collect();
    numbers.sort_unstable();
    numbers
}

/// Entry (i, k) is the square of the distance of two points on a line; both kinds of points rise.
fn diagonal(rows: usize, columns: usize, rng: &mut Rng) -> Vec<Vec<u32>> {
    let last = MAX_LENGTH.isqrt() as usize;
    let (tops, lefts) = (rising(columns, last, rng), rising(rows, last, rng));
    let row = |x: &usize| tops.iter().map(|y| x.abs_diff(*y).pow(2) as u32).collect();
    lefts.iter().map(row).collect()
}

// ---- closed places

/// A mark for each of so many: one in `rare` is false.
fn some(count: usize, rare: u32, rng: &mut Rng) -> Vec<bool> {
    (0..count).map(|_| rng.below(rare) > 0).collect()
}

/// A stretch of columns for each row; neither end falls from a row to the next.
fn stretches(rows: usize, columns: usize, rng: &mut Rng) -> Vec<Range<usize>> {
    let drawn: Vec<Vec<usize>> = (0..rows).map(|_| rising(2, columns, rng)).collect();
    // all starts in order, and all ends: each start is still at most the end in its place
    let in_order = |which: usize| {
        let mut all: Vec<usize> = drawn.iter().map(|pair| pair[which]).collect();
        all.sort_unstable();
        all
    };
    in_order(0).into_iter().zip(in_order(1)).map(|(start, end)| start..end).collect()
}

/// The same rectangle with no path wherever the test of row and column fails.
fn keep(mut e: Vec<Vec<u32>>, test: impl Fn(usize, usize) -> bool) -> Vec<Vec<u32>> {
    for (i, row) in e.iter_mut().enumerate() {
        for (_, length) in row.iter_mut().enumerate().filter(|&(k, _)| !test(i, k)) {
            *length = NO_PATH;
        }
    }
    e
}

/// A path is laid, or a length changed, wherever it obeys the inequality with all others.
fn laid(rows: usize, columns: usize, rng: &mut Rng) -> Vec<Vec<u32>> {
    let mut e = vec![vec![NO_PATH; columns]; rows];
    let longest = rng.pick(&[0, 2, 9, MAX_LENGTH]);
    for _ in 0..rng.below(2 * (rows * columns) as u32) {
        let (i, k) = (rng.below(rows as u32) as usize, rng.below(columns as u32) as usize);
        let before = e[i][k];
        e[i][k] = rng.from(0, longest);
        if !fits(&e, i, k) {
            e[i][k] = before;
        }
    }
    e
}

/// Whether the place in row i and column k obeys the inequality with all others.
fn fits(e: &[Vec<u32>], i: usize, k: usize) -> bool {
    let in_order = |a: usize, b: usize| [a.min(b), a.max(b)];
    let others = |count: usize, one: usize| (0..count).filter(move |&other| other != one);
    others(e.len(), i).all(|j| others(e[i].len(), k).all(|l| obey(e, in_order(i, j), in_order(k, l))))
}

// ---- plans

/// A table whose blocks are each of one of these kinds.
fn table(m: usize, kinds: &[Kind], rng: &mut Rng) -> Vec<Vec<u32>> {
    let mut lengths = vec![vec![0; m]; m];
    for block in blocks(m) {
        let kind = rng.pick(kinds);
        let e = rectangle(block.rows.len(), block.columns.len(), kind, rng);
        for (i, row) in block.rows.iter().zip(e) {
            for (j, length) in block.columns.iter().zip(row) {
                lengths[*i][*j] = length;
            }
        }
    }
    lengths
}

/// One arc from each of m vertices, to the next one clockwise.
fn ring(m: usize, rng: &mut Rng) -> Vec<Vec<u32>> {
    let mut length = |i: usize, j: usize| {
        if i == j {
            0
        } else if (i + 1) % m == j {
            rng.from(0, MAX_LENGTH)
        } else {
            NO_PATH
        }
    };
    (0..m).map(|i| (0..m).map(|j| length(i, j)).collect()).collect()
}

/// Pieces of these sizes, each at most n, with vertices drawn from 1 to n.
fn random_pieces(
    n: u32,
    sizes: &[usize],
    rng: &mut Rng,
    table: impl Fn(usize, &mut Rng) -> Vec<Vec<u32>>,
) -> Plan {
    let mut piece = |&m: &usize| Piece { vertices: rng.choose(n, m), lengths: table(m, rng) };
    let pieces = sizes.iter().map(&mut piece).collect();
    let source = rng.from(1, n);
    Plan { n, pieces, source, target: None }
}

/// Such pieces with blocks of these kinds.
pub fn hostile(n: u32, sizes: &[usize], kinds: &[Kind], rng: &mut Rng) -> Plan {
    random_pieces(n, sizes, rng, |m, rng| table(m, kinds, rng))
}

/// Such pieces in which all tracks lead clockwise from each vertex to the next.
pub fn rings(n: u32, sizes: &[usize], rng: &mut Rng) -> Plan {
    random_pieces(n, sizes, rng, ring)
}

/// The longest street of a town.
pub const TOWN_STREET: u32 = 400;

/// The longest street that `city` can take: all those on the edge of a piece, `side` along each side, are no longer than the largest
/// length.
pub fn longest_street(side: usize) -> u32 {
    MAX_LENGTH / (4 * side as u32)
}

/// Streets on a grid: `down` times `across` square pieces, `side` streets along each, with 4 * side vertices on the edge. Streets are at
/// most `longest` and at least a tenth of it. Lengths differ by direction, and streets inside a piece may be one-way.
pub fn city(down: usize, across: usize, side: usize, longest: u32, rng: &mut Rng) -> Plan {
    city_with_works(down, across, side, longest, NO_WORKS, rng)
}

/// The `works` of a city without any.
const NO_WORKS: u32 = 0;

/// The same with one street in `works` closed in each direction: some vertices of a piece are then not reached from others inside it.
/// Even a run over all crossings of a piece must be no longer than the largest length.
pub fn city_with_works(
    down: usize,
    across: usize,
    side: usize,
    longest: u32,
    works: u32,
    rng: &mut Rng,
) -> Plan {
    let (height, width) = (down * side + 1, across * side + 1);
    let on_edge = |y: usize, x: usize| (y % side) * (x % side) == 0;
    let crossings = (0..height).flat_map(|y| (0..width).map(move |x| (y, x)));
    let edge: Vec<(usize, usize)> = crossings.filter(|&(y, x)| on_edge(y, x)).collect();
    let n = edge.len() as u32;
    let mut vertex = vec![vec![0; width]; height];
    for (&(y, x), v) in edge.iter().zip(rng.choose(n, edge.len())) {
        vertex[y][x] = v;
    }
    let mut pieces = Vec::new();
    for top in (0..height - 1).step_by(side) {
        for left in (0..width - 1).step_by(side) {
            let around = clockwise(side);
            pieces.push(Piece {
                vertices: around.iter().map(|&(y, x)| vertex[top + y][left + x]).collect(),
                lengths: planar_table(side, &around, longest, works, rng),
            });
        }
    }
    let source = rng.from(1, n);
    Plan { n, pieces, source, target: None }
}

/// The crossings on the edge of a square.
fn clockwise(side: usize) -> Vec<(usize, usize)> {
    let along = 0..side;
    let top = along.clone().map(|k| (0, k));
    let right = along.clone().map(|k| (k, side));
    let bottom = along.clone().map(|k| (side, side - k));
    let left = along.map(|k| (side - k, 0));
    top.chain(right).chain(bottom).chain(left).collect()
}

/// The shortest runs between the crossings on the edge of a square with random streets, of which one in `works` is closed.
fn planar_table(
    side: usize,
    around: &[(usize, usize)],
    longest: u32,
    works: u32,
    rng: &mut Rng,
) -> Vec<Vec<u32>> {
    let count = (side + 1) * (side + 1);
    let mut distances = vec![vec![NO_PATH; count]; count];
    for (a, b, inside) in streets(side) {
        let one_way = if inside { rng.below(6) } else { 2 };
        distances[a][b] = if one_way == 0 { NO_PATH } else { rng.from(longest / 10, longest) };
        distances[b][a] = if one_way == 1 { NO_PATH } else { rng.from(longest / 10, longest) };
        for [from, to] in [[a, b], [b, a]] {
            if works != NO_WORKS && rng.below(works) == 0 {
                distances[from][to] = NO_PATH;
            }
        }
    }
    for (k, from) in distances.iter_mut().enumerate() {
        from[k] = 0;
    }
    for middle in 0..count {
        for from in 0..count {
            for to in 0..count {
                let over = plus(distances[from][middle], distances[middle][to]);
                distances[from][to] = distances[from][to].min(over);
            }
        }
    }
    let at = |&(y, x): &(usize, usize)| y * (side + 1) + x;
    let row = |from: &(usize, usize)| around.iter().map(|to| distances[at(from)][at(to)]).collect();
    around.iter().map(row).collect()
}

/// The streets of a square, between neighbouring crossings that are numbered row by row, and whether each lies inside. Those on the
/// edge join all of it in both directions, if none is closed.
fn streets(side: usize) -> Vec<(usize, usize, bool)> {
    let wide = side + 1;
    let across =
        (0..wide).flat_map(|y| (0..side).map(move |x| (y * wide + x, y * wide + x + 1, y % side != 0)));
    let down =
        (0..side).flat_map(|y| (0..wide).map(move |x| (y * wide + x, (y + 1) * wide + x, x % side != 0)));
    across.chain(down).collect()
}

/// The same plan with some of each piece's vertices left out, and perhaps some vertices that are in no piece.
fn thinned(mut plan: Plan, rng: &mut Rng) -> Plan {
    for piece in &mut plan.pieces {
        let m = piece.vertices.len();
        let kept: Vec<usize> = (0..m).filter(|&i| i == 0 || rng.below(3) > 0).collect();
        piece.vertices = kept.iter().map(|&i| piece.vertices[i]).collect();
        let row = |&i: &usize| kept.iter().map(|&j| piece.lengths[i][j]).collect();
        piece.lengths = kept.iter().map(row).collect();
    }
    plan.n = rng.from(plan.n, MAX_VERTICES);
    plan
}

/// The same plan with a third of each block closed that has three columns or more.
pub fn narrowed(mut plan: Plan) -> Plan {
    for piece in &mut plan.pieces {
        for block in blocks(piece.vertices.len()) {
            let (rows, columns) = (block.rows.len(), block.columns.len());
            for (i, row) in block.rows.into_iter().enumerate() {
                // as wide in each row, and further along the columns from the first row to the last
                let start = i * (columns / 3) / (rows - 1).max(1);
                let kept = start..start + columns - columns / 3;
                for (_, &column) in block.columns.iter().enumerate().filter(|(k, _)| !kept.contains(k)) {
                    piece.lengths[row][column] = NO_PATH;
                }
            }
        }
    }
    plan
}

/// The same plan with one vertex of each piece cut off inside it: no run leads from it, or none to it, or neither.
pub fn cut_off(mut plan: Plan, rng: &mut Rng) -> Plan {
    for piece in &mut plan.pieces {
        let m = piece.vertices.len();
        let v = rng.below(m as u32) as usize;
        let [no_way_out, no_way_in] = rng.pick(&[[true, false], [false, true], [true, true]]);
        for other in (0..m).filter(|&other| other != v) {
            if no_way_out {
                piece.lengths[v][other] = NO_PATH;
            }
            if no_way_in {
                piece.lengths[other][v] = NO_PATH;
            }
        }
    }
    plan
}

/// The same tables, but no run leads from a vertex of one half of all vertices to one of the other half. The vertices of each piece are
/// put in order, so that a line parts those of one half from those of the other.
pub fn cut_in_two(mut plan: Plan) -> Plan {
    for piece in &mut plan.pieces {
        let is_second = |v: &u32| *v > plan.n / 2;
        piece.vertices.sort_by_key(is_second);
        let side: Vec<bool> = piece.vertices.iter().map(is_second).collect();
        piece.lengths = keep(std::mem::take(&mut piece.lengths), |i, j| side[i] == side[j]);
    }
    plan
}

/// All vertices one behind the other, and the question from the first to the last of them. An arc of this length leads from each to the
/// next, so many of them in each piece, and every other arc of a piece has the other length.
fn in_line(arcs: usize, next: u32, other: u32, rng: &mut Rng) -> Plan {
    let vertices = rng.choose(MAX_VERTICES, LABELS);
    let length = |i: usize, j: usize| {
        if i == j {
            0
        } else if i + 1 == j {
            next
        } else {
            other
        }
    };
    // a piece begins with the vertex that the one before it ends with
    let starts = (0..LABELS - 1).step_by(arcs);
    let piece = |start: usize| {
        let vertices = vertices[start..LABELS.min(start + arcs + 1)].to_vec();
        let m = vertices.len();
        let row = |i: usize| (0..m).map(|j| length(i, j)).collect();
        Piece { lengths: (0..m).map(row).collect(), vertices }
    };
    Plan {
        n: MAX_VERTICES,
        pieces: starts.map(piece).collect(),
        source: vertices[0],
        target: Some(vertices[LABELS - 1]),
    }
}

/// The longest route: every other arc of a piece is longer than all its short ones together.
pub fn path(rng: &mut Rng) -> Plan {
    in_line(ROOM - 1, MAX_LENGTH / MAX_SIZE, MAX_LENGTH, rng)
}

/// The largest label: all arcs are of the largest length, and there are no others.
pub fn farthest(rng: &mut Rng) -> Plan {
    in_line(LABELS / SIZES, MAX_LENGTH, NO_PATH, rng)
}

/// No target, the source, any vertex, or one of the last piece.
fn target(plan: &Plan, rng: &mut Rng) -> Option<u32> {
    match rng.below(10) {
        0..=2 => None,
        3 => Some(plan.source),
        4 => Some(rng.from(1, plan.n)),
        _ => plan.pieces.last().map(|piece| rng.pick(&piece.vertices)),
    }
}

/// Plans of all sorts, the same ones for the same seed.
pub fn all(seed: u64) -> Vec<Plan> {
    let mut rng = Rng::new(seed);
    let rng = &mut rng;
    let mut plans = Vec::new();
    for (down, across, side) in [(1, 1, 1), (1, 3, 2), (2, 2, 3), (3, 2, 5), (4, 4, 4)] {
        plans.push(city(down, across, side, TOWN_STREET, rng));
        plans.push(city(down, across, side, longest_street(side), rng));
        let plan = city(down, across, side, TOWN_STREET, rng);
        plans.push(thinned(plan, rng));
    }
    plans.push(city(4, 4, 6, TOWN_STREET, rng));
    for kind in KINDS {
        plans.push(hostile(MAX_VERTICES, &[ROOM; SIZES], &[kind], rng));
        plans.push(hostile(24, &[24, 23, 1, 2, 24], &[kind], rng));
        plans.push(hostile(200, &[23, 1, 2], &[kind, Kind::Zeros], rng));
    }
    for _ in 0..120 {
        let n = rng.pick(&[1, 2, 3, 5, 9, 24, 40, 256]);
        let sizes = [1, 2, 3, 4, 7, 12, 23, 24].map(|m| m.min(n as usize));
        let p = rng.from(1, 6);
        let sizes: Vec<usize> = (0..p).map(|_| rng.pick(&sizes)).collect();
        let kinds = [rng.pick(&KINDS), rng.pick(&KINDS)];
        plans.push(hostile(n, &sizes, &kinds, rng));
    }
    plans.extend(with_no_path(rng));
    for plan in &mut plans {
        plan.target = target(plan, rng);
    }
    plans.push(path(rng));
    plans.push(farthest(rng));
    plans
}

/// Plans with closed tracks, vertices cut off, and networks cut in two.
fn with_no_path(rng: &mut Rng) -> Vec<Plan> {
    let mut plans = Vec::new();
    for (down, across, side) in [(1, 1, 1), (1, 3, 2), (2, 2, 3), (3, 2, 5), (4, 4, 4), (4, 4, 6)] {
        for works in [2, 4, 9] {
            plans.push(city_with_works(down, across, side, TOWN_STREET, works, rng));
        }
        plans.push(narrowed(city(down, across, side, longest_street(side), rng)));
        let plan = city(down, across, side, TOWN_STREET, rng);
        plans.push(cut_off(plan, rng));
        plans.push(cut_in_two(city(down, across, side, TOWN_STREET, rng)));
    }
    for (n, sizes) in [(MAX_VERTICES, &[ROOM; SIZES][..]), (30, &[24, 23, 1, 2, 7]), (9, &[9, 2, 3, 4, 5])] {
        plans.push(rings(n, sizes, rng));
        for kinds in [OPEN_KINDS, CLOSED_KINDS] {
            plans.push(narrowed(hostile(n, sizes, &kinds, rng)));
            let plan = hostile(n, sizes, &kinds, rng);
            plans.push(cut_off(plan, rng));
            plans.push(cut_in_two(hostile(n, sizes, &kinds, rng)));
        }
    }
    plans
}

// ---- sessions

/// A session with its rectangle and its calls as they are lent.
#[derive(Clone, Debug)]
pub struct Session {
    pub rows: u32,
    pub cols: u32,
    pub count: u32,
    pub lengths: Vec<u32>,
    pub calls: Vec<u32>,
}

/// A session of one kind of rectangle, every place not used holding `unused`. About one call in five is meant to be refused; the labels lie close to the floor.
pub fn session(kind: Kind, unused: u32, rng: &mut Rng) -> Session {
    let sides = [1, 2, 3, 5, 12, 23, 24];
    let (rows, columns) = (rng.pick(&sides), rng.pick(&sides));
    let count = rng.pick(&[0, 1, 10, 40, 63, 64, 64]);
    let e = rectangle(rows, columns, kind, rng);
    let lengths = lent_rectangle(&e, unused);
    let mut model = Model::new(e);
    let mut calls = vec![unused; CALLS];
    for call in calls.chunks_mut(3).take(count) {
        call.copy_from_slice(&random_call(rows as u32, model.floor, rng));
        model.call(call[0], call[1], call[2]);
    }
    Session { rows: rows as u32, cols: columns as u32, count: count as u32, lengths, calls }
}

/// Three rows with so many closed columns, at most 10, and three activations: the last inserts as many intervals as one ever does, three and
/// one more for each closed column.
pub fn most_inserted(closed: usize) -> Session {
    let columns = 2 * closed + 4;
    let is_closed = |k: &usize| k.is_multiple_of(2) && (2..=2 * closed).contains(k);
    // the middle row wins all but the first and the last column from the two others
    let entries: [&dyn Fn(usize) -> usize; 3] = [&|k| k, &|_| 1, &|k| columns - 1 - k];
    let row = |entry: &dyn Fn(usize) -> usize| -> Vec<u32> {
        (0..columns).map(|k| if is_closed(&k) { NO_PATH } else { entry(k) as u32 }).collect()
    };
    let mut calls = vec![0; CALLS];
    calls[..9].copy_from_slice(&[1, 0, 1, 1, 2, 1, 1, 1, 0]);
    Session { rows: 3, cols: columns as u32, count: 3, lengths: lent_rectangle(&entries.map(row), 0), calls }
}

fn random_call(rows: u32, floor: u32, rng: &mut Rng) -> [u32; 3] {
    let kind = rng.pick(&[1, 1, 1, 1, 1, 1, 1, 1, 2, 2, 2, 2, 2, 2, 0, 3, u32::MAX]);
    let row = match rng.below(16) {
        0 => rows,
        1 => u32::MAX,
        _ => rng.below(rows),
    };
    let label = match rng.below(24) {
        0 => floor.saturating_sub(1),
        1 => MAX_LABEL + 1,
        2 => u32::MAX,
        3 if rng.below(6) == 0 => MAX_LABEL,
        4..=12 => floor,
        13..=18 => floor + rng.below(3),
        _ => floor + rng.below(MAX_LENGTH / 5),
    };
    [kind, row, label]
}
