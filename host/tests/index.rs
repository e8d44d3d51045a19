//! The index of one block against the model: what it holds, and what it answers for every stretch.

use rabdzhine::{ask_index, build_index, LeastAnswer, INDEX, INDEX_ROW, NOTHING, NO_PATH, RECTANGLE};
use reference::network::{MAX_LENGTH, MAX_SIZE, ROOM};
use reference::plans::{lent_rectangle, rectangle, Rng, KINDS};
use reference::vectors::{of_the_index, Asked};
use reference::{entries, index};
use std::collections::BTreeSet;

/// A block as it is lent.
#[derive(Clone, Debug)]
struct Block {
    rows: u32,
    cols: u32,
    lengths: Vec<u32>,
}

impl Block {
    /// Every place that is not used holds `unused`.
    fn of<R: AsRef<[u32]>>(rectangle: &[R], unused: u32) -> Block {
        let cols = rectangle[0].as_ref().len() as u32;
        Block { rows: rectangle.len() as u32, cols, lengths: lent_rectangle(rectangle, unused) }
    }

    fn row(&self, i: u32) -> &[u32] {
        &self.lengths[ROOM * i as usize..][..self.cols as usize]
    }

    fn build(&self, index: &mut [u8]) -> u32 {
        build_index(self.rows, self.cols, &self.lengths, index)
    }

    /// The index of a block that is accepted.
    fn built(&self) -> Vec<u8> {
        let mut index = vec![7; INDEX];
        assert_eq!(self.build(&mut index), 0, "{self:?}");
        index
    }

    fn ask(&self, index: &[u8], [row, first, end]: [u32; 3]) -> LeastAnswer {
        ask_index(self.rows, self.cols, &self.lengths, index, row, first, end)
    }

    /// Every row with every stretch that has a column.
    fn stretches(&self) -> Vec<[u32; 3]> {
        let ends = |first: u32| (first + 1..=self.cols).map(move |end| (first, end));
        let stretches: Vec<(u32, u32)> = (0..self.cols).flat_map(ends).collect();
        (0..self.rows).flat_map(|row| stretches.iter().map(move |&(first, end)| [row, first, end])).collect()
    }
}

/// Builds as the model does, in a buffer that starts with 7 in it. Returns the number and the buffer.
fn compare_build(block: &Block, places: usize) -> (u32, Vec<u8>) {
    let (mut index, mut expected) = (vec![7; places], vec![7; places]);
    let number = block.build(&mut index);
    let Block { rows, cols, lengths } = block;
    assert_eq!(number, entries::build_index(*rows, *cols, lengths, &mut expected), "{block:?}");
    assert_eq!(index, expected, "{block:?}");
    if number != 0 {
        assert!(index.iter().all(|&x| x == 7), "refusal {number} writes");
    }
    (number, index)
}

/// Answers as the model does, whatever the index holds. Returns the answer.
fn compare_ask(block: &Block, index: &[u8], question: [u32; 3]) -> LeastAnswer {
    let answer = block.ask(index, question);
    let Block { rows, cols, lengths } = block;
    let [row, first, end] = question;
    let [code, column] = entries::ask_index(*rows, *cols, lengths, index, row, first, end);
    assert_eq!(answer, LeastAnswer { code, column }, "{question:?} of {block:?}");
    answer
}

/// The answer to each stretch is the first of its least lengths.
fn assert_least(block: &Block, index: &[u8]) {
    for [row, first, end] in block.stretches() {
        let column = index::scan(block.row(row), first as usize..end as usize).expect("a column") as u32;
        assert_eq!(block.ask(index, [row, first, end]), LeastAnswer { code: 0, column }, "{block:?}");
    }
}

const NONE: LeastAnswer = LeastAnswer { code: NOTHING, column: 0 };

#[test]
fn the_depot_block() {
    let block = Block::of(&[[5, 7], [6, 4]], 0);
    let index = block.built();
    assert_eq!((index[0], index[INDEX_ROW]), (0, 1));
    assert!(index.iter().enumerate().all(|(k, &x)| x == 0 || k == INDEX_ROW));
    let columns = block.stretches().into_iter().map(|question| block.ask(&index, question).column);
    assert_eq!(columns.collect::<Vec<_>>(), [0, 0, 1, 0, 1, 1]);
}

/// Of equal lengths the lowest column counts, in one half and over both.
#[test]
fn the_lowest_of_equal_columns() {
    let block = Block::of(&[[3, 1, 2, 1, 1]], 0);
    let index = block.built();
    assert_eq!(index[..5], [1, 1, 3, 3, 0]);
    assert_eq!(block.ask(&index, [0, 0, 5]).column, 1);
    assert_eq!(block.ask(&index, [0, 2, 5]).column, 3);
    let equal = Block::of(&[[9; ROOM]; ROOM], 0);
    let index = equal.built();
    for [row, first, end] in equal.stretches() {
        assert_eq!(equal.ask(&index, [row, first, end]), LeastAnswer { code: 0, column: first });
    }
}

/// No path is above every number: a stretch of nothing else has its lowest column.
#[test]
fn a_stretch_without_a_path() {
    let block = Block::of(&[[3, NO_PATH, NO_PATH, NO_PATH, 1]], 0);
    let index = block.built();
    assert_eq!(index[..5], [4, 0, 4, 4, 0]);
    assert_eq!(block.ask(&index, [0, 1, 4]), LeastAnswer { code: 0, column: 1 });
    assert_eq!(block.ask(&index, [0, 2, 4]), LeastAnswer { code: 0, column: 2 });
    assert_eq!(block.ask(&index, [0, 1, 5]), LeastAnswer { code: 0, column: 4 });
    let closed = Block::of(&[[NO_PATH; ROOM]; ROOM], 0);
    let index = closed.built();
    for [row, first, end] in closed.stretches() {
        assert_eq!(closed.ask(&index, [row, first, end]), LeastAnswer { code: 0, column: first });
    }
}

/// Every number of columns with every stretch, of each kind of rectangle, with other numbers in the places that are not used.
#[test]
fn every_stretch_of_every_size() {
    let mut rng = Rng::new(61);
    for cols in 1..=ROOM {
        for kind in KINDS {
            for rows in [1, 2, rng.from(3, MAX_SIZE - 1) as usize, ROOM] {
                let unused = rng.pick(&[0, 7, NO_PATH - 1]);
                let block = Block::of(&rectangle(rows, cols, kind, &mut rng), unused);
                let (number, index) = compare_build(&block, INDEX);
                assert_eq!(number, 0);
                assert_least(&block, &index);
            }
        }
    }
}

/// An index of a row has one number fewer than the row has columns; all other places are 0.
#[test]
fn unused_places_are_0() {
    let mut rng = Rng::new(62);
    for _ in 0..400 {
        let (rows, cols) = (rng.from(1, MAX_SIZE) as usize, rng.from(1, MAX_SIZE) as usize);
        let block = Block::of(&rectangle(rows, cols, rng.pick(&KINDS), &mut rng), NO_PATH - 1);
        for (i, places) in block.built().chunks(INDEX_ROW).enumerate() {
            let used = if i < rows { cols - 1 } else { 0 };
            assert!(places[..used].iter().all(|&column| usize::from(column) < cols), "row {i} of {block:?}");
            assert!(places[used..].iter().all(|&x| x == 0), "row {i} of {block:?}");
        }
    }
}

/// An index that was never built, or built for another block: the answer is a column of the stretch, and the model's.
#[test]
fn any_bytes_are_asked() {
    let mut rng = Rng::new(63);
    for round in 0..600 {
        let (rows, cols) = (rng.from(1, 4) as usize, rng.from(1, MAX_SIZE) as usize);
        let block = Block::of(&rectangle(rows, cols, rng.pick(&KINDS), &mut rng), 7);
        let mut index = block.built();
        match round % 4 {
            0 => index.fill(rng.pick(&[1, 23, 24, 127, 128, 255])),
            1 => index.fill_with(|| rng.below(256) as u8),
            2 => index.fill_with(|| rng.below(MAX_SIZE + 2) as u8),
            _ => index[rng.below(INDEX as u32) as usize] = rng.below(256) as u8,
        }
        for question in block.stretches() {
            let LeastAnswer { code, column } = compare_ask(&block, &index, question);
            let [_, first, end] = question;
            assert!(code == 0 && (first..end).contains(&column), "{question:?}: {column}");
        }
    }
}

/// Lengths that building would refuse are asked as any others.
#[test]
fn any_lengths_are_asked() {
    let mut rng = Rng::new(64);
    for _ in 0..200 {
        let cols = rng.from(1, MAX_SIZE);
        let mut lengths = vec![0; RECTANGLE];
        lengths.fill_with(|| rng.pick(&[0, 1, MAX_LENGTH, MAX_LENGTH + 1, u32::MAX - 1, u32::MAX]));
        let block = Block { rows: 3, cols, lengths };
        let index: Vec<u8> = (0..INDEX).map(|_| rng.below(MAX_SIZE + 2) as u8).collect();
        for question in block.stretches() {
            assert_eq!(compare_ask(&block, &index, question).code, 0);
        }
    }
}

#[test]
fn rows_and_stretches_that_are_not_there() {
    let far = [0, 1, 22, 23, 24, 25, 552, 575, 576, 1 << 31, u32::MAX - 1, u32::MAX];
    let mut rng = Rng::new(65);
    for (rows, cols) in [(1, 1), (2, 2), (3, 7), (1, 24), (24, 1), (23, 23), (24, 24)] {
        let block = Block::of(&rectangle(rows as usize, cols as usize, rng.pick(&KINDS), &mut rng), 7);
        let index = block.built();
        let numbers: BTreeSet<u32> =
            BTreeSet::from_iter(far.into_iter().chain([rows - 1, rows, cols - 1, cols, cols + 1]));
        for &row in &numbers {
            for &first in &numbers {
                for &end in &numbers {
                    let answer = compare_ask(&block, &index, [row, first, end]);
                    let is_there = row < rows && first < end && end <= cols;
                    assert!(is_there || answer == NONE, "{row} {first} {end}: {answer:?}");
                }
            }
        }
    }
}

/// Building: 1, 4, 6, 7, and a refusal leaves the buffer.
#[test]
fn spoiled_blocks() {
    let mut rng = Rng::new(66);
    let mut met = BTreeSet::new();
    for _ in 0..2_000 {
        let (rows, cols) = (rng.from(1, MAX_SIZE) as usize, rng.from(1, MAX_SIZE) as usize);
        let mut block = Block::of(&rectangle(rows, cols, rng.pick(&KINDS), &mut rng), 7);
        let used = ROOM * rng.below(rows as u32) as usize + rng.below(cols as u32) as usize;
        match rng.below(6) {
            0 => block.rows = rng.pick(&[0, MAX_SIZE + 1, u32::MAX]),
            1 => block.cols = rng.pick(&[0, MAX_SIZE + 1, u32::MAX]),
            2 => block.lengths[used] = rng.pick(&[MAX_LENGTH + 1, NO_PATH - 1]),
            3 => block.lengths[used] = NO_PATH,
            _ => block.lengths[used] = rng.below(MAX_LENGTH + 1),
        }
        met.insert(compare_build(&block, INDEX).0);
    }
    assert_eq!(met, BTreeSet::from([0, 4, 6, 7]));
}

/// Of two causes the earlier one counts.
#[test]
fn causes_in_their_order() {
    let long = MAX_LENGTH + 1;
    let block = Block::of(&[[5, 7, long], [6, 10, 1]], 0); // 6 in the first row, 7 in the first two columns
    assert_eq!(compare_build(&block, INDEX).0, 6);
    assert_eq!(compare_build(&Block { cols: 2, ..block.clone() }, INDEX).0, 7);
    assert_eq!(compare_build(&Block { rows: 25, ..block.clone() }, INDEX).0, 4);
    assert_eq!(compare_build(&Block { rows: 1, cols: 2, ..block.clone() }, INDEX).0, 0);
    assert_eq!(compare_build(&Block { rows: 25, ..block }, INDEX - 1).0, 1);
}

#[test]
fn buffers_of_another_size() {
    let sound = Block::of(&[[5, 7], [6, 4]], 0);
    for places in [0, INDEX - INDEX_ROW, INDEX - 1, INDEX + 1, RECTANGLE] {
        for rows in [0, 2] {
            let block = Block { rows, ..sound.clone() };
            assert_eq!(compare_build(&block, places).0, 1);
            assert_eq!(compare_ask(&block, &vec![0; places], [0, 0, 1]).code, 1);
        }
    }
    for places in [0, RECTANGLE - 1, RECTANGLE + 1, INDEX] {
        for rows in [0, 2] {
            let block = Block { rows, lengths: vec![0; places], ..sound.clone() };
            assert_eq!(compare_build(&block, INDEX).0, 1);
            assert_eq!(compare_ask(&block, &[0; INDEX], [9, 9, 9]).code, 1);
        }
    }
}

/// A question refuses sides out of bounds by 4, whatever is asked.
#[test]
fn questions_with_sides_out_of_bounds() {
    let sound = Block::of(&[[5, 7], [6, 4]], 0);
    for side in [0, MAX_SIZE + 1, u32::MAX] {
        for question in [[0, 0, 1], [0, 0, 0], [u32::MAX; 3]] {
            for (rows, cols) in [(side, 2), (2, side), (side, side)] {
                let block = Block { rows, cols, ..sound.clone() };
                assert_eq!(compare_ask(&block, &[0; INDEX], question), LeastAnswer { code: 4, column: 0 });
            }
        }
    }
}

/// The outside vectors, which the program `replay_index` runs too.
#[test]
fn stored_questions_are_answered_as_stored() {
    for Asked { rows, cols, lengths, questions } in of_the_index() {
        let block = Block { rows, cols, lengths };
        let index = block.built();
        for (question, [code, column]) in questions {
            assert_eq!(block.ask(&index, question), LeastAnswer { code, column }, "{question:?}");
        }
    }
}
