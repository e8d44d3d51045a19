//! The outside vectors of sessions and of the index, as the programs `replay_sessions` and `replay_index` read and print them.

use crate::network::{ANSWERS, CALLS, INTERVALS, INTERVAL_SIZE, MAX_CALLS, MAX_SIZE, RECTANGLE, ROOM};
use crate::plans::Session;

/// A rectangle as it is lent, the places that it does not use holding 7, and each question with its answer: row, first column, end; code,
/// column.
pub struct Asked {
    pub rows: u32,
    pub cols: u32,
    pub lengths: Vec<u32>,
    pub questions: Vec<([u32; 3], [u32; 2])>,
}

/// All of them.
pub fn of_the_index() -> Vec<Asked> {
    all(
        include_str!("../../../crates/replay_index/stdin"),
        include_str!("../../../crates/replay_index/stdout"),
        asked,
    )
}

fn asked(given: &mut Numbers, answers: &mut Numbers) -> Asked {
    let [rows, cols] = next(given);
    let lengths = rectangle(rows, cols, given);
    let [count] = next(given);
    let questions = (0..count).map(|_| (next(given), next(answers))).collect();
    Asked { rows, cols, lengths, questions }
}

/// A session as it is lent, with what it returns and leaves: number, inserted, removed; answers and intervals. A refused one leaves 7s.
pub struct Played {
    pub session: Session,
    pub returned: [u32; 3],
    pub answers: Vec<u32>,
    pub intervals: Vec<u32>,
}

/// All of them.
pub fn of_sessions() -> Vec<Played> {
    all(
        include_str!("../../../crates/replay_sessions/stdin"),
        include_str!("../../../crates/replay_sessions/stdout"),
        played,
    )
}

fn played(given: &mut Numbers, shown: &mut Numbers) -> Played {
    let [rows, cols, count] = next(given);
    let lengths = rectangle(rows, cols, given);
    let mut calls = vec![7; CALLS];
    if count <= MAX_CALLS {
        calls[..3 * count as usize].fill_with(|| next::<1>(given)[0]);
    }
    let returned = next(shown);
    let (mut answers, mut intervals) = (vec![7; ANSWERS], vec![7; INTERVALS]);
    if returned[0] == 0 {
        answers = padded(shown, 3 * count as usize, ANSWERS, 0);
        let [kept] = next(shown);
        intervals = padded(shown, INTERVAL_SIZE * kept as usize, INTERVALS, 255);
    }
    Played { session: Session { rows, cols, count, lengths, calls }, returned, answers, intervals }
}

/// A buffer of so many places: the next numbers, and behind them what unused places hold.
fn padded(shown: &mut Numbers, used: usize, places: usize, unused: u32) -> Vec<u32> {
    let mut buffer: Vec<u32> = (0..used).map(|_| next::<1>(shown)[0]).collect();
    buffer.resize(places, unused);
    buffer
}

/// The rows of a rectangle, if there are any, as they are lent: unused places hold 7.
fn rectangle(rows: u32, cols: u32, given: &mut Numbers) -> Vec<u32> {
    let mut lengths = vec![7; RECTANGLE];
    if [rows, cols].iter().all(|side| (1..=MAX_SIZE).contains(side)) {
        for row in lengths.chunks_mut(ROOM).take(rows as usize) {
            row[..cols as usize].fill_with(|| next::<1>(given)[0]);
        }
    }
    lengths
}

type Numbers = std::vec::IntoIter<u32>;

/// All vectors of a program, from what it reads and what it prints: how many there are, then each of them.
fn all<T>(read: &str, printed: &str, one: impl Fn(&mut Numbers, &mut Numbers) -> T) -> Vec<T> {
    let (mut given, mut shown) = (numbers(read), numbers(printed));
    let [count] = next(&mut given);
    let all = (0..count).map(|_| one(&mut given, &mut shown)).collect();
    assert!(given.next().is_none() && shown.next().is_none(), "the vectors go on");
    all
}

fn numbers(text: &str) -> Numbers {
    let all: Vec<u32> = text.split_whitespace().map(|word| word.parse().expect("a number")).collect();
    all.into_iter()
}

/// The next `N` numbers.
fn next<const N: usize>(numbers: &mut Numbers) -> [u32; N] {
    std::array::from_fn(|_| numbers.next().expect("a number more"))
}
