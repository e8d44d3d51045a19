//! Sessions on one block against the model.

use rabdzhine::{run_session, SessionAnswer};
use rabdzhine::{ANSWERS, CALLS, INTERVALS, INTERVAL_SIZE, NO_PATH, RECTANGLE, UNUSED};
use reference::entries;
use reference::model::MAX_LABEL;
use reference::network::{MAX_CALLS, MAX_LENGTH, MAX_SIZE, ROOM};
use reference::plans::{lent_rectangle, most_inserted, session, Rng, Session, CLOSED_KINDS, KINDS};
use reference::vectors::{of_sessions, Played};
use std::collections::BTreeSet;

/// The outputs start with 7 in them. Returns the number, the answers and the intervals.
fn compare(s: &Session, places: [usize; 2]) -> (u32, Vec<u32>, Vec<u32>) {
    let [mut answers, mut intervals] = places.map(|size| vec![7; size]);
    let [mut expected_answers, mut expected_intervals] = places.map(|size| vec![7; size]);
    let answer = run_session(s.rows, s.cols, s.count, &s.lengths, &s.calls, &mut answers, &mut intervals);
    let [number, inserted, removed] = entries::run_session(
        s.rows,
        s.cols,
        s.count,
        &s.lengths,
        &s.calls,
        &mut expected_answers,
        &mut expected_intervals,
    );
    assert_eq!(answer, SessionAnswer { number, inserted, removed }, "{s:?}");
    assert_eq!(answers, expected_answers, "{s:?}");
    assert_eq!(intervals, expected_intervals, "{s:?}");
    (number, answers, intervals)
}

const PLACES: [usize; 2] = [ANSWERS, INTERVALS];

/// A session on a rectangle of some rows of `N` lengths.
fn on<const N: usize>(rectangle: &[[u32; N]], calls: &[[u32; 3]]) -> Session {
    let lengths = lent_rectangle(rectangle, 0);
    let mut lent_calls = vec![0; CALLS];
    lent_calls[..3 * calls.len()].copy_from_slice(&calls.concat());
    let (rows, cols, count) = (rectangle.len() as u32, N as u32, calls.len() as u32);
    Session { rows, cols, count, lengths, calls: lent_calls }
}

/// A session on the depot's first block.
fn depot(calls: &[[u32; 3]]) -> Session {
    on(&[[5, 7], [6, 4]], calls)
}

/// The session keeps exactly these intervals: all places after them are unused.
fn assert_kept(s: &Session, expected: &[[u32; INTERVAL_SIZE]]) {
    let (_, _, intervals) = compare(s, PLACES);
    let (kept, unused) = intervals.split_at(INTERVAL_SIZE * expected.len());
    assert_eq!(kept, expected.concat());
    assert!(unused.iter().all(|&x| x == UNUSED));
}

#[test]
fn the_depot_examples() {
    let (_, answers, intervals) = compare(&depot(&[[2, 0, 0], [1, 0, 0], [1, 1, 2], [2, 9, 9]]), PLACES);
    assert_eq!(answers[..13], [50, 0, 0, 0, 0, 0, 0, 0, 0, 0, 0, 5, 0]);
    assert_eq!(intervals[..6], [1, 1, 1, 1, 6, 255]);
    let (_, answers, intervals) = compare(&depot(&[[1, 0, 0], [1, 1, 3]]), PLACES);
    assert_eq!(answers[..6], [0; 6]);
    assert_eq!(intervals[..6], [0, 0, 1, 0, 5, 255]);
    assert_kept(&depot(&[[1, 0, 0], [1, 1, 2]]), &[[0, 0, 0, 0, 5], [1, 1, 1, 1, 6]]);
    let (_, answers, _) = compare(&depot(&[[1, 0, 0], [2, 0, 0], [1, 1, 4], [1, 1, 5]]), PLACES);
    assert_eq!(answers[..12], [0, 0, 0, 0, 0, 5, 11, 0, 0, 0, 0, 0]);
}

/// Of columns with equal least sums the lowest is the best, among all and among those that a take leaves.
#[test]
fn the_best_of_columns_with_equal_sums() {
    let rectangle = [[3, 1, 2, 1, 1]];
    assert_kept(&on(&rectangle, &[[1, 0, 10]]), &[[0, 0, 4, 1, 11]]);
    assert_kept(&on(&rectangle, &[[1, 0, 10], [2, 0, 0]]), &[[0, 0, 0, 0, 13], [0, 2, 4, 3, 11]]);
}

/// Row 1 takes columns 1 and 2 from row 0, the best one among them: what is left of row 0 has another best.
#[test]
fn what_is_left_of_an_interval_has_a_best_of_its_own() {
    let rectangle = [[4, 1, 5], [4, 0, 3]];
    assert_kept(&on(&rectangle, &[[1, 0, 10]]), &[[0, 0, 2, 1, 11]]);
    assert_kept(&on(&rectangle, &[[1, 0, 10], [1, 1, 10]]), &[[0, 0, 0, 0, 14], [1, 1, 2, 1, 10]]);
}

/// A best sum may be what unused places hold.
#[test]
fn a_best_sum_of_255_is_no_unused_interval() {
    let s = on(&[[UNUSED, 900], [900, UNUSED]], &[[1, 0, 0], [1, 1, 0]]);
    assert_kept(&s, &[[0, 0, 0, 0, 255], [1, 1, 1, 1, 255]]);
}

#[test]
fn the_largest_length_value_and_sum() {
    let mut s = depot(&[[1, 0, MAX_LABEL + 1], [1, 0, MAX_LABEL], [2, 0, 0], [1, 1, MAX_LABEL]]);
    s.lengths.fill(MAX_LENGTH);
    let (_, answers, _) = compare(&s, PLACES);
    assert_eq!(answers[..12], [11, 0, 0, 0, 0, 0, 0, 0, 255_999_744, 11, 0, 0]);
    s.lengths[1] += 1;
    assert_eq!(compare(&s, PLACES).0, 6);
}

/// What neighbouring corners pass, of rows and of columns, and what is no path rather than a large number.
#[test]
fn the_check_of_blocks_with_no_path() {
    const X: u32 = NO_PATH;
    let number = |s: Session| compare(&s, PLACES).0;
    assert_eq!(number(on(&[[5, X, 0], [0, X, 0]], &[])), 7);
    assert_eq!(number(on(&[[0, X, 0], [0, X, 1]], &[])), 7);
    assert_eq!(number(on(&[[0, 0], [X, X], [0, 1]], &[])), 7);
    assert_eq!(number(on(&[[X, 0], [0, X]], &[])), 7);
    assert_eq!(number(on(&[[X, 0], [0, 0]], &[])), 7);
    assert_eq!(number(on(&[[0, X], [X, 0]], &[])), 0);
    assert_eq!(number(on(&[[0, X], [0, 0]], &[])), 0);
    assert_eq!(number(on(&[[0, X, 0], [0, X, 0]], &[])), 0);
    assert_eq!(number(on(&[[X; 24]; 24], &[])), 0);
    assert_eq!(number(on(&[[X]], &[])), 0);
    assert_eq!(number(on(&[[X - 1]], &[])), 6);
}

/// All blocks of three rows and three columns with these lengths.
#[test]
fn the_check_of_all_small_blocks() {
    let mut met = BTreeSet::new();
    for number in 0..3usize.pow(9) {
        let length = |place: u32| [0, 1, NO_PATH][number / 3usize.pow(place) % 3];
        let rows = [0, 1, 2].map(|i| [0, 1, 2].map(|k| length(3 * i + k)));
        met.insert(compare(&on(&rows, &[]), PLACES).0);
    }
    assert_eq!(met, BTreeSet::from([0, 7]));
}

/// Column 2 is closed: row 1 wins on both sides of it, and what is left of the others is new too, four intervals in all.
#[test]
fn a_closed_column_parts_the_intervals_of_a_row() {
    const X: u32 = NO_PATH;
    let rectangle = [[0, 1, X, 3, 4], [2, 1, X, 1, 2], [4, 3, X, 1, 0]];
    let two = on(&rectangle, &[[1, 0, 1], [1, 2, 1]]);
    let three = on(&rectangle, &[[1, 0, 1], [1, 2, 1], [1, 1, 0]]);
    assert_kept(&two, &[[0, 0, 1, 0, 1], [2, 3, 4, 4, 1]]);
    assert_kept(&three, &[[0, 0, 0, 0, 1], [1, 1, 1, 1, 1], [1, 3, 3, 3, 1], [2, 4, 4, 4, 1]]);
    assert_eq!((inserted(&two), inserted(&three)), (3, 7));
}

/// How many intervals a session inserts.
fn inserted(s: &Session) -> u32 {
    let [mut answers, mut intervals] = PLACES.map(|size| vec![0; size]);
    run_session(s.rows, s.cols, s.count, &s.lengths, &s.calls, &mut answers, &mut intervals).inserted
}

/// Document 02, request 7: a tell brings in at most three intervals and one for each closed column. It can be so many.
#[test]
fn the_most_intervals_of_a_tell() {
    for closed in 0..=10 {
        let s = most_inserted(closed as usize);
        assert_eq!(compare(&s, PLACES).0, 0);
        assert_eq!(inserted(&s) - inserted(&Session { count: 2, ..s.clone() }), 3 + closed);
    }
}

/// A take has nothing to hand out though a column is left, until a row is told that reaches it.
#[test]
fn a_column_without_a_path_is_not_handed_out() {
    let closed = on(&[[5, NO_PATH], [6, NO_PATH]], &[[1, 0, 0], [1, 1, 0], [2, 0, 0], [2, 0, 0]]);
    let (_, answers, _) = compare(&closed, PLACES);
    assert_eq!(answers[..12], [0, 0, 0, 0, 0, 0, 0, 0, 5, 50, 0, 0]);
    assert_kept(&closed, &[]);
    let later = [[1, 0, 0], [2, 0, 0], [2, 0, 0], [1, 1, 5], [2, 0, 0]];
    let (_, answers, _) = compare(&on(&[[5, NO_PATH], [6, 4]], &later), PLACES);
    assert_eq!(answers[..15], [0, 0, 0, 0, 0, 5, 50, 0, 0, 0, 0, 0, 0, 1, 9]);
    assert_kept(&on(&[[5, NO_PATH], [6, 4]], &later[..4]), &[[1, 1, 1, 1, 9]]);
}

/// Nothing to tell: every row told, and no interval.
#[test]
fn a_block_without_a_path_keeps_nothing() {
    let mut calls: Vec<[u32; 3]> = (0..24).map(|row| [1, row, row]).collect();
    calls.push([2, 0, 0]);
    let s = on(&[[NO_PATH; 24]; 24], &calls);
    let (_, answers, _) = compare(&s, PLACES);
    assert_eq!(answers[..72], [0; 72]);
    assert_eq!(answers[72..75], [50, 0, 0]);
    assert_kept(&s, &[]);
    assert_eq!(inserted(&s), 0);
}

/// Takes that answer 50 with columns left, and tells that bring in more than three, are among them.
#[test]
fn sound_sessions_with_no_path() {
    let mut rng = Rng::new(34);
    let (mut left, mut most) = (0, 0);
    for kind in CLOSED_KINDS.repeat(1_500) {
        let s = session(kind, rng.pick(&[0, 7, NO_PATH - 1, NO_PATH]), &mut rng);
        let (number, answers, _) = compare(&s, PLACES);
        assert_eq!(number, 0);
        let answers: Vec<&[u32]> = answers.chunks(3).take(s.count as usize).collect();
        let calls: Vec<&[u32]> = s.calls.chunks(3).take(s.count as usize).collect();
        let taken = answers.iter().zip(&calls).filter(|(answer, call)| call[0] == 2 && answer[0] == 0);
        let told = answers.iter().zip(&calls).any(|(answer, call)| call[0] == 1 && answer[0] == 0);
        let nothing = answers.iter().any(|answer| answer[0] == 50);
        left += u32::from(told && nothing && taken.count() < s.cols as usize);
        let of_first = |count: u32| inserted(&Session { count, ..s.clone() });
        most = most.max((0..s.count.min(3)).map(|k| of_first(k + 1) - of_first(k)).max().unwrap_or(0));
    }
    assert!(left > 100 && most > 3, "{left}, {most}");
}

/// The outside vectors, which the program `replay_sessions` runs too.
#[test]
fn stored_sessions_run_as_stored() {
    for Played { session, returned, answers, intervals } in of_sessions() {
        let Session { rows, cols, count, lengths, calls } = &session;
        let [mut left_answers, mut left_intervals] = PLACES.map(|size| vec![7; size]);
        let answer =
            run_session(*rows, *cols, *count, lengths, calls, &mut left_answers, &mut left_intervals);
        assert_eq!([answer.number, answer.inserted, answer.removed], returned, "{session:?}");
        assert_eq!((left_answers, left_intervals), (answers, intervals), "{session:?}");
    }
}

#[test]
fn sound_sessions() {
    let mut rng = Rng::new(31);
    let mut met = BTreeSet::new();
    let mut largest = 0;
    for _ in 0..400 {
        for kind in KINDS {
            let s = session(kind, rng.pick(&[0, 7, NO_PATH - 1]), &mut rng);
            let (number, answers, _) = compare(&s, PLACES);
            assert_eq!(number, 0);
            for answer in answers.chunks(3).take(s.count as usize) {
                met.insert(answer[0]);
                largest = largest.max(answer[2]);
            }
        }
    }
    assert_eq!(met, BTreeSet::from([0, 9, 10, 11, 50]));
    assert!(largest > MAX_LABEL); // a take may go above what a tell may say
}

/// Document 02, request 2, from the buffer alone: each interval has a greater first column than the one before it.
#[test]
fn kept_intervals_stand_by_rising_first_column() {
    let mut rng = Rng::new(33);
    let mut most = 0;
    for _ in 0..400 {
        for kind in KINDS {
            let s = session(kind, 7, &mut rng);
            let [mut answers, mut intervals] = PLACES.map(|size| vec![0; size]);
            let answer =
                run_session(s.rows, s.cols, s.count, &s.lengths, &s.calls, &mut answers, &mut intervals);
            assert_eq!(answer.number, 0);
            let kept = intervals.chunks(INTERVAL_SIZE).take_while(|v| v[0] != UNUSED);
            let firsts: Vec<u32> = kept.map(|v| v[1]).collect();
            assert!(firsts.windows(2).all(|pair| pair[0] < pair[1]), "{firsts:?}");
            most = most.max(firsts.len());
        }
    }
    assert!(most > 5); // there was an order to be seen
}

#[test]
fn spoiled_sessions() {
    let mut rng = Rng::new(32);
    let mut met = BTreeSet::new();
    for _ in 0..2_000 {
        let mut s = session(rng.pick(&KINDS), 7, &mut rng);
        let used = ROOM as u32 * rng.below(s.rows) + rng.below(s.cols);
        match rng.below(8) {
            0 => s.rows = rng.pick(&[0, MAX_SIZE + 1, u32::MAX]),
            1 => s.cols = rng.pick(&[0, MAX_SIZE + 1, u32::MAX]),
            2 => s.count = rng.pick(&[MAX_CALLS + 1, u32::MAX]),
            3 => s.lengths[used as usize] = rng.pick(&[MAX_LENGTH + 1, NO_PATH - 1]),
            4 => s.lengths[used as usize] = NO_PATH,
            _ => s.lengths[used as usize] = rng.below(MAX_LENGTH + 1),
        }
        met.insert(compare(&s, PLACES).0);
    }
    assert_eq!(met, BTreeSet::from([0, 4, 6, 7]));
}

#[test]
fn buffers_of_another_size_are_left() {
    let sound = depot(&[[1, 0, 0]]);
    for size in [ANSWERS - 1, ANSWERS + 1, 0] {
        assert_eq!(compare(&sound, [size, INTERVALS]).0, 1);
    }
    for size in [INTERVALS - 1, INTERVALS + 1, 0] {
        assert_eq!(compare(&sound, [ANSWERS, size]).0, 1);
    }
    assert_eq!(compare(&sound, [0, 0]).0, 1);
    for size in [RECTANGLE - 1, RECTANGLE + 1, 0] {
        let lengths = vec![0; size];
        assert_eq!(compare(&Session { lengths, rows: 0, ..sound.clone() }, PLACES).0, 1);
    }
    for size in [CALLS - 1, CALLS + 1, 0] {
        let calls = vec![0; size];
        assert_eq!(compare(&Session { calls, count: 0, ..sound.clone() }, PLACES).0, 1);
    }
}
