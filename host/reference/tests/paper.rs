//! The model against documents 01 and 02: the depot examples, the best of an interval, routes, the index of a block, no path, and the causes
//! that the papers name.

use reference::damage::{chain_and, depot_asked, depot_with, long_lengths, one_way_and, text, texts};
use reference::damage::{CHAIN_LISTING, CHAIN_QUESTION, DEPOT, DEPOT_LISTING};
use reference::entries::{ask_index, build_index};
use reference::entries::{check_network, label_network, read_text, route_network, run_session};
use reference::index;
use reference::model::{label_plan, Model, MAX_LABEL, UNREACHED};
use reference::network::{closed_columns, is_monge, Lent};
use reference::network::{
    ANSWERS, ARC_SIZE, CALLS, INDEX, INDEX_ROW, INTERVALS, LABELS, LENGTHS, LINE, LISTING, MAX_ARCS,
    MAX_LENGTH, NO_PATH, NO_TARGET, RECTANGLE, ROOM, ROUTE_PLACES, SIZES, VERTICES,
};
use reference::number_of;
use reference::plans::{farthest, lent_rectangle, most_inserted, path, session, Rng, Session, KINDS};
use reference::text::{field, length, listing, read, write};

#[test]
fn p1_and_p2() {
    assert_eq!(listing(&text(&DEPOT)), text(&DEPOT_LISTING));
    let first = b"        5        1        0        0\n";
    assert!(listing(&depot_asked("     5")).starts_with(first));
}

#[test]
fn p3_to_p5() {
    assert_eq!(read(&text(&DEPOT)).unwrap().pieces.len(), 1);
    let with_first = |row: &str| number_of(read(&depot_with(&[(2, row)])));
    assert_eq!(with_first("     0     3     7     9"), 0);
    assert_eq!(with_first("     0     3     7    10"), 7);
    assert!(is_monge(&[vec![9, 7], vec![6, 4]]));
    assert!(!is_monge(&[vec![10, 7], vec![6, 4]]));
}

#[test]
fn p6_to_p11() {
    let block = || Model::new(vec![vec![5, 7], vec![6, 4]]);
    assert_eq!(block().call(2, 0, 0), [50, 0, 0]);

    let mut p8 = block();
    assert_eq!(p8.call(1, 0, 0), [0, 0, 0]);
    assert_eq!(p8.intervals(), [[0, 0, 1, 0, 5]]);
    assert_eq!(p8.call(1, 1, 3), [0, 0, 0]);
    assert_eq!(p8.intervals(), [[0, 0, 1, 0, 5]]);

    let mut p9 = block();
    p9.call(1, 0, 0);
    p9.call(1, 1, 2);
    assert_eq!(p9.intervals(), [[0, 0, 0, 0, 5], [1, 1, 1, 1, 6]]);
    assert_eq!((p9.inserted, p9.removed), (3, 1));
    assert_eq!(p9.call(2, 0, 0), [0, 0, 5]);
    assert_eq!(p9.intervals(), [[1, 1, 1, 1, 6]]);

    let mut p11 = block();
    p11.call(1, 0, 0);
    p11.call(2, 0, 0);
    assert_eq!(p11.call(1, 1, 4), [11, 0, 0]);
    assert_eq!(p11.call(1, 1, 5), [0, 0, 0]);
    assert_eq!(p11.call(1, 1, 5), [10, 0, 0]);
    assert_eq!(p11.call(1, 2, 5), [9, 0, 0]);
    assert_eq!(p11.call(3, 0, 5), [9, 0, 0]);
}

/// Document 02, request 3: of equal least sums the lowest column is the best, and what is left of an interval has a best of its own.
#[test]
fn the_best_of_an_interval() {
    let mut ties = Model::new(vec![vec![3, 1, 2, 1]]);
    ties.call(1, 0, 10);
    assert_eq!(ties.intervals(), [[0, 0, 3, 1, 11]]);
    assert_eq!(ties.call(2, 0, 0), [0, 1, 11]);
    assert_eq!(ties.intervals(), [[0, 0, 0, 0, 13], [0, 2, 3, 3, 11]]);

    let mut lost = Model::new(vec![vec![4, 1, 5], vec![4, 0, 3]]);
    lost.call(1, 0, 10);
    assert_eq!(lost.intervals(), [[0, 0, 2, 1, 11]]);
    lost.call(1, 1, 10);
    assert_eq!(lost.intervals(), [[0, 0, 0, 0, 14], [1, 1, 2, 1, 10]]);
    assert_eq!((lost.inserted, lost.removed), (3, 1));
}

/// Only the parent tells that an interval is unused.
#[test]
fn a_best_sum_may_be_255() {
    let (mut lengths, mut calls) = ([0; RECTANGLE], [0; CALLS]);
    lengths[..2].copy_from_slice(&[255, 900]);
    lengths[ROOM..][..2].copy_from_slice(&[900, 255]);
    calls[..6].copy_from_slice(&[1, 0, 0, 1, 1, 0]);
    let (mut answers, mut intervals) = ([7; ANSWERS], [7; INTERVALS]);
    assert_eq!(run_session(2, 2, 2, &lengths, &calls, &mut answers, &mut intervals), [0, 3, 1]);
    assert_eq!(intervals[..10], [0, 0, 0, 0, 255, 1, 1, 1, 1, 255]);
    assert_eq!(intervals[10..], [255; INTERVALS - 10]);
}

#[test]
fn p12() {
    assert_eq!(field(b"    00"), Err(3));
    for (what, bytes, number) in long_lengths() {
        assert_eq!(number_of(read(&bytes)), number, "{what}");
    }
    let mut lines = DEPOT_LISTING;
    lines[2] = "        2       11";
    assert_eq!(listing(&depot_with(&[(2, "     0100000     7     5")])), text(&lines));
}

/// The text reader with 7 in every place before: number, n, p, source, target; and the network.
fn read_lent(bytes: &[u8]) -> ([u32; 5], Lent) {
    let [mut sizes, mut vertices, mut lengths] = [SIZES, VERTICES, LENGTHS].map(|size| vec![7; size]);
    let answer = read_text(bytes, &mut sizes, &mut vertices, &mut lengths);
    (answer, Lent { n: answer[1], p: answer[2], sizes, vertices, lengths })
}

/// The route that a text asks for, in the network that the reader leaves: number, label, arcs; and the buffer, which held 7s.
fn route_lent(bytes: &[u8]) -> ([u32; 3], Vec<u32>) {
    let ([.., source, target], lent) = read_lent(bytes);
    let mut arcs = vec![7; ROUTE_PLACES];
    (route_network(&lent, source, target, &mut arcs), arcs)
}

/// The buffer of these arcs.
fn arcs_in_buffer(arcs: &[[u32; ARC_SIZE]]) -> Vec<u32> {
    let mut places = arcs.concat();
    places.resize(ROUTE_PLACES, 0);
    places
}

/// The places of a buffer that do not hold 0, with what they hold.
fn places_not_0(buffer: &[u32]) -> Vec<(usize, u32)> {
    buffer.iter().copied().enumerate().filter(|&(_, x)| x != 0).collect()
}

/// The text is refused by this number: its line is written, the reader returns 0 beside it and leaves 0 in every place.
fn assert_refused(bytes: &[u8], number: u32) {
    let (answer, lent) = read_lent(bytes);
    assert_eq!(answer, [number, 0, 0, 0, 0]);
    assert!([lent.sizes, lent.vertices, lent.lengths].concat().iter().all(|&x| x == 0));
    assert_eq!(listing(bytes), format!("refused {number}\n").as_bytes());
}

#[test]
fn p13() {
    let there = chain_and(CHAIN_QUESTION);
    assert_eq!(listing(&there), text(&CHAIN_LISTING));
    assert_eq!(route_lent(&there), ([0, 12, 2], arcs_in_buffer(&[[1, 2, 1, 5], [2, 3, 2, 7]])));
    let (answer, lent) = read_lent(&there);
    assert_eq!(answer, [0, 4, 2, 1, 3]);
    assert_eq!(places_not_0(&lent.sizes), [(0, 2), (1, 2)]);
    assert_eq!(places_not_0(&lent.vertices), [(0, 1), (1, 2), (24, 2), (25, 3)]);
    assert_eq!(places_not_0(&lent.lengths), [(1, 5), (24, 6), (577, 7), (600, 8)]);
    let back = [
        "        3        1       14        2",
        "        3        2        2        8",
        "        2        1        1        6",
    ];
    assert_eq!(listing(&chain_and("     3     1\n")), text(&back));
    let direct = ["        1        3        7        1", "        1        3        1        7"];
    assert_eq!(listing(&depot_asked("     1     3")), text(&direct));
}

#[test]
fn p14_and_p15() {
    let unreached = chain_and("     1     4\n");
    assert_eq!(listing(&unreached), b"        1        4        -        0\n");
    assert_eq!(route_lent(&unreached), ([0, UNREACHED, 0], arcs_in_buffer(&[])));
    let stay = chain_and("     3     3\n");
    assert_eq!(listing(&stay), b"        3        3        0        0\n");
    assert_eq!(route_lent(&stay), ([0, 0, 0], arcs_in_buffer(&[])));
}

#[test]
fn p16_to_p18() {
    assert_refused(&chain_and("     1     5\n"), 12);
    assert_refused(&chain_and("     1     0\n"), 12);
    assert_eq!(read_lent(&chain_and("     1\n")).0, [0, 4, 2, 1, NO_TARGET]);
    assert_eq!(route_lent(&chain_and("     1\n")), ([12, 0, 0], vec![7; ROUTE_PLACES]));
    assert_refused(&chain_and("     5     5\n"), 8);
    assert_refused(&chain_and("     5     3\n\n"), 8);
    assert_refused(&chain_and("     1     5\n\n"), 12);
    assert_refused(&chain_and("     1     3\n\n"), 3);
    assert_refused(&chain_and("     5     5     1\n"), 3);
    assert_refused(&chain_and("     5     5"), 3);
}

/// Document 02, request 4: the leg into a gate is the owner's at the take that settled it. Of equal sums that of the earliest told row
/// counts, and that of the lowest block.
#[test]
fn the_arc_of_equal_sums() {
    // from 1 to 3 in 7: straight, by 2, which is told later, or by 4, in a higher block
    assert_eq!(label_plan(&read(&text(&DEPOT)).unwrap()).route(3), [[1, 3, 1, 7]]);
    // the same arc in two pieces
    let twice = text(&[
        "     2     2",
        "     2     2     1",
        "     0     9",
        "     5     0",
        "     2     1     2",
        "     0     5",
        "     9     0",
        "     1     2",
    ]);
    assert_eq!(route_lent(&twice).1, arcs_in_buffer(&[[1, 2, 1, 5]]));
}

/// Document 02, request 5: the whole row, then all of its first half, then its second.
#[test]
fn the_index_of_a_row() {
    assert_eq!(index::of_row(&[5]), []);
    assert_eq!(index::of_row(&[5, 7]), [0]);
    // 0..5, 0..2, 2..5, 3..5: of an odd number the second half has one more
    let row = [3, 1, 2, 1, 1];
    let held = index::of_row(&row);
    assert_eq!(held, [1, 1, 3, 3]);
    for end in 1..=row.len() {
        for first in 0..end {
            assert_eq!(index::ask(&row, &held, first..end), index::scan(&row, first..end));
        }
    }
}

/// A held number that is no column of its stretch counts as the first one of it; any other counts, though a lesser one is there.
#[test]
fn any_bytes_are_asked() {
    let row = [9, 8, 7, 6];
    assert_eq!(index::ask(&row, &[4, 2, 1], 0..4), Some(0));
    assert_eq!(index::ask(&row, &[4, 2, 1], 0..2), Some(0));
    assert_eq!(index::ask(&row, &[4, 2, 1], 2..4), Some(2));
    assert_eq!(index::ask(&row, &[4, 2, 1], 1..4), Some(2));
    assert_eq!(index::ask(&row, &[2, 255, 255], 0..4), Some(2));
    assert_eq!(index::ask(&row, &[255; 3], 3..4), Some(3));
}

#[test]
fn an_index_is_judged_in_the_stated_order() {
    let lengths = lent_rectangle(&[[5, 7], [6, 4]], 7);
    let with = |place: usize, length: u32| {
        let mut lengths = lengths.clone();
        lengths[place] = length;
        lengths
    };
    let mut held = [7; INDEX];
    assert_eq!(build_index(0, 2, &lengths[1..], &mut held), 1);
    assert_eq!(build_index(0, 2, &lengths, &mut held[1..]), 1);
    assert_eq!(build_index(0, 2, &with(0, 1_000_000), &mut held), 4);
    assert_eq!(build_index(2, 25, &lengths, &mut held), 4);
    assert_eq!(build_index(2, 2, &with(0, 1_000_000), &mut held), 6);
    assert_eq!(build_index(2, 2, &with(1, 2), &mut held), 7);
    assert_eq!(build_index(2, 2, &with(0, NO_PATH), &mut held), 7);
    assert_eq!(held, [7; INDEX]);
    assert_eq!(build_index(2, 2, &lengths, &mut held), 0);
    assert_eq!((held[0], held[INDEX_ROW]), (0, 1));
    assert_eq!(held.iter().filter(|&&x| x != 0).count(), 1);
    let ask = |lengths: &[u32], [rows, cols, row, first, end]: [u32; 5]| {
        ask_index(rows, cols, lengths, &held, row, first, end)
    };
    assert_eq!(ask(&lengths[1..], [0, 2, 0, 0, 1]), [1, 0]);
    assert_eq!(ask_index(0, 2, &lengths, &held[1..], 0, 0, 1), [1, 0]);
    assert_eq!(ask(&lengths, [0, 2, 0, 0, 1]), [4, 0]);
    assert_eq!(ask(&lengths, [2, 25, 2, 0, 1]), [4, 0]);
    assert_eq!(ask(&lengths, [2, 2, 1, 0, 2]), [0, 1]);
    for [row, first, end] in [[2, 0, 1], [0, 1, 1], [0, 2, 1], [0, 0, 3], [u32::MAX; 3]] {
        assert_eq!(ask(&lengths, [2, 2, row, first, end]), [50, 0]);
    }
    // lengths are not judged once more
    assert_eq!(ask(&with(0, 1_000_000), [2, 2, 0, 0, 2]), [0, 0]);
}

// ---- no path: document 02, request 7

/// A session without calls on a rectangle, every other place holding 7. Returns its number.
fn judged(rows: &[&[u32]]) -> u32 {
    let (lengths, calls) = (lent_rectangle(rows, 7), [7; CALLS]);
    let (mut answers, mut intervals) = ([7; ANSWERS], [7; INTERVALS]);
    let (count, width) = (rows.len() as u32, rows[0].len() as u32);
    run_session(count, width, 0, &lengths, &calls, &mut answers, &mut intervals)[0]
}

/// The check: neighbouring corners, of rows and of columns, are not enough. No path is no number above the largest length.
#[test]
fn p23() {
    const X: u32 = NO_PATH;
    assert_eq!(judged(&[&[5, X, 0], &[0, X, 0]]), 7);
    assert_eq!(judged(&[&[0, X, 0], &[0, X, 1]]), 7);
    assert_eq!(judged(&[&[0, 0], &[X, X], &[0, 1]]), 7);
    assert_eq!(judged(&[&[0, X], &[X, 0]]), 0);
    assert_eq!(judged(&[&[X, 0], &[0, X]]), 7);
    assert_eq!(judged(&[&[0, X], &[0, 0]]), 0);
    assert_eq!(judged(&[&[X, 0], &[0, 0]]), 7);
    assert_eq!(judged(&[&[X, X], &[X, X]]), 0);
    assert_eq!(judged(&[&[X]]), 0);
    assert_eq!(judged(&[&[X - 1]]), 6);
    assert_eq!(judged(&[&[MAX_LENGTH + 1]]), 6);
}

/// A length field.
#[test]
fn p24_to_p26() {
    let (answer, lent) = read_lent(&one_way_and("     3\n"));
    assert_eq!(answer, [0, 3, 2, 3, NO_TARGET]);
    assert_eq!(places_not_0(&lent.lengths), [(1, NO_PATH), (24, 6), (577, 7), (600, 8)]);
    assert_eq!(length(b"     -"), Ok(NO_PATH));
    for bytes in [b"-     ", b"    - ", b"    --", b"    -3", b"   - -", b"0    -", b"\t    -"] {
        assert_eq!(length(bytes), Err(3), "{bytes:?}");
    }
    // never on the diagonal, and nowhere else than in a table
    assert_refused(&depot_with(&[(2, "     -     3     7     5")]), 6);
    assert_refused(&one_way_and("     -\n"), 3);
    assert_refused(&one_way_and("     3     -\n"), 3);
    assert_eq!(field(b"     -"), Err(3));
}

#[test]
fn p27() {
    let alone = [
        "        1        1        0        0",
        "        1        0",
        "        2        -",
        "        3        -",
    ];
    assert_eq!(listing(&one_way_and("     1\n")), text(&alone));
    let back = [
        "        3        3        3        3",
        "        1       14",
        "        2        8",
        "        3        0",
    ];
    assert_eq!(listing(&one_way_and("     3\n")), text(&back));
    let unreached = one_way_and("     1     3\n");
    assert_eq!(listing(&unreached), b"        1        3        -        0\n");
    assert_eq!(route_lent(&unreached), ([0, UNREACHED, 0], arcs_in_buffer(&[])));
}

/// A closed column lies in no interval: an activation inserts four, with what is left on both sides.
#[test]
fn p28() {
    const X: u32 = NO_PATH;
    let mut model = Model::new(vec![vec![0, 1, X, 3, 4], vec![2, 1, X, 1, 2], vec![4, 3, X, 1, 0]]);
    model.call(1, 0, 1);
    model.call(1, 2, 1);
    assert_eq!(model.intervals(), [[0, 0, 1, 0, 1], [2, 3, 4, 4, 1]]);
    assert_eq!((model.inserted, model.removed), (3, 1));
    model.call(1, 1, 0);
    let kept = [[0, 0, 0, 0, 1], [1, 1, 1, 1, 1], [1, 3, 3, 3, 1], [2, 4, 4, 4, 1]];
    assert_eq!(model.intervals(), kept);
    assert_eq!((model.inserted, model.removed), (7, 3));
}

/// A column without a path is never handed out, and one that a later row reaches is.
#[test]
fn p29() {
    let mut closed = Model::new(vec![vec![5, NO_PATH], vec![6, NO_PATH]]);
    closed.call(1, 0, 0);
    closed.call(1, 1, 0);
    assert_eq!(closed.call(2, 0, 0), [0, 0, 5]);
    assert_eq!(closed.call(2, 0, 0), [50, 0, 0]);
    assert_eq!((closed.inserted, closed.removed), (1, 1));

    let mut later = Model::new(vec![vec![5, NO_PATH], vec![6, 4]]);
    later.call(1, 0, 0);
    assert_eq!(later.call(2, 0, 0), [0, 0, 5]);
    assert_eq!(later.call(2, 0, 0), [50, 0, 0]);
    later.call(1, 1, 5);
    assert_eq!(later.intervals(), [[1, 1, 1, 1, 9]]);
    assert_eq!(later.call(2, 0, 0), [0, 1, 9]);
    assert_eq!((later.inserted, later.removed), (2, 2));
}

/// A stretch that is all no path has its lowest column.
#[test]
fn p30() {
    let row = [3, NO_PATH, NO_PATH, NO_PATH, 1];
    let held = index::of_row(&row);
    assert_eq!(held, [4, 0, 4, 4]);
    assert_eq!(index::ask(&row, &held, 1..4), Some(1));
    assert_eq!(index::ask(&row, &held, 2..4), Some(2));
    assert_eq!(index::ask(&row, &held, 1..5), Some(4));
}

/// How many columns of a session's rectangle are closed, and how many intervals each call inserts.
fn insertions(s: &Session) -> (u32, Vec<u32>) {
    let row = |i: usize| s.lengths[ROOM * i..][..s.cols as usize].to_vec();
    let rectangle: Vec<Vec<u32>> = (0..s.rows as usize).map(row).collect();
    let closed = closed_columns(&rectangle) as u32;
    let mut model = Model::new(rectangle);
    let calls = s.calls.chunks(3).take(s.count as usize);
    let inserted = calls.map(|call| {
        let before = model.inserted;
        model.call(call[0], call[1], call[2]);
        model.inserted - before
    });
    (closed, inserted.collect())
}

/// An activation inserts at most three intervals, and one more for each closed column.
#[test]
fn the_intervals_of_an_activation() {
    let mut rng = Rng::new(71);
    for kind in KINDS.repeat(400) {
        let s = session(kind, 7, &mut rng);
        let (closed, inserted) = insertions(&s);
        assert!(inserted.iter().all(|&count| count <= 3 + closed), "{s:?}");
    }
    for closed in 0..=10 {
        let (counted, inserted) = insertions(&most_inserted(closed as usize));
        assert_eq!((counted, inserted[2]), (closed, 3 + closed));
    }
}

#[test]
fn the_largest_label() {
    let plan = farthest(&mut Rng::new(72));
    let (done, target) = (label_plan(&plan), plan.target.unwrap());
    assert_eq!((done.reached, done.label(target)), (256, MAX_LABEL));
    assert_eq!(done.route(target).len(), MAX_ARCS);
    let lines = listing(&write(&plan));
    assert!(lines.starts_with(format!("{:9}{target:9}254999745      255\n", plan.source).as_bytes()));
}

#[test]
fn the_longest_route_fills_buffer_and_listing() {
    let bytes = write(&path(&mut Rng::new(1)));
    let ([number, _, count], arcs) = route_lent(&bytes);
    assert_eq!((number, count as usize), (0, MAX_ARCS));
    assert!(arcs.iter().all(|&x| x != 0));
    assert_eq!(listing(&bytes).len(), LISTING);
}

#[test]
fn sizes_and_bounds_are_the_stated_ones() {
    assert_eq!([SIZES, VERTICES, LENGTHS, LABELS], [16, 384, 9_216, 256]);
    assert_eq!([RECTANGLE, CALLS, ANSWERS, INTERVALS], [576, 192, 192, 120]);
    assert_eq!([MAX_ARCS, ARC_SIZE, ROUTE_PLACES], [255, 4, 1_020]);
    assert_eq!([INDEX_ROW, INDEX], [23, 552]);
    assert_eq!([LINE, LISTING], [36, 9_472]);
    assert_eq!([MAX_LENGTH, MAX_LABEL, NO_PATH], [999_999, 254_999_745, 4_294_967_295]);
}

#[test]
fn damaged_texts_give_their_number() {
    for (what, bytes, number) in texts() {
        assert_eq!(number_of(read(&bytes)), number, "{what}");
    }
}

#[test]
fn a_network_is_judged_in_the_stated_order() {
    let lent = Lent::of(&read(&text(&DEPOT)).unwrap(), 7);
    assert_eq!(check_network(&lent), 0);
    let check = |spoil: &dyn Fn(&mut Lent)| {
        let mut spoiled = lent.clone();
        spoil(&mut spoiled);
        check_network(&spoiled)
    };
    assert_eq!(check(&|l| l.sizes.truncate(15)), 1);
    assert_eq!(check(&|l| l.vertices.push(0)), 1);
    assert_eq!(check(&|l| l.lengths.clear()), 1);
    assert_eq!(check(&|l| l.n = 257), 4);
    assert_eq!(check(&|l| l.p = 17), 4);
    assert_eq!(check(&|l| l.p = 2), 5); // the unused 7s: a piece of 7 gates, the first one above n
    assert_eq!(check(&|l| l.sizes[0] = 25), 4);
    assert_eq!(check(&|l| l.vertices[1] = 1), 5);
    assert_eq!(check(&|l| l.lengths[25] = 1), 6);
    assert_eq!(check(&|l| l.lengths[25] = NO_PATH), 6);
    assert_eq!(check(&|l| l.lengths[1] = 999_999), 0);
    assert_eq!(check(&|l| l.lengths[1] = 1_000_000), 6);
    assert_eq!(check(&|l| l.lengths[1] = NO_PATH - 1), 6);
    assert_eq!(check(&|l| l.lengths[1] = NO_PATH), 0);
    assert_eq!(check(&|l| l.lengths[3] = 10), 7);
    assert_eq!(check(&|l| l.lengths[3] = NO_PATH), 7);
    assert_eq!(check(&|l| l.lengths[4] = NO_PATH - 1), 0); // not read
    let mut labels = [7; LABELS];
    assert_eq!(label_network(&lent, 0, &mut labels), [8, 0, 0, 0]);
    assert_eq!(label_network(&lent, 6, &mut labels), [8, 0, 0, 0]);
    assert_eq!(label_network(&lent, 1, &mut labels[..LABELS - 1]), [1, 0, 0, 0]);
    assert_eq!(labels, [7; LABELS]);
    assert_eq!(label_network(&lent, 1, &mut labels), [0, 4, 8, 8]);
    assert_eq!(labels[..6], [0, 3, 7, 5, UNREACHED, UNREACHED]);
    let mut arcs = [7; ROUTE_PLACES];
    assert_eq!(route_network(&lent, 6, 6, &mut arcs[1..]), [1, 0, 0]);
    assert_eq!(route_network(&lent, 6, 6, &mut arcs), [8, 0, 0]);
    assert_eq!(route_network(&lent, 1, 6, &mut arcs), [12, 0, 0]);
    assert_eq!(route_network(&lent, 1, 0, &mut arcs), [12, 0, 0]);
    assert_eq!(route_network(&Lent { n: 257, ..lent.clone() }, 1, 0, &mut arcs), [4, 0, 0]);
    assert_eq!(arcs, [7; ROUTE_PLACES]);
    assert_eq!(route_network(&lent, 1, 4, &mut arcs), [0, 5, 1]);
}
