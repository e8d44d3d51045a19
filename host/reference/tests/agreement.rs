//! The model, the plain Dijkstra and the unproved FR-Dijkstra against each other, and what every route must be, on plans of all sorts.

use reference::damage::spoiled_lent;
use reference::entries::check_network;
use reference::fr_dijkstra::Counts;
use reference::model::{label_plan, MAX_LABEL, UNREACHED};
use reference::network::{
    blocks, plus, rectangle, weight, Lent, Piece, Plan, LABELS, MAX_ARCS, MAX_LENGTH, NO_PATH, ROOM,
};
use reference::plans::{all, Rng};
use reference::routes::assert_route;
use reference::text::{read, write};
use reference::{dijkstra, fr_dijkstra};
use std::collections::{BTreeMap, BTreeSet};

#[test]
fn generated_plans_are_accepted() {
    for plan in all(1) {
        assert_eq!(read(&write(&plan)), Ok(plan));
    }
}

#[test]
fn labels_and_counts_agree() {
    for (k, plan) in all(2).into_iter().enumerate() {
        let lent = Lent::of(&plan, 7);
        let done = label_plan(&plan);
        let mut labels = vec![7; LABELS];
        dijkstra::label(&lent, plan.source, &mut labels);
        assert_eq!(labels, done.labels, "plan {k}");
        labels.fill(7);
        let counts = fr_dijkstra::label(&lent, plan.source, &mut labels);
        assert_eq!(labels, done.labels, "plan {k}");
        let expected = Counts { reached: done.reached, extracted: done.extracted, inserted: done.inserted };
        assert_eq!(counts, expected, "plan {k}");
        assert!(plan.has_no_path() || done.inserted <= 5 * weight(&plan), "plan {k}");
    }
}

/// The linear check of the unproved program against the definition, which compares every two rows and every two columns: on all blocks
/// of three rows and three columns with these lengths.
#[test]
fn checks_of_small_blocks_agree() {
    let choices = [0, 1, NO_PATH];
    let places = [3, 4, 5].map(|j| [0, 1, 2].map(|i| ROOM * i + j)).concat();
    let table = vec![vec![0; 6]; 6];
    let piece = Piece { vertices: (1..=6).collect(), lengths: table };
    let mut lent = Lent::of(&Plan { n: 6, pieces: vec![piece], source: 1, target: None }, 7);
    let mut met = BTreeMap::new();
    for number in 0..3usize.pow(9) {
        let mut rest = number;
        for &place in &places {
            lent.lengths[place] = choices[rest % 3];
            rest /= 3;
        }
        let answer = check_network(&lent);
        assert_eq!(fr_dijkstra::check(&lent), answer, "{:?}", lent.lengths);
        *met.entry(answer).or_insert(0) += 1;
    }
    assert!(met.len() == 2 && met[&0] > 1_000 && met[&7] > 1_000, "{met:?}");
}

#[test]
fn routes_are_what_they_should_be() {
    for plan in all(5) {
        let done = label_plan(&plan);
        for v in 1..=plan.n {
            assert_route(&plan, v, done.label(v), &done.route(v));
        }
    }
}

#[test]
fn checks_agree() {
    let mut rng = Rng::new(3);
    let mut met = BTreeSet::new();
    for plan in all(3) {
        for _ in 0..20 {
            let lent = spoiled_lent(&Lent::of(&plan, 7), &mut rng);
            let number = check_network(&lent);
            assert_eq!(fr_dijkstra::check(&lent), number);
            met.insert(number);
        }
    }
    assert_eq!(met, BTreeSet::from([0, 4, 5, 6, 7]));
}

#[test]
fn plans_cover_what_they_should() {
    let plans = all(4);
    let some = |test: &dyn Fn(&Plan) -> bool| plans.iter().any(test);
    for m in [1, 2, 23, 24] {
        assert!(some(&|plan| plan.pieces.iter().any(|q| q.vertices.len() == m)));
    }
    assert!(some(&|plan| plan.pieces.len() == 16 && plan.n == 256));
    assert!(some(&|plan| label_plan(plan).reached < plan.n));
    let length = |plan: &Plan, l: u32| plan.pieces.iter().flat_map(|q| q.lengths.concat()).any(|x| x == l);
    assert!(some(&|plan| length(plan, MAX_LENGTH)));
    assert!(some(&breaks_triangle_rule));
    assert!(some(&|plan| one_way(plan)));
    assert!(some(&|plan| plan.target.is_none()));
    assert!(some(&|plan| plan.target == Some(plan.source)));
    assert!(some(&|plan| plan.target.is_some_and(|v| label_plan(plan).label(v) == UNREACHED)));
    let label = |plan: &Plan| plan.target.map(|v| label_plan(plan).label(v));
    assert!(some(&|plan| label(plan) == Some(MAX_LABEL)));
    let arcs = |plan: &Plan| plan.target.map_or(0, |v| label_plan(plan).route(v).len());
    assert!(some(&|plan| (5..20).contains(&arcs(plan))));
    assert!(some(&|plan| arcs(plan) == MAX_ARCS));
}

/// Where tracks are closed.
#[test]
fn plans_have_no_path_where_they_should() {
    let plans = all(6);
    let some = |test: &dyn Fn(&Piece, usize) -> bool| {
        let has = |q: &Piece| q.vertices.len() > 2 && test(q, q.vertices.len());
        plans.iter().any(|plan| plan.pieces.iter().any(has))
    };
    let closed = |q: &Piece, i: usize, j: usize| i == j || q.lengths[i][j] == NO_PATH;
    let all_closed = |q: &Piece, m: usize| (0..m).all(|i| (0..m).all(|j| closed(q, i, j)));
    assert!(some(&all_closed));
    // a vertex that no run leads from, one that no run leads to, in a piece with other runs
    assert!(some(&|q, m| !all_closed(q, m) && (0..m).any(|i| (0..m).all(|j| closed(q, i, j)))));
    assert!(some(&|q, m| !all_closed(q, m) && (0..m).any(|j| (0..m).all(|i| closed(q, i, j)))));
    // one way round
    assert!(some(&|q, m| (0..m).all(|i| (0..m).all(|j| closed(q, i, j) != ((i + 1) % m == j)))));
    // a closed column between two others of a block, which a row reaches
    assert!(some(&|q, m| blocks(m).iter().any(|b| has_gap(&rectangle(q, b)))));
    // a network of one piece at least that is cut in two
    assert!(plans.iter().any(is_cut_in_two));
    assert!(plans.iter().filter(|plan| plan.has_no_path()).count() > plans.len() / 3);
}

fn has_gap(e: &[Vec<u32>]) -> bool {
    let is_closed = |k: usize| e.iter().all(|row| row[k] == NO_PATH);
    let open = |row: &[u32]| row.iter().any(|&l| l != NO_PATH);
    (0..e[0].len()).any(|k| is_closed(k) && e.iter().any(|row| open(&row[..k]) && open(&row[k..])))
}

/// Vertices of one half and of the other share a piece, and no label of the other half is a number.
fn is_cut_in_two(plan: &Plan) -> bool {
    let is_second = |v: u32| v > plan.n / 2;
    let other_half = |v: u32| is_second(v) != is_second(plan.source);
    let done = label_plan(plan);
    let shared = |q: &Piece| q.vertices.contains(&plan.source) && q.vertices.iter().any(|&v| other_half(v));
    done.reached > 1
        && plan.pieces.iter().any(shared)
        && (1..=plan.n).all(|v| !other_half(v) || done.label(v) == UNREACHED)
}

fn breaks_triangle_rule(plan: &Plan) -> bool {
    plan.pieces.iter().any(|q| {
        let m = q.vertices.len();
        let shorter = |i: usize, j: usize, k: usize| plus(q.lengths[i][j], q.lengths[j][k]) < q.lengths[i][k];
        (0..m).any(|i| (0..m).any(|j| (0..m).any(|k| shorter(i, j, k))))
    })
}

fn one_way(plan: &Plan) -> bool {
    plan.pieces.iter().any(|q| {
        let m = q.vertices.len();
        (0..m).any(|i| (0..i).any(|j| q.lengths[i][j] != q.lengths[j][i]))
    })
}
