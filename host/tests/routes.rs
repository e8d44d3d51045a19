//! The route to a target in a lent network against the model, and against what document 02, request 4, says of every route.

use rabdzhine::{
    route_network, RouteAnswer, ARC_SIZE, MAX_ARCS, MAX_LABEL, MAX_LENGTH, NO_PATH, NO_TARGET, ROUTE_PLACES,
    UNREACHED,
};
use reference::damage::{chain_and, one_way_and, spoiled_lent, CHAIN_QUESTION};
use reference::model::label_plan;
use reference::network::{Lent, Plan, LABELS};
use reference::plans::{all, farthest, path, Rng};
use reference::routes::assert_route;
use reference::{dijkstra, entries, text};
use std::collections::BTreeSet;

fn route(lent: &Lent, source: u32, target: u32, arcs: &mut [u32]) -> RouteAnswer {
    let Lent { n, p, sizes, vertices, lengths } = lent;
    route_network(*n, *p, sizes, vertices, lengths, source, target, arcs)
}

/// The buffer starts with 7 in it, and a refusal leaves it. Returns the number.
fn compare(lent: &Lent, source: u32, target: u32, places: usize) -> u32 {
    let (mut arcs, mut expected) = (vec![7; places], vec![7; places]);
    let answer = route(lent, source, target, &mut arcs);
    let [number, label, count] = entries::route_network(lent, source, target, &mut expected);
    assert_eq!(answer, RouteAnswer { number, label, arcs: count });
    assert!(arcs == expected, "the arcs differ");
    if number != 0 {
        assert_eq!((answer.label, answer.arcs), (0, 0));
        assert!(arcs.iter().all(|&x| x == 7), "refusal {number} writes");
    }
    number
}

/// The routes from the plan's source to every vertex are the model's and what they must be, with a plain Dijkstra's labels. Returns how
/// many arcs the longest has.
fn compare_every_target(plan: &Plan) -> usize {
    // what stands in places that are not used must not matter
    let lent = Lent::of(plan, NO_PATH - 1);
    let done = label_plan(plan);
    let mut labels = [0; LABELS];
    dijkstra::label(&lent, plan.source, &mut labels);
    let mut most = 0;
    for (target, label) in (1..=plan.n).zip(labels) {
        let expected = done.route(target);
        let mut arcs = [7; ROUTE_PLACES];
        let answer = route(&lent, plan.source, target, &mut arcs);
        assert_eq!(answer, RouteAnswer { number: 0, label, arcs: expected.len() as u32 });
        let (used, unused) = arcs.split_at(ARC_SIZE * expected.len());
        let (found, _) = used.as_chunks();
        assert_eq!(found, expected, "to {target}");
        assert_route(plan, target, label, found);
        assert!(unused.iter().all(|&x| x == 0), "to {target}");
        most = most.max(found.len());
    }
    most
}

#[test]
fn the_chain_example() {
    let plan = text::read(&chain_and(CHAIN_QUESTION)).expect("a sound text");
    let lent = Lent::of(&plan, 7);
    let shown = |source: u32, target: u32| {
        let mut arcs = [7; ROUTE_PLACES];
        let RouteAnswer { number, label, arcs: count } = route(&lent, source, target, &mut arcs);
        (number, label, count, arcs[..9].to_vec())
    };
    assert_eq!(shown(1, 3), (0, 12, 2, vec![1, 2, 1, 5, 2, 3, 2, 7, 0]));
    assert_eq!(shown(3, 1), (0, 14, 2, vec![3, 2, 2, 8, 2, 1, 1, 6, 0]));
    assert_eq!(shown(1, 4), (0, UNREACHED, 0, vec![0; 9]));
    assert_eq!(shown(3, 3), (0, 0, 0, vec![0; 9]));
    assert_eq!(shown(1, 5), (12, 0, 0, vec![7; 9]));
    assert_eq!(shown(1, NO_TARGET), (12, 0, 0, vec![7; 9]));
    assert_eq!(shown(5, 5), (8, 0, 0, vec![7; 9]));
}

/// To a vertex behind a closed track there is no route; the way back is open.
#[test]
fn a_closed_track() {
    let plan = text::read(&one_way_and("     1     3\n")).expect("a sound text");
    let lent = Lent::of(&plan, 7);
    let mut arcs = [7; ROUTE_PLACES];
    let unreached = RouteAnswer { number: 0, label: UNREACHED, arcs: 0 };
    assert_eq!(route(&lent, 1, 3, &mut arcs), unreached);
    assert_eq!(arcs, [0; ROUTE_PLACES]);
    assert_eq!(route(&lent, 3, 1, &mut arcs), RouteAnswer { number: 0, label: 14, arcs: 2 });
    assert_eq!(arcs[..9], [3, 2, 2, 8, 2, 1, 1, 6, 0]);
    compare_every_target(&plan);
}

/// A chain of 256 vertices: 255 arcs of the largest length.
#[test]
fn the_route_of_the_largest_label() {
    let plan = farthest(&mut Rng::new(58));
    let (lent, target) = (Lent::of(&plan, 7), plan.target.expect("the last vertex"));
    let mut arcs = [7; ROUTE_PLACES];
    let answer = route(&lent, plan.source, target, &mut arcs);
    assert_eq!(answer, RouteAnswer { number: 0, label: MAX_LABEL, arcs: MAX_ARCS as u32 });
    assert!(arcs.chunks(ARC_SIZE).all(|arc| arc[3] == MAX_LENGTH));
    assert_eq!(compare_every_target(&plan), MAX_ARCS);
}

/// No route uses an arc that is no path: `assert_route` sees to it.
#[test]
fn every_source_and_target_of_plans_with_no_path() {
    let plans = all(59);
    for plan in plans.iter().filter(|plan| plan.has_no_path() && plan.n <= 30).take(40) {
        for source in 1..=plan.n {
            compare_every_target(&Plan { source, ..plan.clone() });
        }
    }
}

#[test]
fn every_target_of_sound_networks() {
    for plan in all(51) {
        compare_every_target(&plan);
    }
}

#[test]
fn every_source_and_target_of_a_plan() {
    let plans = all(52);
    let mut most = 0;
    for plan in plans.iter().filter(|plan| (9..=40).contains(&plan.n)).take(12) {
        for source in 1..=plan.n {
            most = most.max(compare_every_target(&Plan { source, ..plan.clone() }));
        }
    }
    assert!(most > 5); // there was a way to be found
}

#[test]
fn the_longest_route_fills_the_buffer() {
    let plan = path(&mut Rng::new(53));
    let (lent, target) = (Lent::of(&plan, 0), plan.target.expect("the last vertex"));
    let mut arcs = [0; ROUTE_PLACES];
    assert_eq!(route(&lent, plan.source, target, &mut arcs).arcs, MAX_ARCS as u32);
    assert!(arcs.iter().all(|&x| x != 0));
    assert_eq!(compare(&lent, plan.source, target, ROUTE_PLACES), 0);
    // no short arc leads back
    assert_eq!(compare(&lent, target, plan.source, ROUTE_PLACES), 0);
}

#[test]
fn sources_and_targets_that_are_not_there() {
    for plan in all(54).iter().take(20) {
        let lent = Lent::of(plan, 0);
        for outside in [0, plan.n + 1, 257, u32::MAX] {
            for other in [0, 1, plan.n, plan.n + 1] {
                assert_eq!(compare(&lent, outside, other, ROUTE_PLACES), 8);
            }
            assert_eq!(compare(&lent, plan.source, outside, ROUTE_PLACES), 12);
        }
    }
}

#[test]
fn spoiled_networks() {
    let mut rng = Rng::new(55);
    let mut met = BTreeSet::new();
    for plan in all(56).iter().filter(|plan| plan.pieces.len() < 16) {
        for _ in 0..20 {
            let lent = spoiled_lent(&Lent::of(plan, 7), &mut rng);
            let (source, target) = (rng.pick(&[0, 1, plan.source]), rng.pick(&[0, 1, plan.n, plan.n + 1]));
            met.insert(compare(&lent, source, target, ROUTE_PLACES));
        }
    }
    assert_eq!(met, BTreeSet::from([0, 4, 5, 6, 7, 8, 12]));
}

#[test]
fn buffers_of_another_size() {
    let sound = Lent::of(&all(57)[0], 0);
    for places in [0, ROUTE_PLACES - ARC_SIZE, ROUTE_PLACES - 1, ROUTE_PLACES + 1] {
        for (source, target) in [(1, 1), (0, 1), (1, 0)] {
            assert_eq!(compare(&sound, source, target, places), 1);
        }
        assert_eq!(compare(&Lent { n: 0, ..sound.clone() }, 1, 1, places), 1);
    }
    for k in 0..3 {
        for more in [false, true] {
            let mut lent = Lent { n: 0, ..sound.clone() };
            let buffers = [&mut lent.sizes, &mut lent.vertices, &mut lent.lengths];
            let buffer = &mut *buffers[k];
            buffer.resize(if more { buffer.len() + 1 } else { buffer.len() - 1 }, 1);
            assert_eq!(compare(&lent, 0, 0, ROUTE_PLACES), 1);
        }
    }
}
