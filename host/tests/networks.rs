//! The check and the labelling of a lent network against the model and against a plain Dijkstra.

use rabdzhine::{check_network, label_network, LabelAnswer, LABELS, MAX_LABEL, NO_PATH, UNREACHED};
use reference::damage::{one_way_and, spoiled_lent};
use reference::network::{Lent, ROOM};
use reference::plans::{all, farthest, Rng};
use reference::{dijkstra, entries, text};
use std::collections::BTreeSet;

fn check(lent: &Lent) -> u32 {
    check_network(lent.n, lent.p, &lent.sizes, &lent.vertices, &lent.lengths)
}

/// The label buffer starts with 7 in it. Returns the number.
fn compare(lent: &Lent, source: u32, places: usize) -> u32 {
    let (mut labels, mut expected) = (vec![7; places], vec![7; places]);
    let Lent { n, p, sizes, vertices, lengths } = lent;
    let answer = label_network(*n, *p, sizes, vertices, lengths, source, &mut labels);
    let [number, reached, extracted, inserted] = entries::label_network(lent, source, &mut expected);
    assert_eq!(answer, LabelAnswer { number, reached, extracted, inserted });
    assert!(labels == expected, "the labels differ");
    if number == 0 {
        dijkstra::label(lent, source, &mut expected);
        assert!(labels == expected, "plain Dijkstra gives other labels");
    }
    number
}

#[test]
fn sound_networks() {
    for plan in all(21) {
        // what stands in places that are not used must not matter
        for unused in [0, 7, NO_PATH - 1, NO_PATH] {
            assert_eq!(check(&Lent::of(&plan, unused)), 0);
        }
        assert_eq!(compare(&Lent::of(&plan, NO_PATH - 1), plan.source, LABELS), 0);
    }
}

#[test]
fn every_source_of_a_plan() {
    let plans = all(22);
    for plan in plans.iter().filter(|plan| plan.n <= 40).take(12) {
        let lent = Lent::of(plan, 0);
        for source in 1..=plan.n {
            assert_eq!(compare(&lent, source, LABELS), 0);
        }
        for source in [0, plan.n + 1, 257, u32::MAX] {
            assert_eq!(compare(&lent, source, LABELS), 8);
        }
    }
}

/// The labels of a network that is accepted.
fn labels_of(lent: &Lent, source: u32) -> Vec<u32> {
    let mut labels = vec![7; LABELS];
    let Lent { n, p, sizes, vertices, lengths } = lent;
    assert_eq!(label_network(*n, *p, sizes, vertices, lengths, source, &mut labels).number, 0);
    labels
}

/// Vertices behind a closed track are not reached, and they reach the others.
#[test]
fn a_closed_track() {
    let lent = Lent::of(&text::read(&one_way_and("     1\n")).expect("a sound text"), 7);
    assert_eq!(labels_of(&lent, 1)[..4], [0, UNREACHED, UNREACHED, UNREACHED]);
    assert_eq!(labels_of(&lent, 2)[..4], [6, 0, 7, UNREACHED]);
    assert_eq!(labels_of(&lent, 3)[..4], [14, 8, 0, UNREACHED]);
}

/// A chain of 256 vertices, each arc of the largest length: the label of the last one is the largest there is.
#[test]
fn the_largest_label() {
    let plan = farthest(&mut Rng::new(26));
    let (lent, target) = (Lent::of(&plan, 0), plan.target.expect("the last vertex"));
    let labels = labels_of(&lent, plan.source);
    assert_eq!(labels[target as usize - 1], MAX_LABEL);
    assert_eq!(labels.iter().max(), Some(&MAX_LABEL));
    assert_eq!(compare(&lent, plan.source, LABELS), 0);
    assert_eq!(labels_of(&lent, target).iter().filter(|&&label| label != UNREACHED).count(), 1);
}

/// From every source, also from those that no run leads from.
#[test]
fn every_source_of_plans_with_no_path() {
    let plans = all(27);
    let small: Vec<_> = plans.iter().filter(|plan| plan.has_no_path() && plan.n <= 60).collect();
    assert!(small.len() > 40);
    for plan in small {
        let lent = Lent::of(plan, NO_PATH - 1);
        for source in 1..=plan.n {
            assert_eq!(compare(&lent, source, LABELS), 0);
        }
    }
}

#[test]
fn many_plans_with_no_path() {
    for seed in 200..212 {
        for plan in all(seed).iter().filter(|plan| plan.has_no_path()) {
            let lent = Lent::of(plan, 7);
            assert_eq!(check(&lent), 0);
            assert_eq!(compare(&lent, plan.source, LABELS), 0);
        }
    }
}

/// Never on the diagonal; off it the number below no path is no length.
#[test]
fn no_path_where_it_may_not_be() {
    let plans = all(28);
    for plan in plans.iter().filter(|plan| plan.pieces[0].vertices.len() > 1).take(60) {
        let sound = Lent::of(plan, 7);
        let with = |place: usize, length: u32| {
            let mut lent = sound.clone();
            lent.lengths[place] = length;
            compare(&lent, plan.source, LABELS)
        };
        let m = plan.pieces[0].vertices.len();
        for i in [0, m - 1] {
            assert_eq!(with(ROOM * i + i, NO_PATH), 6);
        }
        assert_eq!(with(1, NO_PATH - 1), 6);
        assert!([0, 7].contains(&with(1, NO_PATH)));
    }
}

#[test]
fn spoiled_networks() {
    let mut rng = Rng::new(23);
    let mut met = BTreeSet::new();
    for plan in all(24).iter().filter(|plan| plan.pieces.len() < 16) {
        for _ in 0..40 {
            let lent = spoiled_lent(&Lent::of(plan, 7), &mut rng);
            assert_eq!(check(&lent), entries::check_network(&lent));
            met.insert(compare(&lent, rng.pick(&[0, 1, plan.source]), LABELS));
        }
    }
    assert_eq!(met, BTreeSet::from([0, 4, 5, 6, 7, 8]));
}

#[test]
fn buffers_of_another_size() {
    let plan = &all(25)[0];
    let sound = Lent::of(plan, 0);
    for places in [0, LABELS - 1, LABELS + 1] {
        assert_eq!(compare(&sound, 1, places), 1);
        assert_eq!(compare(&sound, 0, places), 1);
    }
    for k in 0..3 {
        for more in [false, true] {
            let mut lent = Lent { n: 0, ..sound.clone() };
            let buffers = [&mut lent.sizes, &mut lent.vertices, &mut lent.lengths];
            let buffer = &mut *buffers[k];
            let size = if more { buffer.len() + 1 } else { buffer.len() - 1 };
            *buffer = vec![1; size];
            assert_eq!(check(&lent), 1);
            assert_eq!(compare(&lent, 1, LABELS), 1);
        }
    }
}
