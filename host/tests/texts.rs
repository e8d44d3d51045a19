//! The text reader and the listing against the model, on sound and on damaged texts.

use rabdzhine::{read_text, write_listing, ReadAnswer, LENGTHS, LISTING, NO_PATH, SIZES, VERTICES};
use reference::damage::{chain_and, long_lengths, one_way_and, scratched, spoiled, text, texts};
use reference::damage::{CHAIN_LISTING, CHAIN_QUESTION, DEPOT, DEPOT_LISTING};
use reference::entries;
use reference::network::Plan;
use reference::plans::{all, farthest, path, Rng};
use reference::text::write;
use std::collections::BTreeSet;

/// Every buffer starts with 7 in it, so that what is left and what is written shows. Returns the number.
fn compare(what: &str, bytes: &[u8], places: [usize; 3]) -> u32 {
    let mut buffers = places.map(|size| vec![7; size]);
    let mut expected = buffers.clone();
    let [sizes, vertices, lengths] = &mut buffers;
    let answer = read_text(bytes, sizes, vertices, lengths);
    let [sizes, vertices, lengths] = &mut expected;
    let [number, n, p, source, target] = entries::read_text(bytes, sizes, vertices, lengths);
    assert_eq!(answer, ReadAnswer { number, n, p, source, target }, "{what}");
    assert!(buffers == expected, "the buffers differ: {what}");
    number
}

fn compare_listing(what: &str, bytes: &[u8], size: usize) {
    let (mut out, mut expected) = (vec![b'.'; size], vec![b'.'; size]);
    let written = write_listing(bytes, &mut out);
    assert_eq!(written, entries::write_listing(bytes, &mut expected), "{what}");
    assert!(out == expected, "the listings differ: {what}");
}

const PLACES: [usize; 3] = [SIZES, VERTICES, LENGTHS];

#[test]
fn the_depot_and_the_chain_example() {
    let chain = chain_and(CHAIN_QUESTION);
    for (bytes, listing) in [(text(&DEPOT), text(&DEPOT_LISTING)), (chain, text(&CHAIN_LISTING))] {
        let mut out = [0; LISTING];
        let written = write_listing(&bytes, &mut out);
        assert_eq!(out[..written], listing);
    }
}

/// A length field that is `-`, and what is listed where no run leads.
#[test]
fn a_closed_track() {
    let bytes = one_way_and("     1\n");
    let (mut sizes, mut vertices, mut lengths) = ([7; SIZES], [7; VERTICES], [7; LENGTHS]);
    assert_eq!(read_text(&bytes, &mut sizes, &mut vertices, &mut lengths).number, 0);
    assert_eq!(lengths[..3], [0, NO_PATH, 0]);
    let listing = [
        "        1        1        0        0",
        "        1        0",
        "        2        -",
        "        3        -",
    ];
    let mut out = [0; LISTING];
    let written = write_listing(&bytes, &mut out);
    assert_eq!(out[..written], text(&listing));
    for tail in ["     1\n", "     3\n", "     1     3\n", "     3     1\n", "     -\n", "     1     -\n"] {
        compare(tail, &one_way_and(tail), PLACES);
        compare_listing(tail, &one_way_and(tail), LISTING);
    }
}

/// The largest label fills its nine columns.
#[test]
fn the_largest_label_is_listed() {
    let plan = farthest(&mut Rng::new(15));
    for target in [None, plan.target] {
        let bytes = write(&Plan { target, ..plan.clone() });
        compare_listing("the largest label", &bytes, LISTING);
        let mut out = [0; LISTING];
        let written = write_listing(&bytes, &mut out);
        assert!(String::from_utf8_lossy(&out[..written]).contains("254999745"));
    }
}

#[test]
fn the_longest_listing_fills_the_buffer() {
    let bytes = write(&path(&mut Rng::new(14)));
    assert_eq!(write_listing(&bytes, &mut [0; LISTING]), LISTING);
}

/// Every plan is also asked for its labels.
#[test]
fn sound_texts() {
    for (k, plan) in all(11).into_iter().enumerate() {
        for target in BTreeSet::from([None, plan.target]) {
            let bytes = write(&Plan { target, ..plan.clone() });
            let what = format!("plan {k}, target {target:?}");
            assert_eq!(compare(&what, &bytes, PLACES), 0);
            compare_listing(&what, &bytes, LISTING);
        }
    }
}

#[test]
fn damaged_texts_and_long_lengths() {
    for (what, bytes, number) in texts().into_iter().chain(long_lengths()) {
        assert_eq!(compare(&what, &bytes, PLACES), number, "{what}");
        compare_listing(&what, &bytes, LISTING);
    }
}

#[test]
fn scratched_and_spoiled_texts() {
    let mut rng = Rng::new(12);
    let mut met = BTreeSet::new();
    for plan in all(13) {
        let bytes = write(&plan);
        for _ in 0..20 {
            met.insert(compare("scratched", &scratched(&bytes, &mut rng), PLACES));
            met.insert(compare("spoiled", &write(&spoiled(&plan, &mut rng)), PLACES));
        }
    }
    assert_eq!(met, BTreeSet::from([0, 3, 4, 5, 6, 7, 8, 12]));
}

#[test]
fn buffers_of_another_size_are_left() {
    let sound = text(&DEPOT);
    for k in 0..3 {
        for size in [0, PLACES[k] - 1, PLACES[k] + 1] {
            let mut places = PLACES;
            places[k] = size;
            assert_eq!(compare("a buffer of another size", &sound, places), 1);
            assert_eq!(compare("and a bad text", b"x", places), 1);
            assert_eq!(compare("and a text too long", &[0; 60_001], places), 1);
        }
    }
    for size in [0, 1, LISTING - 1, LISTING + 1] {
        compare_listing("a listing of another size", &sound, size);
    }
}
