//! The model against the outside vectors of the program `labels`, of sessions and of the index, which share nothing with it.

use reference::entries::{ask_index, build_index, run_session};
use reference::network::{ANSWERS, INDEX, INTERVALS, NO_PATH};
use reference::plans::Session;
use reference::text::listing;
use reference::vectors::{of_sessions, of_the_index, Asked, Played};
use std::fs;
use std::path::Path;

#[test]
fn stored_texts_are_listed_as_stored() {
    let folder = Path::new(env!("CARGO_MANIFEST_DIR")).join("../../tests/labels");
    let files = fs::read_dir(folder).expect("the folder of vectors").map(|file| file.unwrap().path());
    let texts: Vec<_> = files.filter(|path| path.extension().is_some_and(|ending| ending == "in")).collect();
    assert!(!texts.is_empty());
    for text in texts {
        let stored = fs::read(text.with_extension("out")).expect("what is to be written");
        assert!(listing(&fs::read(&text).unwrap()) == stored, "{}", text.display());
    }
}

#[test]
fn stored_questions_are_answered_as_stored() {
    for Asked { rows, cols, lengths, questions } in of_the_index() {
        let mut held = [7; INDEX];
        assert_eq!(build_index(rows, cols, &lengths, &mut held), 0);
        for ([row, first, end], answer) in questions {
            assert_eq!(
                ask_index(rows, cols, &lengths, &held, row, first, end),
                answer,
                "{row} {first} {end}"
            );
        }
    }
}

#[test]
fn stored_sessions_run_as_stored() {
    let all = of_sessions();
    assert!(all.iter().any(|played| played.session.lengths.contains(&NO_PATH)));
    for Played { session, returned, answers, intervals } in all {
        let Session { rows, cols, count, lengths, calls } = &session;
        let (mut left_answers, mut left_intervals) = ([7; ANSWERS], [7; INTERVALS]);
        let answer =
            run_session(*rows, *cols, *count, lengths, calls, &mut left_answers, &mut left_intervals);
        assert_eq!(answer, returned, "{session:?}");
        assert_eq!(left_answers[..], answers, "{session:?}");
        assert_eq!(left_intervals[..], intervals, "{session:?}");
    }
}
