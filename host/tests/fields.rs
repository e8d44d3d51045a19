//! The field reader and the field writer against the model.

use rabdzhine::{read_field, write_field, LINE, MAX_LABEL};
use reference::entries;
use reference::network::MAX_FIELD;
use reference::plans::Rng;

fn compare_read(text: &[u8], at: usize, places: usize) {
    let (mut value, mut expected) = (vec![7; places], vec![7; places]);
    let number = read_field(text, at, &mut value);
    assert_eq!(number, entries::read_field(text, at, &mut expected), "{text:?} at {at}");
    assert_eq!(value, expected, "{text:?} at {at}");
}

#[test]
fn fields_are_read() {
    let mut value = [7];
    assert_eq!((read_field(b"  1024", 0, &mut value), value), (0, [1024]));
    assert_eq!((read_field(b"    00", 0, &mut value), value), (3, [0]));
    assert_eq!((read_field(b"     -", 0, &mut value), value), (3, [0])); // a length field alone may be so
    let mut rng = Rng::new(1);
    let numbers = [0, 1, 9, 10, 99, 100, 1_000, 99_999, 100_000, MAX_FIELD];
    for x in numbers {
        compare_read(format!("{x:6}").as_bytes(), 0, 1);
        compare_read(format!("{x:06}").as_bytes(), 0, 1);
        compare_read(format!("{x:<6}").as_bytes(), 0, 1);
    }
    for _ in 0..20_000 {
        let bytes: Vec<u8> = (0..12).map(|_| rng.pick(b"      00123456789-/:\t\n\x80")).collect();
        compare_read(&bytes, rng.below(9) as usize, 1);
    }
}

#[test]
fn every_place_is_answered() {
    let text = b"    17    18";
    for at in (0..20).chain([usize::MAX - 6, usize::MAX - 5, usize::MAX]) {
        compare_read(text, at, 1);
        compare_read(b"", at, 1);
    }
    compare_read(text, 0, 0);
    compare_read(text, 0, 2);
}

fn compare_write(size: usize, place: usize, x: u32) {
    let (mut line, mut expected) = (vec![b'.'; size], vec![b'.'; size]);
    let number = write_field(&mut line, place, x);
    assert_eq!(number, entries::write_field(&mut expected, place, x), "{x} at {place}");
    assert_eq!(line, expected, "{x} at {place}");
}

#[test]
fn fields_are_written() {
    let mut line = [b'.'; LINE];
    assert_eq!(write_field(&mut line, 1, MAX_LABEL), 0);
    assert_eq!(&line, b".........254999745..................");
    let mut rng = Rng::new(2);
    let borders = (0..10).flat_map(|k| [10u32.pow(k), 10u32.pow(k) - 1]).chain([4_294_967_294, u32::MAX]);
    for x in borders.chain((0..2_000).map(|_| rng.below(u32::MAX))) {
        for place in 0..4 {
            compare_write(LINE, place, x);
        }
    }
}

/// The outside vectors of the writer: a number to a line, and its nine columns.
#[test]
fn stored_columns_are_written() {
    let numbers: Vec<&str> = include_str!("../../tests/columns.in").lines().collect();
    let columns: Vec<&str> = include_str!("../../tests/columns.out").lines().collect();
    assert!(!numbers.is_empty());
    assert_eq!(numbers.len(), columns.len());
    for (number, stored) in numbers.iter().zip(columns) {
        let x: u32 = number.parse().unwrap();
        for place in 0..4 {
            let (mut line, mut expected) = ([b'.'; LINE], [b'.'; LINE]);
            expected[9 * place..9 * place + 9].copy_from_slice(stored.as_bytes());
            assert_eq!(write_field(&mut line, place, x), 0, "{x} at {place}");
            assert_eq!(line, expected, "{x} at {place}");
        }
        refuse_short_line_and_place_4(x);
    }
}

/// A short line is refused by 1, also with the place out of bounds, and place 4 by 4; the line is left.
fn refuse_short_line_and_place_4(x: u32) {
    let mut short = [b'.'; LINE - 1];
    assert_eq!(write_field(&mut short, 0, x), 1);
    assert_eq!(write_field(&mut short, 4, x), 1);
    assert_eq!(short, [b'.'; LINE - 1]);
    let mut line = [b'.'; LINE];
    assert_eq!(write_field(&mut line, 4, x), 4);
    assert_eq!(line, [b'.'; LINE]);
}

#[test]
fn lines_and_places_that_are_not_there_are_refused() {
    for place in [4, 5, usize::MAX] {
        compare_write(LINE, place, 12);
    }
    for (size, place) in [(LINE - 1, 0), (LINE + 1, 3), (0, 0), (LINE - 1, 4), (0, usize::MAX)] {
        compare_write(size, place, 12);
    }
}
