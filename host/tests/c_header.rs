//! The C header against the library: the example in C is compiled with it, linked and run. The C compiler is the one that links Rust.

use reference::damage::{text, DEPOT_LISTING};
use std::path::Path;
use std::process::Command;

/// What it prints before the listing.
const EXPECTED: &str = "\
5 gates, 1 districts, from gate 1
number 0, 4 gates reached, 8 takes, 8 brought in
gate 1: 0 m
gate 2: 3 m
gate 3: 7 m
gate 4: 5 m
gate 5: no run
number 0, 3 brought in, 2 dropped
code 0, column 0, sum 0
code 0, column 0, sum 0
code 0, column 0, sum 5
code 10, column 0, sum 0
row 1 owns columns 1 to 1, best column 1, sum 6
index 0: row 0 holds 0, row 1 holds 1
row 0 from column 0 up to 2: code 0, column 0
row 1 from column 0 up to 2: code 0, column 1
row 0 from column 1 up to 2: code 0, column 1
row 0 from column 1 up to 3: code 50, column 0
number 0, 2 brought in, 1 dropped
code 0, column 0, sum 0
code 0, column 0, sum 5
code 50, column 0, sum 0
code 0, column 0, sum 0
row 1 owns columns 1 to 1, best column 1, sum 9
check 0
field 0 4
place 2: 0, place 4: 4, line [                         42         ]
number 0, gate 1 to gate 3: 12 m, 2 legs
gate 1 to gate 2 in district 1: 5 m
gate 2 to gate 3 in district 2: 7 m
3 gates, 2 districts, from gate 1
number 0, 2 gates reached, 2 takes, 2 brought in
gate 1: 0 m
gate 2: 5 m
gate 3: no run
";

#[test]
fn the_example_in_c() {
    let folder = Path::new(env!("CARGO_MANIFEST_DIR"));
    let program = Path::new(env!("CARGO_TARGET_TMPDIR")).join("depot");
    let compiled = Command::new("cc")
        .args(["-std=c99", "-pedantic", "-Wall", "-Wextra", "-Werror", "-I"])
        .arg(folder.join("include"))
        .arg(folder.join("examples/depot.c"))
        .arg(folder.join("../crates/exports/out/libexports.a"))
        .arg("-o")
        .arg(&program)
        .status()
        .expect("a C compiler");
    assert!(compiled.success());
    let run = Command::new(&program).output().expect("the program runs");
    assert!(run.status.success());
    let expected = [EXPECTED.as_bytes(), &text(&DEPOT_LISTING)].concat();
    assert_eq!(String::from_utf8_lossy(&run.stdout), String::from_utf8_lossy(&expected));
}
