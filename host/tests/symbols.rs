//! What the library exports, what it needs of whoever links it, and what memory it has of its own, as `nm` and `objdump` list them.

use std::collections::BTreeSet;
use std::path::Path;
use std::process::Command;

const ENTRIES: [&str; 10] = [
    "rabdzhine_ask_index",
    "rabdzhine_build_index",
    "rabdzhine_check_network",
    "rabdzhine_label_network",
    "rabdzhine_read_field",
    "rabdzhine_read_text",
    "rabdzhine_route_network",
    "rabdzhine_run_session",
    "rabdzhine_write_field",
    "rabdzhine_write_listing",
];

/// What README.md states, in bytes.
const MOST_CODE: usize = 40 * 1024;
const MOST_CONSTANTS: usize = 2 * 1024;

/// What the tool prints about the library.
fn listed(tool: &str, words: &[&str]) -> String {
    let library = Path::new(env!("CARGO_MANIFEST_DIR")).join("../crates/exports/out/libexports.a");
    let output = Command::new(tool).args(words).arg(library).output().expect(tool);
    assert!(output.status.success(), "{tool} fails");
    String::from_utf8(output.stdout).expect("plain text")
}

/// The names that `nm` lists with these words. Its first lines name the library and its parts, and end with a colon.
fn names(words: &[&str]) -> BTreeSet<String> {
    let text = listed("nm", words);
    let lines = text.lines().filter(|line| !line.ends_with(':'));
    lines.filter_map(|line| line.split_whitespace().next()).map(String::from).collect()
}

/// A section that is loaded.
struct Section {
    name: String,
    bytes: usize,
    flags: String,
}

/// The sections that are loaded and not empty. `objdump` has a line for each: number, name, size, more, then flags.
fn loaded() -> Vec<Section> {
    let text = listed("objdump", &["--section-headers", "--wide"]);
    let section = |line: &str| {
        let mut words = line.split_whitespace();
        words.next()?.parse::<usize>().ok()?;
        let name = String::from(words.next()?);
        let bytes = usize::from_str_radix(words.next()?, 16).ok()?;
        Some(Section { name, bytes, flags: line.to_string() })
    };
    let sections: Vec<Section> = text.lines().filter_map(section).collect();
    assert!(!sections.is_empty());
    sections.into_iter().filter(|s| s.bytes > 0 && s.flags.contains("ALLOC")).collect()
}

#[test]
fn it_exports_the_entries_and_nothing_else() {
    assert_eq!(
        names(&["--defined-only", "--extern-only", "--format=posix"]),
        BTreeSet::from(ENTRIES.map(String::from))
    );
}

#[test]
fn it_needs_memcpy_and_memset_and_nothing_else() {
    let defined = names(&["--defined-only", "--format=posix"]);
    let needed: BTreeSet<_> = &names(&["--undefined-only", "--format=posix"]) - &defined;
    assert_eq!(needed, BTreeSet::from(["memcpy", "memset"].map(String::from)));
}

#[test]
fn all_that_it_has_is_read_only() {
    let (mut code, mut constants) = (0, 0);
    for Section { name, bytes, flags } in loaded() {
        assert!(flags.contains("READONLY"), "{name} can be written: {flags}");
        *if flags.contains("CODE") { &mut code } else { &mut constants } += bytes;
    }
    println!("{code} bytes of code, {constants} bytes of constants");
    assert!(0 < code && code <= MOST_CODE, "{code} bytes of code");
    assert!(constants <= MOST_CONSTANTS, "{constants} bytes of constants");
}
