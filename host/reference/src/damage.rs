//! Texts and networks, most of them turned away, each with the number of its cause where that is plain from documents 01 and 02.

use crate::network::{Lent, Plan, LENGTHS, MAX_FIELD, MAX_LENGTH, NO_PATH, ROOM};
use crate::plans::Rng;

/// Depot example P1.
pub const DEPOT: [&str; 7] = [
    "     5     1",
    "     4     1     2     3     4",
    "     0     3     7     5",
    "     3     0     4     6",
    "     7     4     0     2",
    "     5     6     2     0",
    "     1",
];

/// What the program `labels` writes for it.
pub const DEPOT_LISTING: [&str; 6] = [
    "        1        4        8        8",
    "        1        0",
    "        2        3",
    "        3        7",
    "        4        5",
    "        5        -",
];

/// Examples P13 to P18, our own, up to the question line: vertices 1 and 2 are a piece, 2 and 3 another, and 4 is in none.
const CHAIN: [&str; 7] = [
    "     4     2",
    "     2     1     2",
    "     0     5",
    "     6     0",
    "     2     2     3",
    "     0     7",
    "     8     0",
];

/// Examples P24 to P27, our own, up to the question line: the same without vertex 4, and no run leads from vertex 1 to vertex 2.
const ONE_WAY: [&str; 7] = [
    "     3     2",
    "     2     1     2",
    "     0     -",
    "     6     0",
    "     2     2     3",
    "     0     7",
    "     8     0",
];

/// A piece whose first block is that of document 02, request 7, [5 - 0; 0 - 0]: neighbouring corners pass, but the first and the last
/// column fail.
const NO_NEIGHBOURS_FAIL: [&str; 8] = [
    "     5     1",
    "     5     1     2     3     4     5",
    "     0     1     0     -     5",
    "     1     0     0     -     0",
    "     0     0     0     0     0",
    "     0     0     0     0     0",
    "     0     0     0     0     0",
    "     1",
];

/// The question of P13, and what the program `labels` writes for it.
pub const CHAIN_QUESTION: &str = "     1     3\n";
pub const CHAIN_LISTING: [&str; 3] = [
    "        1        3       12        2",
    "        1        2        1        5",
    "        2        3        2        7",
];

/// The lines as a text.
pub fn text(lines: &[&str]) -> Vec<u8> {
    lines.iter().flat_map(|line| [line.as_bytes(), b"\n"]).collect::<Vec<_>>().concat()
}

/// The depot's text with some lines replaced.
pub fn depot_with(replaced: &[(usize, &str)]) -> Vec<u8> {
    let mut lines = DEPOT;
    for &(k, line) in replaced {
        lines[k] = line;
    }
    text(&lines)
}

/// The depot's text with this question line.
pub fn depot_asked(question: &str) -> Vec<u8> {
    depot_with(&[(6, question)])
}

/// The chain's text with something after its pieces.
pub fn chain_and(tail: &str) -> Vec<u8> {
    [&text(&CHAIN), tail.as_bytes()].concat()
}

/// The text with no run from 1 to 2, with something after its pieces.
pub fn one_way_and(tail: &str) -> Vec<u8> {
    [&text(&ONE_WAY), tail.as_bytes()].concat()
}

/// The depot's text with something after it.
fn depot_and(tail: &[u8]) -> Vec<u8> {
    [&text(&DEPOT), tail].concat()
}

/// Damaged lines of the depot's text: what is wrong, the lines replaced, the number.
type Damage<'a> = (&'a str, &'a [(usize, &'a str)], u32);

#[rustfmt::skip]
const DAMAGES: &[Damage] = &[
    ("tabs for blanks", &[(0, "\t\t\t\t\t5     1")], 3),
    ("a blank after a digit", &[(0, "    5      1")], 3),
    ("a leading zero", &[(0, "    05     1")], 3),
    ("leading zeros", &[(0, "000005     1")], 3),
    ("P12: two zeros", &[(2, "    00     3     7     5")], 3),
    ("a plus", &[(0, "    +5     1")], 3),
    ("a minus", &[(0, "    -5     1")], 3),
    ("a dash for n", &[(0, "     -     1")], 3),
    ("a dash for p", &[(0, "     5     -")], 3),
    ("a dash for m", &[(1, "     -     1     2     3     4")], 3),
    ("a dash for a gate", &[(1, "     4     1     2     3     -")], 3),
    ("a dash at the left end of a length", &[(2, "     0-         7     5")], 3),
    ("a blank behind the dash of a length", &[(2, "     0    -      7     5")], 3),
    ("two dashes for a length", &[(2, "     0    --     7     5")], 3),
    ("a dash before the digit of a length", &[(2, "     0    -3     7     5")], 3),
    ("a dash behind the digit of a length", &[(2, "     0    3-     7     5")], 3),
    ("a dash behind a tab", &[(2, "     0\t    -     7     5")], 3),
    ("a letter", &[(3, "     3     0     4     x")], 3),
    ("a point", &[(3, "     3     0   4.0     6")], 3),
    ("an empty field", &[(1, "     4     1     2     3      ")], 3),
    ("an empty line", &[(3, "")], 3),
    ("a column too many", &[(3, "      3     0     4     6")], 3),
    ("a column too few", &[(3, "    3     0     4     6")], 3),
    ("a blank at the end of a line", &[(3, "     3     0     4     6 ")], 3),
    ("a carriage return", &[(3, "     3     0     4     6\r")], 3),
    ("a field too many", &[(0, "     5     1     1")], 3),
    ("a field too few", &[(5, "     5     6     2")], 3),
    ("m says more gates than there are", &[(1, "     5     1     2     3     4")], 3),
    ("m says fewer gates than there are", &[(1, "     3     1     2     3     4")], 3),
    ("a row too few", &[(5, "     1")], 3),
    ("a district too few", &[(0, "     5     2")], 3),
    ("an empty question line", &[(6, "")], 3),
    ("a carriage return after the source", &[(6, "     1\r")], 3),
    ("a blank after the source", &[(6, "     1 ")], 3),
    ("a carriage return after the target", &[(6, "     1     2\r")], 3),
    ("a blank after the target", &[(6, "     1     2 ")], 3),
    ("a blank after the target's digit", &[(6, "     1    2 ")], 3),
    ("a dash for a source", &[(6, "     -")], 3),
    ("a dash for a source before a target", &[(6, "     -     1")], 3),
    ("a dash for a target", &[(6, "     1     -")], 3),
    ("an empty target", &[(6, "     1      ")], 3),
    ("a leading zero of a target", &[(6, "     1    02")], 3),
    ("a column too few for a target", &[(6, "     1    2")], 3),
    ("a column too many for a target", &[(6, "     1      2")], 3),
    ("three fields in the question line", &[(6, "     1     2     3")], 3),
    ("a third field that is none", &[(6, "     1     2x")], 3),
    ("no gates", &[(0, "     0     1")], 4),
    ("257 gates", &[(0, "   257     1")], 4),
    ("no districts", &[(0, "     5     0")], 4),
    ("17 districts", &[(0, "     5    17")], 4),
    ("as many gates as six columns hold", &[(0, "999999     1")], 4),
    ("a district of no gates", &[(1, "     0")], 4),
    ("a district of 25 gates", &[(1, "    25     1     2     3     4")], 4),
    ("gate 0", &[(1, "     4     1     2     3     0")], 5),
    ("gate n + 1", &[(1, "     4     1     2     3     6")], 5),
    ("a gate twice", &[(1, "     4     1     2     3     2")], 5),
    ("a diagonal not 0", &[(4, "     7     4     1     2")], 6),
    ("a diagonal of six digits", &[(4, "     7     4999999     2")], 6),
    ("P5: a block fails", &[(2, "     0     3     7    10")], 7),
    ("source 0", &[(6, "     0")], 8),
    ("source n + 1", &[(6, "     6")], 8),
    ("target 0", &[(6, "     1     0")], 12),
    ("target n + 1", &[(6, "     1     6")], 12),
    ("as large a target as six columns hold", &[(6, "     1999999")], 12),
    // two causes at once
    ("n is 0 and p no field", &[(0, "     0     x")], 3),
    ("n is 0 and the line goes on", &[(0, "     0     1 ")], 3),
    ("m is 25 and no gate follows", &[(1, "    25 x")], 4),
    ("a gate twice and a later field bad", &[(1, "     4     2     2     3     x")], 3),
    ("a gate twice and the first row bad", &[(1, "     4     2     2     3     4"), (2, "x")], 5),
    ("a gate twice and a diagonal not 0", &[(1, "     4     2     2     3     4"), (2, "     1     3     7     5")], 5),
    ("a diagonal not 0 and a later field bad", &[(2, "100000     3     7     x")], 3),
    ("a diagonal not 0 and the next row bad", &[(2, "     1     3     7     5"), (3, "x")], 6),
    ("a dash on the diagonal and a later field bad", &[(2, "     -     3     7     x")], 3),
    ("a dash on the diagonal and the next row bad", &[(2, "     -     3     7     5"), (3, "x")], 6),
    ("a dash on the diagonal and a block fails", &[(2, "     0     3     7     -"), (5, "     5     6     2     -")], 6),
    ("a block fails and a later diagonal is not 0", &[(2, "     0     3     7    10"), (5, "     5     6     2     9")], 6),
    ("a block fails and the question line is bad", &[(2, "     0     3     7    10"), (6, "x")], 7),
    ("a block fails and the source is 0", &[(2, "     0     3     7    10"), (6, "     0")], 7),
    ("a block fails and the target is 0", &[(2, "     0     3     7    10"), (6, "     1     0")], 7),
    ("the source is 0 and a blank follows", &[(6, "     0 ")], 3),
    ("the source is 0 and the target no field", &[(6, "     0     x")], 3),
    ("source and target are 0", &[(6, "     0     0")], 8),
    ("source and target are 0 and a field follows", &[(6, "     0     0     1")], 3),
    ("source and target are n + 1", &[(6, "     6     6")], 8),
    ("the source is n + 1 and the target sound", &[(6, "     6     1")], 8),
    ("the target is 0 and a blank follows", &[(6, "     1     0 ")], 3),
    ("the target is n + 1 and a field follows", &[(6, "     1     6     1")], 3),
];

/// Damaged texts: what is wrong, the text, the number.
pub fn texts() -> Vec<(String, Vec<u8>, u32)> {
    let depot = text(&DEPOT);
    let lines = DAMAGES.iter();
    let mut all: Vec<(String, Vec<u8>, u32)> =
        lines.map(|&(what, replaced, number)| (what.to_string(), depot_with(replaced), number)).collect();
    let mut add = |what: &str, text: Vec<u8>, number: u32| all.push((what.to_string(), text, number));
    for whole in [&depot, &depot_asked("     1     3")] {
        for end in 0..whole.len() {
            add(&format!("the first {end} bytes of {}", whole.len()), whole[..end].to_vec(), 3);
        }
    }
    add("lines end with CR LF", DEPOT.join("\r\n").into_bytes(), 3);
    add("lines end with CR", DEPOT.join("\r").into_bytes(), 3);
    add("a blank in front", [b" ", &depot[..]].concat(), 3);
    add("a byte 0 for a blank", [b"\0", &depot[1..]].concat(), 3);
    add("a byte above 127", [b"\xff", &depot[1..]].concat(), 3);
    add("a block fails at columns that are no neighbours", text(&NO_NEIGHBOURS_FAIL), 7);
    let asked =
        [("     1", 3), ("     1     3", 3), ("     6", 8), ("     6     6", 8), ("     1     6", 12)];
    for (question, number) in asked {
        for tail in ["\n", " ", "1", "     2\n", "\0", "\x1a"] {
            let text = [&depot_asked(question), tail.as_bytes()].concat();
            add(&format!("{question:?}, and {tail:?} after its line"), text, number);
        }
    }
    add("60,000 bytes", depot_and(&vec![b' '; 60_000 - depot.len()]), 3);
    add("60,001 bytes", depot_and(&vec![b' '; 60_001 - depot.len()]), 2);
    add("60,001 bytes of nothing", vec![0; 60_001], 2);
    all
}

/// The depot's text with a length of six digits, or no path, at each place of its table: what and where, the text, the number. In a block
/// of four two places are on the side of the inequality that must be the smaller: there such a length gives 7.
pub fn long_lengths() -> Vec<(String, Vec<u8>, u32)> {
    let numbers = [[6, 0, 0, 7], [0, 6, 7, 0], [0, 7, 6, 0], [7, 0, 0, 6]];
    let mut all = Vec::new();
    for length in ["100000", "999999", "     -"] {
        for (i, row) in numbers.iter().enumerate() {
            for (j, &number) in row.iter().enumerate() {
                let mut line = DEPOT[2 + i].to_string();
                line.replace_range(6 * j..6 * j + 6, length);
                all.push((format!("{length} at ({i}, {j})"), depot_with(&[(2 + i, &line)]), number));
            }
        }
    }
    all
}

/// A text with a few bytes changed, put in or left out.
pub fn scratched(text: &[u8], rng: &mut Rng) -> Vec<u8> {
    let mut text = text.to_vec();
    for _ in 0..rng.from(1, 2) {
        let at = rng.below(text.len() as u32) as usize;
        let byte = rng.pick(b"   0123456789-+\t\r\n\0x");
        match rng.below(6) {
            0 => text.insert(at, byte),
            1 if text.len() > 1 => drop(text.remove(at)),
            2 if text[at].is_ascii_digit() => text[at] = rng.pick(b"0123456789"),
            _ => text[at] = byte,
        }
    }
    text
}

/// A number that is wrong in many places.
fn odd(old: u32, rng: &mut Rng) -> u32 {
    let near = [old.wrapping_add(1), old.wrapping_sub(1)];
    let fixed = [0, 1, 2, 17, 25, 257, MAX_LENGTH, MAX_LENGTH + 1, NO_PATH - 1, NO_PATH, NO_PATH];
    rng.pick(&[&near[..], &fixed].concat())
}

/// A plan with one number changed, small enough to be a field, or a length that is now no path. Perhaps it is still accepted.
pub fn spoiled(plan: &Plan, rng: &mut Rng) -> Plan {
    let mut plan = plan.clone();
    let d = rng.below(plan.pieces.len() as u32) as usize;
    let piece = &mut plan.pieces[d];
    let m = piece.vertices.len() as u32;
    let (i, j) = (rng.below(m) as usize, rng.below(m) as usize);
    let (place, largest) = match rng.below(11) {
        0 => (&mut plan.n, MAX_FIELD),
        1 => (&mut plan.source, MAX_FIELD),
        2 => (plan.target.get_or_insert(plan.source), MAX_FIELD),
        3..=5 => (&mut piece.vertices[i], MAX_FIELD),
        6 => (&mut piece.lengths[i][i], NO_PATH),
        _ => (&mut piece.lengths[i][j], NO_PATH),
    };
    let x = odd(*place, rng);
    *place = if x > MAX_FIELD { largest } else { x };
    plan
}

/// Lent buffers with one number changed, most often one that is read. Perhaps the network is still accepted.
pub fn spoiled_lent(lent: &Lent, rng: &mut Rng) -> Lent {
    let mut lent = lent.clone();
    let d = rng.below(lent.p) as usize;
    let m = lent.sizes[d];
    let (i, j) = (rng.below(m) as usize, rng.below(m) as usize);
    let place = match rng.below(12) {
        0 => &mut lent.n,
        1 => &mut lent.p,
        2 => &mut lent.sizes[d],
        3..=5 => &mut lent.vertices[ROOM * d + i],
        6 => &mut lent.lengths[ROOM * (ROOM * d + i) + i],
        7 => &mut lent.lengths[rng.below(LENGTHS as u32) as usize],
        _ => &mut lent.lengths[ROOM * (ROOM * d + i) + j],
    };
    *place = odd(*place, rng);
    lent
}
