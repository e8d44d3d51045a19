//! Reading, checking and labelling by the proved library, beside a plain Dijkstra and an unproved FR-Dijkstra on the same tables in the
//! same run. `cargo bench --offline` prints the tables of docs/PERFORMANCE.md.
//!
//! All three labellings must give the same labels, and the two FR-Dijkstras the same counts. The proved one judges the network
//! before it labels, as it must; so the unproved one does too, by a check of its own. The plain Dijkstra does not. Both FR-Dijkstras
//! keep the same five numbers for each interval and read the bests among them, but the unproved one finds the columns that a new row
//! wins by walking outward from the row's place, where the proved one finds both ends by halving, and it finds a best by a scan, where
//! the proved one asks an index. Where tracks are closed both look for columns that the row is the first to reach, and both checks
//! compare the neighbours that are open. The index alone is measured at the end, beside a scan.

use rabdzhine::{INDEX, LABELS, LENGTHS, SIZES, VERTICES};
use reference::network::{weight, Lent, Plan, MAX_SIZE, MAX_VERTICES, ROOM};
use reference::plans::{
    city, city_with_works, cut_off, hostile, lent_rectangle, longest_street, narrowed, rectangle, rings,
    Kind, Rng, CLOSED_KINDS, OPEN_KINDS, TOWN_STREET,
};
use reference::{dijkstra, fr_dijkstra, index, text};
use std::hint::black_box;
use std::time::Instant;

/// How often each part is timed from each source; the median of all these times is printed. Short samples taken in turn keep other
/// work on the machine out of it.
const ROUNDS: usize = 25;

/// Sources that a plan is labelled from, each in a district.
const SOURCES: usize = 16;

/// Microseconds of each part, and the counts, of one plan.
struct Row {
    name: String,
    n: u32,
    bytes: usize,
    weight: u32,
    read: f64,
    check: f64,
    label: f64,
    plain: f64,
    fr_check: f64,
    fr_label: f64,
    extracted: f64,
    inserted: f64,
}

// ---- measuring

/// Microseconds of a part.
fn timed<T>(part: impl FnOnce() -> T) -> f64 {
    let start = Instant::now();
    black_box(part());
    start.elapsed().as_secs_f64() * 1e6
}

fn median(mut times: Vec<f64>) -> f64 {
    times.sort_by(f64::total_cmp);
    times[times.len() / 2]
}

fn read(bytes: &[u8]) -> u32 {
    let (mut sizes, mut vertices, mut lengths) = ([0; SIZES], [0; VERTICES], [0; LENGTHS]);
    let answer = rabdzhine::read_text(black_box(bytes), &mut sizes, &mut vertices, &mut lengths);
    black_box((&sizes, &vertices, &lengths));
    answer.number
}

fn check(lent: &Lent) -> u32 {
    let l = black_box(lent);
    rabdzhine::check_network(l.n, l.p, &l.sizes, &l.vertices, &l.lengths)
}

fn label(lent: &Lent, source: u32, labels: &mut [u32]) -> rabdzhine::LabelAnswer {
    let l = black_box(lent);
    rabdzhine::label_network(l.n, l.p, &l.sizes, &l.vertices, &l.lengths, source, labels)
}

fn fr_label(lent: &Lent, source: u32, labels: &mut [u32]) -> fr_dijkstra::Counts {
    assert_eq!(fr_dijkstra::check(black_box(lent)), 0);
    fr_dijkstra::label(lent, source, labels)
}

/// The means over the sources of takes and intervals brought in, once all three labellings agree.
fn counts(lent: &Lent, sources: &[u32]) -> (f64, f64) {
    let (mut extracted, mut inserted) = (0, 0);
    for &source in sources {
        let (mut a, mut b, mut c) = ([0; LABELS], [0; LABELS], [0; LABELS]);
        let answer = label(lent, source, &mut a);
        let counts = fr_label(lent, source, &mut b);
        dijkstra::label(lent, source, &mut c);
        assert!(answer.number == 0 && a == b && a == c, "the labels differ");
        assert_eq!(
            (answer.reached, answer.extracted, answer.inserted),
            (counts.reached, counts.extracted, counts.inserted)
        );
        extracted += answer.extracted;
        inserted += answer.inserted;
    }
    let mean = |total: u32| f64::from(total) / sources.len() as f64;
    (mean(extracted), mean(inserted))
}

fn measure(name: String, plan: &Plan) -> Row {
    let bytes = text::write(plan);
    let lent = Lent::of(plan, 0);
    let vertices: Vec<u32> = plan.pieces.iter().flat_map(|q| q.vertices.clone()).collect();
    let sources: Vec<u32> = (0..SOURCES).map(|k| vertices[k * vertices.len() / SOURCES]).collect();
    let (extracted, inserted) = counts(&lent, &sources);
    let mut labels = [0; LABELS];
    let mut times: [Vec<f64>; 6] = Default::default();
    for &source in sources.iter().cycle().take(ROUNDS * sources.len()) {
        times[0].push(timed(|| read(&bytes)));
        times[1].push(timed(|| check(&lent)));
        times[2].push(timed(|| label(&lent, source, &mut labels)));
        times[3].push(timed(|| dijkstra::label(black_box(&lent), source, &mut labels)));
        times[4].push(timed(|| fr_dijkstra::check(black_box(&lent))));
        times[5].push(timed(|| fr_label(&lent, source, &mut labels)));
    }
    let [read, check, label, plain, fr_check, fr_label] = times.map(median);
    Row {
        name,
        n: plan.n,
        bytes: bytes.len(),
        weight: weight(plan),
        read,
        check,
        label,
        plain,
        fr_check,
        fr_label,
        extracted,
        inserted,
    }
}

// ---- printing

/// A column of a table: its heading, and what stands in a row.
type Column<'a> = (&'a str, &'a dyn Fn(&Row) -> String);

fn print_table(rows: &[Row], columns: &[Column]) {
    let line = |name: &str, cells: Vec<String>| {
        let padded = cells
            .iter()
            .zip(columns)
            .map(|(cell, (heading, _))| format!("  {cell:>0$}", heading.len().max(6)));
        println!("{name:9}{}", padded.collect::<String>());
    };
    println!();
    line("", columns.iter().map(|(heading, _)| heading.to_string()).collect());
    for row in rows {
        line(&row.name, columns.iter().map(|(_, cell)| cell(row)).collect());
    }
}

fn print_times(rows: &[Row]) {
    let without = |r: &Row| (r.label - r.check) / (r.fr_label - r.fr_check);
    print_table(
        rows,
        &[
            ("n", &|r| r.n.to_string()),
            ("bytes", &|r| r.bytes.to_string()),
            ("read", &|r| format!("{:.1}", r.read)),
            ("check", &|r| format!("{:.1}", r.check)),
            ("label", &|r| format!("{:.1}", r.label)),
            ("plain", &|r| format!("{:.1}", r.plain)),
            ("FR check", &|r| format!("{:.1}", r.fr_check)),
            ("FR label", &|r| format!("{:.1}", r.fr_label)),
            ("label/plain", &|r| format!("{:.2}", r.label / r.plain)),
            ("label/FR", &|r| format!("{:.2}", r.label / r.fr_label)),
            ("without checks", &|r| format!("{:.2}", without(r))),
        ],
    );
}

fn print_counts(rows: &[Row]) {
    let share = |r: &Row| r.inserted / f64::from(r.weight);
    print_table(
        rows,
        &[
            ("takes", &|r| format!("{:.0}", r.extracted)),
            ("brought in", &|r| format!("{:.0}", r.inserted)),
            ("m log m", &|r| r.weight.to_string()),
            ("brought in/m log m", &|r| format!("{:.2}", share(r))),
        ],
    );
}

/// How many times more than in the first row.
fn print_growth(rows: &[Row]) {
    let times = |r: &Row, part: fn(&Row) -> f64| format!("{:.1}", part(r) / part(&rows[0]));
    print_table(
        rows,
        &[
            ("m log m", &|r| times(r, |r| f64::from(r.weight))),
            ("brought in", &|r| times(r, |r| r.inserted)),
            ("read", &|r| times(r, |r| r.read)),
            ("check", &|r| times(r, |r| r.check)),
            ("label", &|r| times(r, |r| r.label)),
            ("plain", &|r| times(r, |r| r.plain)),
            ("FR label", &|r| times(r, |r| r.fr_label)),
        ],
    );
}

/// Prints the tables of some plans; returns the largest ratio of the proved labelling to the unproved one.
fn series(title: &str, plans: Vec<(String, Plan)>, growing: bool) -> f64 {
    let rows: Vec<Row> = plans.into_iter().map(|(name, plan)| measure(name, &plan)).collect();
    println!("\n{title}");
    print_times(&rows);
    print_counts(&rows);
    if growing {
        println!("\nTimes the first row:");
        print_growth(&rows);
    }
    rows.iter().map(|r| r.label / r.fr_label).fold(0.0, f64::max)
}

// ---- the index alone

/// A stretch of a row: the row, its first column, its end.
type Stretch = [usize; 3];

/// All stretches of this width in a block of 24 x 24.
fn stretches(width: usize) -> Vec<Stretch> {
    let in_row = |row: usize| (0..=ROOM - width).map(move |first| [row, first, first + width]);
    (0..ROOM).flat_map(in_row).collect()
}

/// Nanoseconds of one of these questions, all of them taken together.
fn of_each(asked: &[Stretch], one: impl Fn(Stretch) -> usize) -> f64 {
    1e3 * timed(|| asked.iter().map(|&stretch| one(black_box(stretch))).sum::<usize>()) / asked.len() as f64
}

/// One width to a line.
fn print_questions(lengths: &[u32], held: &[u8]) {
    let ask = |[row, first, end]: Stretch| {
        let answer = rabdzhine::ask_index(
            MAX_SIZE,
            MAX_SIZE,
            black_box(lengths),
            held,
            row as u32,
            first as u32,
            end as u32,
        );
        answer.column as usize
    };
    let scan = |[row, first, end]: Stretch| {
        index::scan(&black_box(lengths)[ROOM * row..][..ROOM], first..end).expect("a column")
    };
    println!("\n{:>8}{:>8}{:>8}", "width", "index", "scan");
    for width in [1, 2, 4, 8, 12, 16, 20, 23, 24] {
        let asked = stretches(width);
        assert!(asked.iter().all(|&stretch| ask(stretch) == scan(stretch)), "the answers differ");
        let mut times: [Vec<f64>; 2] = Default::default();
        for _ in 0..ROUNDS {
            times[0].push(of_each(&asked, ask));
            times[1].push(of_each(&asked, scan));
        }
        let [by_index, by_scan] = times.map(median);
        println!("{width:8}{by_index:8.1}{by_scan:8.1}");
    }
}

fn print_index(rng: &mut Rng) {
    let lengths = lent_rectangle(&rectangle(ROOM, ROOM, Kind::Free, rng), 0);
    let mut held = [0; INDEX];
    let mut build = || timed(|| rabdzhine::build_index(MAX_SIZE, MAX_SIZE, black_box(&lengths), &mut held));
    let built = median((0..ROUNDS).map(|_| build()).collect());
    println!("\nThe index of a block of 24 x 24: {built:.1} microseconds to judge the block and build it.");
    println!("Nanoseconds of a question through the exported entry, and of a scan in Rust, the mean of all stretches of a width:");
    print_questions(&lengths, &held);
}

/// Tables of one of these kinds each, and of all of them.
fn hostile_tables(kinds: [Kind; 5], rng: &mut Rng) -> Vec<(String, Plan)> {
    let each = kinds.map(|kind| (format!("{kind:?}"), vec![kind]));
    let all = each.into_iter().chain([("Mixed".into(), kinds.into())]);
    all.map(|(name, kinds)| (name, hostile(MAX_VERTICES, &[ROOM; SIZES], &kinds, rng))).collect()
}

/// The largest town: as it is, with a third of each block closed, with one gate of each district cut off, with streets closed; and as many
/// districts whose tracks lead one way round.
fn closed_towns(rng: &mut Rng) -> Vec<(String, Plan)> {
    let town = city(4, 4, 6, TOWN_STREET, rng);
    let mut towns = vec![
        ("open".to_string(), town.clone()),
        ("third".into(), narrowed(town.clone())),
        ("cut off".into(), cut_off(town, rng)),
    ];
    for works in [10, 4] {
        towns.push((format!("1 in {works}"), city_with_works(4, 4, 6, TOWN_STREET, works, rng)));
    }
    towns.push(("rings".into(), rings(MAX_VERTICES, &[ROOM; SIZES], rng)));
    towns
}

fn main() {
    let mut rng = Rng::new(2024);
    println!("Microseconds, medians of {ROUNDS} runs from each of {SOURCES} sources.");
    println!("read, check, label: the proved library. plain: plain Dijkstra. FR: unproved FR-Dijkstra.");
    println!("The two FR-Dijkstras differ in the search for the columns that a new row wins: the proved one halves, the other walks;");
    println!("and in the best of an interval: the proved one asks an index, the other scans.");
    println!("label and FR label include the check of the network.");

    let shapes = [(1, 1), (1, 2), (2, 2), (2, 4), (4, 4)];
    let towns = shapes.map(|(down, across)| {
        (format!("{} x 24", down * across), city(down, across, 6, TOWN_STREET, &mut rng))
    });
    let a = series("A town of more and more districts of 24 gates", towns.into(), true);

    let towns = [1, 2, 3, 4, 5, 6]
        .map(|side| (format!("16 x {}", 4 * side), city(4, 4, side, TOWN_STREET, &mut rng)));
    let b = series("A town of 16 districts of more and more gates", towns.into(), true);

    let c = series("Hostile tables, 16 x 24", hostile_tables(OPEN_KINDS, &mut rng), false);

    let lines = [TOWN_STREET, longest_street(6)]
        .map(|longest| (format!("to {longest}"), city(4, 4, 6, longest, &mut rng)));
    let d = series("Streets of a town and of an interurban line, 16 x 24", lines.into(), false);

    println!("\nLargest label/FR: {:.2}. The bar is 1.5.", a.max(b).max(c).max(d));

    println!("\nthird: of each block of three columns or more a third is closed. cut off: one gate of each district, one way or both.");
    println!(
        "1 in 10, 1 in 4: so many streets are closed. rings: all tracks lead to the next gate clockwise."
    );
    let towns = closed_towns(&mut Rng::new(2025));
    let e = series("A town with closed tracks, 16 x 24", towns, false);
    let tables = hostile_tables(CLOSED_KINDS, &mut Rng::new(2026));
    let f = series("Hostile tables with closed tracks, 16 x 24", tables, false);
    println!("\nLargest label/FR with closed tracks: {:.2}.", e.max(f));

    print_index(&mut rng);
}
