//! The stack that each entry needs is within the stated one, and on a stack that is too small an entry faults at its end and writes
//! nothing below it.

mod region;

use rabdzhine::{ANSWERS, INDEX, INTERVALS, LABELS, LENGTHS, LINE, LISTING, ROUTE_PLACES, SIZES, VERTICES};
use rabdzhine::{
    STACK_ASK_INDEX, STACK_BUILD_INDEX, STACK_CHECK_NETWORK, STACK_LABEL_NETWORK, STACK_READ_FIELD,
    STACK_READ_TEXT, STACK_ROUTE_NETWORK, STACK_RUN_SESSION, STACK_WRITE_FIELD, STACK_WRITE_LISTING,
};
use reference::network::{Lent, Plan, MAX_CALLS, MAX_SIZE, MAX_VERTICES, ROOM};
use reference::plans::{all, city, hostile, session, Rng, Session, KINDS, TOWN_STREET};
use reference::text::write;
use region::{End, Region};
use std::collections::BTreeMap;

/// More than any entry needs.
const AMPLE: usize = 256 * 1024;

/// A call of an entry on some input, and the stack that is stated for the entry.
struct Call<'a> {
    name: &'static str,
    stated: usize,
    make: Box<dyn FnMut() + 'a>,
}

fn call<'a>(name: &'static str, stated: usize, make: impl FnMut() + 'a) -> Call<'a> {
    Call { name, stated, make: Box::new(make) }
}

/// The index of a session's rectangle.
fn index_of(s: &Session) -> Vec<u8> {
    let mut index = vec![0; INDEX];
    assert_eq!(rabdzhine::build_index(s.rows, s.cols, &s.lengths, &mut index), 0);
    index
}

/// Every entry, on this plan, its text and this session.
fn calls<'a>(plan: &'a Plan, lent: &'a Lent, bytes: &'a [u8], s: &'a Session) -> Vec<Call<'a>> {
    let (mut value, mut line) = ([0], [b' '; LINE]);
    let (mut sizes, mut vertices, mut lengths) = (vec![0; SIZES], vec![0; VERTICES], vec![0; LENGTHS]);
    let (mut labels, mut arcs, mut listing) = (vec![0; LABELS], vec![0; ROUTE_PLACES], vec![0; LISTING]);
    let (mut answers, mut intervals) = (vec![0; ANSWERS], vec![0; INTERVALS]);
    let (mut index, built) = (vec![0; INDEX], index_of(s));
    vec![
        call("read_field", STACK_READ_FIELD, move || {
            rabdzhine::read_field(bytes, 0, &mut value);
        }),
        call("write_field", STACK_WRITE_FIELD, move || {
            rabdzhine::write_field(&mut line, 3, 999_999_999);
        }),
        call("read_text", STACK_READ_TEXT, move || {
            rabdzhine::read_text(bytes, &mut sizes, &mut vertices, &mut lengths);
        }),
        call("check_network", STACK_CHECK_NETWORK, move || {
            rabdzhine::check_network(lent.n, lent.p, &lent.sizes, &lent.vertices, &lent.lengths);
        }),
        call("label_network", STACK_LABEL_NETWORK, move || {
            let Lent { n, p, sizes, vertices, lengths } = lent;
            rabdzhine::label_network(*n, *p, sizes, vertices, lengths, plan.source, &mut labels);
        }),
        call("route_network", STACK_ROUTE_NETWORK, move || {
            let Lent { n, p, sizes, vertices, lengths } = lent;
            let target = plan.target.unwrap_or(plan.n);
            rabdzhine::route_network(*n, *p, sizes, vertices, lengths, plan.source, target, &mut arcs);
        }),
        call("run_session", STACK_RUN_SESSION, move || {
            let Session { rows, cols, count, lengths, calls } = s;
            rabdzhine::run_session(*rows, *cols, *count, lengths, calls, &mut answers, &mut intervals);
        }),
        call("build_index", STACK_BUILD_INDEX, move || {
            rabdzhine::build_index(s.rows, s.cols, &s.lengths, &mut index);
        }),
        call("ask_index", STACK_ASK_INDEX, move || {
            // every stretch of the last row: which of them goes deepest depends on the columns
            for first in 0..s.cols {
                for end in first + 1..=s.cols {
                    rabdzhine::ask_index(s.rows, s.cols, &s.lengths, &built, s.rows - 1, first, end);
                }
            }
        }),
        call("write_listing", STACK_WRITE_LISTING, move || {
            rabdzhine::write_listing(bytes, &mut listing);
        }),
    ]
}

/// The largest session, of each kind of rectangle.
fn largest_sessions(rng: &mut Rng) -> Vec<Session> {
    let is_largest = |s: &Session| (s.rows, s.cols, s.count) == (MAX_SIZE, MAX_SIZE, MAX_CALLS);
    let mut largest = |kind| std::iter::repeat_with(|| session(kind, 0, rng)).find(is_largest);
    KINDS.iter().filter_map(|&kind| largest(kind)).collect()
}

/// The same plan with a question for a route.
fn with_target(plan: &Plan) -> Plan {
    Plan { target: Some(plan.n), ..plan.clone() }
}

/// The largest plans, a town and one of each kind of table, asked for labels and for a route, and smaller ones of all sorts.
fn plans(rng: &mut Rng) -> Vec<Plan> {
    let mut plans = vec![city(4, 4, 6, TOWN_STREET, rng)];
    plans.extend(KINDS.map(|kind| hostile(MAX_VERTICES, &[ROOM; SIZES], &[kind], rng)));
    plans.extend(plans.iter().map(with_target).collect::<Vec<_>>());
    plans.extend(all(41));
    plans
}

/// For each entry the stack that is stated, and the most that it takes on any of the plans and sessions.
fn most_taken() -> BTreeMap<&'static str, (usize, usize)> {
    let mut rng = Rng::new(42);
    let sessions = largest_sessions(&mut rng);
    let mut most = BTreeMap::new();
    for (plan, session) in plans(&mut rng).iter().zip(sessions.iter().cycle()) {
        let (lent, bytes) = (Lent::of(plan, 0), write(plan));
        for mut call in calls(plan, &lent, &bytes, session) {
            let taken = Region::new(AMPLE).taken(&mut call.make);
            let (_, before) = most.entry(call.name).or_insert((call.stated, 0));
            *before = taken.max(*before);
        }
    }
    most
}

/// Tries every entry on the largest plan, asked for labels and for a route, and the largest session.
fn on_largest(mut try_it: impl FnMut(Call)) {
    let mut rng = Rng::new(43);
    let session = &largest_sessions(&mut rng)[0];
    let plan = city(4, 4, 6, TOWN_STREET, &mut rng);
    for (plan, size) in [(&plan, 58_116), (&with_target(&plan), 58_122)] {
        let bytes = write(plan);
        assert_eq!(bytes.len(), size);
        calls(plan, &Lent::of(plan, 0), &bytes, session).into_iter().for_each(&mut try_it);
    }
}

/// The margin is for another compiler, and for a firmware's own `memcpy` and `memset`.
#[test]
fn the_stated_stack_is_more_than_is_taken_and_not_much_more() {
    let most = most_taken();
    for (name, (stated, taken)) in &most {
        println!("{name}: {taken} bytes taken, {stated} stated");
    }
    for (name, (stated, taken)) in most {
        assert!(taken + taken / 4 <= stated, "{name}: {taken} bytes taken, {stated} stated");
        assert!(stated <= 128.max(2 * taken), "{name}: {taken} bytes taken, {stated} stated");
    }
}

#[test]
fn an_entry_returns_on_the_stated_stack() {
    on_largest(|mut call| {
        let region = Region::new(call.stated);
        assert_eq!(region.end_of(&mut call.make), End::Returned, "{}", call.name);
        assert!(region.is_whole_below(), "{}", call.name);
    });
}

/// One guard page of 4,096 bytes is enough: the code touches every page of a large frame in turn.
#[test]
fn a_stack_too_small_faults_and_nothing_below_it_is_written() {
    on_largest(|mut call| {
        let taken = Region::new(AMPLE).taken(&mut call.make);
        // steps that are no part of a page: the stack ends at many places of a frame
        for small in (0..taken).step_by(1008) {
            let region = Region::new(small);
            assert_eq!(region.end_of(&mut call.make), End::Faulted, "{} on {small} bytes", call.name);
            assert!(region.is_whole_below(), "{} on {small} bytes", call.name);
        }
    });
}

/// The test above would see a frame that reaches over the guard page.
#[test]
fn a_write_over_the_guard_page_shows() {
    let region = Region::new(4096);
    // SAFETY: the byte lies in the region, below its guard page
    let mut reach_over = || unsafe { std::arch::asm!("mov byte ptr [rsp - 12288], 0") };
    assert_eq!(region.end_of(&mut reach_over), End::Returned);
    assert!(!region.is_whole_below());
}
