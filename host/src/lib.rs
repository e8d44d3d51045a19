//! Track metres from district tables: the proved library, callable from Rust.
//!
//! Every function accepts every input. What it cannot serve it refuses by a number; a slice of another length than stated is refusal 1.
//! `include/rabdzhine.h` says what each entry returns and leaves in each lent buffer, and lists the refusals.
//!
//! ```
//! use rabdzhine::{label_network, read_text, ReadAnswer, LABELS, LENGTHS, NO_TARGET, SIZES, UNREACHED, VERTICES};
//!
//! // two districts of two gates each, which share gate 2
//! let text = b"     3     2
//!      2     1     2
//!      0   250
//!    300     0
//!      2     2     3
//!      0   120
//!    120     0
//!      1
//! ";
//! let (mut sizes, mut vertices, mut lengths) = ([0; SIZES], [0; VERTICES], [0; LENGTHS]);
//! let plan = read_text(text, &mut sizes, &mut vertices, &mut lengths);
//! assert_eq!(plan, ReadAnswer { number: 0, n: 3, p: 2, source: 1, target: NO_TARGET });
//!
//! let mut labels = [0; LABELS];
//! let answer = label_network(plan.n, plan.p, &sizes, &vertices, &lengths, plan.source, &mut labels);
//! assert_eq!((answer.number, answer.reached), (0, 3));
//! assert_eq!(labels[..4], [0, 250, 370, UNREACHED]);
//! ```
#![no_std]
#![warn(missing_docs)]

mod raw;

/// Places of the buffer of sizes: how many gates each district has.
pub const SIZES: usize = 16;
/// Places of the buffer of vertices: 24 gates for each district.
pub const VERTICES: usize = 384;
/// Places of the buffer of lengths: 24 rows of 24 for each district.
pub const LENGTHS: usize = 9216;
/// Places of the buffer of labels: gate v at v - 1.
pub const LABELS: usize = 256;
/// Places of the buffer of a route: the numbers of 255 legs.
pub const ROUTE_PLACES: usize = 1020;
/// The most legs of a route: it passes no gate twice.
pub const MAX_ARCS: usize = 255;
/// Numbers of a leg: from gate, to gate, district (from 1), metres.
pub const ARC_SIZE: usize = 4;
/// Places of a rectangle, a session's or an index's: 24 rows of 24.
pub const RECTANGLE: usize = 576;
/// Places of the index of one row: one fewer than the columns that a row has room for.
pub const INDEX_ROW: usize = 23;
/// Places of the index of a rectangle: 24 rows of 23.
pub const INDEX: usize = 552;
/// The code of a question to an index that has no answer, and of a take that has nothing to hand out.
pub const NOTHING: u32 = 50;
/// Places of a session's calls: kind, row and value of each.
pub const CALLS: usize = 192;
/// Places of a session's answers: code, column and sum of each.
pub const ANSWERS: usize = 192;
/// Places of a session's intervals: the numbers of 24.
pub const INTERVALS: usize = 120;
/// Numbers of an interval: owner, first column, last column, best column (the lowest one of least sum in it), best sum (that sum).
pub const INTERVAL_SIZE: usize = 5;
/// What every place of an unused interval holds. A best sum may be 255 too, but no owner is: an unused interval is known by its owner.
pub const UNUSED: u32 = 255;
/// Bytes of a line: four fields of nine columns.
pub const LINE: usize = 36;
/// Bytes of the longest listing, that of 255 legs.
pub const LISTING: usize = 9472;
/// The target that [`read_text`] returns where the question has none.
pub const NO_TARGET: u32 = u32::MAX;
/// The label of a gate that no run reaches, and of a place above n.
pub const UNREACHED: u32 = u32::MAX;
/// In place of a length, where no run exists inside the district: `-` in a length field of a text. It is never on the diagonal, above every
/// number, and plus anything no path.
pub const NO_PATH: u32 = u32::MAX;
/// The largest length, in metres: it fills a field of a text.
pub const MAX_LENGTH: u32 = 999_999;
/// The largest label, and the largest value of a tell: a run of 255 such lengths. A take's sum may be [`MAX_LENGTH`] more.
pub const MAX_LABEL: u32 = 254_999_745;

// The stack that a call of each entry may take, in bytes, with a margin; `tests/stack` measures it.

/// Bytes of stack for [`read_field`].
pub const STACK_READ_FIELD: usize = 128;
/// Bytes of stack for [`write_field`].
pub const STACK_WRITE_FIELD: usize = 128;
/// Bytes of stack for [`read_text`].
pub const STACK_READ_TEXT: usize = 2048;
/// Bytes of stack for [`check_network`].
pub const STACK_CHECK_NETWORK: usize = 1792;
/// Bytes of stack for [`label_network`].
pub const STACK_LABEL_NETWORK: usize = 188_416;
/// Bytes of stack for [`route_network`].
pub const STACK_ROUTE_NETWORK: usize = 188_416;
/// Bytes of stack for [`run_session`].
pub const STACK_RUN_SESSION: usize = 8704;
/// Bytes of stack for [`build_index`].
pub const STACK_BUILD_INDEX: usize = 7680;
/// Bytes of stack for [`ask_index`].
pub const STACK_ASK_INDEX: usize = 640;
/// Bytes of stack for [`write_listing`].
pub const STACK_WRITE_LISTING: usize = 245_760;

/// What the text reader returns. On a refusal all but `number` is 0.
#[repr(C)]
#[derive(Clone, Copy, Debug, PartialEq, Eq)]
pub struct ReadAnswer {
    /// 0, or the number of the refusal
    pub number: u32,
    /// gates
    pub n: u32,
    /// districts
    pub p: u32,
    /// the gate to label from
    pub source: u32,
    /// the gate that a route is asked to, [`NO_TARGET`] if there is none
    pub target: u32,
}

/// What the labelling returns. On a refusal all but `number` is 0.
#[repr(C)]
#[derive(Clone, Copy, Debug, PartialEq, Eq)]
pub struct LabelAnswer {
    /// 0, or the number of the refusal
    pub number: u32,
    /// gates with a label, the source too
    pub reached: u32,
    /// takes
    pub extracted: u32,
    /// intervals brought in
    pub inserted: u32,
}

/// What a route returns. On a refusal all but `number` is 0.
#[repr(C)]
#[derive(Clone, Copy, Debug, PartialEq, Eq)]
pub struct RouteAnswer {
    /// 0, or the number of the refusal
    pub number: u32,
    /// metres from the source to the target, or [`UNREACHED`]
    pub label: u32,
    /// legs
    pub arcs: u32,
}

/// What a session returns. On a refusal all but `number` is 0.
#[repr(C)]
#[derive(Clone, Copy, Debug, PartialEq, Eq)]
pub struct SessionAnswer {
    /// 0, or the number of the refusal
    pub number: u32,
    /// intervals brought in
    pub inserted: u32,
    /// intervals dropped
    pub removed: u32,
}

/// What a question to an index returns. `column` is 0 where there is none.
#[repr(C)]
#[derive(Clone, Copy, Debug, PartialEq, Eq)]
pub struct LeastAnswer {
    /// 0, [`NOTHING`], or the number of the refusal
    pub code: u32,
    /// the lowest column of least length
    pub column: u32,
}

// SAFETY, of every call below: each pointer and length comes from one slice that is borrowed for the call, mutably where the entry
// writes, so that no two overlap; the entries are proved to stay inside the slices and to return for every input.

/// The field of six bytes at place `at` of the text goes to `value`, one place. Returns 0, 1 or 3.
pub fn read_field(text: &[u8], at: usize, value: &mut [u32]) -> u32 {
    unsafe { raw::rabdzhine_read_field(text.as_ptr(), text.len(), at, value.as_mut_ptr(), value.len()) }
}

/// Writes `x` into the nine columns of a place of the line. Returns 0, 1 or 4.
pub fn write_field(line: &mut [u8], place: usize, x: u32) -> u32 {
    unsafe { raw::rabdzhine_write_field(line.as_mut_ptr(), line.len(), place, x) }
}

/// Reads a plan into the three buffers; a length that is `-` becomes [`NO_PATH`].
pub fn read_text(text: &[u8], sizes: &mut [u32], vertices: &mut [u32], lengths: &mut [u32]) -> ReadAnswer {
    unsafe {
        raw::rabdzhine_read_text(
            text.as_ptr(),
            text.len(),
            sizes.as_mut_ptr(),
            sizes.len(),
            vertices.as_mut_ptr(),
            vertices.len(),
            lengths.as_mut_ptr(),
            lengths.len(),
        )
    }
}

/// Judges a network. Returns 0, 1, 4, 5, 6 or 7.
pub fn check_network(n: u32, p: u32, sizes: &[u32], vertices: &[u32], lengths: &[u32]) -> u32 {
    unsafe {
        raw::rabdzhine_check_network(
            n,
            p,
            sizes.as_ptr(),
            sizes.len(),
            vertices.as_ptr(),
            vertices.len(),
            lengths.as_ptr(),
            lengths.len(),
        )
    }
}

/// Labels the gates of a network with the metres from the source; no leg of a run is [`NO_PATH`]. A refusal leaves `labels`.
pub fn label_network(
    n: u32,
    p: u32,
    sizes: &[u32],
    vertices: &[u32],
    lengths: &[u32],
    source: u32,
    labels: &mut [u32],
) -> LabelAnswer {
    unsafe {
        raw::rabdzhine_label_network(
            n,
            p,
            sizes.as_ptr(),
            sizes.len(),
            vertices.as_ptr(),
            vertices.len(),
            lengths.as_ptr(),
            lengths.len(),
            source,
            labels.as_mut_ptr(),
            labels.len(),
        )
    }
}

/// Finds the shortest run from the source to the target. Its legs stand in `arcs` in order, [`ARC_SIZE`] numbers each: they join up, and
/// their metres add up to the label. A refusal leaves `arcs`.
///
/// ```
/// use rabdzhine::{read_text, route_network, RouteAnswer, ARC_SIZE, LENGTHS, ROUTE_PLACES, SIZES, VERTICES};
///
/// // two districts of two gates each, which share gate 2; the question has a target
/// let text = b"     3     2
///      2     1     2
///      0   250
///    300     0
///      2     2     3
///      0   120
///    130     0
///      3     1
/// ";
/// let (mut sizes, mut vertices, mut lengths) = ([0; SIZES], [0; VERTICES], [0; LENGTHS]);
/// let plan = read_text(text, &mut sizes, &mut vertices, &mut lengths);
/// assert_eq!((plan.source, plan.target), (3, 1));
///
/// let mut arcs = [0; ROUTE_PLACES];
/// let answer =
///     route_network(plan.n, plan.p, &sizes, &vertices, &lengths, plan.source, plan.target, &mut arcs);
/// assert_eq!(answer, RouteAnswer { number: 0, label: 430, arcs: 2 });
///
/// let mut route = arcs.chunks(ARC_SIZE).take(answer.arcs as usize);
/// assert_eq!(route.next(), Some(&[3, 2, 2, 130][..]));
/// assert_eq!(route.next(), Some(&[2, 1, 1, 300][..]));
/// assert_eq!(route.next(), None);
/// ```
#[allow(clippy::too_many_arguments)] // they are the entry's
pub fn route_network(
    n: u32,
    p: u32,
    sizes: &[u32],
    vertices: &[u32],
    lengths: &[u32],
    source: u32,
    target: u32,
    arcs: &mut [u32],
) -> RouteAnswer {
    unsafe {
        raw::rabdzhine_route_network(
            n,
            p,
            sizes.as_ptr(),
            sizes.len(),
            vertices.as_ptr(),
            vertices.len(),
            lengths.as_ptr(),
            lengths.len(),
            source,
            target,
            arcs.as_mut_ptr(),
            arcs.len(),
        )
    }
}

/// Runs calls on the heap of one block. The kept intervals stand in `intervals` by rising first column, [`INTERVAL_SIZE`] numbers each. A
/// column that no told row has a path to is in no interval and never handed out. A refusal leaves `answers` and `intervals`.
///
/// ```
/// use rabdzhine::{run_session, ANSWERS, CALLS, INTERVALS, INTERVAL_SIZE, NO_PATH, RECTANGLE, UNUSED};
///
/// let (mut lengths, mut calls) = ([0; RECTANGLE], [0; CALLS]);
/// lengths[..5].copy_from_slice(&[3, 1, 2, 1, NO_PATH]); // no run leads to the last column
/// calls[..6].copy_from_slice(&[1, 0, 10, 2, 0, 0]); // row 0 is told 10, then a column is taken
/// let (mut answers, mut intervals) = ([0; ANSWERS], [0; INTERVALS]);
/// let answer = run_session(1, 5, 2, &lengths, &calls, &mut answers, &mut intervals);
/// assert_eq!((answer.number, answer.inserted, answer.removed), (0, 3, 1));
/// assert_eq!(answers[3..6], [0, 1, 11]);
///
/// let mut kept = intervals.chunks(INTERVAL_SIZE).take_while(|interval| interval[0] != UNUSED);
/// assert_eq!(kept.next(), Some(&[0, 0, 0, 0, 13][..]));
/// assert_eq!(kept.next(), Some(&[0, 2, 3, 3, 11][..]));
/// assert_eq!(kept.next(), None);
/// ```
pub fn run_session(
    rows: u32,
    cols: u32,
    count: u32,
    lengths: &[u32],
    calls: &[u32],
    answers: &mut [u32],
    intervals: &mut [u32],
) -> SessionAnswer {
    unsafe {
        raw::rabdzhine_run_session(
            rows,
            cols,
            count,
            lengths.as_ptr(),
            lengths.len(),
            calls.as_ptr(),
            calls.len(),
            answers.as_mut_ptr(),
            answers.len(),
            intervals.as_mut_ptr(),
            intervals.len(),
        )
    }
}

/// Builds the index of one block. Row i has its own at [`INDEX_ROW`] times i: for the stretch of all columns, then for each half of it, the
/// lowest column of least length. Unused places are 0. Returns 0, 1, 4, 6 or 7; a refusal leaves `index`.
///
/// ```
/// use rabdzhine::{ask_index, build_index, LeastAnswer, INDEX, NOTHING, RECTANGLE};
///
/// let (mut lengths, mut index) = ([0; RECTANGLE], [0; INDEX]);
/// lengths[..5].copy_from_slice(&[3, 1, 2, 1, 1]); // a block of one row and five columns
/// assert_eq!(build_index(1, 5, &lengths, &mut index), 0);
///
/// // the least of columns 2 to 4 is that of column 3, and column 4 has the same
/// assert_eq!(ask_index(1, 5, &lengths, &index, 0, 2, 5), LeastAnswer { code: 0, column: 3 });
/// // a stretch that leaves the row
/// assert_eq!(ask_index(1, 5, &lengths, &index, 0, 2, 6), LeastAnswer { code: NOTHING, column: 0 });
/// ```
pub fn build_index(rows: u32, cols: u32, lengths: &[u32], index: &mut [u8]) -> u32 {
    unsafe {
        raw::rabdzhine_build_index(
            rows,
            cols,
            lengths.as_ptr(),
            lengths.len(),
            index.as_mut_ptr(),
            index.len(),
        )
    }
}

/// Asks an index for the lowest column of least length of a row, from column `first` up to the one before `end`. A row that is not there, a
/// stretch that is empty and one that leaves the row get [`NOTHING`]. The lengths are those that the index was built from: they are not
/// judged once more. A stretch of nothing but [`NO_PATH`] has its lowest column. From any other bytes the answer is some column of the stretch.
pub fn ask_index(
    rows: u32,
    cols: u32,
    lengths: &[u32],
    index: &[u8],
    row: u32,
    first: u32,
    end: u32,
) -> LeastAnswer {
    unsafe {
        raw::rabdzhine_ask_index(
            rows,
            cols,
            lengths.as_ptr(),
            lengths.len(),
            index.as_ptr(),
            index.len(),
            row,
            first,
            end,
        )
    }
}

/// Writes what the program `labels` writes for this text: the labels of all gates, or the route if the question has a target. Returns
/// how many bytes.
pub fn write_listing(text: &[u8], out: &mut [u8]) -> usize {
    unsafe { raw::rabdzhine_write_listing(text.as_ptr(), text.len(), out.as_mut_ptr(), out.len()) }
}
