//! The entries as the library exports them: a slice is a pointer and a length.

use crate::{LabelAnswer, LeastAnswer, ReadAnswer, RouteAnswer, SessionAnswer};

extern "C" {
    pub fn rabdzhine_read_field(
        text: *const u8,
        text_len: usize,
        at: usize,
        value: *mut u32,
        value_len: usize,
    ) -> u32;

    pub fn rabdzhine_write_field(line: *mut u8, line_len: usize, place: usize, x: u32) -> u32;

    pub fn rabdzhine_read_text(
        text: *const u8,
        text_len: usize,
        sizes: *mut u32,
        sizes_len: usize,
        vertices: *mut u32,
        vertices_len: usize,
        lengths: *mut u32,
        lengths_len: usize,
    ) -> ReadAnswer;

    pub fn rabdzhine_check_network(
        n: u32,
        p: u32,
        sizes: *const u32,
        sizes_len: usize,
        vertices: *const u32,
        vertices_len: usize,
        lengths: *const u32,
        lengths_len: usize,
    ) -> u32;

    pub fn rabdzhine_label_network(
        n: u32,
        p: u32,
        sizes: *const u32,
        sizes_len: usize,
        vertices: *const u32,
        vertices_len: usize,
        lengths: *const u32,
        lengths_len: usize,
        source: u32,
        labels: *mut u32,
        labels_len: usize,
    ) -> LabelAnswer;

    pub fn rabdzhine_route_network(
        n: u32,
        p: u32,
        sizes: *const u32,
        sizes_len: usize,
        vertices: *const u32,
        vertices_len: usize,
        lengths: *const u32,
        lengths_len: usize,
        source: u32,
        target: u32,
        arcs: *mut u32,
        arcs_len: usize,
    ) -> RouteAnswer;

    pub fn rabdzhine_run_session(
        rows: u32,
        cols: u32,
        count: u32,
        lengths: *const u32,
        lengths_len: usize,
        calls: *const u32,
        calls_len: usize,
        answers: *mut u32,
        answers_len: usize,
        intervals: *mut u32,
        intervals_len: usize,
    ) -> SessionAnswer;

    pub fn rabdzhine_build_index(
        rows: u32,
        cols: u32,
        lengths: *const u32,
        lengths_len: usize,
        index: *mut u8,
        index_len: usize,
    ) -> u32;

    pub fn rabdzhine_ask_index(
        rows: u32,
        cols: u32,
        lengths: *const u32,
        lengths_len: usize,
        index: *const u8,
        index_len: usize,
        row: u32,
        first: u32,
        end: u32,
    ) -> LeastAnswer;

    pub fn rabdzhine_write_listing(text: *const u8, text_len: usize, out: *mut u8, out_len: usize) -> usize;
}
