//! The rules of document 01 with requests 1 to 7 of document 02, written plainly in Rust from these documents alone. The tests compare the proved library with them, and
//! the benchmark measures it beside the two labellings here.
//!
//! - `network`: bounds and sizes, no path, a plan, its blocks, the causes 4 to 8 and 12, lent buffers
//! - `text`: the layout of a text, read and written
//! - `model`: the plain book of a block, the labelling over one for each block, and its routes
//! - `index`: the index of a row, built by looking at each column, and asked whatever it holds
//! - `entries`: what each entry of the library returns and leaves in its buffers
//! - `routes`: what every route must be
//! - `dijkstra`: the labels by the plainest algorithm
//! - `fr_dijkstra`: the labelling by interval heaps, unproved
//! - `plans`, `damage`: seeded plans, rectangles and texts to compare on
//! - `vectors`: the stored sessions and questions to an index
//!
//! Words: a vertex is a gate, a piece a district, an arc a leg, to activate is to tell, to extract is to take, a parent is an owner,
//! inserted is brought in, removed is dropped, the floor is the last sum handed out, no path is `-`. A row, a column or a place without a
//! path is closed.

pub mod damage;
pub mod dijkstra;
pub mod entries;
pub mod fr_dijkstra;
pub mod index;
pub mod model;
pub mod network;
pub mod plans;
pub mod routes;
pub mod text;
pub mod vectors;

/// 0, or the number of the cause that turned an input away.
pub fn number_of<T>(outcome: Result<T, u32>) -> u32 {
    outcome.err().unwrap_or(0)
}
