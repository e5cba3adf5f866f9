//! The line entry of document 01 in Rust, over the build-time copy of the
//! sources. `answer_line` has the shape of the C entry: a request, a lent reply,
//! and a number that is 0 for a reply.
//!
//! It is built over each of the two copies. The plain one reports no calls of `check`, so
//! the entry over it hands frames of kinds 11 to 15 to the other entry, its crate `traced`.

mod answer;
#[cfg(traced)]
pub mod causes;
pub mod check;
pub mod digits;
pub mod frame;
pub mod kinds;
pub mod quartics;
pub mod reply;
pub mod shapes;

pub use answer::{answer, answer_line};
