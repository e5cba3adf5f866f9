//! Lines, quartics and numbers to try, made from a seed.

pub mod any_line;
pub mod attempt;
pub mod broken_line;
pub mod check_line;
pub mod line;
mod many_roots;
mod motion;
mod needs;
pub mod numbers;
pub mod quartic;
pub mod random;
mod rest_to_rest;
pub mod shape_line;

pub use oracle::kinds;
