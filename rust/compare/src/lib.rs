//! Seeded inputs for the calls of the face, and the comparison of two implementations call by call.

/// The shape of a table: its sizes, named once, in the face's crate. `naive` and the plain Rust have their own, from the papers.
pub use zarfolin::table as shape;

pub mod bridge;
pub mod case;
pub mod coming;
pub mod definitions;
pub mod face;
pub mod naive;
pub mod naive_02;
pub mod naive_xml;
pub mod records;
pub mod rng;
pub mod sheets;
pub mod tables;
pub mod vectors;
