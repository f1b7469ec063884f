//! How results are shown: a summary, and the tables and the picture of the documentation.

mod docs;
mod machine;
pub mod numbers;
mod summary;
mod tables;

pub use docs::rewrite;
pub use summary::summary;
