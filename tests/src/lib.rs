//! Tests and benchmarks of the survey drive's planner, from Rust: the [`reference`], and the library behind its traits.

#[cfg(feature = "proved")]
mod proved;

pub mod asked;

pub use reference::{instances, mutants, oracle, plan, properties, random, suite, yardstick};

/// What a planner is, and the library as one, if it is linked.
pub mod planner {
    #[cfg(feature = "proved")]
    pub use crate::proved::Proved;
    pub use reference::planner::*;
}

// The examples of the documents are run with the other examples in documentation.
#[cfg(all(doctest, feature = "proved"))]
mod documents {
    #[doc = include_str!("../../docs/CALLS.md")]
    struct Calls;
    #[doc = include_str!("../../README.md")]
    struct Readme;
}
