//! The reference: what is known of plans without the proved library.
//!
//! [`planner`] says what a planner is; [`yardstick`] is one, [`oracle`] knows what every planner has to answer,
//! [`properties`] compares the two on [`instances`], and [`mutants`] are wrong ones.

// Loops over vertices read best with the vertex as index.
#![allow(clippy::needless_range_loop)]

pub mod instances;
pub mod mutants;
pub mod oracle;
pub mod plan;
pub mod planner;
pub mod properties;
pub mod random;
pub mod suite;
pub mod yardstick;
