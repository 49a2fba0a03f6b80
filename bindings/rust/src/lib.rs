//! The survey drive's planner, proved by machine, from Rust.
//!
//! Given a plan of streets, the planner lays a closed drive that passes every street that must be driven, and gives a floor: a number
//! that no drive can undercut. In the field's words: the directed rural postman problem, with a certified lower bound.
//!
//! ```
//! use postman::{plan_call, Arc, Edition, Plan, Standing};
//!
//! // A street that must be driven, and one that leads back.
//! let plan = Plan {
//!     edition: Edition::First,
//!     vertices: 2,
//!     arcs: vec![Arc::new(0, 1, Standing::Required, 5), Arc::new(1, 0, Standing::Optional, 3)],
//! };
//! let answer = plan_call(&plan.write()?, 10_000)?;
//! assert_eq!(answer.drive, [0, 1]);
//! assert_eq!((answer.cost, answer.floor), (8, 8));
//!
//! // The same, where the first pass of the street is slow: there its signs are read. This takes the second edition of the file.
//! let slow = Plan { edition: Edition::Second, arcs: vec![Arc::checked(0, 1, 5, 9), plan.arcs[1]], ..plan };
//! assert_eq!(plan_call(&slow.write()?, 10_000)?.cost, 12);
//! # Ok::<(), postman::Refusal>(())
//! ```
//!
//! What is proved is the library behind this package, which `tools/library` builds; `include/postman.h` describes its C functions.
//! This package lends it slices and takes its answers apart. [`raw`] has the calls that lend slices of the caller's.
//!
//! The build script links `target/staticlib/libproved.a` of the repository, or the library in the folder that the environment variable
//! `POSTMAN_LIB_DIR` names.
#![deny(missing_docs)]

mod answer;
mod distances;
mod districts;
mod edition;
mod ffi;
pub mod limits;
mod open_plan;
mod plan;
pub mod raw;
mod refusal;
mod tree_count;
mod two_cars;
mod windows;

pub use answer::{deep_call, judge, plan_call, short_call, Answer};
pub use distances::{distances, Distances};
pub use districts::{Districts, Turn};
pub use edition::Edition;
pub use open_plan::OpenPlan;
pub use plan::{Arc, Plan, Standing};
pub use refusal::Refusal;
pub use tree_count::{tree_count, TreeCount};
pub use two_cars::{two_cars, Car};
pub use windows::{plan_call_at, Departure, Window};
