//! What a planner is, for the tests: traits over slices, the answer, and the refusals by number.
//!
//! The tests have the proved library behind these traits too, `Proved`, which can stand for `Yardstick` here:
//!
//! ```
//! use reference::{plan::SHEET_PLACES, planner::Planner, yardstick::Yardstick};
//!
//! let file = [0x10, 0x40, 0x20, 0x01, 0x40, 0x01, 0x41, 0x00, 0x00, 0x03];
//! let mut sheet = vec![0; SHEET_PLACES];
//! let answer = Yardstick.short_call(&file, &mut sheet).expect("a good plan");
//! assert_eq!(answer.cost, 8);
//! assert_eq!(sheet[..answer.places], [0, 1]);
//! ```

use crate::plan::{Arc, Departure, MOST_VERTICES};

mod cars;
mod counter;
mod deep;
mod districts;
mod editor;
pub use cars::{Car, CarsAnswer, CarsCall};
pub use counter::{Counter, TreeCount};
pub use deep::DeepCall;
pub use districts::{Districts, Machine, Turn};
pub use editor::{Call, Change, Editor, OpenPlan};

/// A refusal, by its number.
pub type Refusal = u32;

/// The refusals' trade words.
pub mod refusal {
    use super::Refusal;

    pub const TORN: Refusal = 1;
    pub const EDITION: Refusal = 2;
    pub const EXTENT: Refusal = 3;
    pub const MARGIN: Refusal = 4;
    pub const OFF_SHEET: Refusal = 5;
    pub const UNPRICED: Refusal = 6;
    pub const STANDING: Refusal = 7;
    pub const SHORT_SHEET: Refusal = 8;
    pub const BUDGET: Refusal = 9;
    pub const IDLE: Refusal = 10;
    pub const SCATTERED: Refusal = 11;
    pub const CUT_OFF: Refusal = 12;
    pub const REPEATED: Refusal = 13;
    pub const FOREIGN: Refusal = 14;
    pub const UNJOINED: Refusal = 15;
    pub const MISSED: Refusal = 16;
    pub const STRAY_PAIR: Refusal = 17;
    pub const BAD_MARKS: Refusal = 18;
    pub const BAD_WINDOW: Refusal = 19;
    pub const MUST_SHUT: Refusal = 20;
    pub const NO_MARK: Refusal = 21;
    pub const FULL: Refusal = 22;
    pub const ROUNDS: Refusal = 23;
}

/// What the plan call answers beside the drive.
#[derive(Clone, PartialEq, Eq, Debug)]
pub struct Answer {
    /// How many places of the sheet the drive takes, from the sheet's start.
    pub places: usize,
    pub cost: u64,
    /// No drive costs less.
    pub floor: u64,
    /// Trees tried.
    pub trees: u64,
    /// Whether all trees were tried.
    pub whole: bool,
    /// The number of components.
    pub parts: u64,
    /// u: one signed multiplier per vertex.
    pub multipliers: [i64; MOST_VERTICES],
}

/// The plan call and the short call.
pub trait Planner {
    /// Lays a drive for the plan file `plan`, trying at most `budget` trees, and writes its arc numbers into `sheet` from the start.
    /// Later places are untouched; a refusal changes none.
    fn plan_call(&self, plan: &[u8], budget: u64, sheet: &mut [u16]) -> Result<Answer, Refusal>;

    /// The plan call with the default budget.
    fn short_call(&self, plan: &[u8], sheet: &mut [u16]) -> Result<Answer, Refusal>;
}

/// The plan call at a departure.
pub trait DepartureCall {
    /// The plan call with the arcs closed that are shut at departure. A window is four numbers: arc, weekday, from, to.
    fn plan_call_at(
        &self,
        plan: &[u8],
        budget: u64,
        windows: &[u16],
        departure: Departure,
        sheet: &mut [u16],
    ) -> Result<Answer, Refusal>;
}

/// Reading and writing of plan files.
pub trait Codec {
    /// Reads a file: its edition, n and m; the arcs are put into `records` from the start. Later records are untouched; a refusal changes none.
    fn read(&self, bytes: &[u8], records: &mut [Arc]) -> Result<(u8, usize, usize), Refusal>;

    /// Writes the file of an edition, of `n` vertices and the arcs `records`, into `bytes` from the start: the file's length. Later bytes are
    /// untouched; a refusal changes none.
    fn write(&self, edition: u8, n: u32, records: &[Arc], bytes: &mut [u8]) -> Result<usize, Refusal>;
}

/// Distances for a page of pairs of vertices.
pub trait DistanceCall {
    /// The distances of pairs of vertices of the plan file `plan`, into `distances` from the start: the number of searches run. A pair is
    /// 256 × first + second. Later entries are untouched; a refusal changes none.
    fn distances(&self, plan: &[u8], pairs: &[u16], distances: &mut [u32]) -> Result<usize, Refusal>;
}

/// Judging a drive that someone else laid.
pub trait Judge {
    /// What the drive of the arc numbers `places` costs.
    fn judge(&self, plan: &[u8], places: &[u16]) -> Result<u64, Refusal>;
}
