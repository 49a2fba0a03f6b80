//! Plans that are open for changes, with marks to come back to.

use super::{Answer, Refusal};
use crate::plan::Departure;

/// What an arc becomes. Its ends stay.
#[derive(Clone, Copy, PartialEq, Eq, Debug)]
pub struct Change {
    pub arc: u32,
    pub cost: u16,
    pub checking: u16,
    pub standing: u8,
}

/// A call to an open plan that may alter it.
#[derive(Clone, Copy, PartialEq, Eq, Debug)]
pub enum Call {
    Change(Change),
    Mark(u32),
    Return(u32),
}

/// Opens plans.
pub trait Editor {
    /// Opens the plan file `plan`, with no mark set.
    fn open(&self, plan: &[u8]) -> Result<Box<dyn OpenPlan>, Refusal>;
}

/// A plan that is open.
pub trait OpenPlan {
    /// The file written from it.
    fn file(&self) -> Vec<u8>;

    /// A change, a mark or a return. A refusal alters nothing.
    fn call(&mut self, call: Call) -> Result<(), Refusal>;

    /// The plan call at a departure for its file.
    fn ask(&self, budget: u64, windows: &[u16], departure: Departure, sheet: &mut [u16]) -> Result<Answer, Refusal>;
}
