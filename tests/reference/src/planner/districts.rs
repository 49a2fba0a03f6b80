//! Districts in turn: a machine that lays drives for up to eight of them.

use super::{Answer, Refusal};

/// What a turn meets.
#[derive(Clone, PartialEq, Eq, Debug)]
pub enum Turn {
    /// No district is inside.
    Empty,
    /// The front district goes to the back: its place, and the trees that it has tried so far, with their least cost.
    Unfinished { place: u8, cost: u64, trees: u64 },
    /// It leaves: the place that it had, and its answer.
    Finished { place: u8, answer: Box<Answer> },
}

/// Starts machines.
pub trait Districts {
    /// A machine with no district inside.
    fn start(&self) -> Box<dyn Machine>;
}

/// A machine, with districts in line.
pub trait Machine {
    /// A district enters with the plan file `plan`, to try at most `budget` trees: its place. A refusal moves nothing.
    fn enter(&mut self, plan: &[u8], budget: u64) -> Result<u8, Refusal>;

    /// The front district's turn. In its last one the drive is written into `sheet`, as the plan call does. A refusal moves nothing.
    fn turn(&mut self, sheet: &mut [u16]) -> Result<Turn, Refusal>;

    /// Whether it is what a start gives.
    fn is_new(&self) -> bool;

    /// The front district's place becomes another, as a machine that was kept elsewhere may say.
    fn displace(&mut self, place: u8);
}
