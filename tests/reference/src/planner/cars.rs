//! The call for two cars.

use super::{Answer, Refusal};

/// What a car lends to the call.
pub struct Car<'a> {
    /// A byte for each arc of the plan: 1 if the car must drive it, else 0.
    pub marks: &'a [u8],
    pub budget: u64,
    pub sheet: &'a mut [u16],
}

/// What each car is answered, or refused for itself; or the refusal that reaches both.
pub type CarsAnswer = Result<[Result<Answer, Refusal>; 2], Refusal>;

/// The call for two cars on the streets of one plan.
pub trait CarsCall {
    /// The plan call for each car, on the plan in which its marked arcs, and no others, must be driven. Later places of a sheet are untouched; a refusal
    /// that reaches a car changes none of its sheet.
    fn two_cars(&self, plan: &[u8], first: Car, second: Car) -> CarsAnswer;
}
