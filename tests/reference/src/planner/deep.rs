//! The deep call.

use super::{Answer, Refusal};

/// The deep call.
pub trait DeepCall {
    /// The plan call in up to so many rounds, under other numbers for the vertices or with the next trees: the cheapest drive of all rounds, and the highest
    /// floor with its u. It ends as soon as the two meet, and says then that it is whole. Later places are untouched; a refusal changes none.
    fn deep_call(&self, plan: &[u8], budget: u64, rounds: u32, sheet: &mut [u16]) -> Result<Answer, Refusal>;
}
