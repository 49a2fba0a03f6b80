//! The number of trees.

use super::Refusal;

/// The number of trees of a plan that is not refused.
#[derive(Clone, Copy, PartialEq, Eq, Debug)]
pub enum TreeCount {
    Known(u32),
    /// Above 4,294,967,295.
    Above,
}

impl TreeCount {
    /// What is answered of a number.
    pub fn of(count: u128) -> TreeCount {
        u32::try_from(count).map_or(TreeCount::Above, TreeCount::Known)
    }

    /// Whether it is known, and no larger than a budget.
    pub fn is_within(self, budget: u64) -> bool {
        matches!(self, TreeCount::Known(count) if u64::from(count) <= budget)
    }
}

/// The count of the trees.
pub trait Counter {
    /// The number of trees of the plan file `plan`.
    fn tree_count(&self, plan: &[u8]) -> Result<TreeCount, Refusal>;
}
