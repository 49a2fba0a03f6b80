//! What a raised budget buys.

use super::{Findings, Property};
use crate::oracle::parse;
use crate::plan::SHEET_PLACES;
use crate::planner::{Answer, Planner};
use crate::properties::Case;
use std::panic::{catch_unwind, AssertUnwindSafe};

/// An answer, and the drive of it, on a sheet filled with one number. None if it is refused, or does not come back.
fn answer(planner: &dyn Planner, file: &[u8], budget: u64, fill: u16) -> Option<(Answer, Vec<u16>)> {
    let mut sheet = vec![fill; SHEET_PLACES + usize::from(fill % 2)];
    let result = catch_unwind(AssertUnwindSafe(|| planner.plan_call(file, budget, &mut sheet)));
    let answer = result.ok()?.ok()?;
    sheet.truncate(answer.places);
    Some((answer, sheet))
}

/// Holds the answers at two budgets to each other: the larger one's drive is no dearer and its floor no lower, and u is the same. Two answers that aren't whole
/// have equal floors; where the smaller budget reached all trees, nothing changes.
pub fn examine_raised(found: &mut Findings, planner: &dyn Planner, case: &Case, low: u64, high: u64) {
    assert!(low <= high);
    let (before, after) = (answer(planner, &case.file, low, 7), answer(planner, &case.file, high, 4_096));
    let about = || format!("budgets {low} and {high}, {:?}, {before:?}, {after:?}", parse(&case.file));
    if let (Some((a, _)), Some((b, _))) = (&before, &after) {
        let holds = b.cost <= a.cost && a.floor <= b.floor && a.multipliers == b.multipliers;
        found.expect(Property::RaisedBudget, holds, about);
        found.expect(Property::RaisedBudget, a.whole || b.whole || a.floor == b.floor, about);
        found.expect(Property::RaisedBudget, !a.whole || before == after, about);
    }
}
