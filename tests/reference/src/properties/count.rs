//! The number of trees.

use super::{Case, Findings, Property};
use crate::oracle::{call_refusal, count_trees, first_trees, parse, Graph};
use crate::plan::SHEET_PLACES;
use crate::planner::{Counter, Planner, TreeCount};

/// The most choices that are gone through to count trees one by one.
const CHOICES: usize = 20_000;

/// Holds a count to the refusals 1 to 7, 10 to 13, to the determinant, and to plain enumeration where that ends soon.
pub fn examine_count(found: &mut Findings, counter: &dyn Counter, file: &[u8]) {
    // With a budget and a sheet that are good, what is left of the plan call's refusals are the count's.
    let told = counter.tree_count(file);
    let expected = match call_refusal(file, 1, SHEET_PLACES) {
        0 => Ok(TreeCount::of(count_trees(&Graph::new(&parse(file))))),
        number => Err(number),
    };
    let about = || format!("{told:?} instead of {expected:?}, {file:02x?}");
    found.expect(Property::TreeCount, told == expected, about);
    if expected.is_ok() {
        let listed = first_trees(&Graph::new(&parse(file)), CHOICES, CHOICES);
        let holds = !listed.complete || told == Ok(TreeCount::of(listed.trees.len() as u128));
        found.expect(Property::TreeCount, holds, || format!("{told:?} for {} trees", listed.trees.len()));
    }
}

/// "The plan call's whole is yes exactly when that number is known and no larger than the budget."
pub fn examine_whole(found: &mut Findings, planner: &dyn Planner, counter: &dyn Counter, case: &Case, few: u64) {
    let Ok(count) = counter.tree_count(&case.file) else { return };
    for budget in case.budgets(few) {
        let whole = planner.plan_call(&case.file, budget, &mut vec![0; SHEET_PLACES]).map(|answer| answer.whole);
        let holds = whole == Ok(count.is_within(budget));
        found.expect(Property::WholeTold, holds, || format!("whole {whole:?}, count {count:?}, budget {budget}"));
    }
}
