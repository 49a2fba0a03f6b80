//! What the edition and the checking costs of a plan move in the answer, and what they do not.

use super::{Findings, Property};
use crate::instances::checked;
use crate::oracle::{file_of, parse};
use crate::plan::{Arc, Plan, REQUIRED, SHEET_PLACES};
use crate::planner::{Answer, Planner, Refusal};
use crate::properties::Case;
use std::panic::{catch_unwind, AssertUnwindSafe};

/// What a planner answers for a plan, and its sheet then. None if it does not come back.
fn answer(planner: &dyn Planner, plan: &Plan, budget: u64) -> Option<(Result<Answer, Refusal>, Vec<u16>)> {
    let mut sheet = vec![0; SHEET_PLACES];
    let call = || planner.plan_call(&file_of(plan), budget, &mut sheet);
    let result = catch_unwind(AssertUnwindSafe(call)).ok()?;
    Some((result, sheet))
}

/// Holds the plan call on a case to what it answers for the same plan without checking costs of its own, in either edition; but for must arcs that are free, which edition 1 does
/// not have and which are checked at 1.
pub fn examine_checking(found: &mut Findings, planner: &dyn Planner, case: &Case, budget: u64) {
    let plan = parse(&case.file);
    let second = checked(plan.clone(), |_, cost| cost.max(1));
    let plain = answer(planner, &second, budget);
    let about = || format!("budget {budget}, {second:?}, {plain:?}");
    if second.arcs.iter().all(|a| a.standing != REQUIRED || a.cost > 0) {
        let first = Plan { edition: 1, ..second.clone() };
        found.expect(Property::Editions, answer(planner, &first, budget) == plain, about);
    }

    // What each must arc is checked at beyond its cost.
    let beyond = |a: &Arc| i64::from(a.checking) - i64::from(a.cost.max(1));
    let beyond: i64 = plan.arcs.iter().filter(|a| a.standing == REQUIRED).map(beyond).sum();
    let (Some((Ok(plain), _)), Some((Ok(told), _))) = (&plain, &answer(planner, &plan, budget)) else { return };
    let moved = |number: u64| number.wrapping_add_signed(beyond);
    let expected = Answer { cost: moved(plain.cost), floor: moved(plain.floor), ..plain.clone() };
    // Which drive of the cost is laid is free, and with it the number of places.
    let expected = Answer { places: told.places, ..expected };
    found.expect(Property::CheckingCosts, *told == expected, || format!("{told:?}, {beyond} beyond {}", about()));
}
