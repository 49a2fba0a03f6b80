//! The plan call and the short call.

use super::{Findings, Property};
use crate::oracle::{
    call_refusal, file_of, follows_fewest_paths, judge, lagrangian_bound, parse, short_refusal, Effort, Facts,
};
use crate::plan::{Plan, DEFAULT_BUDGET, HIGHEST_BUDGET, SHEET_PLACES};
use crate::planner::{Answer, Planner, Refusal};
use std::panic::{catch_unwind, AssertUnwindSafe};

/// A plan, with what the oracle knows of it.
pub struct Case {
    pub file: Vec<u8>,
    /// The facts, or how the plan is refused with a good sheet and budget.
    pub facts: Result<Facts, Refusal>,
}

impl Case {
    pub fn new(plan: &Plan, effort: &Effort) -> Case {
        Case::of_file(file_of(plan), effort)
    }

    pub fn of_file(file: Vec<u8>, effort: &Effort) -> Case {
        let facts = match short_refusal(&file, SHEET_PLACES) {
            0 => Ok(Facts::of(&parse(&file), effort)),
            number => Err(number),
        };
        Case { file, facts }
    }

    /// T at a budget, or the refusal with a good sheet.
    pub fn trees(&self, budget: u64) -> Result<u64, Refusal> {
        if !(1..=HIGHEST_BUDGET).contains(&budget) {
            return Err(call_refusal(&self.file, budget, SHEET_PLACES));
        }
        self.facts.as_ref().map(|facts| facts.tree_count.min(budget.into()) as u64).map_err(|&number| number)
    }

    /// Budgets worth trying: all up to N and one more, if these are few; else the first ones, and those around what is known. What no brute
    /// force was spent on need not be tried far beyond it.
    pub fn budgets(&self, few: u64) -> Vec<u64> {
        let Ok(facts) = &self.facts else { return vec![1] };
        let n = facts.tree_count.min(2_000_000) as u64;
        if n <= few {
            return (1..=n + 1).collect();
        }
        let known = facts.tree_costs.len() as u64;
        let mut budgets: Vec<u64> = (1..=few.min(20)).collect();
        budgets.extend([known / 3, known / 2, known.saturating_sub(1), known, known + 1, n - 1, n, n + 1]);
        budgets.retain(|&b| b >= 1 && b <= (4 * known + 100).min(n + 1));
        budgets
    }
}

/// Makes a call on a sheet filled with one number; the sheet comes back too.
pub(crate) fn call<T>(
    found: &mut Findings,
    places: usize,
    fill: u16,
    f: impl FnOnce(&mut [u16]) -> T,
) -> Option<(T, Vec<u16>)> {
    let mut sheet = vec![fill; places];
    let result = catch_unwind(AssertUnwindSafe(|| f(&mut sheet)));
    found.expect(Property::Returns, result.is_ok(), || "panics".to_string());
    result.ok().map(|result| (result, sheet))
}

/// No arc has these numbers.
pub(crate) const FILL: u16 = 0xA5A5;
const OTHER_FILL: u16 = 0x5A5A;

/// Holds calls that may be refused to the oracle's refusal, and a refusal to the sheet.
pub fn examine_refusal(found: &mut Findings, planner: &dyn Planner, file: &[u8], budget: u64, places: usize) {
    if let Some((result, sheet)) = call(found, places, FILL, |sheet| planner.plan_call(file, budget, sheet)) {
        expect_refusal(found, call_refusal(file, budget, places), &result, &sheet, file);
    }
    if let Some((result, sheet)) = call(found, places, FILL, |sheet| planner.short_call(file, sheet)) {
        expect_refusal(found, short_refusal(file, places), &result, &sheet, file);
    }
}

/// Whether the call was refused as expected, and not otherwise.
pub(super) fn expect_refusal(
    found: &mut Findings,
    expected: Refusal,
    result: &Result<Answer, Refusal>,
    sheet: &[u16],
    file: &[u8],
) {
    let number = result.as_ref().err().copied().unwrap_or(0);
    found.expect(Property::Refusal, number == expected, || format!("{number} instead of {expected} for {file:02x?}"));
    if result.is_err() {
        found.expect(Property::SheetKept, sheet.iter().all(|&x| x == FILL), || {
            format!("refusal {number} of {file:02x?}")
        });
    }
}

/// Holds the plan call on a case, with a good budget and sheet, to every property.
pub fn examine_answer(found: &mut Findings, planner: &dyn Planner, case: &Case, budget: u64) {
    let file = &case.file;
    let Some((result, sheet)) = call(found, SHEET_PLACES, FILL, |sheet| planner.plan_call(file, budget, sheet)) else {
        return;
    };
    let expected = case.facts.as_ref().err().copied().unwrap_or(0);
    expect_refusal(found, expected, &result, &sheet, file);
    let about = || format!("budget {budget}, {:?}, {result:?}", parse(file));

    let more = budget as usize % 3;
    if let Some((again, other)) =
        call(found, SHEET_PLACES + more, OTHER_FILL, |sheet| planner.plan_call(file, budget, sheet))
    {
        let places = result.as_ref().map_or(0, |a| a.places.min(SHEET_PLACES));
        found.expect(Property::Repeatable, again == result && other[..places] == sheet[..places], about);
    }
    if budget == DEFAULT_BUDGET {
        if let Some((short, other)) = call(found, SHEET_PLACES, FILL, |sheet| planner.short_call(file, sheet)) {
            found.expect(Property::ShortCall, short == result && other == sheet, about);
        }
    }
    if let (Ok(facts), Ok(answer)) = (&case.facts, &result) {
        examine_drive(found, facts, answer, &sheet, &about);
        examine_trees(found, facts, answer, budget, &about);
        examine_floor(found, facts, answer, &about);
        examine_multipliers(found, facts, answer, &about);
    }
}

pub(super) fn examine_drive(
    found: &mut Findings,
    facts: &Facts,
    answer: &Answer,
    sheet: &[u16],
    about: &dyn Fn() -> String,
) {
    let plan = &facts.graph.plan;
    let places = answer.places.min(SHEET_PLACES);
    let (drive, rest) = sheet.split_at(places);
    found.expect(Property::RestKept, rest.iter().all(|&x| x == FILL), about);
    match judge(plan, drive) {
        Ok(cost) => found.expect(Property::DriveCost, cost == answer.cost, || format!("{cost}: {}", about())),
        Err(fault) => found.expect(Property::Drive, false, || format!("{fault}: {}", about())),
    }
    found.expect(Property::Drive, answer.places <= SHEET_PLACES, about);
    let first = facts.graph.required_arcs[0] as u16;
    found.expect(Property::FirstArc, drive.first() == Some(&first), about);
    let followed = follows_fewest_paths(&facts.graph, drive);
    found.expect(Property::FewestArcs, followed.is_ok(), || format!("{followed:?}: {}", about()));
}

fn examine_trees(found: &mut Findings, facts: &Facts, answer: &Answer, budget: u64, about: &dyn Fn() -> String) {
    found.expect(Property::Trees, u128::from(answer.trees) == facts.tree_count.min(budget.into()), about);
    found.expect(Property::Whole, answer.whole == (facts.tree_count <= budget.into()), about);
    found.expect(Property::Parts, answer.parts == facts.graph.parts as u64, about);
    if let Some(least) = facts.least_cost(budget) {
        found.expect(Property::LeastCost, answer.cost == least, || format!("least {least}: {}", about()));
    }
    if let (Some(optimum), true) = (facts.optimum, answer.whole) {
        found.expect(Property::Optimum, answer.cost == optimum, || format!("optimum {optimum}: {}", about()));
    }
}

fn examine_floor(found: &mut Findings, facts: &Facts, answer: &Answer, about: &dyn Fn() -> String) {
    let graph = &facts.graph;
    // The drive that was laid is a rival too.
    let rival = facts.optimum.unwrap_or(answer.cost).min(answer.cost);
    found.expect(Property::FloorHolds, answer.floor <= rival, || format!("a drive of {rival}: {}", about()));
    let balanced = graph.required_cost + facts.least_balancing;
    found.expect(Property::FloorAboveBalancing, answer.floor >= balanced, || format!("R + Z {balanced}: {}", about()));
    if answer.whole {
        found.expect(Property::FloorOfWhole, answer.floor == answer.cost, about);
    } else {
        let bound = facts.bound_at_zero.max(lagrangian_bound(graph, &answer.multipliers));
        found.expect(Property::FloorEquation, answer.floor as i64 == bound, || format!("bound {bound}: {}", about()));
    }
}

/// Document 01's conditions on u.
pub(super) fn examine_conditions(found: &mut Findings, facts: &Facts, answer: &Answer, about: &dyn Fn() -> String) {
    let (graph, u) = (&facts.graph, &answer.multipliers);
    let feasible = graph.required.iter().all(|&i| graph.required.iter().all(|&j| graph.reduced(u, i, j) >= 0));
    found.expect(Property::Feasible, feasible, about);
    found.expect(Property::Tight, graph.price(u) == facts.least_balancing as i64, about);
    let elsewhere = (0..u.len()).all(|v| graph.required.contains(&v) || u[v] == 0);
    found.expect(Property::Elsewhere, elsewhere, about);
}

fn examine_multipliers(found: &mut Findings, facts: &Facts, answer: &Answer, about: &dyn Fn() -> String) {
    let (graph, u) = (&facts.graph, &answer.multipliers);
    examine_conditions(found, facts, answer, about);
    found.expect(Property::Root, u[graph.required[0]] == 0, about);
    let (bound, greatest) = (lagrangian_bound(graph, u), lagrangian_bound(graph, &facts.greatest));
    found.expect(Property::NoLower, bound >= greatest, || format!("{greatest} at the greatest, {bound}: {}", about()));
}
