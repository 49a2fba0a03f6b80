//! The deep call.

use super::call::{call, examine_conditions, examine_drive, expect_refusal, FILL};
use super::{Case, Findings, Property};
use crate::oracle::{best_of, bounds_by_root, deep_refusal, file_of, parse, rounds, Facts};
use crate::plan::{Plan, SHEET_PLACES};
use crate::planner::{Answer, DeepCall, Planner};

/// Holds a call that may be refused to the oracle's refusal, and a refusal to the sheet.
pub fn examine_deep_refusal(
    found: &mut Findings,
    callee: &dyn DeepCall,
    file: &[u8],
    (budget, rounds, places): (u64, u32, usize),
) {
    let told = call(found, places, FILL, |sheet| callee.deep_call(file, budget, rounds, sheet));
    if let Some((result, sheet)) = told {
        expect_refusal(found, deep_refusal(file, budget, rounds, places), &result, &sheet, file);
    }
}

/// Holds the deep call on a case, with a good budget, number of rounds and sheet, to every property; and to a planner that is right, which gives what
/// each round is answered. No round may have more trees than a plan call takes.
pub fn examine_deep(
    found: &mut Findings,
    callee: &dyn DeepCall,
    planner: &dyn Planner,
    case: &Case,
    (budget, most): (u64, u32),
) {
    let file = &case.file;
    let Some((result, sheet)) = call(found, SHEET_PLACES, FILL, |sheet| callee.deep_call(file, budget, most, sheet))
    else {
        return;
    };
    let expected = case.facts.as_ref().err().copied().unwrap_or(0);
    expect_refusal(found, expected, &result, &sheet, file);
    let about = || format!("budget {budget}, {most} rounds, {:?}, {result:?}", parse(file));
    let again = call(found, SHEET_PLACES + 1, !FILL, |sheet| callee.deep_call(file, budget, most, sheet));
    if let Some((again, other)) = again {
        let places = result.as_ref().map_or(0, |a| a.places.min(SHEET_PLACES));
        found.expect(Property::Repeatable, again == result && other[..places] == sheet[..places], about);
    }
    let (Ok(facts), Ok(answer)) = (&case.facts, &result) else { return };
    examine_drive(found, facts, answer, &sheet, &about);
    examine_conditions(found, facts, answer, &about);
    examine_deep_floor(found, facts, answer, &about);
    found.expect(Property::Parts, answer.parts == facts.graph.parts as u64, about);

    let told = |plan: &Plan, trees: u64| {
        planner.plan_call(&file_of(plan), trees, &mut vec![0; SHEET_PLACES]).expect("a plan that is not refused")
    };
    let plain = told(&facts.graph.plan, budget);
    found.expect(Property::NoWorse, answer.cost <= plain.cost && answer.floor >= plain.floor, || {
        format!("{plain:?}: {}", about())
    });
    // Which drive of the cost is laid is free, and with it the number of places.
    let best = best_of(&rounds(&facts.graph.plan, budget, most, &told));
    let same = Answer { places: 0, ..answer.clone() } == Answer { whole: answer.whole, ..best.clone() };
    found.expect(Property::EachRound, same, || format!("{best:?}: {}", about()));
}

fn examine_deep_floor(found: &mut Findings, facts: &Facts, answer: &Answer, about: &dyn Fn() -> String) {
    let rival = facts.optimum.unwrap_or(answer.cost).min(answer.cost);
    found.expect(Property::FloorHolds, answer.floor <= rival, || format!("a drive of {rival}: {}", about()));
    let balanced = facts.graph.required_cost + facts.least_balancing;
    found.expect(Property::FloorAboveBalancing, answer.floor >= balanced, || format!("R + Z {balanced}: {}", about()));
    found.expect(Property::FloorMet, answer.whole == (answer.floor == answer.cost), about);
    if let (Some(optimum), true) = (facts.optimum, answer.whole) {
        found.expect(Property::Optimum, answer.cost == optimum, || format!("optimum {optimum}: {}", about()));
    }
    if answer.floor != answer.cost {
        let bounds = bounds_by_root(&facts.graph, &answer.multipliers);
        let is_one = bounds.contains(&(answer.floor as i64));
        found.expect(Property::FloorOfSomeRoot, is_one, || format!("bounds {bounds:?}: {}", about()));
    }
}

/// Holds the deep call with one round to the plan call of a planner: the answer, but for what it says of whole, and the sheet; or the refusal.
pub fn examine_one_round(
    found: &mut Findings,
    callee: &dyn DeepCall,
    planner: &dyn Planner,
    file: &[u8],
    (budget, places): (u64, usize),
) {
    let plain = call(found, places, FILL, |sheet| planner.plan_call(file, budget, sheet));
    let told = call(found, places, FILL, |sheet| callee.deep_call(file, budget, 1, sheet));
    let (Some((plain, sheet)), Some((told, other))) = (plain, told) else { return };
    let unsaid = |answer: &Answer| Answer { whole: false, ..answer.clone() };
    let same = told.as_ref().map(unsaid) == plain.as_ref().map(unsaid) && sheet == other;
    found
        .expect(Property::OneRound, same, || format!("budget {budget}: {told:?} instead of {plain:?} for {file:02x?}"));
}

/// Holds the answers with two numbers of rounds to each other. Where floor and cost have met, more rounds change nothing.
pub fn examine_more_rounds(
    found: &mut Findings,
    callee: &dyn DeepCall,
    file: &[u8],
    budget: u64,
    (few, many): (u32, u32),
) {
    assert!(few <= many);
    let told = [few, many].map(|rounds| {
        let told = call(found, SHEET_PLACES, FILL, |sheet| callee.deep_call(file, budget, rounds, sheet));
        told.and_then(|(told, sheet)| Some((told.ok()?, sheet)))
    });
    if let [Some((before, sheet)), Some((after, other))] = &told {
        let about = || format!("budget {budget}, {few} and {many} rounds, {:?}, {before:?}, {after:?}", parse(file));
        let no_worse = after.cost <= before.cost && after.floor >= before.floor;
        found.expect(Property::MoreRounds, no_worse, about);
        let closed = before.floor == before.cost;
        found.expect(Property::MoreRounds, !closed || before == after && sheet == other, about);
    }
}
