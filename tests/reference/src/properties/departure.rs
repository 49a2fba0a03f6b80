//! The plan call at a departure.

use super::call::{call, expect_refusal, FILL};
use super::{examine_answer, Case, Findings, Property};
use crate::oracle::{departure_refusal, file_of, parse, plan_at, read_refusal, Effort, Facts};
use crate::plan::{Departure, DEFAULT_BUDGET, SHEET_PLACES};
use crate::planner::{Answer, DepartureCall, Planner, Refusal};

/// The call with windows and a departure that are fixed: a planner, for the plan at that departure.
struct At<'a> {
    call: &'a dyn DepartureCall,
    windows: &'a [u16],
    departure: Departure,
}

impl Planner for At<'_> {
    fn plan_call(&self, plan: &[u8], budget: u64, sheet: &mut [u16]) -> Result<Answer, Refusal> {
        self.call.plan_call_at(plan, budget, self.windows, self.departure, sheet)
    }

    fn short_call(&self, plan: &[u8], sheet: &mut [u16]) -> Result<Answer, Refusal> {
        self.plan_call(plan, DEFAULT_BUDGET, sheet)
    }
}

/// Holds the call to every property of the plan call, over the plan at the departure; and to the plan call on that plan's own file.
pub fn examine_departure(
    found: &mut Findings,
    callee: &dyn DepartureCall,
    file: &[u8],
    windows: &[u16],
    departure: Departure,
    effort: &Effort,
) {
    let facts = match departure_refusal(file, DEFAULT_BUDGET, SHEET_PLACES, windows, departure) {
        0 => Ok(Facts::of(&plan_at(&parse(file), windows, departure), effort)),
        number => Err(number),
    };
    let case = Case { file: file.to_vec(), facts };
    let at = At { call: callee, windows, departure };
    let budgets = case.budgets(4);
    for &budget in &budgets {
        examine_answer(found, &at, &case, budget);
    }
    if let Ok(facts) = &case.facts {
        let by_hand = file_of(&facts.graph.plan);
        if read_refusal(&by_hand, usize::MAX) == 0 {
            let none = At { call: callee, windows: &[], departure };
            for &budget in &budgets {
                let told = call(found, SHEET_PLACES, FILL, |sheet| at.plan_call(file, budget, sheet));
                let again = call(found, SHEET_PLACES, FILL, |sheet| none.plan_call(&by_hand, budget, sheet));
                found.expect(Property::ClosedByHand, told == again, || {
                    format!("{windows:?}, {departure:?}, {:?}", parse(file))
                });
            }
        }
    }
}

/// Holds a call that may be refused to the oracle's refusal, and a refusal to the sheet.
pub fn examine_departure_refusal(
    found: &mut Findings,
    callee: &dyn DepartureCall,
    file: &[u8],
    (budget, places): (u64, usize),
    windows: &[u16],
    departure: Departure,
) {
    let at = At { call: callee, windows, departure };
    if let Some((result, sheet)) = call(found, places, FILL, |sheet| at.plan_call(file, budget, sheet)) {
        let expected = departure_refusal(file, budget, places, windows, departure);
        expect_refusal(found, expected, &result, &sheet, file);
    }
}

/// Holds the call with no windows to the plan call of a planner that is right.
pub fn examine_no_windows(
    found: &mut Findings,
    callee: &dyn DepartureCall,
    planner: &dyn Planner,
    file: &[u8],
    (budget, places): (u64, usize),
    departure: Departure,
) {
    let at = At { call: callee, windows: &[], departure };
    let told = call(found, places, FILL, |sheet| at.plan_call(file, budget, sheet));
    let plain = call(found, places, FILL, |sheet| planner.plan_call(file, budget, sheet));
    found.expect(Property::NoWindows, told == plain, || format!("{departure:?}, {told:?} for {file:02x?}"));
}
