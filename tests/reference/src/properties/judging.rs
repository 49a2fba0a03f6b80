//! What judging a list of arcs answers, by itself and beside the plan call.

use super::{Findings, Property};
use crate::oracle::judge_answer;
use crate::plan::SHEET_PLACES;
use crate::planner::{Judge, Planner, Refusal};
use std::panic::{catch_unwind, AssertUnwindSafe};

/// What a judge answers. None if it does not come back.
fn told(judge: &dyn Judge, file: &[u8], places: &[u16]) -> Option<Result<u64, Refusal>> {
    catch_unwind(AssertUnwindSafe(|| judge.judge(file, places))).ok()
}

/// The list, or its first places.
fn shown(places: &[u16]) -> String {
    format!("{} places, {:?}", places.len(), &places[..places.len().min(40)])
}

/// Holds a judge to what the oracle says of a list.
pub fn examine_judgement(found: &mut Findings, judge: &dyn Judge, file: &[u8], places: &[u16]) {
    let (expected, told) = (judge_answer(file, places), told(judge, file, places));
    let about = || format!("{told:?} instead of {expected:?}, {}, {file:02x?}", shown(places));
    found.expect(Property::Judgement, told == Some(expected), about);
}

/// Holds a judge to a planner: the drive that is written for a file passes, and no list costs less than the floor. A file that is refused is passed over.
pub fn examine_written(
    found: &mut Findings,
    judge: &dyn Judge,
    planner: &dyn Planner,
    file: &[u8],
    budget: u64,
    lists: &[Vec<u16>],
) {
    let mut sheet = vec![0; SHEET_PLACES];
    let Ok(answer) = planner.plan_call(file, budget, &mut sheet) else { return };
    let drive = &sheet[..answer.places];
    let of_drive = told(judge, file, drive);
    let about = || format!("{of_drive:?} instead of {}, {}, {file:02x?}", answer.cost, shown(drive));
    found.expect(Property::WrittenPasses, of_drive == Some(Ok(answer.cost)), about);
    for list in lists {
        let Some(Ok(cost)) = told(judge, file, list) else { continue };
        let about = || format!("{cost} below {}, {}, {file:02x?}", answer.floor, shown(list));
        found.expect(Property::FloorBelowJudged, answer.floor <= cost, about);
    }
}
