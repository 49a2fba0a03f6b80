//! Districts in turn.

use super::call::{call, FILL};
use super::{Case, Findings, Property};
use crate::oracle::{Due, Line};
use crate::plan::SHEET_PLACES;
use crate::planner::{Answer, Districts, Planner, Refusal, Turn};
use std::collections::BTreeMap;

/// What a machine is asked: the entry of the case of that number, with a budget; or a turn, with a sheet of so many places.
#[derive(Clone, Copy, PartialEq, Eq, Debug)]
pub enum Request {
    Enter(usize, u64),
    Turn(usize),
}

/// What it tells, and the sheet after a turn.
#[derive(Clone, PartialEq, Eq)]
pub enum Told {
    Entry(Result<u8, Refusal>),
    Turn(Result<Turn, Refusal>, Vec<u16>),
}

impl Told {
    /// Whether the call was neither refused nor a turn with no district inside.
    fn is_accepted(&self) -> bool {
        match self {
            Told::Entry(told) => told.is_ok(),
            Told::Turn(told, _) => !matches!(told, Err(_) | Ok(Turn::Empty)),
        }
    }
}

/// What a machine tells from its start on, up to where it panics.
fn tell(found: &mut Findings, districts: &dyn Districts, cases: &[Case], requests: &[Request]) -> Vec<Told> {
    let mut machine = districts.start();
    let tell = |request: &Request| match *request {
        Request::Enter(case, budget) => {
            call(found, 0, FILL, |_| machine.enter(&cases[case].file, budget)).map(|(told, _)| Told::Entry(told))
        }
        Request::Turn(places) => {
            let told = call(found, places, FILL, |sheet| machine.turn(sheet));
            let drained = matches!(&told, Some((Ok(Turn::Empty), _)));
            found.expect(Property::Drained, !drained || machine.is_new(), || format!("{requests:?}"));
            told.map(|(told, sheet)| Told::Turn(told, sheet))
        }
    };
    requests.iter().map_while(tell).collect()
}

/// Holds what a machine tells to the line that the history of calls gives, with the plan calls of a callee that is right. Gives what it tells.
pub fn examine_districts(
    found: &mut Findings,
    districts: &dyn Districts,
    callee: &dyn Planner,
    cases: &[Case],
    requests: &[Request],
) -> Vec<Told> {
    let told = tell(found, districts, cases, requests);
    let mut run = Run { line: Line::default(), callee, cases, brought: vec![] };
    for (number, (request, told)) in requests.iter().zip(&told).enumerate() {
        match (*request, told) {
            (Request::Enter(case, budget), Told::Entry(told)) => {
                run.examine_entry(found, number, (case, budget), *told);
            }
            (Request::Turn(places), Told::Turn(told, sheet)) => {
                let due = run.line.turn(places);
                run.examine_turn(found, number, due, told, sheet);
            }
            _ => unreachable!("each request is told of"),
        }
    }
    examine_waits(found, &told);
    let is_accepted = |(request, told): (&Request, &Told)| told.is_accepted().then_some(*request);
    let accepted: Vec<Request> = requests.iter().zip(&told).filter_map(is_accepted).collect();
    let others: Vec<&Told> = told.iter().filter(|told| told.is_accepted()).collect();
    let again = tell(found, districts, cases, &accepted);
    found.expect(Property::NothingMoves, again.iter().eq(others), || format!("{requests:?}"));
    told
}

/// Two districts of one case, the front one at a place of 8 or more, or at the other's: a turn finds nobody to go on with. At its own it goes on.
pub fn examine_misplaced(found: &mut Findings, districts: &dyn Districts, case: &Case, budget: u64) {
    let mut machine = districts.start();
    let entered: Vec<_> = (0..2).map(|_| machine.enter(&case.file, budget)).collect();
    if entered != [Ok(0), Ok(1)] {
        return;
    }
    for place in [8, 9, 16, 255, 1] {
        machine.displace(place);
        let told = call(found, SHEET_PLACES, FILL, |sheet| machine.turn(sheet));
        let kept =
            told.as_ref().is_some_and(|(told, sheet)| *told == Ok(Turn::Empty) && sheet.iter().all(|&x| x == FILL));
        found
            .expect(Property::Misplaced, kept, || format!("a turn at place {place}: {:?}", told.map(|(told, _)| told)));
    }
}

/// The line as it has to be, and the case and the budget that each district brought, by its number there.
struct Run<'a> {
    line: Line,
    callee: &'a dyn Planner,
    cases: &'a [Case],
    brought: Vec<(usize, u64)>,
}

impl Run<'_> {
    fn examine_entry(&mut self, found: &mut Findings, number: usize, brought: (usize, u64), told: Result<u8, Refusal>) {
        let expected = self.line.enter(self.cases[brought.0].trees(brought.1));
        let about = || format!("call {number}, entry of {brought:?}: {told:?}, not {expected:?}");
        found.expect(Property::EntryRefusal, told.err() == expected.err(), about);
        if expected.is_ok() {
            self.brought.push(brought);
            found.expect(Property::LowestPlace, told.is_err() || told == expected, about);
        }
    }

    fn examine_turn(&self, found: &mut Findings, number: usize, due: Due, told: &Result<Turn, Refusal>, sheet: &[u16]) {
        let about = || format!("call {number}: {told:?}, where {due:?}");
        let finished = matches!(told, Ok(Turn::Finished { .. }));
        found.expect(Property::SheetBetween, finished || sheet.iter().all(|&x| x == FILL), about);
        let met = match told {
            Ok(Turn::Empty) => due == Due::Empty,
            Err(number) => *number == 8 && due == Due::ShortSheet,
            Ok(_) => !matches!(due, Due::Empty | Due::ShortSheet),
        };
        found.expect(Property::TurnRefusal, met, about);
        let (Due::GoesOn(district) | Due::Finishes(district)) = due else { return };
        if let Ok(Turn::Finished { place, .. } | Turn::Unfinished { place, .. }) = told {
            found.expect(Property::FrontServed, *place == self.line.place(district), about);
            found.expect(Property::LastTurn, finished == (due == Due::Finishes(district)), about);
        }
        match (told, due) {
            (Ok(Turn::Unfinished { cost, trees, .. }), Due::GoesOn(_)) => {
                found.expect(Property::TreesSoFar, *trees == self.line.tried(district), about);
                let is_least = self.is_least(found, district, *cost);
                found.expect(Property::CostSoFar, is_least, about);
            }
            (Ok(Turn::Finished { answer, .. }), Due::Finishes(_)) => {
                let (case, budget) = self.brought[district];
                let plain = self.plan_call(found, case, budget, sheet.len());
                let same = plain.as_ref().is_some_and(|(plain, laid)| *plain == **answer && laid == sheet);
                let plain = plain.map(|(plain, _)| plain);
                found.expect(Property::AnswerOfTurns, same, || format!("{}: {plain:?}", about()));
            }
            _ => {}
        }
    }

    fn plan_call(&self, found: &mut Findings, case: usize, budget: u64, places: usize) -> Option<(Answer, Vec<u16>)> {
        let file = &self.cases[case].file;
        let (plain, sheet) = call(found, places, FILL, |sheet| self.callee.plan_call(file, budget, sheet))?;
        Some((plain.ok()?, sheet))
    }

    /// Whether a cost is the least of the trees that a district has tried: by the plan call, and by brute force where that was spent.
    fn is_least(&self, found: &mut Findings, district: usize, cost: u64) -> bool {
        let (case, _) = self.brought[district];
        let tried = self.line.tried(district);
        let least = self.cases[case].facts.as_ref().ok().and_then(|facts| facts.least_cost(tried));
        let plain = self.plan_call(found, case, tried, SHEET_PLACES);
        plain.is_some_and(|(plain, _)| plain.cost == cost) && least.is_none_or(|least| least == cost)
    }
}

/// The turns of others since each district's entry or last turn, by what the machine tells alone.
fn examine_waits(found: &mut Findings, told: &[Told]) {
    let mut waits: BTreeMap<u8, u32> = BTreeMap::new();
    for (number, told) in told.iter().enumerate() {
        let served = match told {
            Told::Turn(Ok(Turn::Unfinished { place, .. } | Turn::Finished { place, .. }), _) => *place,
            Told::Entry(Ok(place)) => {
                waits.insert(*place, 0);
                continue;
            }
            _ => continue,
        };
        waits.remove(&served);
        waits.values_mut().for_each(|turns| *turns += 1);
        found.expect(Property::SevenTurns, waits.values().all(|&turns| turns <= 7), || {
            format!("call {number}: turns of others by place, {waits:?}")
        });
        if let Told::Turn(Ok(Turn::Unfinished { .. }), _) = told {
            waits.insert(served, 0);
        }
    }
}
