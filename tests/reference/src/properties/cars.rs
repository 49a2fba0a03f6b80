//! The call for two cars.

use super::call::{call, expect_refusal, FILL};
use super::{examine_answer, examine_raised, Case, Findings, Property};
use crate::oracle::{car_plan, car_refusal, file_of, own_marks, parse, read_refusal, Effort, Facts};
use crate::plan::{Plan, DEFAULT_BUDGET, SHEET_PLACES};
use crate::planner::{Answer, Car, CarsAnswer, CarsCall, Planner, Refusal};
use std::panic::{catch_unwind, AssertUnwindSafe};

/// What a car brings to a call: marks, a budget, and a sheet of so many places.
#[derive(Clone, Debug)]
pub struct Brought {
    pub marks: Vec<u8>,
    pub budget: u64,
    pub places: usize,
}

impl Brought {
    fn lend<'a>(&'a self, sheet: &'a mut [u16]) -> Car<'a> {
        Car { marks: &self.marks, budget: self.budget, sheet }
    }
}

/// What a car is told: the refusal that reaches both, or its own part.
fn told_to(place: usize, answer: CarsAnswer) -> Result<Answer, Refusal> {
    let [first, second] = answer?;
    if place == 0 {
        first
    } else {
        second
    }
}

/// The first car, or the second, beside another that is fixed: a planner, for the plan of the car.
struct OneCar<'a> {
    call: &'a dyn CarsCall,
    place: usize,
    marks: &'a [u8],
    other: &'a Brought,
}

impl Planner for OneCar<'_> {
    fn plan_call(&self, plan: &[u8], budget: u64, sheet: &mut [u16]) -> Result<Answer, Refusal> {
        let mut beside = vec![FILL; self.other.places];
        let (own, other) = (Car { marks: self.marks, budget, sheet }, self.other.lend(&mut beside));
        let (first, second) = if self.place == 0 { (own, other) } else { (other, own) };
        told_to(self.place, self.call.two_cars(plan, first, second))
    }

    fn short_call(&self, plan: &[u8], sheet: &mut [u16]) -> Result<Answer, Refusal> {
        self.plan_call(plan, DEFAULT_BUDGET, sheet)
    }
}

/// Holds one car, beside another, to every property of the plan call over its own plan, also at raised budgets; and to the call on that plan's own file.
pub fn examine_car(
    found: &mut Findings,
    callee: &dyn CarsCall,
    file: &[u8],
    (place, marks): (usize, &[u8]),
    other: &Brought,
    effort: &Effort,
) {
    let facts = match car_refusal(file, marks, DEFAULT_BUDGET, SHEET_PLACES) {
        0 => Ok(Facts::of(&car_plan(&parse(file), marks), effort)),
        number => Err(number),
    };
    let case = Case { file: file.to_vec(), facts };
    let car = OneCar { call: callee, place, marks, other };
    let budgets = case.budgets(4);
    for &budget in &budgets {
        examine_answer(found, &car, &case, budget);
    }
    examine_raised(found, &car, &case, budgets[0], budgets[budgets.len() - 1]);
    let Ok(facts) = &case.facts else { return };
    let by_hand = Plan { edition: 2, ..facts.graph.plan.clone() };
    let (file_by_hand, its_marks) = (file_of(&by_hand), own_marks(&by_hand));
    if read_refusal(&file_by_hand, usize::MAX) == 0 {
        let marked = OneCar { marks: &its_marks, ..car };
        for &budget in &budgets {
            let told = call(found, SHEET_PLACES, FILL, |sheet| car.plan_call(file, budget, sheet));
            let again = call(found, SHEET_PLACES, FILL, |sheet| marked.plan_call(&file_by_hand, budget, sheet));
            found.expect(Property::MarkedByHand, told == again, || format!("{marks:?}, {:?}", parse(file)));
        }
    }
}

/// Makes a call on sheets filled with one number; the sheets come back too.
fn call_both(
    found: &mut Findings,
    callee: &dyn CarsCall,
    file: &[u8],
    cars: [&Brought; 2],
) -> Option<(CarsAnswer, [Vec<u16>; 2])> {
    let mut sheets = cars.map(|car| vec![FILL; car.places]);
    let [first, second] = &mut sheets;
    let (first, second) = (cars[0].lend(first), cars[1].lend(second));
    let result = catch_unwind(AssertUnwindSafe(|| callee.two_cars(file, first, second)));
    found.expect(Property::Returns, result.is_ok(), || "panics".to_string());
    result.ok().map(|result| (result, sheets))
}

/// Holds a call that may be refused, to both cars or to either, to the oracle's refusals, and each car's refusal to its sheet. Gives what the cars are told.
pub fn examine_cars(
    found: &mut Findings,
    callee: &dyn CarsCall,
    file: &[u8],
    cars: [&Brought; 2],
) -> Option<[Result<Answer, Refusal>; 2]> {
    let (result, sheets) = call_both(found, callee, file, cars)?;
    let expected = read_refusal(file, usize::MAX);
    found.expect(Property::ReachesBoth, result.as_ref().err().copied().unwrap_or(0) == expected, || {
        format!("{result:?}, {expected} expected to reach both of {cars:?} with {file:02x?}")
    });
    let told = [0, 1].map(|place| told_to(place, result.clone()));
    for (place, car) in cars.into_iter().enumerate() {
        let expected = car_refusal(file, &car.marks, car.budget, car.places);
        expect_refusal(found, expected, &told[place], &sheets[place], file);
    }
    Some(told)
}

/// Holds what one car is told, and its sheet, to what it is told beside another.
pub fn examine_alone(
    found: &mut Findings,
    callee: &dyn CarsCall,
    file: &[u8],
    (place, car): (usize, &Brought),
    others: [&Brought; 2],
) {
    let [told, again] = others.map(|other| {
        let cars = if place == 0 { [car, other] } else { [other, car] };
        let (result, sheets) = call_both(found, callee, file, cars)?;
        Some((told_to(place, result), sheets[place].clone()))
    });
    found.expect(Property::Alone, told == again, || {
        let (told, again) = (told.map(|told| told.0), again.map(|told| told.0));
        format!("car {place}, {car:?}, beside {others:?}: {told:?} and {again:?}, {file:02x?}")
    });
}

/// Holds a car whose marks are the plan's own to the plan call of a planner that is right.
pub fn examine_own_marks(
    found: &mut Findings,
    callee: &dyn CarsCall,
    planner: &dyn Planner,
    file: &[u8],
    (budget, places): (u64, usize),
    other: &Brought,
) {
    let is_read = read_refusal(file, usize::MAX) == 0;
    let marks = if is_read { own_marks(&parse(file)) } else { Vec::new() };
    let plain = call(found, places, FILL, |sheet| planner.plan_call(file, budget, sheet));
    for place in [0, 1] {
        let car = OneCar { call: callee, place, marks: &marks, other };
        let told = call(found, places, FILL, |sheet| car.plan_call(file, budget, sheet));
        found.expect(Property::OwnMarks, told == plain, || format!("car {place}, {told:?} for {file:02x?}"));
    }
}
