//! A car's marks, its plan, and the call for two cars: the least weights are computed once, from the file's plan.

use super::{accepted_components, check_lent, distances, lay, read, Distances, Steps, Yardstick};
use crate::plan::{Arc, Plan, CLOSED, OPTIONAL, REQUIRED};
use crate::planner::{refusal, Answer, Car, CarsAnswer, CarsCall, Refusal};

/// 18.
pub fn check_marks(plan: &Plan, marks: &[u8]) -> Result<(), Refusal> {
    let is_bad = |(&mark, arc): (&u8, &Arc)| mark > 1 || mark == 1 && arc.standing == CLOSED;
    if marks.len() != plan.arcs.len() || marks.iter().zip(&plan.arcs).any(is_bad) {
        return Err(refusal::BAD_MARKS);
    }
    Ok(())
}

/// The plan of a car, by marks that are good.
pub fn car_plan(mut plan: Plan, marks: &[u8]) -> Plan {
    for (arc, &mark) in plan.arcs.iter_mut().zip(marks).filter(|(arc, _)| arc.standing != CLOSED) {
        (arc.standing, arc.checking) = match (mark, arc.checking) {
            (0, _) => (OPTIONAL, 0),
            (_, 0) => (REQUIRED, arc.cost),
            (_, checking) => (REQUIRED, checking),
        };
    }
    plan
}

/// One car, over the weights of the file's plan.
fn answer_car(plan: &Plan, weights: &Distances, car: Car) -> Result<Answer, Refusal> {
    check_lent(car.budget, car.sheet.len())?;
    check_marks(plan, car.marks)?;
    let plan = car_plan(plan.clone(), car.marks);
    let components = accepted_components(&Yardstick, &plan)?;
    lay(&Yardstick, &plan, components, weights, car.budget, car.sheet)
}

impl CarsCall for Yardstick {
    fn two_cars(&self, plan: &[u8], first: Car, second: Car) -> CarsAnswer {
        let plan = read(plan)?;
        let weights = distances(&plan, |a| self.weight(a));
        Ok([answer_car(&plan, &weights, first), answer_car(&plan, &weights, second)])
    }
}
