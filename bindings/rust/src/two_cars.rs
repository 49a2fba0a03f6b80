//! The call for two cars.

use crate::answer::Lent;
use crate::{raw, Answer, Refusal};

/// One of two cars on the streets of a plan.
///
/// ```
/// use postman::{two_cars, Car, Refusal};
///
/// let both = Car { marks: &[true, true], budget: 10 };
/// let [first, second] = two_cars(&[0x10, 0x40, 0x20, 0x01, 0x40, 0x01, 0x41, 0x00, 0x00, 0x03], both, Car { budget: 0, ..both })?;
/// assert_eq!(first?.cost, 8);
/// assert_eq!(second, Err(Refusal::Budget));
/// # Ok::<(), Refusal>(())
/// ```
#[derive(Clone, Copy, PartialEq, Eq, Debug)]
pub struct Car<'a> {
    /// For each arc of the plan, in its order, whether the car must drive it. The plan's own required arcs play no part, and closed arcs may not be
    /// marked.
    pub marks: &'a [bool],
    /// The most trees to try for the car, from 1 to 1,000,000.
    pub budget: u64,
}

/// Lays a drive for each of two cars on the streets of one plan file, whose distances are computed once. A car is answered what
/// [`plan_call`](crate::plan_call) answers for a plan in which the marked arcs, and no others, must be driven: each is checked at its checking cost if it
/// has one, else at its cost, even 0. Neither car feels what the other brings.
///
/// Refuses both with 1 to 7 and 13. Else each is answered, or refused by itself, with 9, 18 and 10 to 12, in this order.
///
/// ```
/// use postman::{judge, plan_call, two_cars, Arc, Car, Edition, Plan, Refusal, Standing};
///
/// // A ring of three streets, of which the first must be driven and is slow to check, and a closed one.
/// let may = |tail, head, cost| Arc::new(tail, head, Standing::Optional, cost);
/// let arcs = vec![Arc::checked(0, 1, 5, 9), may(1, 2, 3), may(2, 0, 2), Arc::new(1, 0, Standing::Closed, 1)];
/// let file = Plan { edition: Edition::Second, vertices: 3, arcs }.write()?;
///
/// let main_sheet = Car { marks: &[true, false, false, false], budget: 1 };
/// let inset = Car { marks: &[false, true, true, false], budget: 1 };
/// let [first, second] = two_cars(&file, main_sheet, inset)?;
/// assert_eq!(first, plan_call(&file, 1));
/// assert_eq!(first?.cost, 14); // the first street is checked
/// assert_eq!(second?.cost, 10); // and here it is only passed
///
/// // A refusal is that car's alone.
/// let closed = Car { marks: &[true, false, false, true], budget: 1 };
/// let [first, second] = two_cars(&file, closed, inset)?;
/// assert_eq!((first.err(), second.is_ok()), (Some(Refusal::BadMarks), true));
///
/// // Judging goes by the plan's own required arcs.
/// let loops = Plan { edition: Edition::First, vertices: 1, arcs: vec![Arc::new(0, 0, Standing::Required, 1), may(0, 0, 1)] }.write()?;
/// let [own, other] = two_cars(&loops, Car { marks: &[true, false], budget: 1 }, Car { marks: &[false, true], budget: 1 })?;
/// assert_eq!(judge(&loops, &own?.drive), Ok(1));
/// assert_eq!(judge(&loops, &other?.drive), Err(Refusal::Missed));
/// # Ok::<(), Refusal>(())
/// ```
pub fn two_cars(file: &[u8], first: Car, second: Car) -> Result<[Result<Answer, Refusal>; 2], Refusal> {
    let marks = [first, second].map(|car| car.marks.iter().map(|&mark| mark.into()).collect::<Vec<u8>>());
    let mut lent = [Lent::new(), Lent::new()];
    let [one, other] = &mut lent;
    let cars = (lend(&marks[0], first.budget, one), lend(&marks[1], second.budget, other));
    let [of_first, of_second] = raw::two_cars(file, cars.0, cars.1)?;
    let [one, other] = lent;
    Ok([of_first.map(|()| one.taken()), of_second.map(|()| other.taken())])
}

fn lend<'a>(marks: &'a [u8], budget: u64, lent: &'a mut Lent) -> raw::Car<'a> {
    raw::Car { marks, budget, sheet: &mut lent.sheet, answer: &mut lent.answer, multipliers: &mut lent.multipliers }
}

#[cfg(test)]
mod tests {
    use super::*;
    use crate::{plan_call, Plan, Standing};

    const CASE_A: [u8; 10] = [0x10, 0x40, 0x20, 0x01, 0x40, 0x01, 0x41, 0x00, 0x00, 0x03];
    const GOOD: Car = Car { marks: &[true, false], budget: 1 };

    /// Each car refused in each way, beside one that is answered.
    #[test]
    fn a_refusal_is_the_cars_own() {
        let answer = plan_call(&CASE_A, 1);
        assert!(answer.is_ok());
        for (car, refusal) in [
            (Car { budget: 0, ..GOOD }, Refusal::Budget),
            (Car { budget: 1_000_001, ..GOOD }, Refusal::Budget),
            (Car { marks: &[true], ..GOOD }, Refusal::BadMarks),
            (Car { marks: &[true, false, false], ..GOOD }, Refusal::BadMarks),
            (Car { marks: &[], budget: 0 }, Refusal::Budget),
            (Car { marks: &[false, false], ..GOOD }, Refusal::Idle),
        ] {
            assert_eq!(two_cars(&CASE_A, GOOD, car), Ok([answer.clone(), Err(refusal)]));
            assert_eq!(two_cars(&CASE_A, car, GOOD), Ok([Err(refusal), answer.clone()]));
            assert_eq!(two_cars(&CASE_A, car, car), Ok([Err(refusal), Err(refusal)]));
        }
    }

    #[test]
    fn the_files_refusals_reach_both() {
        assert_eq!(two_cars(&CASE_A[..9], GOOD, Car { budget: 0, ..GOOD }), Err(Refusal::Torn));
        assert_eq!(two_cars(&[0x30, 0x40, 0x20], GOOD, GOOD), Err(Refusal::Edition));
    }

    #[test]
    fn own_marks_change_nothing() {
        let file = std::fs::read(concat!(env!("CARGO_MANIFEST_DIR"), "/../../examples/town_checked.plan")).unwrap();
        let plan = Plan::read(&file).unwrap();
        let marks: Vec<bool> = plan.arcs.iter().map(|arc| arc.standing == Standing::Required).collect();
        for budget in [0, 1, 10] {
            let [first, second] =
                two_cars(&file, Car { marks: &marks, budget }, Car { marks: &marks, budget: 3 }).unwrap();
            assert_eq!(first, plan_call(&file, budget));
            assert_eq!(second, plan_call(&file, 3));
        }
    }
}
