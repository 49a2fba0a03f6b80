//! Calls for two cars that are wrong.

use super::Mutant;
use crate::oracle::own_marks;
use crate::plan::{Arc, Plan, CLOSED, MOST_PARTS, OPTIONAL, REQUIRED, SHEET_PLACES};
use crate::planner::{refusal, Answer, Car, CarsAnswer, CarsCall, Planner, Refusal};
use crate::properties::Property::{self, *};
use crate::yardstick::{answer, car_plan, check_lent, check_marks, components, read, Yardstick};

type Call = fn(&[u8], Car, Car) -> CarsAnswer;

struct Altered(Call);

impl CarsCall for Altered {
    fn two_cars(&self, plan: &[u8], first: Car, second: Car) -> CarsAnswer {
        self.0(plan, first, second)
    }
}

fn right(plan: &[u8], first: Car, second: Car) -> CarsAnswer {
    Yardstick.two_cars(plan, first, second)
}

/// The right answer, with nothing written.
fn foreseen(plan: &[u8], first: &Car, second: &Car) -> CarsAnswer {
    let mut sheets = [first, second].map(|car| car.sheet.to_vec());
    let [one, other] = &mut sheets;
    right(plan, Car { sheet: one, ..*first }, Car { sheet: other, ..*second })
}

/// The refusals of the cars, 0 for none.
fn refusals(told: &[Result<Answer, Refusal>; 2]) -> [Refusal; 2] {
    [0, 1].map(|place| told[place].as_ref().err().copied().unwrap_or(0))
}

/// Each car's marks altered, by the file's plan: those that are bad, or those that are good.
fn with_marks(p: &[u8], first: Car, second: Car, bad: bool, alter: fn(&Plan, &[u8]) -> Vec<u8>) -> CarsAnswer {
    let plan = read(p)?;
    let marks = [first.marks, second.marks].map(|marks| match check_marks(&plan, marks).is_err() == bad {
        true => alter(&plan, marks),
        false => marks.to_vec(),
    });
    right(p, Car { marks: &marks[0], ..first }, Car { marks: &marks[1], ..second })
}

fn in_place_of_good(p: &[u8], first: Car, second: Car, alter: fn(&Plan, &[u8]) -> Vec<u8>) -> CarsAnswer {
    with_marks(p, first, second, false, alter)
}

fn let_through(p: &[u8], first: Car, second: Car, alter: fn(&Plan, &[u8]) -> Vec<u8>) -> CarsAnswer {
    with_marks(p, first, second, true, alter)
}

/// The right refusals up to 18, and from 10 on those and the answer of a plan that is made in another way.
fn over(plan: &[u8], first: Car, second: Car, make: impl Fn(&Plan, &[u8]) -> Result<Plan, Refusal>) -> CarsAnswer {
    let plan = read(plan)?;
    let of_car = |car: Car| {
        check_lent(car.budget, car.sheet.len())?;
        check_marks(&plan, car.marks)?;
        answer(&Yardstick, make(&plan, car.marks)?, car.budget, car.sheet)
    };
    Ok([first, second].map(of_car))
}

/// The car's plan, with each of its arcs altered by what it was in the file's.
fn altered(plan: &Plan, marks: &[u8], alter: fn(Arc, Arc) -> Arc) -> Result<Plan, Refusal> {
    let mut made = car_plan(plan.clone(), marks);
    made.arcs.iter_mut().zip(&plan.arcs).for_each(|(made, arc)| *made = alter(*arc, *made));
    Ok(made)
}

/// The right answer, each car's altered by what the plan call answers for the file.
fn beside_own(plan: &[u8], first: Car, second: Car, alter: fn(Answer, Answer) -> Answer) -> CarsAnswer {
    let own = Yardstick.plan_call(plan, 1, &mut vec![0; SHEET_PLACES]);
    let told = right(plan, first, second)?;
    Ok(told.map(|told| {
        Ok(match &own {
            Ok(own) => alter(told?, own.clone()),
            Err(_) => told?,
        })
    }))
}

/// Each car's refusal made another, where the right one is some number, by the file's plan and the car's marks.
fn refused_otherwise(
    plan: &[u8],
    first: Car,
    second: Car,
    number: Refusal,
    other: fn(&Plan, &[u8]) -> Result<(), Refusal>,
) -> CarsAnswer {
    let (file, marks) = (read(plan)?, [first.marks, second.marks]);
    let [one, two] = right(plan, first, second)?;
    let of_car = |told: Result<Answer, Refusal>, marks| match told {
        Err(told) if told == number => other(&file, marks).and(Err(number)),
        told => told,
    };
    Ok([of_car(one, marks[0]), of_car(two, marks[1])])
}

const MUTANTS: [(&str, &[Property], Call); 38] = [
    // a car and the other
    ("a car's refusal reaches both", &[ReachesBoth, Refusal, Stated, Alone], |p, a, b| {
        match refusals(&foreseen(p, &a, &b)?) {
            [0, 0] => right(p, a, b),
            [0, number] | [number, _] => Err(number),
        }
    }),
    ("bad marks reach both", &[ReachesBoth, Refusal, Stated, Alone], |p, a, b| {
        if refusals(&foreseen(p, &a, &b)?).contains(&refusal::BAD_MARKS) {
            return Err(refusal::BAD_MARKS);
        }
        right(p, a, b)
    }),
    ("both cars are refused as the first is", &[Refusal, Stated, Alone], |p, a, b| {
        match refusals(&foreseen(p, &a, &b)?)[0] {
            0 => right(p, a, b),
            number => Ok([Err(number), Err(number)]),
        }
    }),
    ("a refusal of both cars is the file's", &[ReachesBoth], |p, a, b| match refusals(&foreseen(p, &a, &b)?) {
        [first, second] if first == second && first != 0 => Err(first),
        _ => right(p, a, b),
    }),
    ("the file's refusal is told to each car", &[ReachesBoth], |p, a, b| {
        right(p, a, b).or_else(|number| Ok([Err(number), Err(number)]))
    }),
    ("a refused car's sheet is cleared", &[SheetKept], |p, a, b| {
        let told = right(p, Car { sheet: &mut *a.sheet, ..a }, Car { sheet: &mut *b.sheet, ..b })?;
        let refused = told.iter().zip([a.sheet, b.sheet]).filter(|(told, _)| told.is_err());
        refused.for_each(|(_, sheet)| sheet.fill(0));
        Ok(told)
    }),
    ("where the first car is refused the second's sheet is cleared", &[RestKept, Alone], |p, a, b| {
        let told = right(p, a, Car { sheet: &mut *b.sheet, ..b })?;
        if told[0].is_err() {
            b.sheet.fill(0);
        }
        Ok(told)
    }),
    ("the second car's marks for both", &[Refusal, Stated, Alone, OwnMarks], |p, a, b| {
        right(p, Car { marks: b.marks, ..a }, b)
    }),
    ("the first car's marks for both", &[Refusal, Stated, Alone, OwnMarks], |p, a, b| {
        let marks = a.marks;
        right(p, a, Car { marks, ..b })
    }),
    ("marks exchanged", &[Refusal, Stated, Alone, OwnMarks], |p, a, b| {
        let marks = a.marks;
        right(p, Car { marks: b.marks, ..a }, Car { marks, ..b })
    }),
    ("the marks of both cars for each", &[Refusal, Stated, Alone, OwnMarks], |p, a, b| {
        let both: Vec<u8> = a.marks.iter().zip(b.marks).map(|(x, y)| x | y).collect();
        right(p, Car { marks: &both, ..a }, Car { marks: &both, ..b })
    }),
    ("the first car's budget for both", &[Refusal, Stated, Alone, Trees], |p, a, b| {
        let budget = a.budget;
        right(p, a, Car { budget, ..b })
    }),
    ("the second car's budget for both", &[Refusal, Stated, Alone, Trees], |p, a, b| {
        right(p, Car { budget: b.budget, ..a }, b)
    }),
    ("equal marks are answered once", &[Stated], |p, a, b| {
        let told = right(p, Car { sheet: &mut *a.sheet, ..a }, Car { sheet: &mut *b.sheet, ..b })?;
        match &told {
            [Ok(first), Ok(_)] if a.marks == b.marks => {
                b.sheet[..first.places].copy_from_slice(&a.sheet[..first.places]);
                Ok([Ok(first.clone()), Ok(first.clone())])
            }
            _ => Ok(told),
        }
    }),
    ("the second car writes into the first's sheet", &[SheetKept, RestKept, Drive, Alone], |p, a, b| {
        let told = right(p, Car { sheet: &mut *a.sheet, ..a }, Car { sheet: &mut *b.sheet, ..b })?;
        if let Ok(answer) = &told[1] {
            let places = answer.places.min(a.sheet.len());
            a.sheet[..places].copy_from_slice(&b.sheet[..places]);
        }
        Ok(told)
    }),
    ("the parts of both cars are counted together", &[Refusal, Stated], |p, a, b| {
        let plan = read(p)?;
        let both: Vec<u8> = a.marks.iter().zip(b.marks).map(|(x, y)| x | y).collect();
        let told = foreseen(p, &a, &b)?;
        if refusals(&told) == [0, 0] && components(&car_plan(plan, &both)).count > MOST_PARTS {
            return Ok([Err(refusal::SCATTERED), Err(refusal::SCATTERED)]);
        }
        right(p, a, b)
    }),
    // the plan of a car
    ("the plan's must arcs are kept beside the marks", &[Refusal, Stated, MarkedByHand], |p, a, b| {
        in_place_of_good(p, a, b, |plan, marks| {
            own_marks(plan).iter().zip(marks).map(|(own, mark)| own | mark).collect()
        })
    }),
    ("the marks play no part", &[Refusal, Stated, Drive, MarkedByHand], |p, a, b| {
        in_place_of_good(p, a, b, |plan, _| own_marks(plan))
    }),
    ("the plain cost, where there is a checking cost", &[Stated, DriveCost, OwnMarks], |p, a, b| {
        over(p, a, b, |plan, marks| {
            altered(plan, marks, |_, made| match made.standing {
                REQUIRED => Arc { checking: made.cost, ..made },
                _ => made,
            })
        })
    }),
    ("no checking cost where the plan has none", &[Stated, DriveCost, MarkedByHand], |p, a, b| {
        over(p, a, b, |plan, marks| altered(plan, marks, |arc, made| Arc { checking: arc.checking, ..made }))
    }),
    ("a free arc is checked at 1", &[Stated, DriveCost], |p, a, b| {
        over(p, a, b, |plan, marks| {
            altered(plan, marks, |_, made| match made.standing {
                REQUIRED => Arc { checking: made.checking.max(1), ..made },
                _ => made,
            })
        })
    }),
    ("a free arc cannot be marked", &[Refusal, Stated, Drive], |p, a, b| {
        over(p, a, b, |plan, marks| {
            altered(plan, marks, |_, made| match made.checking {
                0 if made.standing == REQUIRED => Arc { standing: OPTIONAL, ..made },
                _ => made,
            })
        })
    }),
    ("an unmarked must arc is closed", &[Refusal, Stated, MarkedByHand], |p, a, b| {
        over(p, a, b, |plan, marks| {
            altered(plan, marks, |arc, made| match (arc.standing, made.standing) {
                (REQUIRED, OPTIONAL) => Arc { standing: CLOSED, ..made },
                _ => made,
            })
        })
    }),
    ("an unmarked must arc is passed at its checking cost", &[Stated, LeastCost, MarkedByHand], |p, a, b| {
        over(p, a, b, |plan, marks| {
            altered(plan, marks, |arc, made| match (arc.standing, made.standing) {
                (REQUIRED, OPTIONAL) => Arc { cost: arc.checking, ..made },
                _ => made,
            })
        })
    }),
    ("closed arcs are opened", &[Stated, Drive, OwnMarks], |p, a, b| {
        over(p, a, b, |plan, marks| {
            altered(plan, marks, |_, made| match made.standing {
                CLOSED => Arc { standing: OPTIONAL, ..made },
                _ => made,
            })
        })
    }),
    ("made plans are held to 13", &[Refusal, Stated], |p, a, b| {
        over(p, a, b, |plan, marks| {
            let made = car_plan(plan.clone(), marks);
            let repeats = |k: usize| made.arcs[..k].contains(&made.arcs[k]);
            match (0..made.arcs.len()).any(repeats) {
                true => Err(refusal::REPEATED),
                false => Ok(made),
            }
        })
    }),
    ("the floor of the plan's own marks", &[FloorOfWhole, MarkedByHand], |p, a, b| {
        beside_own(p, a, b, |told, own| Answer { floor: own.floor, ..told })
    }),
    ("multipliers of the plan's own marks", &[Feasible, Tight, MarkedByHand], |p, a, b| {
        beside_own(p, a, b, |told, own| Answer { multipliers: own.multipliers, ..told })
    }),
    ("the floor is the cost", &[FloorHolds, FloorEquation, RaisedBudget], |p, a, b| {
        Ok(right(p, a, b)?.map(|told| told.map(|told| Answer { floor: told.cost, ..told })))
    }),
    // 18
    ("10 before 18", &[Refusal, Stated], |p, a, b| {
        refused_otherwise(p, a, b, refusal::BAD_MARKS, |_, marks| match marks.contains(&1) {
            true => Ok(()),
            false => Err(refusal::IDLE),
        })
    }),
    ("18 after 10 to 12", &[Refusal, Stated], |p, a, b| {
        refused_otherwise(p, a, b, refusal::BAD_MARKS, |plan, marks| {
            let made = car_plan(plan.clone(), marks);
            answer(&Yardstick, made, 1, &mut vec![0; SHEET_PLACES]).map(|_| ())
        })
    }),
    ("18 before 9", &[Refusal, Stated], |p, a, b| refused_otherwise(p, a, b, refusal::BUDGET, check_marks)),
    ("18 before 8", &[Refusal, Stated], |p, a, b| refused_otherwise(p, a, b, refusal::SHORT_SHEET, check_marks)),
    ("missing marks are 0", &[Refusal, Stated], |p, a, b| {
        let_through(p, a, b, |plan, marks| {
            let missing = plan.arcs.len().saturating_sub(marks.len());
            [marks, &vec![0; missing]].concat()
        })
    }),
    ("marks beyond the arcs play no part", &[Refusal, Stated], |p, a, b| {
        let_through(p, a, b, |plan, marks| marks[..marks.len().min(plan.arcs.len())].to_vec())
    }),
    ("any other mark than 0 marks", &[Refusal, Stated], |p, a, b| {
        let_through(p, a, b, |_, marks| marks.iter().map(|&mark| mark.min(1)).collect())
    }),
    ("any other mark than 1 does not mark", &[Refusal, Stated], |p, a, b| {
        let_through(p, a, b, |_, marks| marks.iter().map(|&mark| u8::from(mark == 1)).collect())
    }),
    ("a mark on a closed arc plays no part", &[Refusal, Stated], |p, a, b| {
        let_through(p, a, b, |plan, marks| {
            let is_closed = |k: usize| plan.arcs.get(k).is_some_and(|arc| arc.standing == CLOSED);
            (0..marks.len()).map(|k| if is_closed(k) && marks[k] == 1 { 0 } else { marks[k] }).collect()
        })
    }),
];

pub fn mutants() -> Vec<Mutant<dyn CarsCall>> {
    let all = MUTANTS.iter();
    all.map(|&(name, violates, call)| Mutant { name, violates, wrong: Box::new(Altered(call)) as Box<dyn CarsCall> })
        .collect()
}
