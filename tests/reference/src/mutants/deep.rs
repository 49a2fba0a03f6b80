//! Deep calls that are wrong.

use super::Mutant;
use crate::plan::{Plan, MOST_VERTICES, SHEET_PLACES};
use crate::planner::{refusal, Answer, DeepCall, Planner, Refusal};
use crate::properties::Property::{self, *};
use crate::yardstick::{read, renumbered, Order, Rounds, Yardstick};

/// Defines deep calls that decide one thing wrong, and lists them with their names and the properties that they violate.
macro_rules! wrong_rounds {
    ($($name:ident violates [$($property:ident),*] { $($rule:item)* })*) => {
        $(struct $name;
        impl Rounds for $name { $($rule)* })*

        fn wrong_rounds() -> Vec<Mutant<dyn DeepCall>> {
            vec![$(Mutant { name: stringify!($name), violates: &[$($property),*] as &[Property], wrong: Box::new($name) }),*]
        }
    };
}

wrong_rounds! {
    NoRoundAllowed violates [Refusal, Stated] {
        fn allows(&self, rounds: u32) -> bool {
            (2..=1_000).contains(&rounds)
        }
    }

    ManyRoundsAllowed violates [Refusal, Stated] {
        fn allows(&self, rounds: u32) -> bool {
            rounds != 0
        }
    }

    FirstRoundRenumbered violates [OneRound, NoWorse, EachRound] {
        fn first(&self, n: usize) -> Order {
            (0..n).rev().collect()
        }
    }

    NeverOn violates [EachRound] {
        fn goes_on(&self, _round: u32, _left: u64) -> bool {
            false
        }
    }

    AlwaysOn violates [EachRound] {
        fn goes_on(&self, _round: u32, _left: u64) -> bool {
            true
        }
    }

    OnWhateverIsLeft violates [EachRound] {
        fn goes_on(&self, round: u32, _left: u64) -> bool {
            round.is_multiple_of(2)
        }
    }

    OnAsOftenWhereManyAreLeft violates [EachRound] {
        fn goes_on(&self, round: u32, left: u64) -> bool {
            round.is_multiple_of(2) && !(100_000_001..=1_000_000_000).contains(&left)
        }
    }

    BegunAgain violates [EachRound, Stated] {
        fn trees(&self, budget: u64, _tried: u64) -> u64 {
            budget
        }
    }

    OneTreeSkipped violates [EachRound] {
        fn trees(&self, budget: u64, tried: u64) -> u64 {
            tried + budget + 1
        }
    }

    ManyExchanges violates [EachRound] {
        fn exchanges(&self) -> u32 {
            8
        }
    }

    MostTreesLeftKept violates [EachRound] {
        fn nears(&self, left: u64, fewest: u64) -> bool {
            fewest == u64::MAX || left >= fewest
        }
    }

    LastSearchKept violates [EachRound] {
        fn nears(&self, _left: u64, _fewest: u64) -> bool {
            true
        }
    }

    LeftByTheBudgetAlone violates [EachRound] {
        fn left(&self, _plan: &Plan, trees: u64) -> u64 {
            (1 << 32) - trees
        }
    }

    AlwaysByTheDrive violates [EachRound] {
        fn is_far(&self, _left: u64) -> bool {
            true
        }
    }

    TreesCountedAgain violates [EachRound, Stated] {
        fn counted(&self, told: u64, _trees: u64, _budget: u64) -> u64 {
            told
        }
    }

    AnotherGenerator violates [EachRound] {
        fn draw(&self, random: u64) -> u64 {
            random * 16_807 % 2_147_483_647
        }
    }

    NumbersOfOneSideDrawn violates [EachRound] {
        fn pair(&self, random: u64, n: usize) -> (usize, usize) {
            ((random % n as u64) as usize, 0)
        }
    }

    LastRoundKept violates [MoreRounds, NoWorse, EachRound] {
        fn keeps(&self, _cost: u64, _least: u64) -> bool {
            true
        }
    }

    LeastFloorKept violates [NoWorse, EachRound] {
        fn raises(&self, floor: u64, highest: u64) -> bool {
            highest == 0 || floor < highest
        }
    }

    LastFloorKept violates [MoreRounds, EachRound] {
        fn raises(&self, _floor: u64, _highest: u64) -> bool {
            true
        }
    }

    MultipliersNotCarriedBack violates [Feasible, Elsewhere, FloorOfSomeRoot] {
        fn carried(&self, u: &[i64; MOST_VERTICES], _order: &Order) -> [i64; MOST_VERTICES] {
            *u
        }
    }

    MultipliersCarriedTheOtherWay violates [Feasible, FloorOfSomeRoot] {
        fn carried(&self, u: &[i64; MOST_VERTICES], order: &Order) -> [i64; MOST_VERTICES] {
            let mut carried = [0; MOST_VERTICES];
            order.iter().enumerate().for_each(|(i, &v)| carried[i] = u[v]);
            carried
        }
    }

    GoesOnWhereFloorAndCostMeet violates [MoreRounds, EachRound, Stated] {
        fn ends(&self, _cost: u64, _floor: u64) -> bool {
            false
        }
    }

    EndsWhereTheyNearlyMeet violates [EachRound] {
        fn ends(&self, cost: u64, floor: u64) -> bool {
            cost <= floor + 1
        }
    }
}

type Call = fn(&[u8], u64, u32, &mut [u16]) -> Result<Answer, Refusal>;

struct Altered(Call);

impl DeepCall for Altered {
    fn deep_call(&self, plan: &[u8], budget: u64, rounds: u32, sheet: &mut [u16]) -> Result<Answer, Refusal> {
        self.0(plan, budget, rounds, sheet)
    }
}

fn right(plan: &[u8], budget: u64, rounds: u32, sheet: &mut [u16]) -> Result<Answer, Refusal> {
    Yardstick.deep_call(plan, budget, rounds, sheet)
}

/// The right answer, altered by what the plan call answers, whose drive comes with it.
fn beside_first(
    plan: &[u8],
    (budget, rounds): (u64, u32),
    sheet: &mut [u16],
    alter: fn(Answer, Answer, &[u16], &mut [u16]) -> Answer,
) -> Result<Answer, Refusal> {
    let told = right(plan, budget, rounds, sheet)?;
    let mut own = vec![0; SHEET_PLACES];
    let first = Yardstick.plan_call(plan, budget, &mut own)?;
    let drive = &own[..first.places];
    Ok(alter(told, first.clone(), drive, sheet))
}

/// 23 is given where one round would be refused for nothing.
fn refused_later(plan: &[u8], (budget, rounds): (u64, u32), sheet: &mut [u16]) -> Result<Answer, Refusal> {
    match right(plan, budget, rounds, &mut sheet.to_vec()) {
        Err(refusal::ROUNDS) => right(plan, budget, 1, &mut sheet.to_vec()).and(Err(refusal::ROUNDS)),
        _ => right(plan, budget, rounds, sheet),
    }
}

const ALTERED: [(&str, &[Property], Call); 13] = [
    ("the first round's drive at the best round's cost", &[DriveCost], |p, b, r, s| {
        beside_first(p, (b, r), s, |told, first, drive, sheet| {
            sheet.fill(0xA5A5);
            sheet[..first.places].copy_from_slice(drive);
            Answer { places: first.places, ..told }
        })
    }),
    ("the best round's drive at the first round's cost", &[DriveCost, EachRound], |p, b, r, s| {
        beside_first(p, (b, r), s, |told, first, _, _| Answer { cost: first.cost, ..told })
    }),
    ("the first round's floor", &[FloorOfSomeRoot, EachRound], |p, b, r, s| {
        beside_first(p, (b, r), s, |told, first, _, _| Answer { floor: first.floor, ..told })
    }),
    ("the first round's trees", &[EachRound, Stated], |p, b, r, s| {
        beside_first(p, (b, r), s, |told, first, _, _| Answer { trees: first.trees, ..told })
    }),
    ("whole where the first round is", &[FloorMet, Stated], |p, b, r, s| {
        beside_first(p, (b, r), s, |told, first, _, _| Answer { whole: first.whole, ..told })
    }),
    ("always whole", &[FloorMet, Stated], |p, b, r, s| Ok(Answer { whole: true, ..right(p, b, r, s)? })),
    ("the floor is the cost", &[FloorHolds, EachRound], |p, b, r, s| {
        let told = right(p, b, r, s)?;
        Ok(Answer { floor: told.cost, whole: true, ..told })
    }),
    // Each round writes over the one before.
    ("every round's drive is laid on the sheet", &[RestKept], |p, b, r, s| {
        let told = right(p, b, r, s)?;
        let mut own = s.to_vec();
        let first = Yardstick.plan_call(p, b, &mut own)?;
        let later = told.places..first.places.max(told.places);
        s[later.clone()].copy_from_slice(&own[later]);
        Ok(told)
    }),
    ("the drive of the plan renumbered", &[FirstArc, Drive], |p, b, r, s| {
        let told = right(p, b, r, s)?;
        let plan = read(p)?;
        let back: Order = (0..plan.n).rev().collect();
        let other = renumbered(&plan, &back);
        let of = |k: u16| other.arcs.iter().position(|arc| *arc == plan.arcs[usize::from(k)]).unwrap_or(usize::from(k));
        s[..told.places].iter_mut().for_each(|place| *place = of(*place) as u16);
        Ok(told)
    }),
    ("a refused call clears the sheet", &[SheetKept], |p, b, r, s| {
        let told = right(p, b, r, s);
        if told.is_err() {
            s.fill(0);
        }
        told
    }),
    ("23 before 9", &[Refusal, Stated], |p, b, r, s| match right(p, b, r, s) {
        Err(refusal::BUDGET) if !(1..=1_000).contains(&r) => Err(refusal::ROUNDS),
        told => told,
    }),
    ("23 after 12", &[Refusal, Stated], |p, b, r, s| refused_later(p, (b, r), s)),
    ("1,000 rounds are too many", &[Refusal, Stated], |p, b, r, s| match r {
        1_000 => right(p, b, 0, s),
        _ => right(p, b, r, s),
    }),
];

pub fn mutants() -> Vec<Mutant<dyn DeepCall>> {
    let altered = ALTERED.iter().map(|&(name, violates, call)| {
        let wrong: Box<dyn DeepCall> = Box::new(Altered(call));
        Mutant { name, violates, wrong }
    });
    wrong_rounds().into_iter().chain(altered).collect()
}
