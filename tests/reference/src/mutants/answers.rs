//! Planners that answer wrong what they have found, or refuse wrong.

use super::Mutant;
use crate::oracle::{file_of, parse, Graph, INFINITE};
use crate::plan::{Arc, DEFAULT_BUDGET, HIGHEST_BUDGET, MOST_PARTS, PROGRAM_BUDGET, REQUIRED, SHEET_PLACES};
use crate::planner::{refusal, Answer, Planner, Refusal};
use crate::properties::Property::*;
use crate::yardstick::Yardstick;

type Call = fn(&[u8], u64, &mut [u16]) -> Result<Answer, Refusal>;

/// A plan call, and the short call's budget.
struct Altered(Call, u64);

impl Planner for Altered {
    fn plan_call(&self, plan: &[u8], budget: u64, sheet: &mut [u16]) -> Result<Answer, Refusal> {
        self.0(plan, budget, sheet)
    }

    fn short_call(&self, plan: &[u8], sheet: &mut [u16]) -> Result<Answer, Refusal> {
        self.0(plan, self.1, sheet)
    }
}

fn right(plan: &[u8], budget: u64, sheet: &mut [u16]) -> Result<Answer, Refusal> {
    Yardstick.plan_call(plan, budget, sheet)
}

/// R + Z, from the answer's multipliers.
fn balanced(plan: &[u8], a: &Answer) -> u64 {
    let graph = Graph::new(&parse(plan));
    graph.required_cost + graph.price(&a.multipliers) as u64
}

fn also_standing(plan: &[u8]) -> bool {
    parse(plan).arcs.iter().any(|a| a.standing == 3)
}

/// Whether two arcs agree but for their checking costs.
fn has_twins(plan: &[u8]) -> bool {
    let arcs: Vec<Arc> = parse(plan).arcs.iter().map(|a| Arc { checking: 0, ..*a }).collect();
    (0..arcs.len()).any(|k| arcs[..k].contains(&arcs[k]))
}

/// What the plan call answers for a plan that is refused by its prices, once these are changed in its arcs.
fn repriced(p: &[u8], b: u64, s: &mut [u16], price: fn(&mut Arc)) -> Result<Answer, Refusal> {
    match right(p, b, s) {
        Err(refusal::UNPRICED) => {
            let mut plan = parse(p);
            plan.arcs.iter_mut().for_each(price);
            right(&file_of(&plan), b, s)
        }
        result => result,
    }
}

pub fn mutants() -> Vec<Mutant<dyn Planner>> {
    let mut all = Vec::new();
    let mut add = |name, violates, call: Call| {
        all.push(Mutant { name, violates, wrong: Box::new(Altered(call, DEFAULT_BUDGET)) as Box<dyn Planner> })
    };

    // the floor
    add("floor + 1", &[FloorEquation, FloorOfWhole, FloorHolds], |p, b, s| {
        right(p, b, s).map(|a| Answer { floor: a.floor + 1, ..a })
    });
    add("floor - 1", &[FloorEquation, FloorOfWhole, FloorAboveBalancing], |p, b, s| {
        right(p, b, s).map(|a| Answer { floor: a.floor - 1, ..a })
    });
    add("floor 0", &[FloorAboveBalancing], |p, b, s| right(p, b, s).map(|a| Answer { floor: 0, ..a }));
    add("floor R + Z", &[FloorEquation, FloorOfWhole], |p, b, s| {
        right(p, b, s).map(|a| Answer { floor: balanced(p, &a), ..a })
    });
    add("floor is the cost", &[FloorHolds, FloorEquation], |p, b, s| {
        right(p, b, s).map(|a| Answer { floor: a.cost, ..a })
    });

    // the cost
    add(
        "each pass of a must arc at its checking cost",
        &[LeastCost, DriveCost, Optimum, CheckingCosts, Stated],
        |p, b, s| {
            let a = right(p, b, s)?;
            let arcs = parse(p).arcs;
            let pass = |&k: &u16| match arcs[usize::from(k)] {
                Arc { standing: REQUIRED, checking, .. } => u64::from(checking),
                Arc { cost, .. } => u64::from(cost),
            };
            Ok(Answer { cost: s[..a.places].iter().map(pass).sum(), ..a })
        },
    );

    // trees, whole, parts
    add("whole off by one", &[Whole], |p, b, s| right(p, b, s).map(|a| Answer { whole: a.trees < b, ..a }));
    add("whole after one tree", &[Whole, Optimum], |p, b, s| right(p, b, s).map(|a| Answer { whole: true, ..a }));
    add("trees are the budget", &[Trees], |p, b, s| right(p, b, s).map(|a| Answer { trees: b, ..a }));
    add("one tree too many", &[LeastCost], |p, b, s| {
        let a = right(p, b, &mut s.to_vec())?;
        let next = right(p, (b + 1).min(HIGHEST_BUDGET), s)?;
        Ok(Answer { cost: next.cost, places: next.places, ..a })
    });
    add("parts with the rest of the town", &[Parts], |p, b, s| {
        right(p, b, s).map(|a| Answer { parts: a.parts + 1, ..a })
    });

    // multipliers
    add("multipliers everywhere", &[Elsewhere], |p, b, s| {
        let mut a = right(p, b, s)?;
        let required = Graph::new(&parse(p)).required;
        (0..64).filter(|v| !required.contains(v)).for_each(|v| a.multipliers[v] = 1);
        Ok(a)
    });
    add("one multiplier too large", &[Feasible], |p, b, s| {
        let mut a = right(p, b, s)?;
        let required = Graph::new(&parse(p)).required;
        a.multipliers[required[required.len() - 1]] += 1_000_000_000;
        Ok(a)
    });

    // what a raised budget buys
    add("multipliers by the budget", &[RaisedBudget], |p, b, s| {
        let mut a = right(p, b, s)?;
        Graph::new(&parse(p)).required.iter().for_each(|&v| a.multipliers[v] += (b % 7) as i64);
        Ok(a)
    });
    add("a floor that falls", &[RaisedBudget], |p, b, s| {
        right(p, b, s).map(|a| Answer { floor: a.floor - (b / 2).min(a.floor), ..a })
    });
    add("another drive where the budget is not used up", &[RaisedBudget], |p, b, s| {
        right(p, b, s).inspect(|a| s[..a.places].rotate_left((b - a.trees) as usize % a.places))
    });

    // the drive
    add("drive turned by one place", &[FirstArc], |p, b, s| right(p, b, s).inspect(|a| s[..a.places].rotate_left(1)));
    add("last arc forgotten", &[Drive], |p, b, s| {
        let a = right(p, b, s)?;
        s[a.places - 1] = 0xA5A5;
        Ok(Answer { places: a.places - 1, ..a })
    });
    add("driven twice", &[DriveCost], |p, b, s| {
        let a = right(p, b, s)?;
        let twice = 2 * a.places.min(s.len() / 2);
        s.copy_within(..twice / 2, twice / 2);
        Ok(Answer { places: twice, ..a })
    });
    add("sheet untouched", &[Drive], |p, b, s| right(p, b, &mut s.to_vec()));
    add("rest of the sheet cleared", &[RestKept], |p, b, s| right(p, b, s).inspect(|a| s[a.places..].fill(0)));
    add("answer from what the sheet held", &[Repeatable], |p, b, s| {
        let odd = s.last().is_some_and(|x| x % 2 == 1);
        right(p, b, s).map(|a| Answer { floor: a.floor - u64::from(odd), ..a })
    });

    // refusals
    add("sheet cleared before refusing", &[SheetKept], |p, b, s| {
        s.fill(0);
        right(p, b, s)
    });
    add("every plan cut off", &[Refusal, Stated], |p, b, s| right(p, b, &mut s.to_vec()).and(Err(refusal::CUT_OFF)));
    add("budget before short sheet", &[Refusal, Stated], |p, b, s| match right(p, b, s) {
        Err(refusal::SHORT_SHEET) if b == 0 || b > HIGHEST_BUDGET => Err(refusal::BUDGET),
        result => result,
    });
    add("short sheet before repeated", &[Refusal, Stated], |p, b, s| match right(p, b, s) {
        Err(refusal::REPEATED) if s.len() < SHEET_PLACES => Err(refusal::SHORT_SHEET),
        result => result,
    });
    add("budget before repeated", &[Refusal, Stated], |p, b, s| match right(p, b, s) {
        Err(refusal::REPEATED) if b == 0 || b > HIGHEST_BUDGET => Err(refusal::BUDGET),
        result => result,
    });
    add("standing before cost", &[Refusal, Stated], |p, b, s| match right(p, b, s) {
        Err(refusal::UNPRICED) if also_standing(p) => Err(refusal::STANDING),
        result => result,
    });
    add("standing before checking cost", &[Refusal, Stated], |p, b, s| match right(p, b, s) {
        Err(refusal::UNPRICED) if parse(p).arcs.iter().all(|a| a.cost > 0) && also_standing(p) => {
            Err(refusal::STANDING)
        }
        result => result,
    });
    add("checking cost of other arcs untested", &[Refusal, Stated], |p, b, s| {
        repriced(p, b, s, |a| {
            if a.standing != REQUIRED {
                a.checking = 0;
            }
        })
    });
    add("checking cost of must arcs untested", &[Refusal, Stated], |p, b, s| {
        repriced(p, b, s, |a| {
            if a.standing == REQUIRED && a.checking == 0 {
                a.checking = a.cost;
            }
        })
    });
    add("repeated whatever the checking cost", &[Refusal, Stated], |p, b, s| match right(p, b, s) {
        Ok(_) | Err(8..=12) if has_twins(p) => Err(refusal::REPEATED),
        result => result,
    });
    add("edition 2 read with arcs of 30 bits", &[Refusal, Editions, Stated], |p, b, s| match p {
        [first, rest @ ..] if first >> 4 == 2 => right(&[&[first ^ 0x30], rest].concat(), b, s),
        _ => right(p, b, s),
    });
    add("edition 2 refused", &[Refusal, Editions, Stated], |p, b, s| match p {
        [first, _, _, ..] if first >> 4 == 2 => Err(refusal::EDITION),
        _ => right(p, b, s),
    });
    add("edition 3 read like edition 1", &[Refusal, Stated], |p, b, s| match p {
        [first, rest @ ..] if first >> 4 == 3 => right(&[&[first ^ 0x20], rest].concat(), b, s),
        _ => right(p, b, s),
    });
    add("cut off before scattered", &[Refusal, Stated], |p, b, s| match right(p, b, s) {
        Err(refusal::SCATTERED) => {
            let graph = Graph::new(&parse(p));
            let apart = graph.required.iter().any(|&v| graph.d[graph.required[0]][v] == INFINITE);
            Err(if apart { refusal::CUT_OFF } else { refusal::SCATTERED })
        }
        result => result,
    });
    add("length before extent", &[Refusal], |p, b, s| match right(p, b, s) {
        Err(refusal::EXTENT) if p.len() < 7 => Err(refusal::TORN),
        result => result,
    });
    add("fill bits not looked at", &[Refusal], |p, b, s| match right(p, b, s) {
        Err(refusal::MARGIN) => {
            let mut clean = p.to_vec();
            let width = if p[0] >> 4 == 2 { 46 } else { 30 };
            let fill = (8 * p.len() - 20) % width;
            *clean.last_mut().expect("not torn") &= 0xFFu8.checked_shl(fill as u32).unwrap_or(0xFF);
            right(&clean, b, s)
        }
        result => result,
    });
    add("highest budget refused", &[Stated], |p, b, s| match b {
        HIGHEST_BUDGET => Err(refusal::BUDGET),
        _ => right(p, b, s),
    });
    add("budget cut to 32 bits", &[Stated], |p, b, s| right(p, b & 0xFFFF_FFFF, s));
    add("sheet one place too short", &[Stated], |p, b, s| match s.len() {
        17_265 => {
            let mut longer = vec![0; 17_266];
            let result = right(p, b, &mut longer);
            s.copy_from_slice(&longer[..17_265]);
            result
        }
        _ => right(p, b, s),
    });
    add("64 vertices refused", &[Stated], |p, b, s| match p {
        [0x18, second, ..] if second >> 5 == 0 => Err(refusal::EXTENT),
        _ => right(p, b, s),
    });
    add("no room for eight parts", &[Returns], |p, b, s| {
        let a = right(p, b, s)?;
        assert!(a.parts < MOST_PARTS as u64);
        Ok(a)
    });

    let shallow = Altered(right, PROGRAM_BUDGET);
    all.push(Mutant { name: "short call not deepened", violates: &[ShortCall], wrong: Box::new(shallow) });
    all
}
