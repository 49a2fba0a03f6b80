//! The deep call: rounds of the plan call, each on the plan with other numbers for its vertices, or with the next trees. A round that goes on tries the
//! trees before its own again.

use super::{accept, answer, count_by_layers, entry_counts, write, Yardstick};
use crate::plan::{Plan, MOST_ROUNDS, MOST_VERTICES, SHEET_PLACES};
use crate::planner::{refusal, Answer, DeepCall, Planner, Refusal};

/// Which vertex has each number.
pub type Order = Vec<usize>;

/// The generator of Park and Miller, and where it begins.
const MULTIPLIER: u64 = 48_271;
const MODULUS: u64 = 2_147_483_647;
const START: u64 = 1;

/// What the deep call decides, each with its right answer. A wrong deep call overrides one.
pub trait Rounds {
    /// What is answered for a plan, and the drive, with so many trees tried at most.
    fn solve(&self, plan: Plan, trees: u64, sheet: &mut [u16]) -> Result<Answer, Refusal> {
        answer(&Yardstick, plan, trees, sheet)
    }

    /// Whether so many rounds may be asked for.
    fn allows(&self, rounds: u32) -> bool {
        (1..=MOST_ROUNDS).contains(&rounds)
    }

    /// The numbers of the first round.
    fn first(&self, n: usize) -> Order {
        (0..n).collect()
    }

    /// Whether a round goes on with the search that is kept, of which so many trees are left: every second if 100 rounds could try them, every eighth
    /// if all together could not.
    fn goes_on(&self, round: u32, left: u64) -> bool {
        match left {
            0..=100_000_000 => round.is_multiple_of(2),
            100_000_001..=1_000_000_000 => false,
            _ => round.is_multiple_of(8),
        }
    }

    /// The trees of a round that does, in all, where so many were tried.
    fn trees(&self, budget: u64, tried: u64) -> u64 {
        tried + budget
    }

    /// How often two vertices exchange their numbers before any other round.
    fn exchanges(&self) -> u32 {
        2
    }

    /// The number that the generator draws next.
    fn draw(&self, random: u64) -> u64 {
        random * MULTIPLIER % MODULUS
    }

    /// The numbers that are exchanged, by what was drawn.
    fn pair(&self, random: u64, n: usize) -> (usize, usize) {
        let n = n as u64;
        ((random % n) as usize, (random / n % n) as usize)
    }

    /// How many trees are left once so many are tried. A count ends at 2³².
    fn left(&self, plan: &Plan, trees: u64) -> u64 {
        let file = write(plan.edition, plan.n as u32, &plan.arcs).expect("a good plan");
        let (entries, parts) = entry_counts(&file).expect("a plan that is not refused");
        count_by_layers(&entries, parts).saturating_sub(trees)
    }

    /// Whether a round's search is gone on with, by the trees that are left of it and the fewest before it.
    fn nears(&self, left: u64, fewest: u64) -> bool {
        left <= fewest
    }

    /// Whether more trees are left than all rounds together can try, so that the numbers of the cheapest drive are exchanged.
    fn is_far(&self, left: u64) -> bool {
        left > 1_000_000_000
    }

    /// How many of a round's trees are new, of those that it may try and those of which it takes the last.
    fn counted(&self, told: u64, trees: u64, budget: u64) -> u64 {
        told.saturating_sub(trees - budget)
    }

    /// Whether a round's drive is kept, by its cost and the least before it.
    fn keeps(&self, cost: u64, least: u64) -> bool {
        cost < least
    }

    /// Whether a round's floor and multipliers are kept, by the floor and the highest before it.
    fn raises(&self, floor: u64, highest: u64) -> bool {
        floor > highest
    }

    /// The multipliers of a round, by the file's numbers.
    fn carried(&self, u: &[i64; MOST_VERTICES], order: &Order) -> [i64; MOST_VERTICES] {
        let mut carried = [0; MOST_VERTICES];
        order.iter().zip(u).for_each(|(&v, &x)| carried[v] = x);
        carried
    }

    /// Whether nothing is left to look for.
    fn ends(&self, cost: u64, floor: u64) -> bool {
        cost == floor
    }
}

/// The plan with each vertex named by its number.
pub fn renumbered(plan: &Plan, order: &Order) -> Plan {
    let mut number = [0; MOST_VERTICES];
    order.iter().enumerate().for_each(|(i, &v)| number[v] = i as u8);
    let mut plan = plan.clone();
    for arc in &mut plan.arcs {
        (arc.tail, arc.head) = (number[usize::from(arc.tail)], number[usize::from(arc.head)]);
    }
    plan
}

/// What is kept of the rounds so far.
struct Kept {
    /// The cheapest drive, and the numbers that it was found by.
    drive: Vec<u16>,
    drive_order: Order,
    /// The numbers of the search that is gone on with, the trees that were tried by them, and those that are left.
    order: Order,
    tried: u64,
    left: u64,
    /// Cost, floor and multipliers of the best, and the trees of all.
    answer: Answer,
}

/// The numbers of a round, and its trees. What was drawn before goes on.
fn numbers<R: Rounds>(rules: &R, round: u32, budget: u64, kept: &Kept, random: &mut u64) -> (Order, u64) {
    if rules.goes_on(round, kept.left) {
        return (kept.order.clone(), rules.trees(budget, kept.tried));
    }
    let mut order = if rules.is_far(kept.left) { kept.drive_order.clone() } else { kept.order.clone() };
    for _ in 0..rules.exchanges() {
        *random = rules.draw(*random);
        let (i, j) = rules.pair(*random, order.len());
        order.swap(i, j);
    }
    (order, budget)
}

fn deep_call<R: Rounds>(
    rules: &R,
    file: &[u8],
    budget: u64,
    rounds: u32,
    sheet: &mut [u16],
) -> Result<Answer, Refusal> {
    let plan = accept(file, budget, sheet.len())?;
    if !rules.allows(rounds) {
        return Err(refusal::ROUNDS);
    }
    let mut random = START;
    let mut own = vec![0; SHEET_PLACES];
    let mut kept: Option<Kept> = None;
    for round in 1..=rounds {
        let first = || (rules.first(plan.n), budget);
        let (order, trees) = kept.as_ref().map_or_else(first, |k| numbers(rules, round, budget, k, &mut random));
        let other = renumbered(&plan, &order);
        let mut told = rules.solve(other.clone(), trees, &mut own)?;
        told.multipliers = rules.carried(&told.multipliers, &order);
        let best = kept.get_or_insert_with(|| {
            let answer = Answer { places: 0, cost: u64::MAX, floor: 0, trees: 0, ..told.clone() };
            Kept {
                drive: Vec::new(),
                drive_order: order.clone(),
                order: order.clone(),
                tried: trees,
                left: u64::MAX,
                answer,
            }
        });
        best.answer.trees += rules.counted(told.trees, trees, budget);
        if rules.keeps(told.cost, best.answer.cost) {
            best.answer.cost = told.cost;
            best.drive = own[..told.places].to_vec();
            best.drive_order.clone_from(&order);
        }
        if rules.raises(told.floor, best.answer.floor) {
            best.answer.floor = told.floor;
            best.answer.multipliers = told.multipliers;
        }
        let left = rules.left(&other, trees);
        if rules.nears(left, best.left) {
            (best.order, best.tried, best.left) = (order, trees, left);
        }
        if rules.ends(best.answer.cost, best.answer.floor) {
            break;
        }
    }
    let Kept { drive, answer, .. } = kept.expect("one round at least");
    let whole = answer.cost == answer.floor;
    sheet[..drive.len()].copy_from_slice(&drive);
    Ok(Answer { places: drive.len(), whole, ..answer })
}

impl<R: Rounds> DeepCall for R {
    fn deep_call(&self, plan: &[u8], budget: u64, rounds: u32, sheet: &mut [u16]) -> Result<Answer, Refusal> {
        deep_call(self, plan, budget, rounds, sheet)
    }
}

impl Rounds for Yardstick {}

/// The deep call over the plan call of any planner: no round may have more trees than a plan call takes.
pub struct OverPlanCall<P>(pub P);

impl<P: Planner> Rounds for OverPlanCall<P> {
    fn solve(&self, plan: Plan, trees: u64, sheet: &mut [u16]) -> Result<Answer, Refusal> {
        let file = write(plan.edition, plan.n as u32, &plan.arcs)?;
        self.0.plan_call(&file, trees, sheet)
    }
}
