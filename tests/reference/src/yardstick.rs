//! The yardstick: the planner written plainly in Rust, for speed, by the same method as the proved one. It is what the proved library's
//! speed is measured against, and the stock from which the wrong planners are made.

mod ascent;
mod balance;
mod bound;
mod circuit;
mod count;
mod deep;
mod distance;
mod districts;
mod file;
mod judging;
mod marks;
mod network;
mod open_plan;
mod page;
mod search;
mod windows;

pub use balance::{Balance, Lengths};
pub use bound::{cheapest_arborescence, Entries};
pub use circuit::shortest_path;
pub use count::{count_by_layers, entry_counts, EntryCounts};
pub use deep::{renumbered, Order, OverPlanCall, Rounds};
pub use distance::{cost_of, costs, distances, measured_arcs, row, Distances, Row, NO_PATH};
pub use districts::{check_entry, lowest_free, District, Line};
pub use file::{read, write};
pub use judging::judge;
pub use marks::{car_plan, check_marks};
pub use network::{components, Components, Network};
pub use open_plan::{changed, check_change};
pub use page::vertices;
pub use search::Candidate;
pub use windows::{check_windows, plan_at};

use crate::plan::{
    Arc, Departure, Plan, CLOSED, DEFAULT_BUDGET, HIGHEST_BUDGET, MOST_PARTS, MOST_VERTICES, REQUIRED, SHEET_PLACES,
};
use crate::planner::{refusal, Answer, Codec, DepartureCall, Judge, Planner, Refusal};
use std::cell::Cell;

/// The decisions that planners of this trade get wrong, each with its right answer. A wrong planner overrides one.
pub trait Steps {
    /// What an arc adds to a path, if it may serve in one.
    fn length(&self, arc: &Arc) -> Option<u64> {
        (arc.standing != CLOSED).then_some(arc.cost.into())
    }

    /// What a required arc adds to R: the pass on which it is checked.
    fn checking(&self, arc: &Arc) -> u16 {
        arc.checking
    }

    /// The components of the required vertices.
    fn components(&self, plan: &Plan) -> Components {
        components(plan)
    }

    /// Whether the path from i to j may go through k, so that the pair (i, j) is dropped.
    fn is_via(&self, d: &Distances, i: usize, k: usize, j: usize) -> bool {
        d[i][j] == d[i][k] + d[k][j]
    }

    /// Whether a pair serves as a half of another, by whether it is still held.
    fn serves(&self, held: bool) -> bool {
        held
    }

    /// By what the candidate links of a component ascend.
    fn link_order(&self, tail: usize, head: usize) -> (usize, usize) {
        (tail, head)
    }

    /// The unit that evens out an arc: from where to where it goes.
    fn unit(&self, tail: usize, head: usize) -> (usize, usize) {
        (head, tail)
    }

    /// The multipliers that are answered, 0 at the first required vertex.
    fn multipliers(&self, balance: &Balance, lengths: &Lengths, component: &[usize], parts: usize) -> Vec<i64> {
        ascent::ascend(balance, lengths, component, parts)
    }

    /// The sum of u(i) × D(i).
    fn price(&self, u: &[i64; MOST_VERTICES], imbalance: &[i64; MOST_VERTICES]) -> i64 {
        u.iter().zip(imbalance).map(|(u, d)| u * d).sum()
    }

    /// L(u), from R, the price of the imbalance and A(u).
    fn lagrangian_bound(&self, required_cost: i64, price: i64, arborescence: i64) -> i64 {
        required_cost + price + arborescence
    }

    /// A(u), from the least reduced costs between components.
    fn cheapest_arborescence(&self, entries: &Entries, parts: usize) -> i64 {
        cheapest_arborescence(entries, parts)
    }

    /// Whether a tree is looked at, by its place in the order.
    fn considers(&self, _place: u64) -> bool {
        true
    }

    /// Whether a branch with this bound is passed over.
    fn is_hopeless(&self, bound: i64, best: i64) -> bool {
        bound >= best
    }

    /// The state once the unit of a link is added.
    fn balanced_with<'a>(&self, state: &Balance<'a>, link: &Candidate) -> Balance<'a> {
        let mut state = state.clone();
        state.add(link.from, link.to);
        state
    }

    /// What an arc adds to a path in weight: cost first, and then the number of arcs.
    fn weight(&self, arc: &Arc) -> Option<u64> {
        Some(64 * self.length(arc)? + 1)
    }

    /// The arcs that a leg from i to j is driven by, from the least weights.
    fn path(&self, plan: &Plan, weights: &Distances, i: usize, j: usize) -> Vec<u16> {
        shortest_path(plan, weights, |a| self.weight(a), i, j)
    }
}

/// The right planner.
#[derive(Clone, Copy, Default, Debug)]
pub struct Yardstick;

impl Steps for Yardstick {}

/// The right planner, counting the links that it adds to a state.
#[derive(Default)]
pub struct Counting(Cell<u64>);

impl Counting {
    pub fn added(&self) -> u64 {
        self.0.get()
    }
}

impl Steps for Counting {
    fn balanced_with<'a>(&self, state: &Balance<'a>, link: &Candidate) -> Balance<'a> {
        self.0.set(self.0.get() + 1);
        Yardstick.balanced_with(state, link)
    }
}

impl<S: Steps> Planner for S {
    fn plan_call(&self, plan: &[u8], budget: u64, sheet: &mut [u16]) -> Result<Answer, Refusal> {
        plan_call(self, plan, budget, sheet)
    }

    fn short_call(&self, plan: &[u8], sheet: &mut [u16]) -> Result<Answer, Refusal> {
        plan_call(self, plan, DEFAULT_BUDGET, sheet)
    }
}

impl DepartureCall for Yardstick {
    fn plan_call_at(
        &self,
        plan: &[u8],
        budget: u64,
        windows: &[u16],
        departure: Departure,
        sheet: &mut [u16],
    ) -> Result<Answer, Refusal> {
        let plan = accept(plan, budget, sheet.len())?;
        check_windows(&plan, windows, departure)?;
        answer(self, plan_at(plan, windows, departure), budget, sheet)
    }
}

impl Judge for Yardstick {
    fn judge(&self, plan: &[u8], places: &[u16]) -> Result<u64, Refusal> {
        judge(plan, places)
    }
}

impl Codec for Yardstick {
    fn read(&self, bytes: &[u8], records: &mut [Arc]) -> Result<(u8, usize, usize), Refusal> {
        let plan = read(bytes)?;
        let m = plan.arcs.len();
        let room = records.get_mut(..m).ok_or(refusal::SHORT_SHEET)?;
        room.copy_from_slice(&plan.arcs);
        Ok((plan.edition, plan.n, m))
    }

    fn write(&self, edition: u8, n: u32, records: &[Arc], bytes: &mut [u8]) -> Result<usize, Refusal> {
        let file = write(edition, n, records)?;
        let room = bytes.get_mut(..file.len()).ok_or(refusal::SHORT_SHEET)?;
        room.copy_from_slice(&file);
        Ok(file.len())
    }
}

/// The plan call's refusals 1 to 9 and 13, in their order.
fn accept(file: &[u8], budget: u64, places: usize) -> Result<Plan, Refusal> {
    let plan = read(file)?;
    check_lent(budget, places)?;
    Ok(plan)
}

/// 8 and 9.
pub fn check_lent(budget: u64, places: usize) -> Result<(), Refusal> {
    if places < SHEET_PLACES {
        return Err(refusal::SHORT_SHEET);
    }
    if budget == 0 || budget > HIGHEST_BUDGET {
        return Err(refusal::BUDGET);
    }
    Ok(())
}

fn plan_call<S: Steps>(steps: &S, file: &[u8], budget: u64, sheet: &mut [u16]) -> Result<Answer, Refusal> {
    answer(steps, accept(file, budget, sheet.len())?, budget, sheet)
}

/// 10 to 12, then the answer.
pub fn answer<S: Steps>(steps: &S, plan: Plan, budget: u64, sheet: &mut [u16]) -> Result<Answer, Refusal> {
    let components = accepted_components(steps, &plan)?;
    let weights = distances(&plan, |a| steps.weight(a));
    lay(steps, &plan, components, &weights, budget, sheet)
}

/// 10 and 11, then the components.
fn accepted_components<S: Steps>(steps: &S, plan: &Plan) -> Result<Components, Refusal> {
    if !plan.arcs.iter().any(|a| a.standing == REQUIRED) {
        return Err(refusal::IDLE);
    }
    let components = steps.components(plan);
    if components.count > MOST_PARTS {
        return Err(refusal::SCATTERED);
    }
    Ok(components)
}

/// 12, then the answer, from the least weights of the plan's paths.
fn lay<S: Steps>(
    steps: &S,
    plan: &Plan,
    components: Components,
    weights: &Distances,
    budget: u64,
    sheet: &mut [u16],
) -> Result<Answer, Refusal> {
    let d = costs(weights);
    let network = Network::new(steps, plan, &d, components);
    if network.is_cut_off() {
        return Err(refusal::CUT_OFF);
    }

    let lengths = network.lengths();
    let mut balance = Balance::new(&lengths, network.required.len());
    for a in plan.arcs.iter().filter(|a| a.standing == REQUIRED) {
        let (from, to) = steps.unit(a.tail.into(), a.head.into());
        balance.add(network.place[from], network.place[to]);
    }
    let component: Vec<usize> = network.required.iter().map(|&v| network.components.of[v]).collect();
    let of_places = steps.multipliers(&balance, &lengths, &component, network.components.count);
    let mut u = [0; MOST_VERTICES];
    network.required.iter().zip(&of_places).for_each(|(&v, &x)| u[v] = x);

    // The multipliers that are answered are potentials of the state, and better ones than it came with.
    let mut state = balance.clone();
    let mut potentials = *state.potentials();
    potentials[..of_places.len()].copy_from_slice(&of_places);
    state.set_potentials(&potentials);
    let found = search::try_trees(steps, &network.candidates(steps), network.required_cost, state, budget);
    let floor = if found.whole {
        found.cost
    } else {
        lower_bound(steps, &network, &[0; MOST_VERTICES]).max(lower_bound(steps, &network, &u))
    };

    let drive = circuit::lay(steps, &network, weights, balance, &found.links);
    let places = drive.len().min(sheet.len());
    sheet[..places].copy_from_slice(&drive[..places]);
    Ok(Answer {
        places,
        cost: found.cost as u64,
        floor: floor.max(0) as u64,
        trees: found.tried,
        whole: found.whole,
        parts: network.components.count as u64,
        multipliers: u,
    })
}

/// L(u).
fn lower_bound<S: Steps>(steps: &S, network: &Network, u: &[i64; MOST_VERTICES]) -> i64 {
    let entries = network.cheapest_entries(u);
    let arborescence = steps.cheapest_arborescence(&entries, network.components.count);
    steps.lagrangian_bound(network.required_cost, steps.price(u, &network.imbalance), arborescence)
}
