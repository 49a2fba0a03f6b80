//! The oracle: what document 01 says of a plan, computed from its definitions by other algorithms than the planner's, and slowly.
//!
//! | notion | here | planner |
//! |---|---|---|
//! | file | a string of bits | a window of bits |
//! | d | Floyd and Warshall | relaxation, row by row |
//! | paths of fewest arcs | layers away from the first vertex, whole lists compared | weights, arc by arc towards the last |
//! | searches of a page | first vertices sorted | a flag for each vertex |
//! | parts | transitive closure | labels that sink |
//! | least balancing | assignment by the Hungarian method | units added along shortest paths |
//! | N | plain enumeration; the matrix tree theorem | a successor with a completion test |
//! | A(u) | sets of parts, links only | Edmonds' recursion, all pairs |
//! | greatest u | Bellman and Ford from a least assignment | Dijkstra over reduced costs |
//! | best drive | search over (vertex, set of required arcs passed) | trees |
//! | shut arcs | the minutes of a week, for each arc | window by window |
//! | a car's plan | the set of its arcs, priced by standing | mark by mark, priced by checking cost |
//! | an open plan | the accepted calls, looked up from the end | the plan and the marks as they are now |
//! | districts in turn | whose each accepted call was; the front has waited longest since its own | a line, its front first |
//! | a deep call | a list of all rounds; exchanges undone from the last | what is kept, round by round |
//! | judging | sets of arcs, and how often each occurs | passes along the list |

mod balancing;
mod bound;
mod deep;
mod file;
mod graph;
mod history;
mod judging;
mod line;
mod marks;
mod optimum;
mod page;
mod paths;
mod trees;
mod windows;

pub use balancing::{assignment, greatest_multipliers, Assignment};
pub use bound::{cheapest_tree, lagrangian_bound};
pub use deep::{best_of, bounds_by_root, deep_refusal, drawn, goes_on, rounds, vertices_of, with_numbers, Round};
pub use file::{file_of, is_long_enough, parse, read_refusal, write_refusal};
pub use graph::{judge, Graph, INFINITE};
pub use history::History;
pub use judging::judge_answer;
pub use line::{Due, Line};
pub use marks::{car_plan, car_refusal, own_marks};
pub use optimum::{optimum, MOST_REQUIRED_ARCS};
pub use page::{page, page_refusal};
pub use paths::{fewest_paths, follows_fewest_paths};
pub use trees::{count_trees, first_trees, Enumerated};
pub use windows::{departure_refusal, plan_at};

use crate::plan::{Plan, DEFAULT_BUDGET, HIGHEST_BUDGET, MOST_PARTS, MOST_VERTICES, SHEET_PLACES};
use crate::planner::Refusal;

/// What is known of a plan that is not refused.
pub struct Facts {
    pub graph: Graph,
    /// N.
    pub tree_count: u128,
    /// The costs of the first trees: all, or as many as were worth the time.
    pub tree_costs: Vec<u64>,
    /// Z.
    pub least_balancing: u64,
    /// L(0).
    pub bound_at_zero: i64,
    /// The greatest multipliers that are 0 at the lowest required vertex.
    pub greatest: [i64; MOST_VERTICES],
    /// The cost of the cheapest drive, where it was searched for.
    pub optimum: Option<u64>,
}

/// How much work goes into the facts of a plan.
pub struct Effort {
    /// The most choices of links that are looked at, and the most trees that are balanced.
    pub choices: usize,
    pub trees: usize,
    /// The most states of the search for the cheapest drive.
    pub states: usize,
}

impl Effort {
    pub const BRUTE_FORCE: Effort = Effort { choices: 40_000, trees: 4_000, states: 40_000 };
    pub const LIGHT: Effort = Effort { choices: 20_000, trees: 40, states: 0 };
}

impl Facts {
    /// The facts of a plan that the plan call does not refuse.
    pub fn of(plan: &Plan, effort: &Effort) -> Facts {
        let graph = Graph::new(plan);
        let least = assignment(&graph, &[]);
        let enumerated = first_trees(&graph, effort.choices, effort.trees);
        let tree_costs = enumerated.trees.iter().map(|tree| tree_cost(&graph, tree)).collect();
        let required = graph.required_arcs.len();
        let is_searched = required <= MOST_REQUIRED_ARCS && plan.n << required <= effort.states;
        Facts {
            tree_count: count_trees(&graph),
            tree_costs,
            bound_at_zero: lagrangian_bound(&graph, &[0; MOST_VERTICES]),
            greatest: greatest_multipliers(&graph, &least),
            least_balancing: least.cost,
            optimum: is_searched.then(|| optimum(plan).expect("a drive exists")),
            graph,
        }
    }

    /// The least cost of the first trees, up to a budget, if so many are known.
    pub fn least_cost(&self, budget: u64) -> Option<u64> {
        let tried = self.tree_count.min(budget.into()) as usize;
        self.tree_costs.get(..tried)?.iter().min().copied()
    }
}

/// "R, plus the d of its links, plus the least balancing once the links are counted in D as arcs."
pub fn tree_cost(graph: &Graph, tree: &[(usize, usize)]) -> u64 {
    graph.required_cost + tree.iter().map(|&(i, j)| graph.d[i][j]).sum::<u64>() + assignment(graph, tree).cost
}

/// The plan call's refusal, 0 for none.
pub fn call_refusal(bytes: &[u8], budget: u64, places: usize) -> Refusal {
    let number = read_refusal(bytes, usize::MAX);
    if number != 0 {
        return number;
    }
    match lent_refusal(budget, places) {
        0 => plan_refusal(&parse(bytes)),
        number => number,
    }
}

/// 8 and 9, 0 for none.
fn lent_refusal(budget: u64, places: usize) -> Refusal {
    first(&[(places < SHEET_PLACES, 8), (!(1..=HIGHEST_BUDGET).contains(&budget), 9)])
}

/// 10 to 12, 0 for none.
fn plan_refusal(plan: &Plan) -> Refusal {
    let graph = Graph::new(plan);
    first(&[
        (graph.required_arcs.is_empty(), 10),
        (graph.parts > MOST_PARTS, 11),
        (graph.required.iter().any(|&i| graph.required.iter().any(|&j| graph.d[i][j] == INFINITE)), 12),
    ])
}

/// The number of the first condition that applies, 0 for none.
fn first(conditions: &[(bool, Refusal)]) -> Refusal {
    conditions.iter().find(|(applies, _)| *applies).map_or(0, |(_, number)| *number)
}

/// The short call's refusal, 0 for none.
pub fn short_refusal(bytes: &[u8], places: usize) -> Refusal {
    call_refusal(bytes, DEFAULT_BUDGET, places)
}
