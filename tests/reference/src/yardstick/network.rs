//! Required vertices, components, links and imbalance.

use super::balance::Lengths;
use super::bound::Entries;
use super::{Candidate, Distances, Steps, NO_PATH};
use crate::plan::{Plan, MOST_PARTS, MOST_VERTICES, REQUIRED};

/// The components of the required vertices, numbered by their lowest vertex.
pub struct Components {
    pub count: usize,
    /// The component of each required vertex.
    pub of: [usize; MOST_VERTICES],
}

/// The required vertices joined by required arcs, direction ignored.
pub fn components(plan: &Plan) -> Components {
    // Labels sink to the lowest vertex of each component.
    let mut label: [usize; MOST_VERTICES] = std::array::from_fn(|v| v);
    let joins =
        || plan.arcs.iter().filter(|a| a.standing == REQUIRED).map(|a| (usize::from(a.tail), usize::from(a.head)));
    let mut changed = true;
    while changed {
        changed = false;
        for (t, h) in joins() {
            let low = label[t].min(label[h]);
            changed |= label[t] != low || label[h] != low;
            (label[t], label[h]) = (low, low);
        }
    }
    Components::from_labels(plan, &label)
}

impl Components {
    /// Numbers the classes of the required vertices, given by equal labels, by their lowest vertex.
    pub fn from_labels(plan: &Plan, label: &[usize; MOST_VERTICES]) -> Components {
        let mut of = [0; MOST_VERTICES];
        let mut lowest: Vec<usize> = Vec::new();
        for v in required(plan) {
            of[v] = lowest.iter().position(|&w| label[w] == label[v]).unwrap_or(lowest.len());
            if of[v] == lowest.len() {
                lowest.push(v);
            }
        }
        Components { count: lowest.len(), of }
    }
}

/// Tails and heads of required arcs, ascending.
fn required(plan: &Plan) -> Vec<usize> {
    let mut is_required = [false; MOST_VERTICES];
    for a in plan.arcs.iter().filter(|a| a.standing == REQUIRED) {
        is_required[usize::from(a.tail)] = true;
        is_required[usize::from(a.head)] = true;
    }
    (0..plan.n).filter(|&v| is_required[v]).collect()
}

/// All that the planner knows of a plan before it balances.
pub struct Network<'a> {
    pub plan: &'a Plan,
    pub d: &'a Distances,
    pub components: Components,
    /// The required vertices, ascending, and the place of each in that list.
    pub required: Vec<usize>,
    pub place: [usize; MOST_VERTICES],
    /// Pairs (tail, head).
    pub links: Vec<(usize, usize)>,
    /// Required arcs into a vertex minus those out of it.
    pub imbalance: [i64; MOST_VERTICES],
    /// R.
    pub required_cost: i64,
}

impl<'a> Network<'a> {
    pub fn new<S: Steps>(steps: &S, plan: &'a Plan, d: &'a Distances, components: Components) -> Network<'a> {
        let required = required(plan);
        let mut place = [0; MOST_VERTICES];
        for (i, &v) in required.iter().enumerate() {
            place[v] = i;
        }
        let mut imbalance = [0; MOST_VERTICES];
        let mut required_cost = 0;
        for a in plan.arcs.iter().filter(|a| a.standing == REQUIRED) {
            imbalance[usize::from(a.head)] += 1;
            imbalance[usize::from(a.tail)] -= 1;
            required_cost += i64::from(steps.checking(a));
        }
        let links = thin(steps, d, &required);
        Network { plan, d, components, required, place, links, imbalance, required_cost }
    }

    /// Whether some required vertex has no path to another.
    pub fn is_cut_off(&self) -> bool {
        self.required.iter().any(|&i| self.required.iter().any(|&j| self.d[i][j] == NO_PATH))
    }

    /// d between required vertices, by their places: from i to j at \[j\]\[i\].
    pub fn lengths(&self) -> Lengths {
        let mut lengths = [[0; MOST_VERTICES]; MOST_VERTICES];
        for (row, &j) in lengths.iter_mut().zip(&self.required) {
            for (entry, &i) in row.iter_mut().zip(&self.required) {
                *entry = self.d[i][j] as i64;
            }
        }
        lengths
    }

    fn reduced(&self, u: &[i64; MOST_VERTICES], i: usize, j: usize) -> i64 {
        self.d[i][j] as i64 - u[i] + u[j]
    }

    /// For each component the links that enter it from another, in order. Component 0 has none.
    pub fn candidates<S: Steps>(&self, steps: &S) -> Vec<Vec<Candidate>> {
        let mut candidates = vec![Vec::new(); self.components.count];
        for &(tail, head) in &self.links {
            let (parent, child) = (self.components.of[tail], self.components.of[head]);
            if child != 0 && parent != child {
                let (from, to) = steps.unit(tail, head);
                let (from, to, length) = (self.place[from], self.place[to], self.d[tail][head] as i64);
                candidates[child].push(Candidate { tail, head, from, to, parent, length });
            }
        }
        for links in &mut candidates {
            links.sort_by_key(|c| steps.link_order(c.tail, c.head));
        }
        candidates
    }

    /// The least reduced cost between two components, over all pairs of required vertices: a pair that is no link is a chain of links of
    /// the same sum, and one of them leaves each set of components that the pair leaves.
    pub fn cheapest_entries(&self, u: &[i64; MOST_VERTICES]) -> Entries {
        let mut entries = [[i64::MAX; MOST_PARTS]; MOST_PARTS];
        for &i in &self.required {
            for &j in &self.required {
                let entry = &mut entries[self.components.of[i]][self.components.of[j]];
                *entry = (*entry).min(self.reduced(u, i, j));
            }
        }
        entries
    }
}

/// The pairs of required vertices that are held once each had its turn, ascending: one is dropped if a third vertex lies between, by pairs that are still held.
fn thin<S: Steps>(steps: &S, d: &Distances, required: &[usize]) -> Vec<(usize, usize)> {
    let mut held = [[true; MOST_VERTICES]; MOST_VERTICES];
    let mut links = Vec::new();
    for &i in required {
        'pair: for &j in required {
            if i == j {
                continue;
            }
            for &k in required {
                let serve = k != i && k != j && steps.serves(held[i][k]) && steps.serves(held[k][j]);
                if serve && steps.is_via(d, i, k, j) {
                    held[i][j] = false;
                    continue 'pair;
                }
            }
            links.push((i, j));
        }
    }
    links
}
