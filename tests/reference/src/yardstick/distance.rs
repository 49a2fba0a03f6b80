//! Distances, row by row.

use crate::plan::{Arc, Plan, MOST_VERTICES};

/// d from one vertex to each, and d(i,j) by row i and column j.
pub type Row = [u64; MOST_VERTICES];
pub type Distances = [Row; MOST_VERTICES];

/// Stands for no path.
pub const NO_PATH: u64 = 4_294_967_295;

/// Tail, head and length of the arcs that have one.
pub fn measured_arcs(plan: &Plan, length: impl Fn(&Arc) -> Option<u64>) -> Vec<(usize, usize, u64)> {
    plan.arcs.iter().filter_map(|a| Some((a.tail.into(), a.head.into(), length(a)?))).collect()
}

/// The row of a vertex: rounds of relaxation over the arcs, until nothing changes.
pub fn row(arcs: &[(usize, usize, u64)], source: usize) -> Row {
    let mut row = [NO_PATH; MOST_VERTICES];
    row[source] = 0;
    let mut changed = true;
    while changed {
        changed = false;
        for &(tail, head, cost) in arcs {
            if row[tail] + cost < row[head] {
                row[head] = row[tail] + cost;
                changed = true;
            }
        }
    }
    row
}

/// The cost of a lightest path, by its weight: 64 for each unit of cost, and 1 for each arc, of which there are at most 63.
pub fn cost_of(weight: u64) -> u64 {
    if weight == NO_PATH {
        NO_PATH
    } else {
        weight / 64
    }
}

/// d, by the least weights.
pub fn costs(weights: &Distances) -> Box<Distances> {
    Box::new(weights.map(|row| row.map(cost_of)))
}

/// A row for each vertex.
pub fn distances(plan: &Plan, length: impl Fn(&Arc) -> Option<u64>) -> Box<Distances> {
    let arcs = measured_arcs(plan, length);
    let mut d = Box::new([[NO_PATH; MOST_VERTICES]; MOST_VERTICES]);
    for (source, entry) in d.iter_mut().enumerate() {
        *entry = row(&arcs, source);
    }
    d
}
