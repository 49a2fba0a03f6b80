//! u by ascent. What the proved planner brings back by sweeps over pairs is read here off a table of residual distances.

use super::balance::{Balance, Lengths};
use crate::plan::{MOST_PARTS, MOST_VERTICES};

/// Steps, what the length of the first is of the largest distance to the first vertex, and what of it a step loses.
const STEPS: usize = 20;
const FIRST: i64 = 24;
const LOSS: i64 = 9;

type Heights = [i64; MOST_VERTICES];

/// A cheapest tree: its sum of reduced costs, and its links by tail and head.
struct Tree {
    value: i64,
    links: Vec<(usize, usize)>,
}

/// By sets of components: a set grows from component 0 by one component at a time. The first of equal ones is kept everywhere.
fn cheapest_tree(lengths: &Lengths, component: &[usize], parts: usize, u: &Heights) -> Tree {
    let n = component.len();
    let mut cheapest = [[(i64::MAX, (0, 0)); MOST_PARTS]; MOST_PARTS];
    for i in 0..n {
        for j in 0..n {
            let cost = lengths[j][i] - u[i] + u[j];
            let entry = &mut cheapest[component[i]][component[j]];
            if cost < entry.0 {
                *entry = (cost, (i, j));
            }
        }
    }
    let has = |set: usize, p: usize| p == 0 || set >> (p - 1) & 1 == 1;
    let mut sets = vec![(i64::MAX, 0, 0); 1 << (parts - 1)];
    sets[0].0 = 0;
    for set in 0..sets.len() {
        for q in (1..parts).filter(|&q| !has(set, q)) {
            let from = (0..parts).filter(|&p| has(set, p)).min_by_key(|&p| cheapest[p][q].0).expect("component 0");
            let cost = sets[set].0 + cheapest[from][q].0;
            let larger = &mut sets[set | 1 << (q - 1)];
            if cost < larger.0 {
                *larger = (cost, from, q);
            }
        }
    }
    let mut set = sets.len() - 1;
    let value = sets[set].0;
    let mut links = Vec::new();
    while set != 0 {
        let (_, from, q) = sets[set];
        links.push(cheapest[from][q].1);
        set -= 1 << (q - 1);
    }
    Tree { value, links }
}

/// The multipliers of the required vertices, by their places: of those that the steps meet, the first with the largest bound.
pub fn ascend(balance: &Balance, lengths: &Lengths, component: &[usize], parts: usize) -> Vec<i64> {
    let n = balance.vertices();
    let residual = balance.residual_distances();
    let greatest = balance.greatest_potentials(0);
    let mut x: Heights = std::array::from_fn(|v| greatest.get(v).copied().unwrap_or(0));
    let mut before = x;
    let mut best = (i64::MIN, x);
    let mut stride = lengths[0][..n].iter().max().copied().unwrap_or(0) / FIRST + 1;
    for step in 0..STEPS {
        let tree = cheapest_tree(lengths, component, parts, &x);
        if tree.value > best.0 {
            best = (tree.value, x);
        }
        let mut y = x;
        for &(tail, head) in &tree.links {
            y[head] += stride;
            y[tail] -= stride;
        }
        if y == x {
            break;
        }
        for v in 0..n {
            y[v] += (x[v] - before[v]).div_euclid(2);
        }
        before = x;
        for v in 0..n {
            x[v] = if step % 2 == 0 {
                (0..n).map(|w| y[w] + residual[v][w]).min().expect("a vertex")
            } else {
                (0..n).map(|w| y[w] - residual[w][v]).max().expect("a vertex")
            };
        }
        stride -= stride / LOSS;
    }
    (0..n).map(|v| best.1[v] - best.1[0]).collect()
}
