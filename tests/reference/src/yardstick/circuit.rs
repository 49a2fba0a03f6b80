//! One closed walk over the required arcs, a tree's links and the units that balance them.

use super::{Balance, Distances, Network, Steps};
use crate::plan::{Arc, Plan, MOST_VERTICES, REQUIRED};

/// A stretch of the drive: a required arc by its number, or a path of fewest arcs.
struct Leg {
    from: usize,
    to: usize,
    arc: Option<u16>,
}

/// The drive of a tree, as arc numbers; its first arc is the lowest required one.
pub fn lay<S: Steps>(
    steps: &S,
    network: &Network,
    weights: &Distances,
    mut balance: Balance,
    tree: &[(usize, usize)],
) -> Vec<u16> {
    for &(tail, head) in tree {
        let (from, to) = steps.unit(tail, head);
        balance.add(network.place[from], network.place[to]);
    }
    let arcs = network.plan.arcs.iter().enumerate().filter(|(_, a)| a.standing == REQUIRED);
    let mut legs: Vec<Leg> =
        arcs.map(|(k, a)| Leg { from: a.tail.into(), to: a.head.into(), arc: Some(k as u16) }).collect();
    legs.extend(tree.iter().map(|&(from, to)| Leg { from, to, arc: None }));
    let units = balance.units().into_iter().map(|(i, j)| (network.required[i], network.required[j]));
    legs.extend(units.map(|(from, to)| Leg { from, to, arc: None }));

    let mut drive = Vec::new();
    for &k in &circuit(&legs) {
        match legs[k].arc {
            Some(number) => drive.push(number),
            None => drive.extend(steps.path(network.plan, weights, legs[k].from, legs[k].to)),
        }
    }
    drive
}

/// The order of the legs that begins with leg 0: at each vertex any leg that is left, and last the one that leads towards the start.
fn circuit(legs: &[Leg]) -> Vec<usize> {
    let start = legs[0].from;
    let mut last_exit = [None; MOST_VERTICES];
    let mut reaches_start = [false; MOST_VERTICES];
    reaches_start[start] = true;
    let mut grows = true;
    while grows {
        grows = false;
        for (k, leg) in legs.iter().enumerate() {
            if reaches_start[leg.to] && !reaches_start[leg.from] {
                reaches_start[leg.from] = true;
                last_exit[leg.from] = Some(k);
                grows = true;
            }
        }
    }

    // Each vertex's legs as a stack: the last exit at the bottom, the lowest leg on top.
    let mut exits: Vec<Vec<usize>> = last_exit.iter().map(|k| k.iter().copied().collect()).collect();
    for (k, leg) in legs.iter().enumerate().rev() {
        if last_exit[leg.from] != Some(k) {
            exits[leg.from].push(k);
        }
    }
    let mut order = Vec::with_capacity(legs.len());
    let mut v = start;
    while let Some(k) = exits[v].pop() {
        order.push(k);
        v = legs[k].to;
    }
    order
}

/// A shortest path as arc numbers, at each vertex by the lowest arc that lies on one.
pub fn shortest_path(
    plan: &Plan,
    d: &Distances,
    length: impl Fn(&Arc) -> Option<u64>,
    from: usize,
    to: usize,
) -> Vec<u16> {
    let mut path = Vec::new();
    let mut v = from;
    // By lengths of 0 a wrong planner would go in a circle.
    while v != to && path.len() < MOST_VERTICES {
        let is_next =
            |a: &Arc| usize::from(a.tail) == v && length(a).is_some_and(|x| x + d[usize::from(a.head)][to] == d[v][to]);
        let k = plan.arcs.iter().position(is_next).expect("a finite distance is a path's");
        path.push(k as u16);
        v = plan.arcs[k].head.into();
    }
    path
}
