//! The cheapest drive, from the first definition alone.

use crate::plan::{Plan, CLOSED, REQUIRED};
use std::cmp::Reverse;
use std::collections::BinaryHeap;

/// The most required arcs whose sets are searched.
pub const MOST_REQUIRED_ARCS: usize = 12;

/// The cost of the cheapest drive, if there is one: the least cost from (v, none passed) to (v, all passed), where v is the tail of a required arc,
/// which every drive visits, so that it can be read from there on. A required arc that is not yet among those passed is checked.
pub fn optimum(plan: &Plan) -> Option<u64> {
    let required: Vec<usize> = (0..plan.arcs.len()).filter(|&k| plan.arcs[k].standing == REQUIRED).collect();
    assert!((1..=MOST_REQUIRED_ARCS).contains(&required.len()), "too many sets");
    let all = (1usize << required.len()) - 1;
    let start = usize::from(plan.arcs[required[0]].tail);
    let mut settled = vec![false; plan.n << required.len()];
    let mut queue = BinaryHeap::from([Reverse((0u64, start, 0usize))]);
    while let Some(Reverse((cost, v, passed))) = queue.pop() {
        if (v, passed) == (start, all) {
            return Some(cost);
        }
        if std::mem::replace(&mut settled[v << required.len() | passed], true) {
            continue;
        }
        for (k, a) in plan.arcs.iter().enumerate().filter(|(_, a)| usize::from(a.tail) == v && a.standing != CLOSED) {
            let mark = required.iter().position(|&r| r == k).map_or(0, |bit| 1 << bit);
            let pass = if passed | mark != passed { a.checking } else { a.cost };
            queue.push(Reverse((cost + u64::from(pass), a.head.into(), passed | mark)));
        }
    }
    None
}
