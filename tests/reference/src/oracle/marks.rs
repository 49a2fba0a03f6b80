//! A car's plan: by the set of the arcs that it marks.

use super::{first, lent_refusal, parse, plan_refusal, read_refusal};
use crate::plan::{Arc, Plan};
use crate::planner::Refusal;
use std::collections::BTreeSet;

fn marked_arcs(marks: &[u8]) -> BTreeSet<usize> {
    (0..marks.len()).filter(|&k| marks[k] != 0).collect()
}

/// "Each car has its own list of must marks, which replaces the plan's must marks (a plain arc if unmarked)."
pub fn car_plan(plan: &Plan, marks: &[u8]) -> Plan {
    let marked = marked_arcs(marks);
    let of_car = |(k, a): (usize, &Arc)| match (a.standing, marked.contains(&k)) {
        (2, _) => *a,
        (_, false) => Arc { standing: 0, checking: 0, ..*a },
        (1, true) => *a,
        // "A marked arc that has no checking cost uses its plain cost, even 0."
        (_, true) => Arc { standing: 1, checking: a.cost, ..*a },
    };
    Plan { arcs: plan.arcs.iter().enumerate().map(of_car).collect(), ..plan.clone() }
}

/// "List length isn't m, a mark isn't 0 or 1, or a closed arc is marked."
fn are_bad(plan: &Plan, marks: &[u8]) -> bool {
    let closed: BTreeSet<usize> = (0..plan.arcs.len()).filter(|&k| plan.arcs[k].standing == 2).collect();
    marks.len() != plan.arcs.len()
        || marks.iter().max().is_some_and(|&mark| mark > 1)
        || !marked_arcs(marks).is_disjoint(&closed)
}

/// A car's refusal, be it the file's or its own, 0 for none: 18 "after 9, before 10".
pub fn car_refusal(bytes: &[u8], marks: &[u8], budget: u64, places: usize) -> Refusal {
    for number in [read_refusal(bytes, usize::MAX), lent_refusal(budget, places)] {
        if number != 0 {
            return number;
        }
    }
    let plan = parse(bytes);
    match first(&[(are_bad(&plan, marks), 18)]) {
        0 => plan_refusal(&car_plan(&plan, marks)),
        number => number,
    }
}

/// The plan's own must arcs, as marks.
pub fn own_marks(plan: &Plan) -> Vec<u8> {
    plan.arcs.iter().map(|a| u8::from(a.standing == 1)).collect()
}
