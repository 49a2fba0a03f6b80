//! The plan at a departure: for each arc the minutes of a week in which it is shut.

use super::{lent_refusal, parse, plan_refusal, read_refusal};
use crate::plan::{Departure, Plan};
use crate::planner::Refusal;
use std::collections::BTreeSet;

/// The arcs shut at departure, by windows that are good: "a window of that weekday shuts its arc when from ≤ t < to".
fn shut_arcs(windows: &[u16], departure: Departure) -> BTreeSet<u16> {
    let week: BTreeSet<(u16, u16, u16)> =
        windows.chunks_exact(4).flat_map(|w| (w[2]..w[3]).map(|minute| (w[1], minute, w[0]))).collect();
    let at = |&(weekday, minute, _): &(u16, u16, u16)| {
        u32::from(weekday) == departure.weekday && u32::from(minute) == departure.minute
    };
    week.into_iter().filter(at).map(|(_, _, arc)| arc).collect()
}

/// "The arc then counts as closed for that plan call."
pub fn plan_at(plan: &Plan, windows: &[u16], departure: Departure) -> Plan {
    let mut plan = plan.clone();
    for arc in shut_arcs(windows, departure) {
        plan.arcs[usize::from(arc)].standing = 2;
    }
    plan
}

/// Whether windows and departure keep their limits, for m arcs.
fn are_good(m: usize, windows: &[u16], departure: Departure) -> bool {
    let is_good = |w: &[u16]| usize::from(w[0]) < m && (0..=6).contains(&w[1]) && (w[2] + 1..=1_440).contains(&w[3]);
    (0..=6).contains(&departure.weekday)
        && (0..=1_439).contains(&departure.minute)
        && windows.len() <= 4 * 128
        && windows.chunks(4).all(|w| w.len() == 4 && w[2] < u16::MAX && is_good(w))
}

/// The refusal of the plan call at a departure, 0 for none: "19 then 20, after 9, before 10".
pub fn departure_refusal(bytes: &[u8], budget: u64, places: usize, windows: &[u16], departure: Departure) -> Refusal {
    for number in [read_refusal(bytes, usize::MAX), lent_refusal(budget, places)] {
        if number != 0 {
            return number;
        }
    }
    let plan = parse(bytes);
    if !are_good(plan.arcs.len(), windows, departure) {
        return 19;
    }
    if shut_arcs(windows, departure).iter().any(|&arc| plan.arcs[usize::from(arc)].standing == 1) {
        return 20;
    }
    plan_refusal(&plan_at(&plan, windows, departure))
}
