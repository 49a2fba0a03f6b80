//! Windows, a departure, and the plan with the arcs closed that are shut.

use crate::plan::{Departure, Plan, CLOSED, MOST_WINDOWS, REQUIRED};
use crate::planner::{refusal, Refusal};

/// Whether a window shuts its arc.
fn shuts(window: &[u16], departure: Departure) -> bool {
    let [_, weekday, from, to] = [0, 1, 2, 3].map(|i| u32::from(window[i]));
    weekday == departure.weekday && from <= departure.minute && departure.minute < to
}

/// 19, then 20.
pub fn check_windows(plan: &Plan, windows: &[u16], departure: Departure) -> Result<(), Refusal> {
    let is_bad = |w: &[u16]| usize::from(w[0]) >= plan.arcs.len() || w[1] > 6 || w[2] >= w[3] || w[3] > 1_440;
    let beyond = departure.weekday > 6 || departure.minute > 1_439 || windows.len() > 4 * MOST_WINDOWS;
    if beyond || !windows.len().is_multiple_of(4) || windows.chunks_exact(4).any(is_bad) {
        return Err(refusal::BAD_WINDOW);
    }
    let mut shut = windows.chunks_exact(4).filter(|w| shuts(w, departure));
    if shut.any(|w| plan.arcs[usize::from(w[0])].standing == REQUIRED) {
        return Err(refusal::MUST_SHUT);
    }
    Ok(())
}

/// The plan at a departure, by windows that are good.
pub fn plan_at(mut plan: Plan, windows: &[u16], departure: Departure) -> Plan {
    for window in windows.chunks_exact(4).filter(|w| shuts(w, departure)) {
        plan.arcs[usize::from(window[0])].standing = CLOSED;
    }
    plan
}
