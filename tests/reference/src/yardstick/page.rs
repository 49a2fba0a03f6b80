//! Distances for a page of pairs of vertices.

use super::{measured_arcs, read, row, Row, Yardstick};
use crate::plan::{CLOSED, MOST_PAIRS};
use crate::planner::{refusal, DistanceCall, Refusal};

/// The two vertices of a pair.
pub fn vertices(pair: u16) -> [usize; 2] {
    pair.to_be_bytes().map(usize::from)
}

impl DistanceCall for Yardstick {
    fn distances(&self, plan: &[u8], pairs: &[u16], distances: &mut [u32]) -> Result<usize, Refusal> {
        let plan = read(plan)?;
        let is_stray = |&pair: &u16| vertices(pair).iter().any(|&v| v >= plan.n);
        if pairs.len() > MOST_PAIRS || pairs.iter().any(is_stray) {
            return Err(refusal::STRAY_PAIR);
        }
        let room = distances.get_mut(..pairs.len()).ok_or(refusal::SHORT_SHEET)?;
        let arcs = measured_arcs(&plan, |a| (a.standing != CLOSED).then_some(a.cost.into()));
        let mut rows: Vec<Option<Row>> = vec![None; plan.n];
        let mut searches = 0;
        for (entry, &pair) in room.iter_mut().zip(pairs) {
            let [from, to] = vertices(pair);
            let row = rows[from].get_or_insert_with(|| {
                searches += 1;
                row(&arcs, from)
            });
            *entry = row[to] as u32;
        }
        Ok(searches)
    }
}
