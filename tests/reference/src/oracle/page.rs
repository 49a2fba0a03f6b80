//! Distances for a page of pairs of vertices.

use super::{parse, read_refusal, Graph, INFINITE};
use crate::plan::Plan;
use crate::planner::Refusal;

/// "17 stray pair: more than 256 pairs, or a vertex of n or more; after 7 and 13, before 8, which means a distance list shorter than the
/// pairs; 9 to 12 don't apply." 0 for none.
pub fn page_refusal(bytes: &[u8], pairs: &[u16], room: usize) -> Refusal {
    match read_refusal(bytes, usize::MAX) {
        0 => {
            let n = parse(bytes).n;
            let is_vertex = |v: u16| usize::from(v) < n;
            let is_good = pairs.len() <= 256 && pairs.iter().all(|pair| is_vertex(pair / 256) && is_vertex(pair % 256));
            match (is_good, pairs.len() <= room) {
                (false, _) => 17,
                (true, false) => 8,
                (true, true) => 0,
            }
        }
        number => number,
    }
}

/// The entries, and the number of distinct first vertices.
pub fn page(plan: &Plan, pairs: &[u16]) -> (Vec<u32>, usize) {
    let graph = Graph::new(plan);
    let entry = |pair: &u16| match graph.d[usize::from(pair / 256)][usize::from(pair % 256)] {
        INFINITE.. => u32::MAX,
        distance => distance as u32,
    };
    let mut firsts: Vec<u16> = pairs.iter().map(|pair| pair / 256).collect();
    firsts.sort();
    firsts.dedup();
    (pairs.iter().map(entry).collect(), firsts.len())
}
