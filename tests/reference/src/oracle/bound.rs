//! A(u) and L(u).

use super::Graph;
use crate::plan::MOST_VERTICES;

/// A(u): the least sum of reduced costs over all trees, by the sets of parts that have been reached from part 0. A tree is such a growth, part
/// by part, and each growth is a tree.
pub fn cheapest_tree(graph: &Graph, u: &[i64; MOST_VERTICES]) -> i64 {
    let all = (1usize << graph.parts) - 1;
    let mut least: Vec<Option<i64>> = vec![None; all + 1];
    least[1] = Some(0);
    for set in 1..=all {
        let Some(so_far) = least[set] else { continue };
        for &(t, h) in &graph.links {
            let (p, q) = (graph.part[t].expect("required"), graph.part[h].expect("required"));
            if set >> p & 1 == 1 && set >> q & 1 == 0 {
                let sum = so_far + graph.reduced(u, t, h);
                let entry = &mut least[set | 1 << q];
                *entry = Some(entry.map_or(sum, |x| x.min(sum)));
            }
        }
    }
    least[all].expect("some tree")
}

/// L(u) = R + (sum of u(i) × D(i)) + A(u).
pub fn lagrangian_bound(graph: &Graph, u: &[i64; MOST_VERTICES]) -> i64 {
    graph.required_cost as i64 + graph.price(u) + cheapest_tree(graph, u)
}
