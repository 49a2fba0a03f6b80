//! The paths of fewest arcs, and whether a drive follows them.

use super::Graph;
use crate::plan::{Plan, CLOSED, REQUIRED};

/// From a vertex to each that it has a path to: among the cheapest paths those of the fewest arcs, and among these the lowest list of arc numbers. Layer
/// by layer, away from the vertex: what leads to the last arc of such a path is such a path itself.
pub fn fewest_paths(plan: &Plan, d: &[Vec<u64>], from: usize) -> Vec<Option<Vec<u16>>> {
    let mut paths: Vec<Option<Vec<u16>>> = vec![None; plan.n];
    paths[from] = Some(Vec::new());
    loop {
        let mut layer: Vec<(usize, Vec<u16>)> = Vec::new();
        for (k, a) in plan.arcs.iter().enumerate().filter(|(_, a)| a.standing != CLOSED) {
            let (tail, head) = (usize::from(a.tail), usize::from(a.head));
            let is_cheapest = d[from][tail] + u64::from(a.cost) == d[from][head];
            if let (Some(path), None, true) = (&paths[tail], &paths[head], is_cheapest) {
                layer.push((head, path.iter().copied().chain([k as u16]).collect()));
            }
        }
        if layer.is_empty() {
            return paths;
        }
        layer.sort();
        for (head, path) in layer {
            paths[head].get_or_insert(path);
        }
    }
}

/// Whether a drive is made of legs: each must arc once by itself, and paths of fewest arcs between required vertices. What leads from one required vertex
/// of such a path to the next is such a path too; so each stretch from a required vertex to the next has to be one, or a must arc, and a must
/// arc that is passed again has to be a path as well.
pub fn follows_fewest_paths(graph: &Graph, drive: &[u16]) -> Result<(), String> {
    let plan = &graph.plan;
    let paths: Vec<_> =
        (0..plan.n).map(|v| graph.required.contains(&v).then(|| fewest_paths(plan, &graph.d, v))).collect();
    let is_path = |stretch: &[u16]| {
        let first = plan.arcs[usize::from(stretch[0])].tail;
        let last = plan.arcs[usize::from(stretch[stretch.len() - 1])].head;
        paths[usize::from(first)].as_ref().is_some_and(|p| p[usize::from(last)].as_deref() == Some(stretch))
    };
    let mut own = vec![false; plan.arcs.len()];
    let mut stretch = Vec::new();
    for &k in drive {
        let arc = plan.arcs.get(usize::from(k)).ok_or(format!("no arc has number {k}"))?;
        stretch.push(k);
        if !graph.required.contains(&arc.head.into()) {
            continue;
        }
        let first_pass =
            stretch.len() == 1 && arc.standing == REQUIRED && !std::mem::replace(&mut own[usize::from(k)], true);
        if !first_pass && !is_path(&stretch) {
            return Err(format!("{stretch:?} is no path of fewest arcs"));
        }
        stretch.clear();
    }
    match graph.required_arcs.iter().find(|&&k| !own[k]) {
        _ if !stretch.is_empty() => Err(format!("{stretch:?} does not end at a required vertex")),
        Some(k) => Err(format!("must arc {k} is no leg of its own")),
        None => Ok(()),
    }
}
