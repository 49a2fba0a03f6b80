//! d, parts, links and D, from their definitions; and the judge of a drive.

use crate::plan::{Plan, CLOSED, REQUIRED};
use std::collections::BTreeSet;

/// No path. A sum of two is still a number, and no sum of costs comes near.
pub const INFINITE: u64 = 1 << 40;

pub struct Graph {
    pub plan: Plan,
    /// Numbers of the required arcs.
    pub required_arcs: Vec<usize>,
    /// Required vertices, ascending.
    pub required: Vec<usize>,
    pub d: Vec<Vec<u64>>,
    /// The part of each required vertex.
    pub part: Vec<Option<usize>>,
    pub parts: usize,
    /// (tail, head), ascending.
    pub links: Vec<(usize, usize)>,
    /// D.
    pub imbalance: Vec<i64>,
    /// R.
    pub required_cost: u64,
}

impl Graph {
    pub fn new(plan: &Plan) -> Graph {
        let n = plan.n;
        let is_required = |k: &usize| plan.arcs[*k].standing == REQUIRED;
        let required_arcs: Vec<usize> = (0..plan.arcs.len()).filter(is_required).collect();
        let ends: Vec<(usize, usize)> =
            required_arcs.iter().map(|&k| (plan.arcs[k].tail.into(), plan.arcs[k].head.into())).collect();
        let required: Vec<usize> = (0..n).filter(|&v| ends.iter().any(|&(t, h)| t == v || h == v)).collect();

        let d = distances(plan);
        let (part, parts) = parts(n, &required, &ends);
        let links = thinned(&d, &required);
        let count = |v: usize, f: fn(&(usize, usize)) -> usize| ends.iter().filter(|e| f(e) == v).count() as i64;
        let imbalance = (0..n).map(|v| count(v, |e| e.1) - count(v, |e| e.0)).collect();
        let required_cost = required_arcs.iter().map(|&k| u64::from(plan.arcs[k].checking)).sum();
        Graph { plan: plan.clone(), required_arcs, required, d, part, parts, links, imbalance, required_cost }
    }

    /// The links whose head is in a part and whose tail is in another, ascending by (tail, head).
    pub fn entering(&self, q: usize) -> Vec<(usize, usize)> {
        let enters = |&&(t, h): &&(usize, usize)| self.part[h] == Some(q) && self.part[t] != Some(q);
        self.links.iter().filter(enters).copied().collect()
    }

    /// A pair's reduced cost.
    pub fn reduced(&self, u: &[i64], i: usize, j: usize) -> i64 {
        self.d[i][j] as i64 - u[i] + u[j]
    }

    /// The sum of u(i) × D(i).
    pub fn price(&self, u: &[i64]) -> i64 {
        self.required.iter().map(|&i| u[i] * self.imbalance[i]).sum()
    }
}

/// All pairs, ascending.
pub fn pairs(vertices: &[usize]) -> impl Iterator<Item = (usize, usize)> + '_ {
    vertices.iter().flat_map(move |&i| vertices.iter().map(move |&j| (i, j)))
}

/// "Thinning now goes through the pairs by (tail, head), one at a time. A pair is dropped exactly if, for some k, both pairs that add up to it are still held."
fn thinned(d: &[Vec<u64>], required: &[usize]) -> Vec<(usize, usize)> {
    let turns: Vec<(usize, usize)> = pairs(required).filter(|(i, j)| i != j).collect();
    let mut held: BTreeSet<(usize, usize)> = turns.iter().copied().collect();
    for (i, j) in turns {
        let adds_up = |k: usize| d[i][j] == d[i][k] + d[k][j];
        if required.iter().any(|&k| adds_up(k) && held.contains(&(i, k)) && held.contains(&(k, j))) {
            held.remove(&(i, j));
        }
    }
    held.into_iter().collect()
}

/// Floyd and Warshall.
fn distances(plan: &Plan) -> Vec<Vec<u64>> {
    let n = plan.n;
    let mut d = vec![vec![INFINITE; n]; n];
    for a in plan.arcs.iter().filter(|a| a.standing != CLOSED) {
        let entry = &mut d[usize::from(a.tail)][usize::from(a.head)];
        *entry = (*entry).min(a.cost.into());
    }
    for (v, row) in d.iter_mut().enumerate() {
        row[v] = 0;
    }
    for k in 0..n {
        let onward = d[k].clone();
        for row in &mut d {
            let to = row[k];
            for (entry, rest) in row.iter_mut().zip(&onward) {
                *entry = (*entry).min(to + rest);
            }
        }
    }
    d
}

/// Parts by the transitive closure of "joined by a required arc"; a part's number is how many lower vertices are the lowest of a part.
fn parts(n: usize, required: &[usize], ends: &[(usize, usize)]) -> (Vec<Option<usize>>, usize) {
    let mut joined = vec![vec![false; n]; n];
    for &(t, h) in ends {
        joined[t][h] = true;
        joined[h][t] = true;
        joined[t][t] = true;
        joined[h][h] = true;
    }
    for k in 0..n {
        let onward = joined[k].clone();
        for row in joined.iter_mut().filter(|row| row[k]) {
            row.iter_mut().zip(&onward).for_each(|(entry, rest)| *entry |= rest);
        }
    }
    let lowest_of = |v: usize| (0..n).find(|&w| joined[w][v]);
    let lowest: Vec<usize> = required.iter().copied().filter(|&v| lowest_of(v) == Some(v)).collect();
    let part = |v| lowest_of(v).map(|low| lowest.iter().filter(|&&w| w < low).count());
    ((0..n).map(part).collect(), lowest.len())
}

/// "A drive: a list of arc numbers, none closed; each arc's head is the next one's tail, the last one's head the first one's tail; every must
/// arc occurs." Its cost, or what is wrong with it: every pass at its plain cost, and then for each must arc one pass less at that cost and one
/// more at its checking cost. Which pass it is does not matter.
pub fn judge(plan: &Plan, drive: &[u16]) -> Result<u64, String> {
    let mut plain = 0;
    for (place, &k) in drive.iter().enumerate() {
        let arc = plan.arcs.get(usize::from(k)).ok_or(format!("place {place}: no arc has number {k}"))?;
        if arc.standing == CLOSED {
            return Err(format!("place {place}: arc {k} is closed"));
        }
        let next = drive[(place + 1) % drive.len()];
        if plan.arcs.get(usize::from(next)).is_some_and(|a| a.tail != arc.head) {
            return Err(format!("place {place}: arc {k} does not lead to arc {next}"));
        }
        plain += u64::from(arc.cost);
    }
    let required = || (0..plan.arcs.len()).filter(|&k| plan.arcs[k].standing == REQUIRED);
    match required().find(|&k| !drive.contains(&(k as u16))) {
        Some(k) => Err(format!("required arc {k} does not occur")),
        None => {
            Ok(required().map(|k| &plan.arcs[k]).fold(plain, |sum, a| sum - u64::from(a.cost) + u64::from(a.checking)))
        }
    }
}
