//! Least balancing as an assignment, and the greatest multipliers.

use super::Graph;
use crate::plan::MOST_VERTICES;

pub struct Assignment {
    pub cost: u64,
    /// Units (from, to).
    pub units: Vec<(usize, usize)>,
}

/// A least-cost balancing of D with the links of a tree counted as arcs: each unit of surplus is assigned to a unit of deficit. (No amount need
/// pass through a third vertex, since d is at most the sum of the two ways.)
pub fn assignment(graph: &Graph, tree: &[(usize, usize)]) -> Assignment {
    let mut imbalance = graph.imbalance.clone();
    for &(tail, head) in tree {
        imbalance[head] += 1;
        imbalance[tail] -= 1;
    }
    let units = |sign: i64| -> Vec<usize> {
        let times = |v: usize| (sign * imbalance[v]).max(0) as usize;
        (0..graph.plan.n).flat_map(|v| std::iter::repeat_n(v, times(v))).collect()
    };
    let (surplus, deficit) = (units(1), units(-1));
    let cost = |row: usize, column: usize| graph.d[surplus[row]][deficit[column]] as i64;
    let matched = hungarian(surplus.len(), cost);
    let units: Vec<(usize, usize)> =
        matched.iter().enumerate().map(|(row, &column)| (surplus[row], deficit[column])).collect();
    Assignment { cost: units.iter().map(|&(i, j)| graph.d[i][j]).sum(), units }
}

/// The column of each row in a least-cost assignment of n rows to n columns: the Hungarian method with row and column prices (Kuhn, Munkres).
/// Rows and columns are counted from 1; column 0 stands for the row that is being placed.
fn hungarian(n: usize, cost: impl Fn(usize, usize) -> i64) -> Vec<usize> {
    let mut row_price = vec![0; n + 1];
    let mut column_price = vec![0; n + 1];
    let mut row_of = vec![0; n + 1];
    for row in 1..=n {
        row_of[0] = row;
        let mut slack = vec![i64::MAX; n + 1];
        let mut way = vec![0; n + 1];
        let mut used = vec![false; n + 1];
        let mut at = 0;
        while row_of[at] != 0 {
            used[at] = true;
            let i = row_of[at];
            let (mut least, mut next) = (i64::MAX, 0);
            for j in (1..=n).filter(|&j| !used[j]) {
                let reduced = cost(i - 1, j - 1) - row_price[i] - column_price[j];
                if reduced < slack[j] {
                    slack[j] = reduced;
                    way[j] = at;
                }
                if slack[j] < least {
                    least = slack[j];
                    next = j;
                }
            }
            for j in 0..=n {
                if used[j] {
                    row_price[row_of[j]] += least;
                    column_price[j] -= least;
                } else if slack[j] < i64::MAX {
                    slack[j] -= least;
                }
            }
            at = next;
        }
        while at != 0 {
            row_of[at] = row_of[way[at]];
            at = way[at];
        }
    }
    let mut column_of = vec![0; n];
    for column in 1..=n {
        column_of[row_of[column] - 1] = column - 1;
    }
    column_of
}

/// The greatest u that meets both conditions and is 0 at the lowest required vertex. Being lawful means u(i) ≤ u(j) + d(i,j) for all pairs, with
/// equality where a least balancing has a unit; so u(v) is at most the length of any way from v to the root over the pairs and, at minus
/// their lengths, over the units turned round. The shortest ways are lawful. Bellman and Ford find them.
pub fn greatest_multipliers(graph: &Graph, least: &Assignment) -> [i64; MOST_VERTICES] {
    let mut arcs: Vec<(usize, usize, i64)> = Vec::new();
    arcs.extend(super::graph::pairs(&graph.required).map(|(i, j)| (i, j, graph.d[i][j] as i64)));
    arcs.extend(least.units.iter().map(|&(i, j)| (j, i, -(graph.d[i][j] as i64))));
    let root = graph.required[0];
    let mut u = [i64::MAX / 2; MOST_VERTICES];
    u[root] = 0;
    for _ in 0..graph.required.len() {
        for &(i, j, length) in &arcs {
            u[i] = u[i].min(u[j] + length);
        }
    }
    assert_eq!(u[root], 0, "a least balancing has no circle of negative length");
    for (v, u) in u.iter_mut().enumerate() {
        if !graph.required.contains(&v) {
            *u = 0;
        }
    }
    u
}
