//! Least-cost balancing, one unit at a time. Vertices are the places of the required vertices.

use crate::plan::MOST_VERTICES;

/// d between the vertices, from i to j at \[j\]\[i\]: what leads into a vertex is a row.
pub type Lengths = [[i64; MOST_VERTICES]; MOST_VERTICES];

/// A number for each vertex.
pub type Potentials = [i64; MOST_VERTICES];

/// Amounts that balance the arcs added so far at least cost, and potentials that show it: the reduced cost d(i,j) − u(i) + u(j) is at least
/// 0 for every pair, and 0 where an amount goes.
#[derive(Clone)]
pub struct Balance<'a> {
    lengths: &'a Lengths,
    n: usize,
    /// `from[i][j]` is the amount from i to j: the residual arcs into i that take it back are a row.
    from: [[u16; MOST_VERTICES]; MOST_VERTICES],
    u: Potentials,
    pub cost: i64,
}

/// Distances to a vertex over the residual arcs, exact for settled vertices and at least `x[start]` for the others; and the vertex after each.
struct Search {
    x: [i64; MOST_VERTICES],
    after: [u8; MOST_VERTICES],
}

impl<'a> Balance<'a> {
    pub fn new(lengths: &'a Lengths, n: usize) -> Balance<'a> {
        let from = [[0; MOST_VERTICES]; MOST_VERTICES];
        Balance { lengths, n, from, u: [0; MOST_VERTICES], cost: 0 }
    }

    /// Takes other potentials, which have to show the same of the amounts.
    pub fn set_potentials(&mut self, u: &Potentials) {
        self.u = *u;
    }

    pub fn potentials(&self) -> &Potentials {
        &self.u
    }

    /// Dijkstra towards a vertex until the start is reached, which is taken first among the nearest.
    fn search(&self, start: usize, goal: usize) -> Search {
        let n = self.n;
        let mut x = [i64::MAX; MOST_VERTICES];
        let mut after = [0; MOST_VERTICES];
        let mut is_open = [true; MOST_VERTICES];
        x[goal] = 0;
        let mut w = goal;
        while w != start {
            is_open[w] = false;
            let (lengths, back, far) = (&self.lengths[w], &self.from[w], x[w]);
            let (mut next, mut nearest) = (start, i64::MAX);
            for v in 0..n {
                if is_open[v] {
                    let length = if back[v] > 0 { 0 } else { lengths[v] - self.u[v] + self.u[w] };
                    if far + length < x[v] {
                        x[v] = far + length;
                        after[v] = w as u8;
                    }
                    if x[v] < nearest {
                        (next, nearest) = (v, x[v]);
                    }
                }
            }
            w = if x[start] == nearest { start } else { next };
        }
        Search { x, after }
    }

    /// Sends one unit more. The potentials that come of it show the same of the amounts before.
    pub fn add(&mut self, start: usize, goal: usize) {
        if start == goal {
            return;
        }
        let Search { x, after } = self.search(start, goal);
        let far = x[start];
        self.cost += far + self.u[start] - self.u[goal];
        let mut v = start;
        while v != goal {
            let w = usize::from(after[v]);
            if self.from[w][v] > 0 {
                self.from[w][v] -= 1;
            } else {
                self.from[v][w] += 1;
            }
            v = w;
        }
        for v in 0..self.n {
            self.u[v] += x[v].min(far);
        }
    }

    /// The greatest potentials that are 0 at a root: the distance of each vertex to the root over the residual arcs, unreduced.
    pub fn greatest_potentials(&self, root: usize) -> Vec<i64> {
        let n = self.n;
        let mut x = [i64::MAX; MOST_VERTICES];
        let mut open: Vec<usize> = (0..n).collect();
        x[root] = 0;
        while let Some(next) = (0..open.len()).min_by_key(|&i| x[open[i]]) {
            let w = open.swap_remove(next);
            for &v in &open {
                let length = if self.from[w][v] > 0 { 0 } else { self.lengths[w][v] - self.u[v] + self.u[w] };
                x[v] = x[v].min(x[w] + length);
            }
        }
        (0..n).map(|v| x[v] + self.u[v] - self.u[root]).collect()
    }

    /// The greatest difference of two lawful multipliers, u(v) − u(w), for all v and w: the distance from v to w over the residual arcs, unreduced.
    pub fn residual_distances(&self) -> Lengths {
        let n = self.n;
        let mut x = [[0; MOST_VERTICES]; MOST_VERTICES];
        for v in 0..n {
            for w in 0..n {
                let is_back = self.from[w][v] > 0;
                x[v][w] = if is_back || v == w { 0 } else { self.lengths[w][v] - self.u[v] + self.u[w] };
            }
        }
        for k in 0..n {
            for v in 0..n {
                for w in 0..n {
                    x[v][w] = x[v][w].min(x[v][k] + x[k][w]);
                }
            }
        }
        for v in 0..n {
            for w in 0..n {
                x[v][w] += self.u[v] - self.u[w];
            }
        }
        x
    }

    /// The least potentials that are 0 at a root: minus the distance from it. Lawful, but they bound no better than the balancing itself.
    pub fn least_potentials(&self, root: usize) -> Vec<i64> {
        let others =
            (0..self.n).map(|v| if v == root { 0 } else { self.search(root, v).x[root] + self.u[root] - self.u[v] });
        others.map(|distance| -distance).collect()
    }

    pub fn vertices(&self) -> usize {
        self.n
    }

    /// The units as pairs (from, to), straight from surplus to deficit: where units pass through a vertex, they pass it by.
    pub fn units(mut self) -> Vec<(usize, usize)> {
        let n = self.n;
        for b in 0..n {
            for a in 0..n {
                for c in 0..n {
                    let through = self.from[a][b].min(self.from[b][c]);
                    self.from[a][b] -= through;
                    self.from[b][c] -= through;
                    if a != c {
                        self.from[a][c] += through;
                    }
                }
            }
        }
        let pairs = (0..n).flat_map(|i| (0..n).map(move |j| (i, j)));
        pairs.flat_map(|(i, j)| std::iter::repeat_n((i, j), self.from[i][j].into())).collect()
    }
}
