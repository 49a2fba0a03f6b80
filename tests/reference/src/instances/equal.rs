//! Plans of many equal paths.

use crate::plan::{Arc, Plan, CLOSED, OPTIONAL, REQUIRED};
use crate::random::Random;

/// A grid of equal costs, chains against single arcs of the same cost, or parallel arcs of the same cost, in any order.
pub fn many_paths(random: &mut Random) -> Plan {
    let (n, mut arcs) = match random.below(3) {
        0 => grid(random),
        1 => chains(random),
        _ => parallels(random),
    };
    random.shuffle(&mut arcs);
    Plan::new(n, arcs)
}

/// Arcs both ways between neighbours, and must arcs in the corners.
fn grid(random: &mut Random) -> (usize, Vec<Arc>) {
    let (width, height) = random.pick(&[(3, 3), (4, 4), (6, 4), (8, 7)]);
    let cost = random.pick(&[1, 2, 65_535]);
    let n = width * height;
    let mut arcs = Vec::new();
    for v in 0..n {
        let right = (v % width + 1 < width).then_some(v + 1);
        let below = (v + width < n).then_some(v + width);
        for w in [right, below].into_iter().flatten() {
            arcs.push(Arc::new(v, w, OPTIONAL, cost));
            arcs.push(Arc::new(w, v, OPTIONAL, cost));
        }
    }
    for v in [0, width - 1, n - width, n - 1] {
        let near = if v % width == 0 { v + 1 } else { v - 1 };
        arcs.push(Arc::new(v, random.pick(&[v, near]), REQUIRED, cost));
    }
    (n, arcs)
}

/// Must loops in a circle, each joined to the next by chains of many cheap arcs, of fewer dear ones, and by one, all of the same cost.
fn chains(random: &mut Random) -> (usize, Vec<Arc>) {
    let loops = random.within(2..=4);
    let mut n = loops;
    let mut arcs: Vec<Arc> = (0..loops).map(|v| Arc::new(v, v, REQUIRED, 1)).collect();
    for v in 0..loops {
        let to = (v + 1) % loops;
        for _ in 0..random.within(1..=3) {
            let steps = random.pick(&[1, 2, 3, 4, 6]);
            let inner: Vec<usize> = (n..n + steps - 1).collect();
            n += steps - 1;
            let stops = [&[v][..], &inner, &[to]].concat();
            let standing = |random: &mut Random| random.pick(&[OPTIONAL, OPTIONAL, OPTIONAL, CLOSED]);
            arcs.extend(stops.windows(2).map(|s| Arc::new(s[0], s[1], standing(random), (12 / steps) as u16)));
        }
        arcs.push(Arc::new(v, to, OPTIONAL, random.pick(&[12, 12, 13, 40])));
    }
    arcs.sort_by_key(|a| (a.tail, a.head, a.standing, a.cost));
    arcs.dedup();
    (n, arcs)
}

/// A ring with arcs of every standing and of few costs from each vertex to the next and the one after that.
fn parallels(random: &mut Random) -> (usize, Vec<Arc>) {
    let n = random.within(3..=7);
    let mut arcs = Vec::new();
    for v in 0..n {
        arcs.push(Arc::new(v, (v + 1) % n, OPTIONAL, 2));
        for standing in [OPTIONAL, REQUIRED, CLOSED] {
            for (step, cost) in [(1, 1), (1, 2), (2, 2), (2, 4)] {
                if random.once_in(3) {
                    arcs.push(Arc::new(v, (v + step) % n, standing, cost));
                }
            }
        }
    }
    arcs.push(Arc::new(0, 1, REQUIRED, 2));
    arcs.sort_by_key(|a| (a.tail, a.head, a.standing, a.cost));
    arcs.dedup();
    (n, arcs)
}
