//! Plans whose answers are worked out in numbers.

use crate::plan::{Arc, Plan, CLOSED, MOST_ARCS, MOST_PARTS, MOST_VERTICES, OPTIONAL, REQUIRED};

/// Must loops at one vertex, as many as a plan has arcs: costs 1, 2, and so on.
pub fn loops_at_one() -> Plan {
    Plan::new(1, (1..=MOST_ARCS).map(|cost| Arc::new(0, 0, REQUIRED, cost as u16)).collect())
}

/// Must arcs from 0 to 1, as many as there is room for beside one way back: costs 1, 2, and so on.
pub fn one_way() -> Plan {
    let musts = (1..MOST_ARCS).map(|cost| Arc::new(0, 1, REQUIRED, cost as u16));
    Plan::new(2, musts.chain([Arc::new(1, 0, OPTIONAL, 3)]).collect())
}

/// Every vertex is at distance 1 from each other, so that any way of balancing costs the same for each unit.
pub fn ties() -> Plan {
    let musts = [(0, 2, 1), (1, 3, 1), (0, 2, 2), (3, 2, 1)].map(|(t, h, cost)| Arc::new(t, h, REQUIRED, cost));
    let pairs = (0..16).map(|k| (k / 4, k % 4)).filter(|(v, w)| v != w);
    Plan::new(4, musts.into_iter().chain(pairs.map(|(v, w)| Arc::new(v, w, OPTIONAL, 1))).collect())
}

/// The must arc to 1 is checked once and passed again, as two must arcs lead back.
pub fn two_ways_back() -> Plan {
    Plan { edition: 2, n: 2, arcs: vec![Arc::checked(0, 1, 2, 7), Arc::checked(1, 0, 1, 1), Arc::checked(1, 0, 3, 3)] }
}

/// Parallel arcs, the cheapest of them closed; a closed arc that would join; a vertex that no arc reaches.
pub fn parallel() -> Plan {
    let arcs = [
        (0, 1, OPTIONAL, 9),
        (0, 1, REQUIRED, 4),
        (0, 1, CLOSED, 1),
        (1, 2, CLOSED, 1),
        (2, 1, REQUIRED, 7),
        (3, 3, REQUIRED, 2),
    ];
    Plan::new(5, arcs.map(|(t, h, standing, cost)| Arc::new(t, h, standing, cost)).into())
}

/// Four must loops: part 1 is entered from 2 or 3, part 2 from 1 or 3, and part 3 from 0 alone. One of the four choices for 1 and 2 leaves a
/// circle. The first tree of the other three costs 39, the second 37.
pub fn bound_choices() -> Plan {
    let ways = [(0, 3, 10), (3, 1, 10), (3, 2, 10), (2, 1, 5), (1, 2, 3), (1, 0, 10), (2, 0, 10)];
    let loops = (0..4).map(|v| Arc::new(v, v, REQUIRED, 1));
    Plan::new(4, loops.chain(ways.map(|(t, h, cost)| Arc::new(t, h, OPTIONAL, cost))).collect())
}

/// A ring both ways, and chords, of which some are closed: the most vertices and arcs. Eight arcs of the ring must be driven.
pub fn chorded_ring() -> Plan {
    let next = |v: usize| (v + 1) % MOST_VERTICES;
    let arc = |k: usize| {
        let (v, cost) = (k % MOST_VERTICES, (1 + k * 37 % 101) as u16);
        match k / MOST_VERTICES {
            0 => Arc::new(v, next(v), if v % 8 == 3 { REQUIRED } else { OPTIONAL }, cost),
            1 => Arc::new(next(v), v, OPTIONAL, cost),
            _ => {
                let standing = if v % 16 == 15 { CLOSED } else { OPTIONAL };
                Arc::new(v, (v * 5 + 7) % MOST_VERTICES, standing, cost + 20)
            }
        }
    };
    Plan::new(MOST_VERTICES, (0..MOST_ARCS).map(arc).collect())
}

/// The cost of the way from vertex p to vertex q, at \[p\]\[q\].
pub type Matrix = [[u16; MOST_PARTS]; MOST_PARTS];

/// Costs below `most`, by a linear congruence: small ones have many ties and circles.
pub fn matrix(seed: usize, most: usize) -> Matrix {
    let mut x = seed;
    let mut next = || {
        x = (x * 25_173 + 13_849) % 65_536;
        (x / 64 % most) as u16
    };
    std::array::from_fn(|_| std::array::from_fn(|_| next()))
}

/// A circle of 2 and 3 within a circle with 1; entered from 0 at cost 9, 8 or 7.
pub fn nested_circles() -> Matrix {
    let mut costs = [[20; MOST_PARTS]; MOST_PARTS];
    costs[0][1..4].copy_from_slice(&[9, 8, 7]);
    costs[1][2] = 5;
    costs[2][3] = 1;
    costs[3][1..3].copy_from_slice(&[3, 2]);
    costs
}

/// A must loop of cost 1 at each of so many vertices, and all ways between them, at these costs.
pub fn of_matrix(costs: &Matrix, vertices: usize) -> Plan {
    let loops = (0..vertices).map(|v| Arc::new(v, v, REQUIRED, 1));
    let pairs = (0..vertices * vertices).map(|k| (k / vertices, k % vertices)).filter(|(p, q)| p != q);
    Plan::new(vertices, loops.chain(pairs.map(|(p, q)| Arc::new(p, q, OPTIONAL, costs[p][q]))).collect())
}
