//! The benchmark's plans. All are near the limits: up to 64 vertices, 256 arcs and 8 parts.

use crate::oracle::call_refusal;
use crate::oracle::file_of;
use crate::plan::{Arc, Plan, CLOSED, MOST_ARCS, OPTIONAL, REQUIRED, SHEET_PLACES};
use crate::random::Random;

/// Each plan with its name.
pub fn towns() -> Vec<(&'static str, Plan)> {
    vec![
        ("town", first_good(town)),
        ("many trees", first_good(many_trees)),
        ("large imbalance", first_good(large_imbalance)),
        ("dead ends", first_good(|random| dead_ends(random, 7, 6))),
    ]
}

/// The plan of the first seed that gives one with a drive.
fn first_good(make: fn(&mut Random) -> Plan) -> Plan {
    let mut plans = (1..=100).map(|seed| make(&mut Random::new(seed)));
    plans.find(|p| call_refusal(&file_of(p), 1, SHEET_PLACES) == 0).expect("one in a hundred is good")
}

const SIDE: usize = 8;

/// A grid of 8 by 8 crossings; streets of uneven length, some one-way, some closed. In each of eight districts of 4 by 2 crossings some
/// joined streets are under revision, in one direction or both.
pub fn town(random: &mut Random) -> Plan {
    let mut streets = Vec::new();
    for v in 0..SIDE * SIDE {
        if v % SIDE + 1 < SIDE {
            streets.push((v, v + 1));
        }
        if v + SIDE < SIDE * SIDE {
            streets.push((v, v + SIDE));
        }
    }
    let district = |v: usize| v / SIDE / 4 * 4 + v % SIDE / 2;
    let mut revised: Vec<Vec<usize>> = vec![Vec::new(); 8];
    random.shuffle(&mut streets);
    let mut arcs = Vec::new();
    for &(v, w) in streets.iter().chain(&streets) {
        let length = random.within(60..=400) as u16;
        let joined = &mut revised[district(v)];
        let is_revised = district(v) == district(w)
            && joined.len() < 6
            && (joined.is_empty() || joined.contains(&v) != joined.contains(&w));
        let (v, w) = if random.once_in(2) { (v, w) } else { (w, v) };
        if is_revised {
            joined.extend([v, w]);
            joined.sort();
            joined.dedup();
        }
        let standing = if is_revised { REQUIRED } else { OPTIONAL };
        let back = if is_revised && random.once_in(2) { REQUIRED } else { OPTIONAL };
        arcs.push(Arc::new(v, w, standing, length));
        if !random.once_in(6) {
            arcs.push(Arc::new(w, v, back, length));
        }
    }
    arcs.truncate(MOST_ARCS - 6);
    arcs.extend((0..6).map(|_| Arc::new(random.below(64), random.below(64), CLOSED, 9)));
    random.shuffle(&mut arcs);
    Plan::new(SIDE * SIDE, arcs)
}

/// Required circles, one for each part: balanced as they stand.
fn circles(
    random: &mut Random,
    parts: usize,
    size: usize,
    from: usize,
    cost: std::ops::RangeInclusive<usize>,
) -> Vec<Arc> {
    let vertex = |part: usize, i: usize| from + part * size + i % size;
    (0..parts * size)
        .map(|k| Arc::new(vertex(k / size, k), vertex(k / size, k + 1), REQUIRED, random.within(cost.clone()) as u16))
        .collect()
}

/// Eight parts of six vertices around sixteen crossings that belong to none, so that thinning leaves most pairs of parts many links.
pub fn many_trees(random: &mut Random) -> Plan {
    let (parts, size, crossings) = (8, 6, 16);
    let mut arcs = circles(random, parts, size, 0, 400..=900);
    let crossing = |random: &mut Random| parts * size + random.below(crossings);
    let cost = |random: &mut Random| random.within(50..=120) as u16;
    for v in 0..parts * size {
        arcs.push(Arc::new(v, crossing(random), OPTIONAL, cost(random)));
        arcs.push(Arc::new(crossing(random), v, OPTIONAL, cost(random)));
    }
    while arcs.len() < MOST_ARCS {
        arcs.push(Arc::new(crossing(random), crossing(random), OPTIONAL, cost(random)));
    }
    random.shuffle(&mut arcs);
    Plan::new(parts * size + crossings, arcs)
}

/// In each part many required arcs from a few vertices to a few others, and none back: nearly every one calls for a leg.
pub fn large_imbalance(random: &mut Random) -> Plan {
    let (parts, size, n) = (8, 6, 64);
    let mut arcs = Vec::new();
    let cost = |random: &mut Random| random.within(50..=500) as u16;
    for part in 0..parts {
        let from = part * size;
        for i in 0..20 {
            arcs.push(Arc::new(from + i % 3, from + 3 + (i + i / 3) % 3, REQUIRED, cost(random)));
        }
    }
    let mut ring: Vec<usize> = (0..n).collect();
    random.shuffle(&mut ring);
    arcs.extend((0..n).map(|i| Arc::new(ring[i], ring[(i + 1) % n], OPTIONAL, cost(random))));
    while arcs.len() < MOST_ARCS {
        arcs.push(Arc::new(random.below(n), random.below(n), OPTIONAL, cost(random)));
    }
    random.shuffle(&mut arcs);
    Plan::new(n, arcs)
}

/// So many parts beside part 0. Part 1 can be entered from part 2 by size² links and then, by its last candidate, from part 0; part 2 from part 3 only,
/// and so on; the last part from part 1 only. Whoever enters part 1 from part 2 closes a circle in the end, whatever else is chosen: with seven
/// parts of six vertices 36⁷ choices come to nothing before the first tree. Part 0 has the lowest and the highest vertex.
pub fn dead_ends(random: &mut Random, parts: usize, size: usize) -> Plan {
    let mut arcs = circles(random, parts, size, 1, 1_000..=1_500);
    let last = parts * size + parts + 1;
    let cost = |random: &mut Random| random.within(50..=99) as u16;
    arcs.push(Arc::new(0, last, REQUIRED, 10));
    arcs.push(Arc::new(last, 0, REQUIRED, 10));
    for part in 0..parts {
        let crossing = 1 + parts * size + part;
        for i in 0..size {
            arcs.push(Arc::new(1 + (part + 1) % parts * size + i, crossing, OPTIONAL, cost(random)));
            arcs.push(Arc::new(crossing, 1 + part * size + i, OPTIONAL, cost(random)));
        }
    }
    arcs.push(Arc::new(last, 1, OPTIONAL, 300));
    arcs.push(Arc::new(size, 0, OPTIONAL, 300));
    random.shuffle(&mut arcs);
    Plan::new(last + 1, arcs)
}
