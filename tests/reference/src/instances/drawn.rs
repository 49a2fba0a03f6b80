//! Plans that the floor's distance from the best drive is measured on.

use crate::plan::{Arc, Plan, MOST_ARCS, OPTIONAL, REQUIRED};
use crate::random::Random;

/// A grid of 25 to 49 crossings; streets of uneven length, two for each side of a block, some of them one-way. Around each of three to six crossings some joined streets are under revision,
/// in one direction or both.
pub fn drawn_town(random: &mut Random) -> Plan {
    let side = random.within(5..=7);
    let parts = random.within(3..=6);
    drawn_city(random, side, parts)
}

/// Such a town with so many crossings on a side, and around so many of them.
pub fn drawn_city(random: &mut Random, side: usize, parts: usize) -> Plan {
    let mut streets = Vec::new();
    for v in 0..side * side {
        if v % side + 1 < side {
            streets.push((v, v + 1));
        }
        if v + side < side * side {
            streets.push((v, v + side));
        }
    }
    random.shuffle(&mut streets);
    let mut centres: Vec<usize> = (0..side * side).collect();
    random.shuffle(&mut centres);
    centres.truncate(parts);
    let blocks = |v: usize, w: usize| (v / side).abs_diff(w / side) + (v % side).abs_diff(w % side);
    let district = |v: usize| (0..parts).min_by_key(|&c| blocks(v, centres[c])).expect("a centre");
    let mut revised: Vec<Vec<usize>> = vec![Vec::new(); parts];
    let mut arcs = Vec::new();
    for &(v, w) in streets.iter().chain(&streets) {
        let length = random.within(60..=400) as u16;
        let joined = &mut revised[district(v)];
        let is_revised = district(v) == district(w)
            && joined.len() < 6
            && (joined.is_empty() || joined.contains(&v) != joined.contains(&w));
        let (v, w) = if random.once_in(2) { (v, w) } else { (w, v) };
        if is_revised {
            joined.extend([v, w]);
            joined.sort();
            joined.dedup();
        }
        let standing = if is_revised { REQUIRED } else { OPTIONAL };
        let back = if is_revised && random.once_in(2) { REQUIRED } else { OPTIONAL };
        arcs.push(Arc::new(v, w, standing, length));
        if !random.once_in(6) {
            arcs.push(Arc::new(w, v, back, length));
        }
    }
    random.shuffle(&mut arcs);
    arcs.truncate(MOST_ARCS);
    Plan::new(side * side, arcs)
}

/// A required loop at each of n vertices, joined all to all. No arc is as long as two, so that each is a link.
pub fn joined_loops(random: &mut Random, n: usize) -> Plan {
    let loops = (0..n).map(|v| Arc::new(v, v, REQUIRED, 1));
    let pairs = (0..n * n).map(|k| (k / n, k % n)).filter(|(v, w)| v != w);
    let arcs = loops.chain(pairs.map(|(v, w)| Arc::new(v, w, OPTIONAL, random.within(51..=99) as u16)));
    Plan::new(n, arcs.collect())
}
