//! The cheapest arborescence, by Edmonds' recursion.

use crate::plan::MOST_PARTS;

/// The cost of entering component q from component p, by row p and column q.
pub type Entries = [[i64; MOST_PARTS]; MOST_PARTS];

/// The least cost of entering every component but 0, so that going back arrives at component 0.
pub fn cheapest_arborescence(entries: &Entries, parts: usize) -> i64 {
    solve(*entries, (0..parts).collect())
}

/// `alive` has the components that are left, 0 first; a circle that was shrunk is one of its members.
fn solve(mut entries: Entries, alive: Vec<usize>) -> i64 {
    let cheapest =
        |q: usize| *alive.iter().filter(|&&p| p != q).min_by_key(|&&p| entries[p][q]).expect("another component");
    let mut parent = [0; MOST_PARTS];
    for &q in &alive[1..] {
        parent[q] = cheapest(q);
    }
    let paid: i64 = alive[1..].iter().map(|&q| entries[parent[q]][q]).sum();
    let Some(circle) = find_circle(&alive, &parent) else { return paid };

    // The circle's entries are paid. Whoever enters it pays what is more than the entry that falls away.
    let paid: i64 = circle.iter().map(|&q| entries[parent[q]][q]).sum();
    let centre = circle[0];
    let outside: Vec<usize> = alive.iter().copied().filter(|p| !circle.contains(p)).collect();
    for &p in &outside {
        entries[p][centre] =
            circle.iter().map(|&q| entries[p][q] - entries[parent[q]][q]).min().expect("a circle has members");
        entries[centre][p] = circle.iter().map(|&q| entries[q][p]).min().expect("a circle has members");
    }
    let mut fewer = outside;
    fewer.push(centre);
    paid + solve(entries, fewer)
}

/// A circle of parents, if there is one.
fn find_circle(alive: &[usize], parent: &[usize; MOST_PARTS]) -> Option<Vec<usize>> {
    alive[1..].iter().find_map(|&start| {
        let mut q = start;
        let mut circle = vec![start];
        for _ in alive {
            q = parent[q];
            if q == start {
                return Some(circle);
            }
            if q == 0 {
                return None;
            }
            circle.push(q);
        }
        None
    })
}
