//! Plans with stated numbers of entries between their parts.

use crate::plan::{Arc, Plan, MOST_PARTS, MOST_VERTICES, OPTIONAL, REQUIRED};

/// How many links lead from part p into part q, at \[q\]\[p\].
pub type Entries = [[usize; MOST_PARTS]; MOST_PARTS];

/// Vertices of part 0 that entries leave.
const TAILS: usize = 8;

/// The vertices of part q that entries reach and leave: two at least, so that two rows of heads serve any two parts.
fn size(entries: &Entries, q: usize) -> usize {
    match q {
        0 => TAILS,
        _ => entries[q]
            .iter()
            .enumerate()
            .map(|(p, e)| e.div_ceil(if p == 0 { TAILS } else { 2 }))
            .max()
            .unwrap_or(0)
            .max(2),
    }
}

/// A plan with these entries, at least one from part 0 into each other. Each part is a gate and vertices around it, an arc of cost 1 each way between them; and so is the highest vertex,
/// which is in part 0, joined to all gates. An entry leads from a vertex that is no gate to another and costs 2, where the way over the highest vertex costs 4, and no other way costs less. The
/// pairs with that vertex are the last of their row and of all, so that every pair between parts that is no arc is dropped by it: the arcs between parts are the links.
pub fn joined(entries: &Entries) -> Plan {
    let sizes: [usize; MOST_PARTS] = std::array::from_fn(|q| size(entries, q));
    let gate = |q: usize| sizes[..q].iter().sum::<usize>() + q;
    let hub = gate(MOST_PARTS);
    let mut arcs = vec![Arc::new(0, hub, REQUIRED, 1), Arc::new(hub, 0, OPTIONAL, 1)];
    for (q, row) in entries.iter().enumerate() {
        for v in gate(q) + 1..gate(q + 1) {
            arcs.extend([Arc::new(gate(q), v, REQUIRED, 1), Arc::new(v, gate(q), OPTIONAL, 1)]);
        }
        if q > 0 {
            arcs.extend([Arc::new(gate(q), hub, OPTIONAL, 1), Arc::new(hub, gate(q), OPTIONAL, 1)]);
        }
        for (p, &count) in row.iter().enumerate() {
            // One entry from part 0 is the highest vertex's.
            let count = if p == 0 && q > 0 { count - 1 } else { count };
            arcs.extend(
                (0..count).map(|i| Arc::new(gate(p) + 1 + i % sizes[p], gate(q) + 1 + i / sizes[p], OPTIONAL, 2)),
            );
        }
    }
    Plan::new(hub + 1, arcs)
}

/// All parts are entered from part 0 alone: the product of the entries is the number of trees.
pub fn star(entries: [usize; MOST_PARTS - 1]) -> Entries {
    let mut all = Entries::default();
    all.iter_mut().skip(1).zip(entries).for_each(|(row, count)| row[0] = count);
    all
}

/// 4,294,967,295 trees.
pub const HIGHEST_COUNT: Entries = [
    [0, 0, 0, 0, 0, 0, 0, 0],
    [17, 0, 0, 0, 0, 0, 0, 0],
    [16, 0, 0, 1, 0, 1, 2, 0],
    [15, 0, 2, 0, 2, 3, 0, 0],
    [18, 0, 0, 0, 0, 0, 0, 1],
    [13, 2, 1, 0, 2, 0, 3, 1],
    [34, 3, 0, 2, 0, 0, 0, 2],
    [27, 3, 0, 0, 3, 0, 1, 0],
];

/// Its neighbours in the number of trees: 4,294,967,296 of them.
pub fn one_above() -> Entries {
    star([32, 32, 32, 32, 16, 16, 16])
}

/// Eight rings of required arcs, as many vertices as there is room for, around a crossing that is not required and that all ways lead over: all pairs of vertices in two parts are links,
/// and there are 917,849,013,932,261,376 trees, the most that are known of a plan.
pub fn crossing() -> Plan {
    let hub = MOST_VERTICES - 1;
    let part = |v: usize| v / MOST_PARTS * MOST_PARTS;
    let next = |v: usize| if v + 1 < hub && part(v + 1) == part(v) { v + 1 } else { part(v) };
    let arcs = (0..hub).flat_map(|v| {
        [Arc::new(v, next(v), REQUIRED, 1), Arc::new(v, hub, OPTIONAL, 1), Arc::new(hub, v, OPTIONAL, 1)]
    });
    Plan::new(MOST_VERTICES, arcs.collect())
}

/// As many entries from each part into each other: the most work for the count.
pub fn even(count: usize) -> Entries {
    let mut all = [[count; MOST_PARTS]; MOST_PARTS];
    all[0] = [0; MOST_PARTS];
    (1..MOST_PARTS).for_each(|q| all[q][q] = 0);
    all
}
