//! How far the floor lies below the best drive: `cargo run --release --bin tightness [--features proved]`.
//!
//! On plans of which the best drive is known: forty drawn towns, all of whose trees are tried, and loops joined all to all, whose best drive is a shortest
//! round trip. The floor is that of one tree tried, so that it is never the cost. Beside it stands what the greatest multipliers that are 0 at the lowest
//! required vertex would give. `SEED=…` draws other plans: the constants of the ascent were chosen on those of seed 1.

use postman_tests::instances::{drawn_town, joined_loops};
use postman_tests::oracle::{call_refusal, count_trees, file_of, lagrangian_bound, parse, Effort, Facts, Graph};
use postman_tests::plan::{HIGHEST_BUDGET, SHEET_PLACES};
use postman_tests::planner::Planner;
use postman_tests::random::{setting, Random};

const TOWNS: usize = 40;
const ROUND_TRIPS: u64 = 10;

#[cfg(feature = "proved")]
fn planner() -> impl Planner {
    postman_tests::planner::Proved
}

#[cfg(not(feature = "proved"))]
fn planner() -> impl Planner {
    postman_tests::yardstick::Yardstick
}

/// The cost of the shortest round trip over all vertices, the loops driven on the way.
fn round_trip(graph: &Graph) -> u64 {
    let n = graph.plan.n;
    let mut least = vec![vec![u64::MAX; n]; 1 << n];
    least[1][0] = 0;
    for set in 1..1 << n {
        for v in (0..n).filter(|v| set >> v & 1 == 1) {
            for w in (0..n).filter(|w| set >> w & 1 == 0) {
                let there = least[set][v].saturating_add(graph.d[v][w]);
                let entry = &mut least[set | 1 << w][w];
                *entry = (*entry).min(there);
            }
        }
    }
    let home = (0..n).map(|v| least[(1 << n) - 1][v].saturating_add(graph.d[v][0]));
    home.min().expect("a vertex") + graph.required_cost
}

/// Mean distances in percent, and how many floors are the best drive's cost: with the greatest multipliers, and as answered.
fn report(name: &str, cases: &[(Vec<u8>, u64)]) {
    let planner = planner();
    let (mut sums, mut exact) = ([0.0; 2], [0; 2]);
    for (file, best) in cases {
        let facts = Facts::of(&parse(file), &Effort::LIGHT);
        let greatest = facts.bound_at_zero.max(lagrangian_bound(&facts.graph, &facts.greatest)) as u64;
        let answer = planner.plan_call(file, 1, &mut vec![0; SHEET_PLACES]).expect("a good plan");
        assert!(!answer.whole && answer.floor >= greatest && answer.floor <= *best);
        for (k, floor) in [greatest, answer.floor].into_iter().enumerate() {
            sums[k] += (best - floor) as f64 / *best as f64 * 100.0;
            exact[k] += usize::from(floor == *best);
        }
    }
    let n = cases.len();
    let [before, after] = sums.map(|sum| sum / n as f64);
    println!(
        "{name}: {before:.2} % (exact in {} of {n}) with the greatest multipliers, {after:.2} % ({}) as answered",
        exact[0], exact[1]
    );
}

fn main() {
    let seed = setting("SEED", 1);
    let towns = (seed..).map(|seed| drawn_town(&mut Random::new(seed))).filter_map(|plan| {
        let file = file_of(&plan);
        let trees = count_trees(&Graph::new(&plan));
        if call_refusal(&file, 1, SHEET_PLACES) != 0 || trees < 2 || trees > u128::from(HIGHEST_BUDGET) {
            return None;
        }
        let answer = planner().plan_call(&file, HIGHEST_BUDGET, &mut vec![0; SHEET_PLACES]).expect("a good plan");
        assert!(answer.whole);
        Some((file, answer.cost))
    });
    report("drawn towns", &towns.take(TOWNS).collect::<Vec<_>>());
    for n in [7, 8] {
        let plans = (seed..seed + ROUND_TRIPS).map(|seed| joined_loops(&mut Random::new(seed), n));
        let cases: Vec<_> = plans.map(|plan| (file_of(&plan), round_trip(&Graph::new(&plan)))).collect();
        report(&format!("{n} loops, all to all"), &cases);
    }
}
