//! Looks for slow plans by hill climbing: `SEED=… SECONDS=… cargo run --release --bin climb FOLDER`.
//!
//! It begins with the benchmark's plans and those that are kept, and changes one of the four slowest at random, again and again. A changed plan takes the place of the one it was made
//! from if the yardstick adds no fewer links for it at the highest budget: a count, which other work on the machine does not disturb. At the end the four are written into the folder.

use postman_tests::instances::{even, joined, part_twins, towns};
use postman_tests::oracle::{call_refusal, file_of, parse};
use postman_tests::plan::{Arc, Plan, HIGHEST_BUDGET, MOST_ARCS, OPTIONAL, REQUIRED, SHEET_PLACES};
use postman_tests::planner::Planner;
use postman_tests::random::{setting, Random};
use postman_tests::yardstick::Counting;
use std::time::{Duration, Instant};

const CLIMBERS: usize = 4;

/// The links that are added for a plan, unless it is refused.
fn added(plan: &Plan) -> Option<u64> {
    let file = file_of(plan);
    if call_refusal(&file, HIGHEST_BUDGET, SHEET_PLACES) != 0 {
        return None;
    }
    let counting = Counting::default();
    counting.plan_call(&file, HIGHEST_BUDGET, &mut vec![0; SHEET_PLACES]).ok()?;
    Some(counting.added())
}

/// An arc of edition 1 with one thing changed.
fn changed_arc(random: &mut Random, plan: &Plan, arc: Arc) -> Arc {
    let Arc { tail, head, standing, cost, .. } = arc;
    let (mut tail, mut head, mut standing, mut cost) = (usize::from(tail), usize::from(head), standing, cost);
    match random.below(7) {
        0 => cost = random.within(1..=200) as u16,
        1 => cost = (u32::from(cost) * random.within(50..=200) as u32 / 100).min(65_535) as u16,
        2 => cost = random.pick(&plan.arcs).cost,
        3 => cost = random.pick(&[cost.saturating_sub(1), cost.saturating_add(1)]),
        4 => tail = random.below(plan.n),
        5 => head = random.below(plan.n),
        _ => standing = random.pick(&[OPTIONAL, OPTIONAL, REQUIRED]),
    }
    Arc::new(tail, head, standing, cost.max(1))
}

/// The plan with two vertices' numbers exchanged.
fn exchange(random: &mut Random, plan: &mut Plan) {
    let (v, w) = (random.below(plan.n) as u8, random.below(plan.n) as u8);
    let other = |x: u8| match x {
        x if x == v => w,
        x if x == w => v,
        x => x,
    };
    for arc in &mut plan.arcs {
        (arc.tail, arc.head) = (other(arc.tail), other(arc.head));
    }
}

/// The plan with a few changes.
fn changed(random: &mut Random, plan: &Plan) -> Plan {
    let mut plan = plan.clone();
    for _ in 0..random.pick(&[1, 1, 1, 2, 3, 6]) {
        let k = random.below(plan.arcs.len());
        match random.below(12) {
            0 if plan.arcs.len() > 10 => drop(plan.arcs.swap_remove(k)),
            1 | 2 if plan.arcs.len() < MOST_ARCS => {
                let arc = changed_arc(random, &plan, plan.arcs[k]);
                plan.arcs.push(arc);
            }
            3 => exchange(random, &mut plan),
            _ => plan.arcs[k] = changed_arc(random, &plan, plan.arcs[k]),
        }
    }
    part_twins(&mut plan.arcs);
    plan
}

/// The benchmark's plans, those that are kept, and one of many equal links.
fn starts() -> Vec<Plan> {
    let kept = std::fs::read_dir(concat!(env!("CARGO_MANIFEST_DIR"), "/plans")).expect("a folder of plans");
    let read = |entry: std::io::Result<std::fs::DirEntry>| {
        parse(&std::fs::read(entry.expect("an entry").path()).expect("a plan file"))
    };
    let mut plans: Vec<Plan> = kept.map(read).collect();
    plans.extend(towns().into_iter().map(|(_, plan)| plan));
    plans.push(joined(&even(3)));
    plans
}

fn main() {
    let folder = std::env::args().nth(1).expect("a folder for what is found");
    let mut random = Random::new(setting("SEED", 1));
    let limit = Duration::from_secs(setting("SECONDS", 60));
    let mut climbers: Vec<(u64, Plan)> =
        starts().into_iter().filter_map(|plan| added(&plan).map(|n| (n, plan))).collect();
    climbers.sort_by_key(|(n, _)| std::cmp::Reverse(*n));
    climbers.truncate(CLIMBERS);

    let begun = Instant::now();
    let mut tries = 0;
    while begun.elapsed() < limit {
        let (most, plan) = &mut climbers[random.below(CLIMBERS)];
        let next = changed(&mut random, plan);
        tries += 1;
        if let Some(n) = added(&next).filter(|n| n >= most) {
            (*most, *plan) = (n, next);
        }
    }
    for (k, (n, plan)) in climbers.iter().enumerate() {
        println!("{n} links added: {folder}/{k}.plan");
        std::fs::write(format!("{folder}/{k}.plan"), file_of(plan)).expect("a file can be written");
    }
    println!("{tries} tries");
}
