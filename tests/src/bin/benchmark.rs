//! Times the planners on the same plans in one process: `cargo run --release --bin benchmark [--features proved] [plans]`. With `plans` only the plan call is timed.
//!
//! The planners take turns. A time is the processor's, not the clock's, so that other work on the machine counts little, and it is the least of several
//! runs; beside it stands how far the slowest run was above it, which is the machine's noise. The sheet is cleared before each run, outside the time.

use postman_tests::instances::{adverse_ring, checked, crossing, even, fullest, joined, longest, towns};
use postman_tests::oracle::{count_trees, file_of, own_marks, parse, Graph};
use postman_tests::plan::{Arc, Plan, MOST_PAIRS, MOST_PLACES, REQUIRED, SHEET_PLACES};
use postman_tests::planner::{
    Answer, Call, Car, CarsCall, Change, Codec, Counter, DistanceCall, Editor, Judge, Planner,
};
use postman_tests::yardstick::{Counting, Yardstick};
use std::time::{Duration, Instant};

const BUDGETS: [u64; 3] = [10_000, 100_000, 1_000_000];

/// Rounds of one plan and budget: at least five, and more of short ones.
const ROUNDS: usize = 50;
const ENOUGH: Duration = Duration::from_millis(2_000);

/// The yardstick comes first; what the others' times are divided by.
fn planners() -> Vec<(&'static str, Box<dyn Planner>)> {
    vec![
        ("yardstick", Box::new(Yardstick)),
        #[cfg(feature = "proved")]
        ("proved", Box::new(postman_tests::planner::Proved)),
    ]
}

/// The processor time of this thread so far (Linux).
fn processor_time() -> Duration {
    #[repr(C)]
    struct Timespec {
        seconds: i64,
        nanoseconds: i64,
    }
    extern "C" {
        fn clock_gettime(clock: i32, time: *mut Timespec) -> i32;
    }
    const THREAD_TIME: i32 = 3;
    let mut time = Timespec { seconds: 0, nanoseconds: 0 };
    // SAFETY: the C library's function, with a place for its answer.
    let status = unsafe { clock_gettime(THREAD_TIME, &mut time) };
    assert_eq!(status, 0, "no such clock");
    Duration::new(time.seconds as u64, time.nanoseconds as u32)
}

/// The times of each planner, ascending. All have to answer the same.
fn times(planners: &[(&str, Box<dyn Planner>)], file: &[u8], budget: u64, expected: &Answer) -> Vec<Vec<Duration>> {
    let mut times = vec![Vec::new(); planners.len()];
    let mut sheet = vec![0; SHEET_PLACES];
    let begun = Instant::now();
    for round in 0..ROUNDS {
        if round >= 5 && begun.elapsed() > ENOUGH {
            break;
        }
        for ((_, planner), times) in planners.iter().zip(&mut times) {
            sheet.fill(0);
            let start = processor_time();
            let answer = planner.plan_call(file, budget, &mut sheet).expect("a good plan");
            times.push(processor_time() - start);
            // Which drive of the cost is laid is free, and with it the number of places.
            assert_eq!(Answer { places: 0, ..answer }, Answer { places: 0, ..expected.clone() });
        }
    }
    times.iter_mut().for_each(|times| times.sort());
    times
}

fn describe(name: &str, plan: &Plan) {
    let graph = Graph::new(plan);
    let (n, m, required) = (plan.n, plan.arcs.len(), graph.required_arcs.len());
    let units: i64 = graph.imbalance.iter().filter(|&&d| d > 0).sum();
    println!("{name}: {n} vertices, {m} arcs, {required} required, {} parts,", graph.parts);
    println!("  {} links, {:.3e} trees, {units} units of imbalance", graph.links.len(), count_trees(&graph) as f64);
}

/// The time of one call, in microseconds: the least of many rounds of twenty calls.
fn microseconds(mut call: impl FnMut()) -> f64 {
    const CALLS: u32 = 20;
    let mut round = || {
        let start = processor_time();
        (0..CALLS).for_each(|_| call());
        processor_time() - start
    };
    let least = (0..50).map(|_| round()).min().expect("some rounds");
    least.as_secs_f64() * 1e6 / f64::from(CALLS)
}

/// Reading and writing a file of 256 arcs.
fn codecs() {
    let codecs: Vec<(&str, Box<dyn Codec>)> = vec![
        ("yardstick", Box::new(Yardstick)),
        #[cfg(feature = "proved")]
        ("proved", Box::new(postman_tests::planner::Proved)),
    ];
    let plan = fullest();
    let file = file_of(&plan);
    println!("{} arcs, read and written:", plan.arcs.len());
    for (name, codec) in codecs {
        let (mut records, mut bytes) = (plan.arcs.clone(), file.clone());
        let read = microseconds(|| assert!(codec.read(&file, &mut records).is_ok()));
        let write = microseconds(|| assert!(codec.write(plan.edition, plan.n as u32, &plan.arcs, &mut bytes).is_ok()));
        println!("  {name:<10} {read:>6.1} µs, {write:>6.1} µs");
    }
}

/// The number of trees: of the towns, of a plan in which each part has entries from each other, and of the plan that has the most.
fn counts() {
    let counters: Vec<(&str, Box<dyn Counter>)> = vec![
        ("yardstick", Box::new(Yardstick)),
        #[cfg(feature = "proved")]
        ("proved", Box::new(postman_tests::planner::Proved)),
    ];
    let mut plans = towns();
    plans.extend([("entries each way", joined(&even(3))), ("crossing", crossing())]);
    for (plan_name, plan) in plans {
        let file = file_of(&plan);
        println!("trees of {plan_name}: {:.3e}", count_trees(&Graph::new(&plan)) as f64);
        for (name, counter) in &counters {
            let time = microseconds(|| assert!(counter.tree_count(&file).is_ok()));
            println!("  {name:<10} {time:>7.1} µs");
        }
    }
}

/// A ring of which one arc is a must arc.
fn ring_of_one() -> Plan {
    let mut ring = adverse_ring();
    let Arc { tail, head, cost, .. } = ring.arcs[0];
    ring.arcs[0] = Arc::new(tail.into(), head.into(), REQUIRED, cost);
    ring
}

/// The whole plan call at one tree: what it does whatever the number of trees.
fn one_tree(planners: &[(&str, Box<dyn Planner>)]) {
    let mut sheet = vec![0; SHEET_PLACES];
    for (plan_name, plan) in towns().into_iter().chain([("the longest drive", longest()), ("a ring", ring_of_one())]) {
        let file = file_of(&plan);
        for (name, planner) in planners {
            let mut places = 0;
            let time = microseconds(|| places = planner.plan_call(&file, 1, &mut sheet).expect("a good plan").places);
            println!("{plan_name} at one tree, {places} places: {name:<10} {time:>7.1} µs");
        }
    }
}

/// An open plan of 256 arcs in both editions: opening it, a change, a mark and a return.
fn open_plans() {
    let editors: Vec<(&str, Box<dyn Editor>)> = vec![
        ("yardstick", Box::new(Yardstick)),
        #[cfg(feature = "proved")]
        ("proved", Box::new(postman_tests::planner::Proved)),
    ];
    for plan in [fullest(), checked(fullest(), |_, cost| cost)] {
        let (edition, file) = (plan.edition, file_of(&plan));
        for (name, editor) in &editors {
            let opening = microseconds(|| assert!(editor.open(&file).is_ok()));
            let mut open = editor.open(&file).expect("a good plan");
            let mut time = |call| microseconds(|| assert_eq!(open.call(call), Ok(())));
            let change = time(Call::Change(Change { arc: 255, cost: 1, checking: 1, standing: REQUIRED }));
            let (mark, back) = (time(Call::Mark(0)), time(Call::Return(0)));
            println!("an open plan in edition {edition}: opened {opening:.1} µs, a change {change:.1}, a mark {mark:.1}, a return {back:.1}: {name}");
        }
    }
}

/// Pages of distances, by the number of their first vertices: what is left of an empty one is reading. On the first town, and on a plan whose searches take
/// every round.
fn pages() {
    let calls: Vec<(&str, Box<dyn DistanceCall>)> = vec![
        ("yardstick", Box::new(Yardstick)),
        #[cfg(feature = "proved")]
        ("proved", Box::new(postman_tests::planner::Proved)),
    ];
    let (name, town) = towns().swap_remove(0);
    for (name, plan) in [(name, town), ("a ring, every round", adverse_ring())] {
        let file = file_of(&plan);
        for (count, firsts) in [(0, 1), (1, 1), (MOST_PAIRS, 1), (MOST_PAIRS, 8), (MOST_PAIRS, 64)] {
            let pairs: Vec<u16> = (0..count).map(|k| (256 * (k % firsts) + k / 4 % plan.n) as u16).collect();
            let mut distances = vec![0; count];
            for (call, by) in &calls {
                let mut searches = 0;
                let time =
                    microseconds(|| searches = by.distances(&file, &pairs, &mut distances).expect("a good page"));
                println!("{name}: {count} pairs, {searches} searches: {call:<10} {time:>6.1} µs");
            }
        }
    }
}

/// Two cars with the plan's own marks, against two plan calls: at one tree each. On the ring of one must arc the tables are nearly all there is to do.
fn cars() {
    let calls: Vec<(&str, Box<dyn CarsCall>)> = vec![
        ("yardstick", Box::new(Yardstick)),
        #[cfg(feature = "proved")]
        ("proved", Box::new(postman_tests::planner::Proved)),
    ];
    let (mut sheet, mut other) = (vec![0; SHEET_PLACES], vec![0; SHEET_PLACES]);
    for (plan_name, plan) in towns().into_iter().chain([("a ring, one must arc", ring_of_one())]) {
        let (file, marks) = (file_of(&plan), own_marks(&plan));
        for ((name, call), (_, planner)) in calls.iter().zip(planners()) {
            let both = microseconds(|| {
                let lend = |sheet| Car { marks: &marks, budget: 1, sheet };
                assert!(call.two_cars(&file, lend(&mut sheet), lend(&mut other)).is_ok());
            });
            let twice = 2.0 * microseconds(|| assert!(planner.plan_call(&file, 1, &mut sheet).is_ok()));
            println!("{plan_name}: two cars {both:.1} µs, two plan calls {twice:.1} µs: {name}");
        }
    }
}

/// Judging a list of as many places as there may be: 255 arcs, five times round a ring, driven 257 times.
fn judging() {
    let judges: Vec<(&str, Box<dyn Judge>)> = vec![
        ("yardstick", Box::new(Yardstick)),
        #[cfg(feature = "proved")]
        ("proved", Box::new(postman_tests::planner::Proved)),
    ];
    const RING: usize = 51;
    let arc = |k: usize| Arc::new(k % RING, (k + 1) % RING, REQUIRED, 65_535 - (k / RING) as u16);
    let file = file_of(&Plan::new(RING, (0..5 * RING).map(arc).collect()));
    let round: Vec<u16> = (0..5 * RING as u16).collect();
    let list = round.repeat(MOST_PLACES / round.len());
    for (name, judge) in judges {
        let time = microseconds(|| assert!(judge.judge(&file, &list).is_ok()));
        println!("a list of {} places, judged: {name:<10} {time:>6.1} µs", list.len());
    }
}

/// The plans that are kept because they are slow, by name.
fn slow_plans() -> Vec<(String, Plan)> {
    let folder = concat!(env!("CARGO_MANIFEST_DIR"), "/plans");
    let files = std::fs::read_dir(folder).expect("a folder of plans").map(|entry| entry.expect("an entry").path());
    let mut plans: Vec<_> = files
        .map(|path| {
            let name = path.file_stem().expect("a name").to_string_lossy().into_owned();
            (name, parse(&std::fs::read(&path).expect("a plan file")))
        })
        .collect();
    plans.sort_by(|(one, _), (other, _)| one.cmp(other));
    plans
}

/// Turns of a district that tries a million trees, beside a plan call that tries as many as a turn: the first turn, the 100th, the 500th, the last and the slowest. Three districts bring the
/// same plan, and of their times the least is taken. The yardstick's machine tries all trees again in each turn, so that its times say nothing.
#[cfg(feature = "proved")]
fn turns(name: &str, plan: &Plan) {
    use postman_tests::plan::{HIGHEST_BUDGET, TURN_TREES};
    use postman_tests::planner::{Districts, Proved, Turn};
    const DISTRICTS: usize = 3;
    let file = file_of(plan);
    let mut sheet = vec![0; SHEET_PLACES];
    let call = microseconds(|| assert!(Proved.plan_call(&file, TURN_TREES, &mut sheet).is_ok()));
    let trees = Proved.plan_call(&file, HIGHEST_BUDGET, &mut sheet).expect("a good plan").trees;
    let mut machine = Proved.start();
    (0..DISTRICTS).for_each(|_| assert!(machine.enter(&file, HIGHEST_BUDGET).is_ok()));
    let mut turn = || {
        let start = processor_time();
        assert!(machine.turn(&mut sheet).is_ok());
        (processor_time() - start).as_secs_f64() * 1e3
    };
    let mut least = || (0..DISTRICTS).map(|_| turn()).fold(f64::INFINITY, f64::min);
    let times: Vec<f64> = (0..trees.div_ceil(TURN_TREES)).map(|_| least()).collect();
    assert_eq!(machine.turn(&mut sheet), Ok(Turn::Empty), "all are finished");
    println!("{name}: {trees} trees in {} turns; a plan call at {TURN_TREES} takes {:.2} ms", times.len(), call / 1e3);
    for number in [1, 100, 500, times.len()].into_iter().filter(|&number| number <= times.len()) {
        println!("  turn {number:>4}: {:>7.2} ms", times[number - 1]);
    }
    println!("  the slowest: {:>5.2} ms", times.iter().copied().fold(0.0, f64::max));
}

/// The plan call on one plan at each budget: the least time of each planner, in seconds.
fn plan_calls(planners: &[(&str, Box<dyn Planner>)], name: &str, plan: &Plan) -> Vec<Vec<f64>> {
    describe(name, plan);
    let file = file_of(plan);
    let at = |budget| {
        let counting = Counting::default();
        let answer = counting.plan_call(&file, budget, &mut vec![0; SHEET_PLACES]).expect("a good plan");
        let (tried, added) = (answer.trees, counting.added());
        println!("  budget {budget}: {tried} trees, {added} links added, cost {}, floor {}", answer.cost, answer.floor);
        let times = times(planners, &file, budget, &answer);
        let yardstick = times[0][0].as_secs_f64();
        let each = planners.iter().zip(&times).map(|((planner, _), times)| {
            let (least, most) = (times[0].as_secs_f64(), times[times.len() - 1].as_secs_f64());
            let noise = (most / least - 1.0) * 100.0;
            let (runs, ms, ratio) = (times.len(), least * 1e3, least / yardstick);
            println!("    {planner:<10} {ms:>10.3} ms, ratio {ratio:.2} ({runs} runs, the slowest {noise:.0} % above)");
            least
        });
        each.collect()
    };
    BUDGETS.map(at).to_vec()
}

/// The plan call on some plans, with the sums for each budget and for all.
fn plan_call_table(what: &str, plans: &[(String, Plan)]) {
    let planners = planners();
    let times: Vec<_> = plans.iter().map(|(name, plan)| plan_calls(&planners, name, plan)).collect();
    let sum = |at: usize, by: usize| times.iter().map(|plan| plan[at][by]).sum::<f64>();
    for (by, (planner, _)) in planners.iter().enumerate() {
        for (at, budget) in BUDGETS.iter().enumerate() {
            let (total, ratio) = (sum(at, by), sum(at, by) / sum(at, 0));
            println!("{what} at {budget}: {planner:<10} {:>10.1} ms, ratio {ratio:.2}", total * 1e3);
        }
        let all = |by| (0..BUDGETS.len()).map(|at| sum(at, by)).sum::<f64>();
        println!("{what} in total: {planner:<10} {:>10.1} ms, ratio {:.2}", all(by) * 1e3, all(by) / all(0));
    }
}

fn main() {
    let towns: Vec<_> = towns().into_iter().map(|(name, plan)| (name.to_string(), plan)).collect();
    if !std::env::args().any(|argument| argument == "plans") {
        codecs();
        pages();
        counts();
        judging();
        cars();
        one_tree(&planners());
        open_plans();
        #[cfg(feature = "proved")]
        towns.iter().chain(&slow_plans()).for_each(|(name, plan)| turns(name, plan));
    }
    plan_call_table("towns", &towns);
    plan_call_table("slow plans", &slow_plans());
}
