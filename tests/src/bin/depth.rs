//! How near floor and cost come: `cargo run --release --bin depth [--features proved]`.
//!
//! On plans that the plan call at 1,000,000 trees leaves open: drawn towns of 49 to 64 crossings with seven and eight parts, other seeds of the benchmark's
//! town, the benchmark's own plans, and those that are kept. For each set it prints the mean distance of floor and cost in percent, and how many are
//! closed, by the plan call and by deep calls. `SEED=…` draws other plans: the numbers of the rounds were chosen on those of seeds 1,000 to 12,100.
//! The plain planner tries the trees of a search that is gone on with again, so it is slow here. Where a deep call would take longer than a minute, the answer with fewer rounds stands.

use postman_tests::instances::{drawn_city, town, towns};
use postman_tests::oracle::{call_refusal, file_of};
use postman_tests::plan::{Plan, HIGHEST_BUDGET, SHEET_PLACES};
use postman_tests::planner::{Answer, DeepCall, Planner};
use postman_tests::random::{setting, Random};
use std::time::Instant;

#[cfg(feature = "proved")]
use postman_tests::planner::Proved as Measured;
#[cfg(not(feature = "proved"))]
use postman_tests::yardstick::Yardstick as Measured;

const DRAWN: usize = 38;
const ROUNDS: [u32; 4] = [10, 100, 300, 1_000];
const LONGEST: f64 = 60.0;

/// The plan call at the highest budget.
fn plain(file: &[u8]) -> Answer {
    Measured.plan_call(file, HIGHEST_BUDGET, &mut vec![0; SHEET_PLACES]).expect("a good plan")
}

fn is_open(file: &[u8]) -> bool {
    call_refusal(file, 1, SHEET_PLACES) == 0 && {
        let answer = plain(file);
        answer.cost > answer.floor
    }
}

/// Drawn plans that are left open, with as many parts as are asked for.
fn drawn(make: impl Fn(&mut Random) -> Plan) -> Vec<Vec<u8>> {
    let files = (setting("SEED", 700_000)..).map(|seed| file_of(&make(&mut Random::new(seed))));
    files.filter(|file| is_open(file) && plain(file).parts >= 7).take(DRAWN).collect()
}

fn kept() -> Vec<Vec<u8>> {
    let folder = concat!(env!("CARGO_MANIFEST_DIR"), "/plans");
    let files = std::fs::read_dir(folder).expect("a folder of plans").map(|entry| entry.expect("an entry").path());
    files.map(|path| std::fs::read(path).expect("a plan file")).filter(|file| is_open(file)).collect()
}

/// What the plan call and each deep call answer, and the seconds that the deep calls took.
fn answers(call: &dyn DeepCall, file: &[u8]) -> ([Answer; ROUNDS.len() + 1], f64) {
    let mut answers = [(); ROUNDS.len() + 1].map(|_| plain(file));
    let (mut seconds, mut before) = (0.0, 1);
    for (k, rounds) in ROUNDS.into_iter().enumerate() {
        answers[k + 1] = answers[k].clone();
        let is_met = answers[k].cost == answers[k].floor;
        if is_met || seconds * f64::from(rounds / before) > LONGEST {
            continue;
        }
        let start = Instant::now();
        let told = call.deep_call(file, HIGHEST_BUDGET, rounds, &mut vec![0; SHEET_PLACES]);
        answers[k + 1] = told.expect("a good plan");
        (seconds, before) = (start.elapsed().as_secs_f64(), rounds);
    }
    (answers, seconds)
}

fn report(call: &dyn DeepCall, name: &str, files: &[Vec<u8>]) {
    let all: Vec<_> = files.iter().map(|file| answers(call, file)).collect();
    println!("{name}, {} left open by the plan call at {HIGHEST_BUDGET}:", files.len());
    for k in 0..=ROUNDS.len() {
        let gap = |answer: &Answer| (answer.cost - answer.floor) as f64 / answer.cost as f64 * 100.0;
        let mean = all.iter().map(|(answers, _)| gap(&answers[k])).sum::<f64>() / all.len() as f64;
        let closed = all.iter().filter(|(answers, _)| answers[k].cost == answers[k].floor).count();
        let call = if k == 0 { "plan call".to_string() } else { format!("{} rounds", ROUNDS[k - 1]) };
        println!("  {call:>12}: {mean:.3} %, {closed} closed");
    }
    let longest = all.iter().map(|&(_, seconds)| seconds).fold(0.0, f64::max);
    println!("  the longest of the last calls took {longest:.2} s");
}

fn main() {
    let call: Box<dyn DeepCall> = Box::new(Measured);
    let city = |random: &mut Random| {
        let (side, parts) = (random.within(7..=8), random.within(7..=8));
        drawn_city(random, side, parts)
    };
    report(&*call, "drawn towns", &drawn(city));
    report(&*call, "the benchmark's town, other seeds", &drawn(town));
    let own: Vec<_> = towns().iter().map(|(_, plan)| file_of(plan)).filter(|file| is_open(file)).collect();
    report(&*call, "the benchmark's plans", &own);
    report(&*call, "plans that are kept", &kept());
}
