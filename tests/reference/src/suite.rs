//! The suite: what every planner is put through.

mod answers;
mod cars;
mod counts;
mod deep;
mod departures;
mod districts;
mod editing;
mod editions;
mod faults;
mod judging;
mod layout;
mod matrices;
mod pages;
mod stated;
mod tables;

pub use cars::run_cars;
pub use counts::{run_count, run_counts};
pub use deep::{run_deep, run_deep_towns};
pub use departures::run_departures;
pub use districts::{district_cases, run_districts, run_stated_districts};
pub use editing::run_editing;
pub use editions::{run_stated_codec, FILE_A_CHECKED};
pub use judging::{run_lists, run_stated_lists};
pub use layout::{refused_files, spelt_files};
pub use matrices::matrices;
pub use pages::run_pages;
pub use stated::{case_a, case_b, case_c, run_stated, FILE_A};
pub use tables::tables;

use crate::instances::{
    bound_choices, checked, chorded_ring, damaged, dead_ends, free_circles, free_ring, fullest, funnel, longest,
    loops_at_one, many_paths, one_way, random_bytes, random_plan, ties, towns, Shape,
};
use crate::oracle::{file_of, Effort};
use crate::plan::{Arc, Plan, DEFAULT_BUDGET, HIGHEST_BUDGET, LONGEST_FILE, REQUIRED, SHEET_PLACES};
use crate::planner::{Codec, Planner};
use crate::properties::{
    examine_answer, examine_checking, examine_codec, examine_raised, examine_refusal, examine_writing, Case, Findings,
};
use crate::random::Random;

/// Random plans, each from a seed of its own.
pub fn random_cases(seed: u64, count: u64, shape: fn(&mut Random) -> Shape, effort: &Effort) -> Vec<Case> {
    (0..count).map(|i| random_case(seed + i, shape, effort)).collect()
}

pub fn random_case(seed: u64, shape: fn(&mut Random) -> Shape, effort: &Effort) -> Case {
    let random = &mut Random::new(seed);
    let shape = shape(random);
    Case::new(&random_plan(random, &shape), effort)
}

/// The plan call on a case: the budgets that its N suggests, and the short call's; then pairs of budgets.
pub fn run_case(found: &mut Findings, planner: &dyn Planner, case: &Case, few: u64) {
    let mut budgets = case.budgets(few);
    for &budget in &budgets {
        examine_answer(found, planner, case, budget);
    }
    budgets.sort_unstable();
    let (middle, last) = (budgets.len() / 2, budgets.len() - 1);
    for (low, high) in [(0, middle), (middle, last), (0, last)] {
        examine_raised(found, planner, case, budgets[low], budgets[high]);
    }
    // Where there are many more trees than were enumerated, this is also the long run.
    examine_answer(found, planner, case, DEFAULT_BUDGET);
    for budget in [1, few] {
        examine_checking(found, planner, case, budget);
    }
}

/// Plans whose required arcs are passed again.
pub fn funnels(count: u64) -> impl Iterator<Item = Case> {
    (1..=count).map(|seed| Case::new(&funnel(&mut Random::new(seed)), &Effort::BRUTE_FORCE))
}

/// Plans of many equal paths.
pub fn equal_paths(count: u64) -> impl Iterator<Item = Case> {
    (1..=count).map(|seed| Case::new(&many_paths(&mut Random::new(seed)), &Effort::LIGHT))
}

/// Plans that chance would hardly make.
pub fn fixed_cases() -> Vec<Case> {
    let mut cases = Vec::new();
    for plan in [fullest(), longest()] {
        cases.push(Case::new(&plan, &Effort::LIGHT));
        // below the costs, and above them where there is room for that
        cases.push(Case::new(&checked(plan.clone(), |k, _| 1 + k as u16), &Effort::LIGHT));
        cases.push(Case::new(&checked(plan, |_, _| 65_535), &Effort::LIGHT));
    }
    cases.extend((1..=20).map(|seed| Case::new(&dead_ends(&mut Random::new(seed), 3, 2), &Effort::BRUTE_FORCE)));
    cases.extend(funnels(300));
    cases.extend((1..=8).map(|n| Case::new(&free_circles(n), &Effort::BRUTE_FORCE)));
    cases.extend([2, 3, 5, 8, 12].map(|n| Case::new(&free_ring(n), &Effort::BRUTE_FORCE)));
    cases.extend(equal_paths(300));
    let worked = [bound_choices(), chorded_ring(), loops_at_one(), one_way(), ties()];
    cases.extend(worked.iter().map(|plan| Case::new(plan, &Effort::LIGHT)));
    cases.extend(matrices().iter().map(|(plan, _)| Case::new(plan, &Effort::LIGHT)));
    cases.extend(towns().iter().map(|(_, plan)| Case::new(plan, &Effort::LIGHT)));
    cases
}

/// Files of every length up to more than the longest: random bytes, a good file of each edition cut or lengthened, and damaged ones; with good and
/// bad sheets and budgets.
pub fn run_files(found: &mut Findings, planner: &dyn Planner, seed: u64, rounds: u64) {
    let random = &mut Random::new(seed);
    let good = fullest_files();
    for _ in 0..rounds {
        for length in 0..=LONGEST_FILE + 25 {
            for file in files_around(random, &good, length) {
                let budget = random.pick(&[1, 1, 1, 1, 1, 2, HIGHEST_BUDGET, 0, HIGHEST_BUDGET + 1, u64::MAX]);
                let places = SHEET_PLACES - random.pick(&[0, 0, 0, 0, 0, 0, 0, 1, 2, SHEET_PLACES]);
                // A million trees are for the benchmark.
                let budget = if budget == HIGHEST_BUDGET && file.len() > 40 { 3 } else { budget };
                examine_refusal(found, planner, &file, budget, places);
            }
        }
    }
}

/// The longest files of both editions.
fn fullest_files() -> [Vec<u8>; 2] {
    [file_of(&fullest()), file_of(&checked(fullest(), |k, cost| cost - k as u16))]
}

/// Random bytes and a good file, both of this length, and a damaged file of any.
fn files_around(random: &mut Random, good: &[Vec<u8>; 2], length: usize) -> [Vec<u8>; 3] {
    let mut cut = good[random.below(2)].clone();
    cut.resize(length, 0);
    [random_bytes(random, length), cut, damaged_file(random)]
}

fn damaged_file(random: &mut Random) -> Vec<u8> {
    const SHAPES: [fn(&mut Random) -> Shape; 4] = [Shape::small, Shape::small, Shape::scattered, Shape::large];
    let shape = random.pick(&SHAPES)(random);
    let plan = random_plan(random, &shape);
    damaged(random, &plan)
}

/// Reading and writing: files of every length, damaged ones, every room, and records and editions that no file can hold.
pub fn run_codec(found: &mut Findings, codec: &dyn Codec, seed: u64, rounds: u64) {
    let random = &mut Random::new(seed);
    let good = fullest_files();
    for _ in 0..rounds {
        for length in 0..=LONGEST_FILE + 25 {
            for file in files_around(random, &good, length) {
                let m = file.len() * 8 / random.pick(&[30, 46]);
                let room = random.pick(&[256, 300, m, m.saturating_sub(1), m.saturating_sub(2), 0]);
                let near = [file.len() + 2, file.len(), file.len().saturating_sub(1)];
                let bytes = random.pick(&[LONGEST_FILE, 1_500, near[0], near[1], near[2], 0]);
                examine_codec(found, codec, &file, room, bytes);
            }
            let bytes = random.pick(&[LONGEST_FILE, 1_500, LONGEST_FILE - 1, 963, 962, 20, 9, 7, 6]);
            let plan = random_records(random);
            examine_writing(found, codec, &plan, bytes);
        }
    }
}

/// Records that are good for an edition and n, if these are, but for one field of one record, at times, or for two that agree, or differ in one
/// field alone.
fn random_records(random: &mut Random) -> Plan {
    let edition = random.pick(&[1, 1, 1, 2, 2, 2, 0, 3, 15, 18, 255]);
    let n: usize = random.pick(&[1, 2, 63, 64, 64, 64, 65, 0, 127, 128, 256, u32::MAX as usize]);
    let m = random.pick(&[0, 1, 2, 3, 4, 5, 255, 256, 257, 300]);
    let any_cost = |random: &mut Random| random.within(1..=65_535) as u16;
    let vertex = |random: &mut Random| random.below(n.clamp(1, 64));
    let record = |random: &mut Random| {
        let standing = random.below(3) as u8;
        let cost = if standing != REQUIRED && random.once_in(3) { 0 } else { any_cost(random) };
        Arc::new(vertex(random), vertex(random), standing, cost)
    };
    let mut plan = Plan { edition, n, arcs: (0..m).map(|_| record(random)).collect() };
    if edition == 2 {
        plan = checked(plan, |_, _| any_cost(random));
    }
    if m > 0 {
        spoil(random, &mut plan.arcs);
    }
    plan
}

/// Puts one wrong thing, or nothing, into a list of records.
fn spoil(random: &mut Random, arcs: &mut [Arc]) {
    let byte = random.bits() as u8;
    let (k, twin) = (random.below(arcs.len()), random.pick(arcs));
    let arc = &mut arcs[k];
    match random.below(14) {
        0 => arc.tail = byte,
        1 => arc.head = byte,
        2 => arc.standing = byte,
        3 => *arc = Arc { standing: byte, checking: 0, ..*arc },
        4 => arc.cost = 0,
        5 => arc.checking = 0,
        6 => arc.checking = random.pick(&[1, arc.cost, arc.cost ^ 1, 65_535]),
        7 | 8 => *arc = twin,
        9 => {
            let standing = (twin.standing + 1) % 3;
            *arc = Arc::new(twin.tail.into(), twin.head.into(), standing, twin.cost);
        }
        10 => *arc = Arc { checking: twin.checking ^ 1, ..twin },
        _ => {}
    }
}
