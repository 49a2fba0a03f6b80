//! Districts in turn: stated runs of a machine, and random ones of some hundred entries and turns.

use super::{cars, damaged_file, random_case, stated};
use crate::instances::{joined, joined_loops, star, towns, Shape};
use crate::oracle::Effort;
use crate::plan::{HIGHEST_BUDGET, SHEET_PLACES};
use crate::planner::{Districts, Planner, Refusal, Turn};
use crate::properties::{examine_districts, examine_misplaced, Case, Findings, Property, Request, Told};
use crate::random::Random;

// The cases that districts enter with, by number: first those of the stated runs.

/// Plans of so many trees: around what one turn tries, and two.
const TREES: [u64; 5] = [1, 999, 1_000, 1_001, 2_000];
const ENTRIES: [[usize; 7]; 5] =
    [[1; 7], [27, 37, 1, 1, 1, 1, 1], [10, 10, 10, 1, 1, 1, 1], [7, 11, 13, 1, 1, 1, 1], [20, 10, 10, 1, 1, 1, 1]];

/// One tree.
const SINGLE: usize = 0;

/// Must loops joined all to all, six to eight of them: 1,296, 16,807 and 262,144 trees.
const LOOPS: std::ops::Range<usize> = 5..8;
const MANY: usize = 6;

/// Files that are refused.
const REFUSED: usize = 8;

/// Each with its number.
fn refused_files() -> Vec<(Vec<u8>, Refusal)> {
    let files = cars::bad_files().into_iter().map(|(_, file, number)| (file, number));
    let plans = stated::cases().into_iter().filter_map(|row| match row.stated {
        Err(number @ 10..=12) => Some((row.file, number)),
        _ => None,
    });
    files.chain(plans).collect()
}

/// The plans and files that districts enter with, and what is known of them.
pub fn district_cases(seed: u64) -> Vec<Case> {
    let effort = Effort { choices: 40_000, trees: 3_000, states: 0 };
    let random = &mut Random::new(seed);
    let mut cases: Vec<Case> = ENTRIES.iter().map(|&entries| Case::new(&joined(&star(entries)), &effort)).collect();
    cases.extend(LOOPS.map(|case| Case::new(&joined_loops(random, case + 1), &effort)));
    cases.extend(refused_files().into_iter().map(|(file, _)| Case::of_file(file, &effort)));
    cases.extend(towns().iter().map(|(_, plan)| Case::new(plan, &Effort::LIGHT)));
    cases.extend((seed..seed + 8).map(|seed| Case::new(&joined_loops(&mut Random::new(seed), 7), &effort)));
    cases.extend((seed..seed + 10).map(|seed| random_case(seed, Shape::small, &effort)));
    cases.extend((seed..seed + 10).map(|seed| random_case(seed, Shape::large, &Effort::LIGHT)));
    cases.extend((0..6).map(|_| Case::of_file(damaged_file(random), &Effort::LIGHT)));
    cases
}

/// What is stated of a call: the place of an entry; the place of a turn, and the trees that it tells; or the refusal.
#[derive(Clone, Copy, PartialEq, Eq, Debug)]
enum Stated {
    At(u8),
    GoesOn(u8, u64),
    Finishes(u8, u64),
    Empty,
    Refused(Refusal),
}
use Request::Enter;
use Stated::{At, Empty, Finishes, GoesOn, Refused};

fn stated_of(told: &Told) -> Stated {
    match told {
        Told::Entry(Ok(place)) => At(*place),
        Told::Turn(Ok(Turn::Unfinished { place, trees, .. }), _) => GoesOn(*place, *trees),
        Told::Turn(Ok(Turn::Finished { place, answer }), _) => Finishes(*place, answer.trees),
        Told::Turn(Ok(Turn::Empty), _) => Empty,
        Told::Entry(Err(number)) | Told::Turn(Err(number), _) => Refused(*number),
    }
}

/// The calls of a run, each with what is stated of it.
type Run = Vec<(Request, Stated)>;

const TURN: Request = Request::Turn(SHEET_PLACES);
const SHORT: Request = Request::Turn(SHEET_PLACES - 1);

/// One district alone, from its entry to the empty machine.
fn alone(case: usize, budget: u64, trees: u64) -> Run {
    let between = (1..trees.div_ceil(1_000)).map(|turn| (TURN, GoesOn(0, 1_000 * turn)));
    let entry = (Enter(case, budget), At(0));
    [entry].into_iter().chain(between).chain([(TURN, Finishes(0, trees)), (TURN, Empty)]).collect()
}

/// T by the number of trees and by the budget, around what one turn tries, and two.
fn totals() -> Vec<(&'static str, Run)> {
    let mut runs = vec![("all trees of six loops", alone(LOOPS.start, 2_000, 1_296))];
    for (case, trees) in TREES.into_iter().enumerate() {
        runs.push(("N is below the budget", alone(case, HIGHEST_BUDGET, trees)));
        runs.push(("N is one below the budget", alone(case, trees + 1, trees)));
        runs.push(("N is the budget", alone(case, trees, trees)));
        runs.push(("N is above the budget", alone(MANY, trees, trees)));
    }
    runs
}

/// The line of eight, and a ninth.
fn full() -> Run {
    let entries = (0..8).map(|place| (Enter(MANY, 1_001), At(place)));
    let ninth = (Enter(MANY, 1_001), Refused(22));
    let before_22 = refused_files().into_iter().enumerate().map(|(k, (_, n))| (Enter(REFUSED + k, 1), Refused(n)));
    let first = (0..8).map(|place| (TURN, GoesOn(place, 1_000)));
    let mut run: Run = entries.chain([ninth]).chain(before_22).collect();
    run.extend([(Enter(MANY, 0), Refused(9)), (Enter(MANY, HIGHEST_BUDGET + 1), Refused(9))]);
    run.extend([(SHORT, Refused(8)), ninth].into_iter().chain(first));
    run.extend([ninth, (TURN, Finishes(0, 1_001)), (Enter(SINGLE, 5), At(0)), ninth]);
    run.extend((1..8).map(|place| (TURN, Finishes(place, 1_001))));
    run.extend([(TURN, Finishes(0, 1)), (SHORT, Empty), (Enter(SINGLE, 5), At(0))]);
    run
}

/// Nobody is inside, before and after.
fn empty() -> Run {
    let nobody = [(TURN, Empty), (SHORT, Empty), (Request::Turn(0), Empty)];
    let inside = [(Enter(SINGLE, 1), At(0)), (SHORT, Refused(8)), (TURN, Finishes(0, 1))];
    nobody.into_iter().chain(inside).chain(nobody).chain(inside).collect()
}

/// Places are freed out of order and taken again, the lowest first.
fn freed() -> Run {
    let long = |place| (Enter(MANY, 3_000), At(place));
    let short = |place| (Enter(SINGLE, 1), At(place));
    let leaves = |place| (TURN, Finishes(place, 1));
    let mut run = vec![short(0), long(1), short(2), long(3), leaves(0), (TURN, GoesOn(1, 1_000)), leaves(2)];
    // the line: 3, 1
    run.extend([short(0), long(2), (TURN, GoesOn(3, 1_000)), (TURN, GoesOn(1, 2_000)), leaves(0), short(0), short(4)]);
    // 2, 3, 1, 0, 4
    run.extend([(TURN, GoesOn(2, 1_000)), (TURN, GoesOn(3, 2_000)), (TURN, Finishes(1, 3_000)), long(1)]);
    // 0, 4, 2, 3, 1
    run.extend([leaves(0), leaves(4), (TURN, GoesOn(2, 2_000)), (TURN, Finishes(3, 3_000)), short(0), short(3)]);
    run
}

/// An entrant stands behind one that has had its turn.
fn behind() -> Run {
    let long = |place| (Enter(MANY, 2_500), At(place));
    let one = vec![long(0), (TURN, GoesOn(0, 1_000)), long(1), (TURN, GoesOn(0, 2_000)), long(2)];
    let others = [(TURN, GoesOn(1, 1_000)), (TURN, Finishes(0, 2_500)), (TURN, GoesOn(2, 1_000))];
    let rest = [(1, false), (2, false), (1, true), (2, true)];
    let rest = rest.map(|(p, last)| (TURN, if last { Finishes(p, 2_500) } else { GoesOn(p, 2_000) }));
    one.into_iter().chain(others).chain(rest).collect()
}

/// Short sheets and refused entries stand before each call of a run.
fn disturbed(run: Run) -> Run {
    let refused = refused_files();
    let mut disturbed = vec![];
    for (number, call) in run.into_iter().enumerate() {
        let (k, budget) = (number % refused.len(), [0, HIGHEST_BUDGET + 1, 1 << 32, 1 << 32 | 1, u64::MAX][number % 5]);
        disturbed.extend([(Enter(REFUSED + k, 1), Refused(refused[k].1)), (Enter(MANY, budget), Refused(9))]);
        // the first call finds the machine empty
        disturbed.push((SHORT, if number == 0 { Empty } else { Refused(8) }));
        disturbed.push(call);
    }
    disturbed
}

pub fn run_stated_districts(found: &mut Findings, districts: &dyn Districts, callee: &dyn Planner, cases: &[Case]) {
    examine_misplaced(found, districts, &cases[MANY], 3_000);
    let mut runs = totals();
    runs.extend([("eight and a ninth", full()), ("nobody inside", empty()), ("places freed", freed())]);
    runs.extend([("behind", behind()), ("behind, disturbed", disturbed(behind()))]);
    runs.push(("places freed, disturbed", disturbed(freed())));
    for (what, run) in runs {
        let requests: Vec<Request> = run.iter().map(|(request, _)| *request).collect();
        let told = examine_districts(found, districts, callee, cases, &requests);
        let told: Vec<Stated> = told.iter().map(stated_of).collect();
        let stated: Vec<Stated> = run.iter().map(|(_, stated)| *stated).collect();
        found.expect(Property::Stated, told == stated, || format!("{what}: {told:?} instead of {stated:?}"));
    }
}

/// Entries and turns, of which so many in ten are entries. Some entries are refused, and some sheets are short or longer than need be.
fn random_requests(random: &mut Random, cases: &[Case], entries: usize, count: usize) -> Vec<Request> {
    let good: Vec<usize> = (0..cases.len()).filter(|&case| cases[case].facts.is_ok()).collect();
    let budgets = [1, 2, 500, 999, 1_000, 1_001, 1_999, 2_000, 2_001, 3_500, 9_001, HIGHEST_BUDGET];
    let request = |_| {
        if random.below(10) >= entries {
            let other = random.pick(&[0, 1, SHEET_PLACES - 1, SHEET_PLACES + 1, SHEET_PLACES + 40]);
            return Request::Turn(if random.once_in(6) { other } else { SHEET_PLACES });
        }
        let case = if random.once_in(6) { random.below(cases.len()) } else { random.pick(&good) };
        let bad = [0, HIGHEST_BUDGET + 1, 1 << 32 | 1, u64::MAX];
        Enter(case, if random.once_in(20) { random.pick(&bad) } else { random.pick(&budgets) })
    };
    (0..count).map(request).collect()
}

/// Random runs: in some the machine is nearly empty at all times, in others full.
pub fn run_districts(
    found: &mut Findings,
    districts: &dyn Districts,
    callee: &dyn Planner,
    cases: &[Case],
    seed: u64,
    rounds: u64,
) {
    let random = &mut Random::new(seed);
    for _ in 0..rounds {
        for entries in [2, 3, 4, 6] {
            let requests = random_requests(random, cases, entries, 120);
            examine_districts(found, districts, callee, cases, &requests);
        }
    }
}
