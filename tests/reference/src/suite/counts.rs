//! Numbers of trees.

use super::{case_a, case_b, case_c, files_around, fullest_files, random_case};
use crate::instances::{
    bound_choices, crossing, even, free_circles, fullest, joined, one_above, star, towns, Entries, Shape, HIGHEST_COUNT,
};
use crate::oracle::{file_of, Effort};
use crate::plan::{Plan, LONGEST_FILE};
use crate::planner::{Counter, Planner, TreeCount};
use crate::properties::{examine_count, examine_whole, Findings, Property};
use crate::random::Random;

/// Parts 1 and 2 are entered from part 0 alone, and each later part from the one before it and once from part 0.
fn entered_late() -> Entries {
    let mut entries = star([3, 2, 1, 1, 1, 1, 1]);
    (3..8).for_each(|q| entries[q][q - 1] = q);
    entries
}

/// Plans whose number of trees is stated.
fn stated() -> Vec<(&'static str, Plan, TreeCount)> {
    use TreeCount::{Above, Known};
    let mut one_below = star([32, 32, 32, 32, 16, 16, 16]);
    one_below[7][0] = 15;
    vec![
        ("A, one part", case_a(), Known(1)),
        ("B", case_b(), Known(1)),
        ("C", case_c(), Known(2)),
        ("free arcs between all", free_circles(3), Known(1)),
        ("low choices bind", bound_choices(), Known(3)),
        ("one part, all arcs", fullest(), Known(1)),
        ("the highest number", joined(&HIGHEST_COUNT), Known(4_294_967_295)),
        ("one above it", joined(&one_above()), Above),
        ("sixteenths less", joined(&one_below), Known(4_026_531_840)),
        ("most are entered from the one before them", joined(&entered_late()), Known(3 * 2 * 4 * 5 * 6 * 7 * 8)),
        ("one entry each way", joined(&even(1)), Known(8u32.pow(6))),
        ("the most that are known", crossing(), Above),
        ("three entries each way", joined(&even(3)), Known(573_308_928)),
    ]
}

/// Holds a count to the stated numbers, to towns, to random plans, and to files of every length.
pub fn run_counts(found: &mut Findings, counter: &dyn Counter, seed: u64, rounds: u64) {
    for (what, plan, number) in stated() {
        let told = counter.tree_count(&file_of(&plan));
        found.expect(Property::TreeCount, told == Ok(number), || format!("{what}: {told:?} instead of {number:?}"));
        examine_count(found, counter, &file_of(&plan));
    }
    for (_, plan) in towns() {
        examine_count(found, counter, &file_of(&plan));
    }
    let random = &mut Random::new(seed);
    let good = fullest_files();
    for _ in 0..rounds {
        for length in 0..=LONGEST_FILE + 25 {
            for file in files_around(random, &good, length) {
                examine_count(found, counter, &file);
            }
        }
    }
}

/// One random plan: its number, and that whole is told by it.
pub fn run_count(
    found: &mut Findings,
    counter: &dyn Counter,
    planner: &dyn Planner,
    seed: u64,
    shape: fn(&mut Random) -> Shape,
) {
    let case = random_case(seed, shape, &Effort::LIGHT);
    examine_count(found, counter, &case.file);
    examine_whole(found, planner, counter, &case, 6);
}
