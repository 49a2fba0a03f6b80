//! Deep calls: numbers of rounds, random plans small and large, and files of every kind.

use super::cars::bad_files;
use super::stated::{case_d, case_e, loops, Stated};
use super::{case_a, case_c, damaged_file, random_case, Shape};
use crate::instances::towns;
use crate::oracle::{file_of, Effort};
use crate::plan::{Plan, HIGHEST_BUDGET, MOST_ROUNDS, SHEET_PLACES};
use crate::planner::{DeepCall, Planner};
use crate::properties::{
    examine_deep, examine_deep_refusal, examine_more_rounds, examine_one_round, Case, Findings, Property,
};
use crate::random::Random;

/// A call, its budget, rounds and places, and what is stated of it.
type Row = (&'static str, Plan, (u64, u32, usize), Stated);

fn rows() -> Vec<Row> {
    const SHEET: usize = 17_266;
    let a = |lent, stated| ("budget, rounds and sheet on A", case_a(), lent, stated);
    let one = Ok((8, 1, true, 1));
    vec![
        ("C, one tree in one round", case_c(), (1, 1, SHEET), Ok((14, 1, false, 3))),
        ("C, one tree, then the other", case_c(), (1, 2, SHEET), Ok((9, 2, true, 3))),
        ("C, ended in round 2", case_c(), (1, 1_000, SHEET), Ok((9, 2, true, 3))),
        ("C, two trees", case_c(), (2, 1, SHEET), Ok((9, 2, true, 3))),
        ("C, ended in round 1", case_c(), (2, 1_000, SHEET), Ok((9, 2, true, 3))),
        a((1, 1, SHEET), one),
        a((1_000_000, 1_000, SHEET), one),
        a((1, 0, SHEET), Err(23)),
        a((1, 1_001, SHEET), Err(23)),
        a((1, 1 << 16, SHEET), Err(23)),
        a((1, u32::MAX, SHEET), Err(23)),
        a((0, 1, SHEET), Err(9)),
        a((1_000_001, 1_000, SHEET), Err(9)),
        a((0, 0, SHEET), Err(9)),
        a((1_000_001, 1_001, SHEET), Err(9)),
        a((1, 1, SHEET - 1), Err(8)),
        a((1, 0, SHEET - 1), Err(8)),
        ("12", case_d(), (1, 1, SHEET), Err(12)),
        ("23 before 12", case_d(), (1, 0, SHEET), Err(23)),
        ("10", case_e(), (1, 1, SHEET), Err(10)),
        ("23 before 10", case_e(), (1, 1_001, SHEET), Err(23)),
        ("11", loops(9), (1, 1, SHEET), Err(11)),
        ("23 before 11", loops(9), (1, 0, SHEET), Err(23)),
    ]
}

fn run_stated_deep(found: &mut Findings, call: &dyn DeepCall) {
    for (what, plan, (budget, rounds, places), stated) in rows() {
        let file = file_of(&plan);
        examine_deep_refusal(found, call, &file, (budget, rounds, places));
        let told = call.deep_call(&file, budget, rounds, &mut vec![0; places]);
        let told = told.map(|a| (a.cost, a.trees, a.whole, a.parts));
        found.expect(Property::Stated, told == stated, || {
            format!("{what}, budget {budget}, {rounds} rounds, {places} places: {told:?} instead of {stated:?}")
        });
    }
    for (what, file, number) in bad_files() {
        for rounds in [1, 0] {
            let told = call.deep_call(&file, 1, rounds, &mut vec![0; SHEET_PLACES]);
            found.expect(Property::Stated, told == Err(number), || format!("{what}, {rounds} rounds: {told:?}"));
        }
    }
}

/// Holds a deep call to all of them, beside the plan call of a planner.
pub fn run_deep(found: &mut Findings, call: &dyn DeepCall, planner: &dyn Planner, seed: u64, rounds: u64) {
    run_stated_deep(found, call);
    let random = &mut Random::new(seed);
    for round in 0..100 * rounds {
        let (shape, effort): (fn(&mut Random) -> Shape, _) = match round % 10 {
            0 => (Shape::large, Effort::LIGHT),
            _ => (Shape::small, Effort::BRUTE_FORCE),
        };
        let case = random_case(seed + round, shape, &effort);
        let budget = random.pick(&[1, 1, 1, 2, 3, 5, 20, 1_000]);
        let many = random.pick(&[1, 2, 3, 4, 5, 6, 7, 9, 11, 13, 17, 30]);
        let few = random.within(1..=many as usize) as u32;
        examine_deep(found, call, planner, &case, (budget, many));
        examine_one_round(found, call, planner, &case.file, (budget, SHEET_PLACES));
        examine_more_rounds(found, call, &case.file, budget, (few, many));

        let budget = random.pick(&[1, 1, 1, 1, 2, 0, HIGHEST_BUDGET + 1, u64::MAX]);
        let rounds = random.pick(&[1, 1, 1, 3, 0, MOST_ROUNDS + 1, u32::MAX]);
        let places = SHEET_PLACES - random.pick(&[0, 0, 0, 0, 0, 1, SHEET_PLACES]);
        examine_deep_refusal(found, call, &case.file, (budget, rounds, places));
        let damaged = damaged_file(random);
        examine_deep_refusal(found, call, &damaged, (budget, rounds, places));
        examine_one_round(found, call, planner, &damaged, (budget, places));
    }
}

/// The benchmark's plans, and on the first of them as many rounds as there may be.
pub fn run_deep_towns(found: &mut Findings, call: &dyn DeepCall, planner: &dyn Planner) {
    let cases: Vec<Case> = towns().iter().map(|(_, plan)| Case::new(plan, &Effort::LIGHT)).collect();
    for case in &cases {
        examine_deep(found, call, planner, case, (1_000, 20));
        examine_more_rounds(found, call, &case.file, 1_000, (12, 20));
    }
    examine_deep(found, call, planner, &cases[0], (1, MOST_ROUNDS));
}
