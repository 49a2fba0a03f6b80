//! Two cars: what a car can be told, beside each of these for the other; random marks on random plans, and files of every kind.

use super::stated::Stated;
use super::{case_c, damaged_file, Shape};
use crate::instances::random_plan;
use crate::oracle::{file_of, own_marks, Effort};
use crate::plan::{Arc, Plan, CLOSED, HIGHEST_BUDGET, OPTIONAL, REQUIRED, SHEET_PLACES};
use crate::planner::{Answer, CarsCall, Planner, Refusal};
use crate::properties::{examine_alone, examine_car, examine_cars, examine_own_marks, Brought, Findings, Property};
use crate::random::Random;

/// Marks that are good but for what they hold, a budget of one tree, and a sheet.
fn bring(marks: Vec<u8>) -> Brought {
    Brought { marks, budget: 1, places: SHEET_PLACES }
}

/// Marks on some of m arcs.
fn marks_on(m: usize, arcs: &[usize]) -> Vec<u8> {
    (0..m).map(|k| u8::from(arcs.contains(&k))).collect()
}

/// A street that is slow to check, two ways back, of which one is free, a closed street, a dead end, and a loop at each vertex.
fn streets() -> Plan {
    let ways = [Arc::checked(0, 1, 5, 9), Arc::new(1, 0, OPTIONAL, 3), Arc::new(1, 0, OPTIONAL, 0)];
    let others = [Arc::new(0, 1, CLOSED, 1), Arc::new(0, 2, OPTIONAL, 2)];
    let loops = (0..9).map(|v| Arc::new(v, v, OPTIONAL, 1));
    Plan { edition: 2, n: 9, arcs: ways.into_iter().chain(others).chain(loops).collect() }
}

const WAY: usize = 0;
const BACK: usize = 1;
const FREE: usize = 2;
const SHUT: usize = 3;
const DEAD_END: usize = 4;
const LOOPS: std::ops::Range<usize> = 5..14;
const STREETS: usize = 14;

/// What a car can bring to the streets, and what it is told then.
fn ways() -> Vec<(&'static str, Brought, Stated)> {
    let on = |arcs: &[usize]| bring(marks_on(STREETS, arcs));
    let with = |k: usize, mark: u8, arcs: &[usize]| {
        let mut brought = on(arcs);
        brought.marks[k] = mark;
        brought
    };
    let loops: Vec<usize> = LOOPS.collect();
    let one_short = bring(marks_on(STREETS - 1, &[WAY]));
    let bad = with(BACK, 2, &[]);
    let one_tree = |cost, parts| Ok((cost, 1, true, parts));
    vec![
        ("the plan's own marks: checked at 9, and back for nothing", on(&[WAY]), one_tree(9, 1)),
        ("a plain arc, at its cost; the must arc is passed at 5", on(&[BACK]), one_tree(8, 1)),
        ("a free arc, checked at 0", on(&[FREE]), one_tree(5, 1)),
        ("the must arc and the free one", on(&[WAY, FREE]), one_tree(9, 1)),
        ("the must arc is passed again at 5", on(&[WAY, BACK, FREE]), one_tree(17, 1)),
        ("a loop", on(&loops[..1]), one_tree(1, 1)),
        ("two loops, one way there", on(&loops[..2]), one_tree(7, 2)),
        ("no mark", on(&[]), Err(10)),
        ("nine parts", on(&loops), Err(11)),
        ("eight parts", on(&loops[1..]), Err(12)),
        ("no way back", on(&[DEAD_END]), Err(12)),
        ("m - 1 marks", one_short.clone(), Err(18)),
        ("m + 1 marks", bring(marks_on(STREETS + 1, &[WAY])), Err(18)),
        ("m - 1 marks of 0", bring(marks_on(STREETS - 1, &[])), Err(18)),
        ("m + 1 marks of 0", bring(marks_on(STREETS + 1, &[])), Err(18)),
        ("no list of marks", bring(vec![]), Err(18)),
        ("256 times as many marks", bring(marks_on(STREETS * 256, &[WAY])), Err(18)),
        ("a mark of 2", with(BACK, 2, &[WAY]), Err(18)),
        ("a mark of 2 alone: 18 before 10", bad.clone(), Err(18)),
        ("the last mark is 255", with(STREETS - 1, 255, &[WAY]), Err(18)),
        ("the closed arc is marked", on(&[WAY, SHUT]), Err(18)),
        ("the closed arc alone", on(&[SHUT]), Err(18)),
        ("a mark of 2 on the closed arc", with(SHUT, 2, &[WAY]), Err(18)),
        ("18 before 11", with(SHUT, 1, &loops), Err(18)),
        ("18 before 12", with(SHUT, 1, &[DEAD_END]), Err(18)),
        ("the highest budget", Brought { budget: HIGHEST_BUDGET, ..on(&[WAY]) }, one_tree(9, 1)),
        ("budget 0", Brought { budget: 0, ..on(&[WAY]) }, Err(9)),
        ("a budget above the highest", Brought { budget: HIGHEST_BUDGET + 1, ..on(&[WAY]) }, Err(9)),
        ("9 before 18", Brought { budget: 0, ..bad.clone() }, Err(9)),
        ("9 before 10", Brought { budget: 0, ..on(&[]) }, Err(9)),
        ("a place short", Brought { places: SHEET_PLACES - 1, ..on(&[WAY]) }, Err(8)),
        ("no place", Brought { places: 0, ..on(&[WAY]) }, Err(8)),
        ("8 before 9 and 18", Brought { places: SHEET_PLACES - 1, budget: 0, ..one_short }, Err(8)),
        ("8 before 18", Brought { places: SHEET_PLACES - 1, ..bad }, Err(8)),
        ("8 before 10", Brought { places: SHEET_PLACES - 1, ..on(&[]) }, Err(8)),
    ]
}

/// Two cars on other plans.
fn pairs() -> Vec<(&'static str, Plan, [Brought; 2], [Stated; 2])> {
    let at = |marks: &[u8], budget| Brought { budget, ..bring(marks.to_vec()) };
    let own = own_marks(&case_c());
    let first_loop = marks_on(own.len(), &[0]);
    let all = Ok((9, 2, true, 3));

    // A loop at each vertex of a ring: sixteen parts, eight for each car.
    let ring = (0..16).map(|v| Arc::new(v, (v + 1) % 16, OPTIONAL, 1));
    let loops = (0..16).map(|v| Arc::new(v, v, OPTIONAL, 1));
    let round = Plan::new(16, loops.chain(ring).collect());
    let half = |from: usize| bring(marks_on(32, &(from..from + 8).collect::<Vec<usize>>()));
    let eight = Ok((24, 1, true, 8));

    // Marked both, the first two arcs agree in all their fields.
    let street = |standing| Arc::new(0, 1, standing, 5);
    let twins = Plan::new(2, vec![street(REQUIRED), street(OPTIONAL), Arc::new(1, 0, OPTIONAL, 3)]);
    let [one, both] = [&[1, 0, 0], &[1, 1, 0]].map(|marks| bring(marks.to_vec()));
    vec![
        ("a budget each", case_c(), [at(&own, 1), at(&own, 2)], [Ok((14, 1, false, 3)), all]),
        ("a budget each, turned round", case_c(), [at(&own, 2), at(&own, 1)], [all, Ok((14, 1, false, 3))]),
        ("parts each", case_c(), [at(&first_loop, 1), at(&own, 2)], [Ok((1, 1, true, 1)), all]),
        ("eight parts each", round, [half(0), half(8)], [eight, eight]),
        ("equal arcs by marks", twins, [one, both], [Ok((8, 1, true, 1)), Ok((16, 1, true, 1))]),
    ]
}

/// Files that are refused, whatever the cars bring.
pub(super) fn bad_files() -> Vec<(&'static str, Vec<u8>, Refusal)> {
    let file = file_of(&streets());
    let with = |change: fn(&mut Plan)| {
        let mut plan = streets();
        change(&mut plan);
        file_of(&plan)
    };
    vec![
        ("1", file[..2].to_vec(), 1),
        ("1 for the length", file[..file.len() - 1].to_vec(), 1),
        ("2", with(|plan| plan.edition = 3), 2),
        ("3", with(|plan| plan.n = 0), 3),
        ("4", [&file[..], &[0]].concat(), 4),
        ("5", with(|plan| plan.arcs[BACK].tail = 9), 5),
        ("6", with(|plan| plan.arcs[BACK].checking = 1), 6),
        ("7", with(|plan| plan.arcs[BACK].standing = 3), 7),
        ("13", with(|plan| plan.arcs[BACK] = plan.arcs[FREE]), 13),
    ]
}

fn told_of(answer: &Result<Answer, Refusal>) -> Stated {
    answer.as_ref().map(|a| (a.cost, a.trees, a.whole, a.parts)).map_err(|&number| number)
}

/// Each thing that a car can be told beside each, pairs on other plans, and files that are refused.
fn run_stated_cars(found: &mut Findings, call: &dyn CarsCall) {
    let mut examine = |what: &dyn Fn() -> String, file: &[u8], cars: [&Brought; 2], stated: [Stated; 2]| {
        if let Some(told) = examine_cars(found, call, file, cars) {
            let told = [told_of(&told[0]), told_of(&told[1])];
            found.expect(Property::Stated, told == stated, || format!("{}: {told:?} instead of {stated:?}", what()));
        }
    };
    let (file, ways) = (file_of(&streets()), ways());
    for (first, car, stated) in &ways {
        for (second, other, stated_too) in &ways {
            examine(&|| format!("{first}; {second}"), &file, [car, other], [*stated, *stated_too]);
        }
        for (what, file, number) in bad_files() {
            examine(&|| format!("{what}; {first}"), &file, [car, &ways[0].1], [Err(number); 2]);
        }
    }
    for (what, plan, [first, second], stated) in pairs() {
        examine(&|| what.to_string(), &file_of(&plan), [&first, &second], stated);
    }
}

/// The plan's own marks, these with up to three changed, a few arcs, or every other one; of arcs that are open.
fn random_marks(random: &mut Random, plan: &Plan) -> Vec<u8> {
    let m = plan.arcs.len();
    let mut marks = own_marks(plan);
    match random.below(8) {
        0 => {}
        1 | 2 => (0..random.within(1..=3)).for_each(|_| marks[random.below(m)] ^= 1),
        3 => marks.iter_mut().for_each(|mark| *mark = random.below(2) as u8),
        _ => {
            let few: Vec<usize> = (0..random.pick(&[1, 2, 3, 5, 8])).map(|_| random.below(m)).collect();
            marks = marks_on(m, &few);
        }
    }
    let open = marks.iter().zip(&plan.arcs);
    open.map(|(&mark, arc)| if arc.standing == CLOSED { 0 } else { mark }).collect()
}

fn random_car(random: &mut Random, plan: &Plan) -> Brought {
    Brought { budget: random.within(1..=3) as u64, ..bring(random_marks(random, plan)) }
}

/// One wrong thing, or none, in what a car brings.
fn spoiled(random: &mut Random, plan: &Plan, mut car: Brought) -> Brought {
    let (k, m) = (random.below(plan.arcs.len()), plan.arcs.len());
    match random.below(10) {
        0 => car.budget = random.pick(&[0, HIGHEST_BUDGET + 1, u64::MAX]),
        1 => car.places -= random.pick(&[1, 2, SHEET_PLACES]),
        2 => car.marks.truncate(m - 1),
        3 => car.marks.push(random.below(2) as u8),
        4 => car.marks[k] = random.pick(&[2, 3, 128, 255]),
        5 => car.marks.iter_mut().zip(&plan.arcs).for_each(|(mark, arc)| *mark |= arc.standing >> 1),
        6 => car.marks.fill(0),
        7 => car = Brought { budget: 0, marks: vec![], ..car },
        _ => {}
    }
    car
}

/// Holds a call for two cars to all of them, and with the plan's own marks to the plan call of a planner.
pub fn run_cars(found: &mut Findings, call: &dyn CarsCall, planner: &dyn Planner, seed: u64, rounds: u64) {
    run_stated_cars(found, call);
    let random = &mut Random::new(seed);
    for round in 0..100 * rounds {
        let (shape, effort) = match round % 15 {
            0 => (Shape::large(random), Effort::LIGHT),
            _ => (Shape::small(random), Effort::BRUTE_FORCE),
        };
        let plan = random_plan(random, &shape);
        let file = file_of(&plan);
        let cars = [random_car(random, &plan), random_car(random, &plan)];
        for (place, car) in cars.iter().enumerate() {
            examine_car(found, call, &file, (place, &car.marks), &cars[1 - place], &effort);
        }
        let [first, second] = cars.clone().map(|car| spoiled(random, &plan, car));
        let other = random_car(random, &plan);
        let other = spoiled(random, &plan, other);
        examine_alone(found, call, &file, (0, &cars[0]), [&cars[1], &other]);
        examine_alone(found, call, &file, (1, &second), [&first, &other]);
        let lent = (random.pick(&[1, 1, 2, 0]), SHEET_PLACES - random.pick(&[0, 0, 0, 1]));
        examine_own_marks(found, call, planner, &file, lent, &other);
        examine_cars(found, call, &file, [&first, &second]);
        let damaged = damaged_file(random);
        examine_cars(found, call, &damaged, [&first, &second]);
        examine_own_marks(found, call, planner, &damaged, lent, &other);
    }
}
