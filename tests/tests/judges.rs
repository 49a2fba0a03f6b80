//! Every judge, held to what is stated, to the oracle on random lists, and to what a planner writes.

use postman_tests::oracle::{file_of, own_marks};
use postman_tests::plan::SHEET_PLACES;
use postman_tests::planner::{refusal, Car, CarsCall, Judge, Planner};
use postman_tests::properties::Findings;
use postman_tests::random::setting;
use postman_tests::suite;

fn seed() -> u64 {
    setting("SEED", 90_000)
}

fn stated(name: &str, judge: &dyn Judge) {
    let mut found = Findings::default();
    suite::run_stated_lists(&mut found, judge);
    found.assert_none(name, 0);
}

fn random(name: &str, judge: &dyn Judge, planner: &dyn Planner) {
    let plans = (1_500 * setting("ROUNDS", 1)).max(1);
    let mut found = Findings::default();
    suite::run_lists(&mut found, judge, planner, seed(), plans);
    println!("{name}: {plans} plans, {} looks, SEED={}", found.looks, seed());
    found.assert_none(name, seed());
}

/// Judging goes by the plan's own must arcs: the drive of a car that has them for its marks passes, and one that has but the first loop does not.
fn cars<T: CarsCall + Judge>(name: &str, planner: &T) {
    let plan = suite::case_c();
    let (file, own) = (file_of(&plan), own_marks(&plan));
    let mut one = vec![0; own.len()];
    one[0] = 1;
    let mut sheets = [vec![0; SHEET_PLACES], vec![0; SHEET_PLACES]];
    let [sheet, other] = &mut sheets;
    let (first, second) = (Car { marks: &own, budget: 2, sheet }, Car { marks: &one, budget: 2, sheet: other });
    let told = planner.two_cars(&file, first, second).expect("a good file");
    let judged = [0, 1].map(|place| {
        let answer = told[place].as_ref().expect("good marks");
        planner.judge(&file, &sheets[place][..answer.places])
    });
    assert_eq!(judged, [Ok(9), Err(refusal::MISSED)], "{name}");
}

macro_rules! held_to_all {
    ($name:ident, $judge:expr) => {
        mod $name {
            use super::*;

            #[test]
            fn stated_lists_and_limits() {
                stated(stringify!($name), &$judge);
            }

            #[test]
            fn random_lists_and_written_drives() {
                random(stringify!($name), &$judge, &$judge);
            }

            #[test]
            fn drives_of_two_cars() {
                cars(stringify!($name), &$judge);
            }
        }
    };
}

#[cfg(not(feature = "proved"))]
held_to_all!(yardstick, postman_tests::yardstick::Yardstick);
#[cfg(feature = "proved")]
held_to_all!(proved, postman_tests::planner::Proved);

/// The drives that the planner writes for the plans near the limits pass, in any budget's cost.
#[cfg(feature = "proved")]
#[test]
fn drives_near_the_limits_pass() {
    use postman_tests::planner::Proved;
    use postman_tests::properties::examine_written;

    let mut found = Findings::default();
    for case in suite::fixed_cases() {
        for budget in [1, 1_000] {
            examine_written(&mut found, &Proved, &Proved, &case.file, budget, &[]);
        }
    }
    assert!(found.looks > 100, "most of them have a drive");
    found.assert_none("proved", 0);
}
