//! Every planner, held to every property.
//!
//! Each random plan has a seed of its own. A failure names it: `SEED=… ROUNDS=0 cargo test` begins with that plan and tries few others.
//! `ROUNDS=10` tries ten times as many as usual.

use postman_tests::instances::Shape;
use postman_tests::oracle::Effort;
use postman_tests::planner::{
    CarsCall, Codec, Counter, DeepCall, DepartureCall, DistanceCall, Districts, Editor, Planner,
};
use postman_tests::properties::Findings;
use postman_tests::random::{setting, Random};
use postman_tests::{suite, yardstick::Yardstick};

fn seed() -> u64 {
    setting("SEED", 20_000)
}

/// How many plans or rounds to try, where so many are usual.
fn rounds(usual: u64) -> u64 {
    (usual * setting("ROUNDS", 1)).max(1)
}

fn stated(name: &str, planner: &dyn Planner) {
    let mut found = Findings::default();
    suite::run_stated(&mut found, planner);
    found.assert_none(name, 0);
}

fn stated_files(name: &str, codec: &dyn Codec) {
    let mut found = Findings::default();
    suite::run_stated_codec(&mut found, codec);
    found.assert_none(name, 0);
}

fn random_plans(
    name: &str,
    planner: &dyn Planner,
    count: u64,
    shape: fn(&mut Random) -> Shape,
    effort: &Effort,
    few: u64,
) {
    println!("{name}: {count} plans, SEED={}", seed());
    let (mut answered, mut looks) = (0, 0);
    for seed in seed()..seed() + count {
        let case = suite::random_case(seed, shape, effort);
        let mut found = Findings::default();
        suite::run_case(&mut found, planner, &case, few);
        found.assert_none(name, seed);
        answered += u64::from(case.facts.is_ok());
        looks += found.looks;
    }
    println!("{name}: {answered} plans answered, {looks} looks");
    assert!(answered * 2 > count || count < 100, "most plans are good ones");
}

fn fixed_plans(name: &str, planner: &dyn Planner) {
    for (number, case) in suite::fixed_cases().iter().enumerate() {
        let mut found = Findings::default();
        suite::run_case(&mut found, planner, case, 100);
        found.assert_none(&format!("{name}, fixed plan {number}"), 0);
    }
}

fn files(name: &str, planner: &dyn Planner) {
    let mut found = Findings::default();
    suite::run_files(&mut found, planner, seed(), rounds(4));
    found.assert_none(name, seed());
}

fn reading_and_writing(name: &str, codec: &dyn Codec) {
    let mut found = Findings::default();
    suite::run_codec(&mut found, codec, seed(), rounds(4));
    found.assert_none(name, seed());
}

fn pages(name: &str, call: &dyn DistanceCall) {
    let mut found = Findings::default();
    suite::run_pages(&mut found, call, seed(), rounds(4));
    found.assert_none(name, seed());
}

/// Windows, and with none of them the plan call.
fn windows<T: DepartureCall + Planner>(name: &str, planner: &T) {
    let mut found = Findings::default();
    suite::run_departures(&mut found, planner, planner, seed(), rounds(4));
    found.assert_none(name, seed());
}

/// Two cars, and with the plan's own marks the plan call.
fn cars<T: CarsCall + Planner>(name: &str, planner: &T) {
    let mut found = Findings::default();
    suite::run_cars(&mut found, planner, planner, seed(), rounds(4));
    found.assert_none(name, seed());
}

/// Deep calls, and with one round the plan call.
fn deep(name: &str, call: &dyn DeepCall, planner: &dyn Planner) {
    let mut found = Findings::default();
    suite::run_deep(&mut found, call, planner, seed(), rounds(4));
    suite::run_deep_towns(&mut found, call, planner);
    found.assert_none(name, seed());
}

/// Plans that are open for changes, and asking beside the plan call at a departure.
fn histories<T: Editor + DepartureCall>(name: &str, planner: &T) {
    let mut found = Findings::default();
    suite::run_editing(&mut found, planner, planner, seed(), rounds(20));
    found.assert_none(name, seed());
}

/// Machines of districts, and a district's answer beside the plan call.
fn districts<T: Districts + Planner>(name: &str, planner: &T) {
    let mut found = Findings::default();
    let cases = suite::district_cases(seed());
    suite::run_stated_districts(&mut found, planner, planner, &cases);
    suite::run_districts(&mut found, planner, planner, &cases, seed(), rounds(5));
    found.assert_none(name, seed());
}

/// The stated numbers and files of every length; then random plans, small and large, with the plan call beside the count.
fn numbers_of_trees<T: Counter + Planner>(name: &str, planner: &T) {
    let mut found = Findings::default();
    suite::run_counts(&mut found, planner, seed(), rounds(2));
    found.assert_none(name, seed());
    for (count, shape) in [(3_000, Shape::small as fn(&mut Random) -> Shape), (200, Shape::large)] {
        for seed in seed()..seed() + rounds(count) {
            let mut found = Findings::default();
            suite::run_count(&mut found, planner, planner, seed, shape);
            found.assert_none(name, seed);
        }
    }
}

macro_rules! held_to_all {
    ($name:ident, $planner:expr) => {
        mod $name {
            use super::*;

            #[test]
            fn stated_cases_and_limits() {
                stated(stringify!($name), &$planner);
            }

            #[test]
            fn stated_files_of_both_editions() {
                stated_files(stringify!($name), &$planner);
            }

            #[test]
            fn plans_near_the_limits() {
                fixed_plans(stringify!($name), &$planner);
            }

            #[test]
            fn small_plans_by_brute_force() {
                random_plans(stringify!($name), &$planner, rounds(4_000), Shape::small, &Effort::BRUTE_FORCE, 200);
            }

            #[test]
            fn larger_plans() {
                random_plans(stringify!($name), &$planner, rounds(250), Shape::large, &Effort::LIGHT, 10);
            }

            #[test]
            fn files_of_every_length() {
                files(stringify!($name), &$planner);
            }

            #[test]
            fn numbers_of_trees() {
                super::numbers_of_trees(stringify!($name), &$planner);
            }

            #[test]
            fn reading_and_writing() {
                super::reading_and_writing(stringify!($name), &$planner);
            }

            #[test]
            fn pages_of_distances() {
                pages(stringify!($name), &$planner);
            }

            #[test]
            fn windows_and_departures() {
                windows(stringify!($name), &$planner);
            }

            #[test]
            fn two_cars() {
                cars(stringify!($name), &$planner);
            }

            #[test]
            fn open_plans() {
                histories(stringify!($name), &$planner);
            }

            #[test]
            fn districts_in_turn() {
                districts(stringify!($name), &$planner);
            }
        }
    };
}

#[cfg(not(feature = "proved"))]
held_to_all!(yardstick, Yardstick);
#[cfg(feature = "proved")]
held_to_all!(proved, postman_tests::planner::Proved);

#[cfg(not(feature = "proved"))]
#[test]
fn yardstick_in_rounds() {
    deep("yardstick in rounds", &Yardstick, &Yardstick);
}

#[cfg(feature = "proved")]
#[test]
fn proved_in_rounds() {
    use postman_tests::planner::Proved;
    deep("proved in rounds", &Proved, &Proved);
}

/// The deep call is its rounds, each a plan call, to the last place of the drive.
#[cfg(feature = "proved")]
#[test]
fn proved_deep_call_is_its_rounds() {
    use postman_tests::plan::SHEET_PLACES;
    use postman_tests::{planner::Proved, yardstick::OverPlanCall};

    for i in 0..rounds(200) {
        let shape = if i % 4 == 0 { Shape::large } else { Shape::small };
        let file = suite::random_case(seed() + i, shape, &Effort { trees: 1, ..Effort::LIGHT }).file;
        for (budget, most) in [(1, 30), (3, 7), (1_000, 12)] {
            let mut sheets = [vec![0; SHEET_PLACES], vec![0; SHEET_PLACES]];
            let told = Proved.deep_call(&file, budget, most, &mut sheets[0]);
            let over = OverPlanCall(Proved).deep_call(&file, budget, most, &mut sheets[1]);
            assert_eq!((told, &sheets[0]), (over, &sheets[1]), "budget {budget}, {most} rounds, {file:02x?}");
        }
    }
}

/// The rounds over the library's plan call.
#[cfg(feature = "proved")]
#[test]
fn proved_plan_call_in_rounds() {
    use postman_tests::{planner::Proved, yardstick::OverPlanCall};
    deep("proved plan call in rounds", &OverPlanCall(Proved), &Proved);
}

/// Beyond what the oracle can reach: many trees, on large plans and on the benchmark's; and u, which the oracle holds to its conditions only, on small ones too.
#[cfg(feature = "proved")]
#[test]
fn proved_and_yardstick_agree() {
    use postman_tests::instances::towns;
    use postman_tests::oracle::{file_of, judge, parse};
    use postman_tests::plan::SHEET_PLACES;
    use postman_tests::planner::{Answer, Proved};

    let random = (0..rounds(60))
        .map(|i| suite::random_case(seed() + i, Shape::large, &Effort { trees: 1, ..Effort::LIGHT }).file);
    let small = (0..rounds(1_000))
        .map(|i| suite::random_case(seed() + i, Shape::small, &Effort { trees: 1, ..Effort::LIGHT }).file);
    let towns = towns().into_iter().map(|(_, plan)| file_of(&plan));
    for file in random.chain(small).chain(towns) {
        for budget in [1_000, 30_000, 100_000] {
            let mut sheets = [vec![0; SHEET_PLACES], vec![0; SHEET_PLACES]];
            let proved = Proved.plan_call(&file, budget, &mut sheets[0]);
            let yardstick = Yardstick.plan_call(&file, budget, &mut sheets[1]);
            if let Ok(a) = &proved {
                assert_eq!(judge(&parse(&file), &sheets[0][..a.places]), Ok(a.cost), "budget {budget}, {file:02x?}");
            }
            // Which drive of the cost is laid is free, and with it the number of places.
            let told = |answer: Result<Answer, u32>| answer.map(|a| Answer { places: 0, ..a });
            assert_eq!(told(proved), told(yardstick), "budget {budget}, {file:02x?}");
        }
    }
}
