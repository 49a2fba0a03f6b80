//! The test of the tests: every wrong planner is caught by the suite, by the properties that it violates; and every property of the suite
//! catches some wrong planner.

use reference::instances::Shape;
use reference::mutants::{cars, codecs, counters, deep, departures, districts, editors, judges, pages, planners};
use reference::oracle::Effort;
use reference::properties::{Case, Findings, Property, PROPERTIES};
use reference::suite;
use reference::yardstick::Yardstick;

const SEED: u64 = 50_000;

/// The properties that were to be violated and were not.
fn missed(violates: &[Property], found: &Findings) -> Vec<Property> {
    violates.iter().copied().filter(|p| !found.violated.contains(p)).collect()
}

fn cases() -> Vec<Case> {
    let mut cases: Vec<Case> = suite::funnels(20).chain(suite::equal_paths(30)).collect();
    cases.extend(suite::random_cases(SEED, 500, Shape::small, &Effort::BRUTE_FORCE));
    cases.extend(suite::random_cases(SEED, 40, Shape::large, &Effort::LIGHT));
    cases
}

#[test]
fn wrong_planners_are_caught() {
    // A wrong planner may panic, and is caught for it; that need not be told each time.
    std::panic::set_hook(Box::new(|_| {}));
    let cases = cases();
    let mut escaped = Vec::new();
    for mutant in planners() {
        let planner = &*mutant.wrong;
        let mut found = Findings::default();
        suite::run_stated(&mut found, planner);
        if mutant.violates.iter().any(|p| [Property::Refusal, Property::SheetKept].contains(p)) {
            suite::run_files(&mut found, planner, SEED, 1);
        }
        for case in &cases {
            if missed(mutant.violates, &found).is_empty() {
                break;
            }
            suite::run_case(&mut found, planner, case, 12);
        }
        println!("{}: {:?}", mutant.name, found.violated);
        let missed = missed(mutant.violates, &found);
        if !missed.is_empty() {
            escaped.push((mutant.name, missed));
        }
    }
    let _ = std::panic::take_hook();
    assert!(escaped.is_empty(), "{escaped:?}");
}

#[test]
fn wrong_readers_and_writers_are_caught() {
    for mutant in codecs() {
        let mut found = Findings::default();
        suite::run_stated_codec(&mut found, &*mutant.wrong);
        suite::run_codec(&mut found, &*mutant.wrong, SEED, 1);
        println!("{}: {:?}", mutant.name, found.violated);
        assert_eq!(missed(mutant.violates, &found), [], "{}", mutant.name);
    }
}

#[test]
fn wrong_distance_calls_are_caught() {
    for mutant in pages() {
        let mut found = Findings::default();
        suite::run_pages(&mut found, &*mutant.wrong, SEED, 1);
        println!("{}: {:?}", mutant.name, found.violated);
        assert_eq!(missed(mutant.violates, &found), [], "{}", mutant.name);
    }
}

#[test]
fn wrong_counts_are_caught() {
    for mutant in counters() {
        let mut found = Findings::default();
        suite::run_counts(&mut found, &*mutant.wrong, SEED, 1);
        (SEED..SEED + 200)
            .for_each(|seed| suite::run_count(&mut found, &*mutant.wrong, &Yardstick, seed, Shape::small));
        println!("{}: {:?}", mutant.name, found.violated);
        assert_eq!(missed(mutant.violates, &found), [], "{}", mutant.name);
    }
}

#[test]
fn wrong_departures_are_caught() {
    let mut escaped = Vec::new();
    for mutant in departures() {
        let mut found = Findings::default();
        suite::run_departures(&mut found, &*mutant.wrong, &Yardstick, SEED, 1);
        println!("{}: {:?}", mutant.name, found.violated);
        let missed = missed(mutant.violates, &found);
        if !missed.is_empty() {
            escaped.push((mutant.name, missed));
        }
    }
    assert!(escaped.is_empty(), "{escaped:?}");
}

#[test]
fn wrong_calls_for_two_cars_are_caught() {
    let mut escaped = Vec::new();
    for mutant in cars() {
        let mut found = Findings::default();
        suite::run_cars(&mut found, &*mutant.wrong, &Yardstick, SEED, 1);
        println!("{}: {:?}", mutant.name, found.violated);
        let missed = missed(mutant.violates, &found);
        if !missed.is_empty() {
            escaped.push((mutant.name, missed));
        }
    }
    assert!(escaped.is_empty(), "{escaped:?}");
}

#[test]
fn wrong_deep_calls_are_caught() {
    // A wrong deep call may panic, as a wrong planner may.
    std::panic::set_hook(Box::new(|_| {}));
    let mut escaped = Vec::new();
    for mutant in deep() {
        let mut found = Findings::default();
        for seed in SEED..SEED + 10 {
            if missed(mutant.violates, &found).is_empty() {
                break;
            }
            suite::run_deep(&mut found, &*mutant.wrong, &Yardstick, seed, 1);
        }
        // What is decided by many trees shows on large plans only.
        if !missed(mutant.violates, &found).is_empty() {
            suite::run_deep_towns(&mut found, &*mutant.wrong, &Yardstick);
        }
        println!("{}: {:?}", mutant.name, found.violated);
        let missed = missed(mutant.violates, &found);
        if !missed.is_empty() {
            escaped.push((mutant.name, missed));
        }
    }
    let _ = std::panic::take_hook();
    assert!(escaped.is_empty(), "{escaped:?}");
}

#[test]
fn wrong_editors_are_caught() {
    let mut escaped = Vec::new();
    for mutant in editors() {
        let mut found = Findings::default();
        suite::run_editing(&mut found, &*mutant.wrong, &Yardstick, SEED, 1);
        println!("{}: {:?}", mutant.name, found.violated);
        let missed = missed(mutant.violates, &found);
        if !missed.is_empty() {
            escaped.push((mutant.name, missed));
        }
    }
    assert!(escaped.is_empty(), "{escaped:?}");
}

#[test]
fn wrong_machines_of_districts_are_caught() {
    // A wrong machine may panic, as a wrong planner may.
    std::panic::set_hook(Box::new(|_| {}));
    let cases = suite::district_cases(SEED);
    let mut escaped = Vec::new();
    for mutant in districts() {
        let mut found = Findings::default();
        suite::run_stated_districts(&mut found, &*mutant.wrong, &Yardstick, &cases);
        for seed in SEED..SEED + 10 {
            if missed(mutant.violates, &found).is_empty() {
                break;
            }
            suite::run_districts(&mut found, &*mutant.wrong, &Yardstick, &cases, seed, 1);
        }
        println!("{}: {:?}", mutant.name, found.violated);
        let missed = missed(mutant.violates, &found);
        if !missed.is_empty() {
            escaped.push((mutant.name, missed));
        }
    }
    let _ = std::panic::take_hook();
    assert!(escaped.is_empty(), "{escaped:?}");
}

#[test]
fn wrong_judges_are_caught() {
    for mutant in judges() {
        let mut found = Findings::default();
        suite::run_stated_lists(&mut found, &*mutant.wrong);
        suite::run_lists(&mut found, &*mutant.wrong, &Yardstick, SEED, 200);
        println!("{}: {:?}", mutant.name, found.violated);
        assert_eq!(missed(mutant.violates, &found), [], "{}", mutant.name);
    }
}

#[test]
fn every_property_catches_some_mutant() {
    let mut caught: Vec<Property> = planners().iter().flat_map(|m| m.violates.to_vec()).collect();
    caught.extend(codecs().iter().flat_map(|m| m.violates.to_vec()));
    caught.extend(pages().iter().flat_map(|m| m.violates.to_vec()));
    caught.extend(counters().iter().flat_map(|m| m.violates.to_vec()));
    caught.extend(departures().iter().flat_map(|m| m.violates.to_vec()));
    caught.extend(cars().iter().flat_map(|m| m.violates.to_vec()));
    caught.extend(deep().iter().flat_map(|m| m.violates.to_vec()));
    caught.extend(editors().iter().flat_map(|m| m.violates.to_vec()));
    caught.extend(districts().iter().flat_map(|m| m.violates.to_vec()));
    caught.extend(judges().iter().flat_map(|m| m.violates.to_vec()));
    let idle: Vec<Property> = PROPERTIES.into_iter().filter(|p| !caught.contains(p)).collect();
    assert_eq!(idle, []);
}
