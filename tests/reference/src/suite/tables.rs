//! Tables of distances: from every vertex of a plan to every other.

use super::pages::{pair, NO_PATH};
use super::stated::{case_a, case_b, case_c, case_d, case_e, loops};
use crate::instances::{adverse_ring, free_circles, parallel};
use crate::oracle::file_of;
use crate::plan::{Plan, MOST_PAIRS, MOST_VERTICES};
use crate::planner::DistanceCall;
use crate::properties::{examine_page, Findings, Property};

/// A plan, and its table, row by row.
pub type Table = (&'static str, Plan, Vec<Vec<u32>>);

/// No way from any vertex to another.
fn apart(n: usize) -> Vec<Vec<u32>> {
    (0..n).map(|i| (0..n).map(|j| if i == j { 0 } else { NO_PATH }).collect()).collect()
}

/// As many steps as it takes from i on to j around the ring.
fn steps() -> Vec<Vec<u32>> {
    let n = MOST_VERTICES;
    (0..n).map(|i| (0..n).map(|j| ((j + n - i) % n) as u32).collect()).collect()
}

pub fn tables() -> Vec<Table> {
    const NO: u32 = NO_PATH;
    vec![
        ("A", case_a(), vec![vec![0, 5], vec![3, 0]]),
        ("B", case_b(), vec![vec![0, 1, 11, 12], vec![1, 0, 10, 11], vec![11, 12, 0, 1], vec![10, 11, 1, 0]]),
        ("C", case_c(), vec![vec![0, 2, 3], vec![4, 0, 2], vec![2, 4, 0]]),
        ("D", case_d(), vec![vec![0, 5], vec![NO, 0]]),
        ("E", case_e(), vec![vec![0, 5], vec![3, 0]]),
        ("F, eight", loops(8), apart(8)),
        ("F, nine", loops(9), apart(9)),
        ("64 loops", loops(64), apart(64)),
        ("free arcs between all", free_circles(3), vec![vec![0; 3]; 3]),
        (
            "parallel arcs",
            parallel(),
            vec![
                vec![0, 4, NO, NO, NO],
                vec![NO, 0, NO, NO, NO],
                vec![NO, 7, 0, NO, NO],
                vec![NO, NO, NO, 0, NO],
                vec![NO, NO, NO, NO, 0],
            ],
        ),
        ("a ring, every round", adverse_ring(), steps()),
    ]
}

/// Holds a distance call to all of them, in pages as long as they may be.
pub(super) fn run(found: &mut Findings, call: &dyn DistanceCall) {
    for (what, plan, rows) in tables() {
        let file = file_of(&plan);
        let pairs: Vec<u16> = (0..plan.n * plan.n).map(|k| pair((k / plan.n) as u16, (k % plan.n) as u16)).collect();
        for (page, stated) in pairs.chunks(MOST_PAIRS).zip(rows.concat().chunks(MOST_PAIRS)) {
            let mut distances = vec![0; page.len()];
            let told = call.distances(&file, page, &mut distances);
            let about = || format!("the table of {what}: {told:?}, {distances:?} instead of {stated:?}");
            found.expect(Property::Stated, told.is_ok() && distances == stated, about);
            examine_page(found, call, &file, page, page.len());
        }
    }
}
