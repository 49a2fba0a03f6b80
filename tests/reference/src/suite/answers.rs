//! Whole answers in numbers: the drive's places, the floor and the multipliers too.

use super::stated::{case_a, case_b, case_c, plan};
use crate::instances::{
    bound_choices, checked, chorded_ring, free_circles, longest, loops_at_one, nested_circles, of_matrix, one_way,
    ties, two_ways_back,
};
use crate::oracle::file_of;
use crate::plan::{Plan, DEFAULT_BUDGET, HIGHEST_BUDGET, OPTIONAL, REQUIRED, SHEET_PLACES};
use crate::planner::Planner;
use crate::properties::{call, Findings, Property, FILL};

/// Cost, floor, trees, whole and parts.
type Numbers = (u64, u64, u64, bool, u64);

/// What it is, the plan and the budget; then what is answered: the number of places, the numbers, and the multipliers of the first vertices.
type Row = (&'static str, Plan, u64, usize, Numbers, &'static [i64]);

/// Case A, its first arc checked at so much.
fn case_a_checked(service: u16) -> Plan {
    checked(case_a(), |_, _| service)
}

fn rows() -> Vec<Row> {
    let free_way = plan(2, &[(0, 1, REQUIRED, 5), (1, 0, OPTIONAL, 0)]);
    let circles = of_matrix(&nested_circles(), 4);
    let one = |cost| (cost, cost, 1, true, 1);
    let whole_c = (9, 9, 2, true, 3);
    // 193 must arcs at 65,535, 65,534, and so on, and a way round of 63 arcs for each
    let all_round = 193 * 65_535 - 192 * 193 / 2 + 193 * 63 * 65_535;
    vec![
        ("A", case_a(), DEFAULT_BUDGET, 2, one(8), &[0, 3]),
        ("A checked at 9", case_a_checked(9), DEFAULT_BUDGET, 2, one(12), &[0, 3]),
        ("A checked at 1", case_a_checked(1), DEFAULT_BUDGET, 2, one(4), &[0, 3]),
        ("A with a free way back", free_way, DEFAULT_BUDGET, 2, one(5), &[0, 0]),
        ("B", case_b(), DEFAULT_BUDGET, 4, (22, 22, 1, true, 2), &[0, 1, 9, 10]),
        ("C", case_c(), DEFAULT_BUDGET, 6, whole_c, &[0, 4, 2]),
        ("C, one tree", case_c(), 1, 8, (14, 9, 1, false, 3), &[0, 4, 2]),
        ("C, two trees", case_c(), 2, 6, whole_c, &[0, 4, 2]),
        ("C, the highest budget", case_c(), HIGHEST_BUDGET, 6, whole_c, &[0, 4, 2]),
        ("free arcs between all", free_circles(3), DEFAULT_BUDGET, 6, (3, 3, 1, true, 3), &[0, 0, 0]),
        ("two must arcs back", two_ways_back(), DEFAULT_BUDGET, 4, one(13), &[0, -2]),
        ("256 loops", loops_at_one(), DEFAULT_BUDGET, 256, one(256 * 257 / 2), &[0]),
        ("255 arcs one way", one_way(), DEFAULT_BUDGET, 510, one(255 * 256 / 2 + 255 * 3), &[0, 3]),
        ("ties", ties(), DEFAULT_BUDGET, 7, one(8), &[0, 0, 1, 1]),
        ("the longest drive", longest(), DEFAULT_BUDGET, 193 * 64, one(all_round), &[0, 63 * 65_535, 0]),
        ("low choices bind, one tree", bound_choices(), 1, 8, (39, 37, 1, false, 4), &[0, 10, 10, 17]),
        ("low choices bind, two trees", bound_choices(), 2, 8, (37, 37, 2, false, 4), &[0, 10, 10, 17]),
        ("low choices bind, three trees", bound_choices(), 3, 8, (37, 37, 3, true, 4), &[0, 10, 10, 17]),
        ("nested circles, one tree", circles.clone(), 1, 10, (88, 36, 1, false, 4), &[0, 20, 20, 20]),
        ("nested circles", circles, DEFAULT_BUDGET, 8, (36, 36, 9, true, 4), &[0, 20, 20, 20]),
        ("a chorded ring, one tree", chorded_ring(), 1, 68, (3_014, 848, 1, false, 8), &[0; 4]),
        ("a chorded ring, 100 trees", chorded_ring(), 100, 54, (2_490, 848, 100, false, 8), &[0; 4]),
        ("a chorded ring, 10,000 trees", chorded_ring(), 10_000, 36, (1_663, 848, 10_000, false, 8), &[0; 4]),
    ]
}

/// Plans of which no other drive meets what is promised of one.
fn drives() -> [(&'static str, Plan, &'static [u16]); 4] {
    [
        ("A", case_a(), &[0, 1]),
        ("B", case_b(), &[0, 4, 2, 5]),
        ("C", case_c(), &[0, 3, 1, 4, 2, 5]),
        ("free arcs between all", free_circles(3), &[0, 4, 2, 8, 1, 5]),
    ]
}

/// Holds a planner to all of them. On large plans a wrong one may panic.
pub(super) fn run(found: &mut Findings, planner: &dyn Planner) {
    for (what, plan, budget, places, numbers, multipliers) in rows() {
        let file = file_of(&plan);
        let told = call(found, SHEET_PLACES, FILL, |sheet| planner.plan_call(&file, budget, sheet));
        let Some((told, sheet)) = told else { continue };
        let told = told.map(|a| {
            let u = a.multipliers[..multipliers.len()].to_vec();
            (a.places, (a.cost, a.floor, a.trees, a.whole, a.parts), u)
        });
        let stated = Ok((places, numbers, multipliers.to_vec()));
        let kept = sheet[places..].iter().all(|&place| place == FILL);
        found.expect(Property::Stated, told == stated && kept, || {
            format!("{what}, budget {budget}: {told:?} instead of {stated:?}, the rest kept: {kept}")
        });
    }
    for (what, plan, drive) in drives() {
        let file = file_of(&plan);
        let told = call(found, SHEET_PLACES, FILL, |sheet| planner.short_call(&file, sheet));
        let Some((told, sheet)) = told else { continue };
        let laid = told.is_ok_and(|a| sheet.get(..a.places) == Some(drive));
        found.expect(Property::Stated, laid, || format!("the drive of {what}: {:?}", &sheet[..drive.len()]));
    }
}
