//! Windows and departures: the limits and the stated cases, random windows on random plans, and files of every kind.

use super::{case_c, damaged_file, Shape};
use crate::instances::random_plan;
use crate::oracle::{file_of, Effort};
use crate::plan::{Arc, Departure, Plan, CLOSED, HIGHEST_BUDGET, MOST_WINDOWS, OPTIONAL, REQUIRED, SHEET_PLACES};
use crate::planner::{DepartureCall, Planner, Refusal};
use crate::properties::{examine_departure, examine_departure_refusal, examine_no_windows, Findings, Property};
use crate::random::Random;

/// Wednesday at ten.
const TEN: Departure = Departure { weekday: 2, minute: 600 };

/// Cost, trees tried, whole and parts, or the refusal.
type Stated = Result<(u64, u64, bool, u64), Refusal>;

struct Row {
    what: &'static str,
    file: Vec<u8>,
    budget: u64,
    places: usize,
    windows: Vec<u16>,
    departure: Departure,
    stated: Stated,
}

/// A street that must be driven, two ways back, and a closed one that is the first of them again but for its standing.
fn market() -> Plan {
    let back = |standing, cost| Arc::new(1, 0, standing, cost);
    Plan::new(2, vec![Arc::new(0, 1, REQUIRED, 5), back(OPTIONAL, 3), back(OPTIONAL, 9), back(CLOSED, 3)])
}

const OPEN: Stated = Ok((8, 1, true, 1));
const AROUND: Stated = Ok((14, 1, true, 1));
const BAD: Stated = Err(19);

/// Windows of the market, left at ten on a Wednesday.
fn at_ten() -> Vec<(&'static str, Vec<u16>, Stated)> {
    let all_day = |arc| [arc, 2, 0, 1_440];
    let both = [all_day(1), all_day(2)].concat();
    let bad = [1, 3, 700, 700];
    vec![
        ("no window", vec![], OPEN),
        ("a window", vec![1, 2, 540, 660], AROUND),
        ("t is from", vec![1, 2, 600, 601], AROUND),
        ("t is to - 1", vec![1, 2, 0, 601], AROUND),
        ("t is to", vec![1, 2, 0, 600], OPEN),
        ("t is from - 1", vec![1, 2, 601, 1_440], OPEN),
        ("the weekday after", vec![1, 3, 0, 1_440], OPEN),
        ("the weekday before", vec![1, 1, 0, 1_440], OPEN),
        ("a window within another", [[1, 2, 700, 800], all_day(1)].concat(), AROUND),
        ("overlapping windows", vec![1, 2, 500, 650, 1, 2, 550, 700], AROUND),
        ("equal windows", [all_day(1), all_day(1)].concat(), AROUND),
        ("one ends at t, the next begins", vec![1, 2, 500, 600, 1, 2, 600, 700], AROUND),
        ("the dearer way back", all_day(2).into(), OPEN),
        ("both ways back", both.clone(), Err(12)),
        ("a closed arc", all_day(3).into(), OPEN),
        ("the arc m", all_day(4).into(), BAD),
        ("an arc above 255", all_day(257).into(), BAD),
        ("a must arc", vec![0, 2, 600, 601], Err(20)),
        ("a must arc, t is to", vec![0, 2, 0, 600], OPEN),
        ("a must arc on another weekday", vec![0, 3, 0, 1_440], OPEN),
        ("a must arc, after others", [&both[..], &all_day(0)].concat(), Err(20)),
        ("from is to", vec![1, 2, 600, 600], BAD),
        ("from above to", vec![1, 2, 601, 600], BAD),
        ("to 1,440", vec![1, 2, 1_439, 1_440], OPEN),
        ("to 1,441", vec![1, 2, 1_439, 1_441], BAD),
        ("to 65,535", vec![1, 2, 65_534, 65_535], BAD),
        ("weekday 6", vec![1, 6, 0, 1_440], OPEN),
        ("weekday 7", vec![1, 7, 0, 1_440], BAD),
        ("a bad window of another weekday", bad.into(), BAD),
        ("a bad window at the end", [all_day(1), bad].concat(), BAD),
        ("a bad window before a must arc's", [bad, all_day(0)].concat(), BAD),
        ("a bad window after a must arc's", [all_day(0), bad].concat(), BAD),
        ("128 windows", all_day(1).repeat(128), AROUND),
        ("129 windows", all_day(1).repeat(129), BAD),
        ("128 windows and a number", [all_day(1).repeat(128), vec![1]].concat(), BAD),
        ("one number", vec![1], BAD),
        ("three numbers", vec![1, 2, 0], BAD),
        ("five numbers", [&all_day(1)[..], &[1]].concat(), BAD),
    ]
}

/// Departures of the market, with the first way back shut all day on Wednesdays and on the last weekday.
fn departures() -> Vec<(&'static str, u32, u32, Stated)> {
    vec![
        ("minute 0", 2, 0, AROUND),
        ("minute 1,439", 2, 1_439, AROUND),
        ("minute 1,440", 2, 1_440, BAD),
        ("weekday 0", 0, 600, OPEN),
        ("weekday 6", 6, 600, AROUND),
        ("weekday 7", 7, 600, BAD),
        ("a weekday above 16 bits", 65_536 + 2, 600, BAD),
        ("a minute above 16 bits", 2, 65_536 + 600, BAD),
        ("the highest numbers", u32::MAX, u32::MAX, BAD),
    ]
}

fn stated() -> Vec<Row> {
    let row = |what, plan: &Plan, windows: Vec<u16>, stated| Row {
        what,
        file: file_of(plan),
        budget: 1,
        places: SHEET_PLACES,
        windows,
        departure: TEN,
        stated,
    };
    let mut rows: Vec<Row> = at_ten().into_iter().map(|(what, windows, s)| row(what, &market(), windows, s)).collect();
    rows.extend(departures().into_iter().map(|(what, weekday, minute, stated)| Row {
        departure: Departure { weekday, minute },
        ..row(what, &market(), vec![1, 2, 0, 1_440, 1, 6, 0, 1_440], stated)
    }));

    // with other refusals
    let (bad, must, good) = (vec![1, 2, 5, 5], vec![0, 2, 0, 1_440], vec![1, 2, 0, 1_440]);
    let idle = Plan::new(2, vec![Arc::new(0, 1, OPTIONAL, 5), Arc::new(1, 0, OPTIONAL, 3)]);
    let scattered = Plan::new(9, (0..9).map(|v| Arc::new(v, v, REQUIRED, 1)).collect());
    let cut_off = Plan::new(2, vec![Arc::new(0, 1, REQUIRED, 5), Arc::new(0, 0, OPTIONAL, 1)]);
    let mut repeated = market();
    repeated.arcs.push(repeated.arcs[1]);
    rows.push(Row { budget: 0, ..row("9 before 19", &market(), bad.clone(), Err(9)) });
    rows.push(Row { budget: HIGHEST_BUDGET + 1, ..row("9 before 20", &market(), must.clone(), Err(9)) });
    rows.push(Row { places: SHEET_PLACES - 1, ..row("8 before 19", &market(), bad.clone(), Err(8)) });
    rows.push(row("13 before 19", &repeated, bad.clone(), Err(13)));
    rows.push(row("19 before 10", &idle, bad.clone(), BAD));
    rows.push(row("10", &idle, good.clone(), Err(10)));
    rows.push(row("19 before 11", &scattered, bad, BAD));
    rows.push(row("20 before 11", &scattered, must.clone(), Err(20)));
    rows.push(row("11", &scattered, vec![8, 3, 0, 1_440], Err(11)));
    rows.push(row("20 before 12", &cut_off, must, Err(20)));
    rows.push(row("12", &cut_off, good, Err(12)));

    // Without its last arc, which costs 3, case C has three links and one tree: the way through is a path of the others.
    let last: Vec<u16> = vec![6, 2, 0, 1_440];
    rows.push(row("case C", &case_c(), vec![], Ok((14, 1, false, 3))));
    rows.push(row("case C with three links", &case_c(), last.clone(), Ok((9, 1, true, 3))));
    rows.push(Row { budget: 2, ..row("case C, all trees", &case_c(), vec![], Ok((9, 2, true, 3))) });
    rows.push(Row { budget: 2, ..row("case C with three links, all trees", &case_c(), last, Ok((9, 1, true, 3))) });
    rows.push(row("case C cut off", &case_c(), vec![3, 2, 0, 1_440], Err(12)));
    rows
}

/// Windows that shut an arc at the departure, or that just do not.
fn random_window(random: &mut Random, plan: &Plan, at: Departure) -> [u16; 4] {
    let optional: Vec<usize> = (0..plan.arcs.len()).filter(|&k| plan.arcs[k].standing != REQUIRED).collect();
    let arc = match &optional[..] {
        arcs if !arcs.is_empty() && !random.once_in(30) => random.pick(arcs),
        _ => random.below(plan.arcs.len()),
    };
    let weekday = if random.once_in(3) { random.below(7) as u16 } else { at.weekday.min(6) as u16 };
    let t = at.minute.min(1_439) as u16;
    let day = (random.below(720) as u16, 720 + random.below(721) as u16);
    let (from, to) = random.pick(&[(t, t + 1), (0, t + 1), (t, 1_440), (0, 1_440), (0, t), (t + 1, 1_440), day]);
    let (from, to) = if from < to { (from, to) } else { (t, t + 1) };
    [arc as u16, weekday, from, to]
}

/// One number of a list made another.
fn spoil(random: &mut Random, m: usize, windows: &mut [u16]) {
    if !windows.is_empty() {
        let k = random.below(windows.len());
        windows[k] = random.pick(&[m as u16, 7, 1_440, 1_441, 255, 65_535, 0]);
    }
}

fn random_departure(random: &mut Random) -> Departure {
    Departure { weekday: random.below(7) as u32, minute: random.pick(&[0, 1, 600, 1_438, 1_439]) }
}

/// Holds a call at a departure to all of them, and with no windows to the plan call of a planner.
pub fn run_departures(found: &mut Findings, call: &dyn DepartureCall, planner: &dyn Planner, seed: u64, rounds: u64) {
    for Row { what, file, budget, places, windows, departure, stated } in stated() {
        let told = call.plan_call_at(&file, budget, &windows, departure, &mut vec![0; places]);
        let told = told.map(|a| (a.cost, a.trees, a.whole, a.parts));
        found.expect(Property::Stated, told == stated, || format!("{what}: {told:?} instead of {stated:?}"));
        examine_departure_refusal(found, call, &file, (budget, places), &windows, departure);
        examine_no_windows(found, call, planner, &file, (budget, places), TEN);
    }
    let random = &mut Random::new(seed);
    for round in 0..150 * rounds {
        let (shape, effort) = match round % 15 {
            0 => (Shape::large(random), Effort::LIGHT),
            _ => (Shape::small(random), Effort::BRUTE_FORCE),
        };
        let plan = random_plan(random, &shape);
        let (file, at) = (file_of(&plan), random_departure(random));
        let count = random.pick(&[1, 1, 2, 3, 5, 9, 30, MOST_WINDOWS, MOST_WINDOWS + 1]);
        let mut windows: Vec<u16> = (0..count).flat_map(|_| random_window(random, &plan, at)).collect();
        examine_departure(found, call, &file, &windows, at, &effort);
        let lent = (random.pick(&[1, 1, 1, 0]), SHEET_PLACES - random.pick(&[0, 0, 0, 1]));
        examine_no_windows(found, call, planner, &file, lent, at);
        spoil(random, plan.arcs.len(), &mut windows);
        examine_departure_refusal(found, call, &file, lent, &windows, at);
        let beyond = random.pick(&[Departure { weekday: 7, ..at }, Departure { minute: 1_440, ..at }, at]);
        examine_departure_refusal(found, call, &damaged_file(random), lent, &windows, beyond);
    }
}
