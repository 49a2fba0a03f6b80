//! What the calls refuse, as CALLS.md says it, is what they refuse: each is given files, budgets, buffers and lists of every kind, and the numbers that come
//! back are gathered.

use super::*;
use postman::limits::{DISTRICTS_BYTES, MOST_DISTRICTS, OPEN_BYTES, SHEET_PLACES};
use postman::{raw, Refusal};
use postman_tests::oracle::file_of;
use postman_tests::plan::{Arc, Plan, OPTIONAL, REQUIRED};

#[derive(Default)]
struct Gathered(BTreeMap<&'static str, BTreeSet<u32>>);

impl Gathered {
    fn add<T>(&mut self, call: &'static str, told: Result<T, Refusal>) -> Option<T> {
        let numbers = self.0.entry(call).or_default();
        told.map_err(|refusal| numbers.insert(refusal.number())).ok()
    }
}

/// A must arc, a way back, and another of another cost.
fn good() -> Plan {
    let back = |cost| Arc::new(1, 0, OPTIONAL, cost);
    Plan::new(2, vec![Arc::new(0, 1, REQUIRED, 5), back(3), back(4)])
}

/// A good plan, and one for each refusal of a plan.
fn plans() -> Vec<Plan> {
    let with = |arcs: Vec<Arc>| Plan::new(2, arcs);
    let (must, back) = (Arc::new(0, 1, REQUIRED, 5), Arc::new(1, 0, OPTIONAL, 3));
    let mut plans = vec![good(), Plan { edition: 3, ..good() }, Plan { n: 0, ..good() }, with(vec![must])];
    plans.push(with(vec![must, Arc { head: 9, ..back }]));
    plans.push(with(vec![Arc { cost: 0, checking: 0, ..must }, back]));
    plans.push(with(vec![must, Arc { standing: 3, ..back }]));
    plans.push(with(vec![must, back, back]));
    plans.push(with(vec![back]));
    plans.push(Plan::new(9, (0..9).map(|v| Arc::new(v, v, REQUIRED, 1)).collect()));
    plans
}

fn files() -> Vec<Vec<u8>> {
    let whole = file_of(&good());
    let mut files: Vec<Vec<u8>> = plans().iter().map(file_of).collect();
    files.push(whole[..whole.len() - 1].to_vec());
    files.push([&whole[..], &[0]].concat());
    files
}

fn records(plan: &Plan) -> Vec<u8> {
    let of = |a: &Arc| [&[a.tail, a.head, a.standing][..], &a.cost.to_be_bytes(), &a.checking.to_be_bytes()].concat();
    plan.arcs.iter().flat_map(of).collect()
}

const BUDGETS: [u64; 2] = [0, 10];
const SHEETS: [usize; 2] = [10, SHEET_PLACES];
/// None, one of an arc that is not there, and one that shuts the must arc on Monday.
const WINDOWS: [&[u16]; 3] = [&[], &[900, 0, 0, 1], &[0, 0, 0, 1_440]];

fn files_and_writing(told: &mut Gathered) {
    for file in files() {
        for room in [7, 7 * 256] {
            told.add("read", raw::read_plan(&file, &mut vec![0; room]));
        }
    }
    for plan in plans() {
        for room in [1, 100] {
            let (edition, n) = (u32::from(plan.edition), plan.n as u32);
            told.add("write", raw::write_plan(edition, n, &records(&plan), &mut vec![0; room]));
        }
    }
}

fn plan_calls(told: &mut Gathered) {
    for (file, places) in files().iter().flat_map(|file| SHEETS.map(|places| (file, places))) {
        let mut sheet = vec![0; places];
        told.add("short", raw::short_call(file, &mut sheet, &mut [], &mut []));
        for budget in BUDGETS {
            told.add("plan", raw::plan_call(file, budget, &mut sheet, &mut [], &mut []));
            for rounds in [0, 2] {
                told.add("deep", raw::deep_call(file, budget, rounds, &mut sheet, &mut [], &mut []));
            }
            for windows in WINDOWS {
                let call = raw::plan_call_at(file, budget, windows, 0, 0, &mut sheet, &mut [], &mut []);
                told.add("departure", call);
            }
        }
    }
}

fn cars(told: &mut Gathered) {
    for (file, places) in files().iter().flat_map(|file| SHEETS.map(|places| (file, places))) {
        for (marks, budget) in
            [&[1, 0, 0][..], &[0, 0, 0], &[1; 9], &[1], &[2, 0, 0]].into_iter().zip([10; 5]).chain([(&[][..], 0)])
        {
            let mut sheets = [vec![0; places], vec![0; places]];
            let [one, other] = &mut sheets;
            let first = raw::Car { marks, budget, sheet: one, answer: &mut [], multipliers: &mut [] };
            let second = raw::Car { marks, budget, sheet: other, answer: &mut [], multipliers: &mut [] };
            for own in told.add("cars", raw::two_cars(file, first, second)).into_iter().flatten() {
                told.add("cars", own);
            }
        }
    }
}

fn open_plans(told: &mut Gathered) {
    let mut short = vec![0; OPEN_BYTES - 1];
    told.add("change", raw::change(&mut short, 0, 1, 0, 0));
    told.add("mark", raw::mark(&mut short, 0));
    told.add("return", raw::return_to(&mut short, 0));
    told.add("ask", raw::ask(&short, 1, &[], 0, 0, &mut [], &mut [], &mut []));
    for file in files() {
        told.add("open", raw::open(&file, &mut short));
        let mut state = vec![0; OPEN_BYTES];
        if told.add("open", raw::open(&file, &mut state)).is_none() {
            continue;
        }
        for (places, budget) in SHEETS.into_iter().flat_map(|places| BUDGETS.map(|budget| (places, budget))) {
            for windows in WINDOWS {
                let call = raw::ask(&state, budget, windows, 0, 0, &mut vec![0; places], &mut [], &mut []);
                told.add("ask", call);
            }
        }
        for number in [0, 4] {
            told.add("return", raw::return_to(&mut state, number));
            told.add("mark", raw::mark(&mut state, number));
        }
        for (arc, cost, checking, standing) in [(1, 4, 0, 0), (1, 0, 0, 1), (1, 1, 0, 3), (9, 1, 0, 0), (1, 9, 0, 0)] {
            told.add("change", raw::change(&mut state, arc, cost, checking, standing));
        }
    }
}

fn districts(told: &mut Gathered) {
    let (mut short, mut sheet) = (vec![0; DISTRICTS_BYTES - 1], vec![0; SHEET_PLACES]);
    told.add("start", raw::districts_start(&mut short));
    told.add("enter", raw::enter(&mut short, &[], 1));
    told.add("turn", raw::turn(&mut short, &mut sheet, &mut [], &mut []));
    let mut machine = vec![0; DISTRICTS_BYTES];
    told.add("start", raw::districts_start(&mut machine));
    for (file, budget) in files().iter().flat_map(|file| BUDGETS.map(|budget| (file, budget))) {
        told.add("enter", raw::enter(&mut machine, file, budget));
    }
    told.add("turn", raw::turn(&mut machine, &mut sheet[1..], &mut [], &mut []));
    for _ in 0..MOST_DISTRICTS {
        told.add("enter", raw::enter(&mut machine, &file_of(&good()), 1));
    }
}

fn looking(told: &mut Gathered) {
    for file in files() {
        told.add("trees", raw::tree_count(&file));
        for (pairs, room) in [(&[0, 1][..], 2), (&[0, 1], 1), (&[9], 1)] {
            told.add("distances", raw::distances(&file, pairs, &mut vec![0; room]));
        }
        for list in [&[0, 1][..], &[9], &[0, 0], &[]] {
            told.add("judge", raw::judge(&file, list));
        }
    }
}

#[test]
fn calls_refuse_what_is_said() {
    let mut told = Gathered::default();
    for gather in [files_and_writing, plan_calls, cars, open_plans, districts, looking] {
        gather(&mut told);
    }
    let told: BTreeMap<String, BTreeSet<u32>> =
        told.0.into_iter().map(|(call, numbers)| (call.to_string(), numbers)).collect();
    assert_eq!(told, calls::refusals());
}
