//! Plans that are open for changes: stated histories, and random ones of some hundred calls on random plans of both editions.

use super::{case_a, damaged_file, Shape};
use crate::instances::random_plan;
use crate::oracle::file_of;
use crate::plan::{Arc, Departure, Plan, CLOSED, HIGHEST_BUDGET, OPTIONAL, REQUIRED};
use crate::planner::{Call, Change, DepartureCall, Editor, Refusal};
use crate::properties::{examine_editing, Findings, Property, Question, Step};
use crate::random::Random;

fn change(arc: u32, cost: u16, checking: u16, standing: u8) -> Call {
    Call::Change(Change { arc, cost, checking, standing })
}

/// A must arc, two ways back and a closed arc, in an edition.
fn streets(edition: u8) -> Plan {
    let back = |standing, cost| Arc::new(1, 0, standing, cost);
    Plan {
        edition,
        ..Plan::new(2, vec![Arc::new(0, 1, REQUIRED, 5), back(OPTIONAL, 3), back(OPTIONAL, 9), back(CLOSED, 3)])
    }
}

/// A history: the plan that is opened, and each call with its refusal, 0 for none.
type Edits = (&'static str, Plan, Vec<(Call, Refusal)>);

fn histories() -> Vec<Edits> {
    use Call::{Mark, Return};
    let dearer = change(1, 4, 0, OPTIONAL);
    let marks = |range: std::ops::RangeInclusive<u32>| range.map(Mark).collect::<Vec<Call>>();
    let all = |calls: Vec<Call>| calls.into_iter().map(|call| (call, 0)).collect::<Vec<(Call, Refusal)>>();
    let mut histories = vec![
        ("no call", streets(1), vec![]),
        ("no mark is set", streets(1), (0..4).map(|k| (Return(k), 21)).collect()),
        (
            "marks above 3",
            streets(1),
            vec![(Mark(4), 21), (Return(4), 21), (Mark(256), 21), (Mark(u32::MAX), 21), (Return(u32::MAX), 21)],
        ),
        (
            "each mark is its own",
            streets(1),
            [all(vec![Mark(3), Return(3)]), vec![(Return(2), 21), (Return(0), 21)]].concat(),
        ),
        (
            "a return keeps the marks",
            streets(1),
            all(vec![Mark(0), dearer, Mark(1), Return(0), Return(1), Return(0), Return(1)]),
        ),
        ("a mark replaced", streets(1), all(vec![Mark(2), dearer, Mark(2), change(1, 5, 0, OPTIONAL), Return(2)])),
        (
            "a return to a mark set before another return",
            streets(2),
            all(vec![Mark(0), dearer, Mark(1), Return(0), change(2, 1, 0, CLOSED), Return(1), Return(0)]),
        ),
        (
            "marks hold the plan of their moment",
            streets(2),
            all([marks(0..=3), vec![dearer], (0..=3).map(Return).collect()].concat()),
        ),
        (
            "a mark set in a plan that was brought back",
            streets(1),
            all(vec![Mark(0), dearer, Return(0), Mark(1), dearer, Return(1)]),
        ),
        (
            "the arc m, and above",
            streets(1),
            vec![
                (change(3, 3, 0, CLOSED), 0),
                (change(4, 3, 0, CLOSED), 14),
                (change(256, 3, 0, CLOSED), 14),
                (change(u32::MAX, 3, 0, 0), 14),
            ],
        ),
        (
            "14 before 6 and 7",
            streets(2),
            vec![(change(4, 3, 1, 3), 14), (change(4, 3, 0, 3), 14), (change(4, 0, 0, REQUIRED), 14)],
        ),
        (
            "standings above 2",
            streets(2),
            vec![(change(1, 3, 0, 3), 7), (change(1, 3, 0, 255), 7), (change(1, 3, 1, 3), 6)],
        ),
        ("6 before 13", streets(2), vec![(change(3, 3, 1, OPTIONAL), 6), (change(3, 3, 0, OPTIONAL), 13)]),
        (
            "a repeated arc",
            streets(1),
            vec![
                (change(2, 3, 0, OPTIONAL), 13),
                (change(2, 3, 0, CLOSED), 13),
                (change(2, 4, 0, OPTIONAL), 0),
                (change(1, 4, 0, OPTIONAL), 13),
            ],
        ),
        ("an arc is no repetition of itself", streets(1), vec![(change(1, 3, 0, OPTIONAL), 0)]),
        (
            "a closed arc",
            streets(1),
            vec![(change(3, 2, 0, OPTIONAL), 0), (change(3, 2, 2, REQUIRED), 0), (change(3, 2, 0, CLOSED), 0)],
        ),
        (
            "a must arc of checking cost 0 in edition 2",
            streets(2),
            vec![(change(1, 3, 0, REQUIRED), 6), (change(1, 3, 1, REQUIRED), 0), (change(1, 0, 65_535, REQUIRED), 0)],
        ),
        (
            "another checking cost in edition 1",
            streets(1),
            vec![
                (change(0, 5, 6, REQUIRED), 6),
                (change(0, 6, 6, REQUIRED), 0),
                (change(0, 0, 0, REQUIRED), 6),
                (change(0, 0, 6, REQUIRED), 6),
            ],
        ),
        (
            "a checking cost of another arc",
            streets(2),
            vec![(change(1, 3, 3, OPTIONAL), 6), (change(3, 3, 3, CLOSED), 6), (change(1, 0, 0, OPTIONAL), 0)],
        ),
        (
            "no must arc is left",
            case_a(),
            vec![(change(0, 5, 0, OPTIONAL), 0), (change(0, 65_535, 65_535, REQUIRED), 0)],
        ),
    ];
    // a refused change alters nothing, between two that are not
    for edition in [1, 2] {
        let refused = [
            (change(1, 3, 7, OPTIONAL), 6),
            (change(1, 3, 0, 4), 7),
            (change(2, 3, 0, CLOSED), 13),
            (change(9, 3, 0, 0), 14),
            (Mark(9), 21),
            (Return(3), 21),
        ];
        for (call, number) in refused {
            let steps = vec![(Mark(0), 0), (call, number), (dearer, 0), (call, number), (Return(0), 0), (call, number)];
            histories.push(("refused calls alter nothing", streets(edition), steps));
        }
    }
    histories
}

fn run_stated_histories(found: &mut Findings, editor: &dyn Editor, callee: &dyn DepartureCall) {
    let noon =
        || Question { budget: 1, windows: vec![2, 3, 600, 840], departure: Departure { weekday: 3, minute: 720 } };
    for (what, plan, calls) in histories() {
        let steps: Vec<Step> = calls.iter().flat_map(|&(call, _)| [Step::Call(call), Step::Ask(noon())]).collect();
        let told = examine_editing(found, editor, callee, &file_of(&plan), &steps);
        let stated: Vec<Refusal> = std::iter::once(0).chain(calls.iter().map(|&(_, number)| number)).collect();
        found.expect(Property::Stated, told == stated, || format!("{what}: {told:?} instead of {stated:?}"));
    }
}

/// Most changes are good ones; the others have one thing wrong, or may have.
fn random_change(random: &mut Random, plan: &Plan) -> Call {
    let m = plan.arcs.len();
    let arc = if random.once_in(25) { random.pick(&[m, m + 1, 256, 1 << 16]) } else { random.below(m) };
    // often another arc's fields, so that arcs repeat
    let like = plan.arcs[random.below(m)];
    let cost = if random.once_in(3) { like.cost } else { random.pick(&[0, 1, 2, 5, 9, 65_535]) };
    let standing = random.pick(&[OPTIONAL, OPTIONAL, REQUIRED, REQUIRED, CLOSED, like.standing]);
    let standing = if random.once_in(25) { random.pick(&[3, 4, 255]) } else { standing };
    let checking = match (standing, plan.edition) {
        (REQUIRED, 1) => cost,
        (REQUIRED, _) => random.pick(&[1, cost.max(1), 7, 65_535]),
        _ => 0,
    };
    let checking = if random.once_in(12) { random.pick(&[0, 1, cost]) } else { checking };
    change(arc as u32, cost, checking, standing)
}

fn random_question(random: &mut Random, plan: &Plan) -> Question {
    let mut windows = vec![];
    for _ in 0..random.pick(&[0, 0, 1, 3]) {
        let from = random.below(1_000) as u16;
        windows.extend([
            random.below(plan.arcs.len() + 1) as u16,
            random.below(3) as u16,
            from,
            from + random.pick(&[1, 400]),
        ]);
    }
    let departure = Departure { weekday: random.below(3) as u32, minute: random.below(1_440) as u32 };
    Question { budget: random.pick(&[1, 1, 2, 3, 0, HIGHEST_BUDGET + 1]), windows, departure }
}

/// So many steps for a plan.
fn random_steps(random: &mut Random, plan: &Plan, count: usize) -> Vec<Step> {
    let mark = |random: &mut Random| random.pick(&[0, 0, 1, 1, 2, 3, 4]);
    let step = |_| match random.below(10) {
        0 | 1 => Step::Call(Call::Mark(mark(random))),
        2 | 3 => Step::Call(Call::Return(mark(random))),
        4 => Step::Ask(random_question(random, plan)),
        _ => Step::Call(random_change(random, plan)),
    };
    (0..count).map(step).collect()
}

/// Holds an editor to the history, and asking to the plan call at a departure of a callee that is right.
pub fn run_editing(found: &mut Findings, editor: &dyn Editor, callee: &dyn DepartureCall, seed: u64, rounds: u64) {
    run_stated_histories(found, editor, callee);
    let random = &mut Random::new(seed);
    for round in 0..12 * rounds {
        let shape = if round % 6 == 5 { Shape::large(random) } else { Shape::small(random) };
        let plan = random_plan(random, &shape);
        let count = random.pick(&[40, 150, 400]);
        let steps = random_steps(random, &plan, count);
        examine_editing(found, editor, callee, &file_of(&plan), &steps);
        examine_editing(found, editor, callee, &damaged_file(random), &steps[..10]);
    }
}
