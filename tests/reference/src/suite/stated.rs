//! Document 01's cases and limits, in its own numbers.

use super::{answers, editions, faults};
use crate::instances::{free_circles, fullest, parallel};
use crate::oracle::file_of;
use crate::plan::{Arc, Plan, CLOSED, OPTIONAL, REQUIRED};
use crate::planner::{Planner, Refusal};
use crate::properties::{Findings, Property};

/// A plan as document 01 writes it: arcs are (tail, head, standing, cost).
pub(super) fn plan(n: usize, arcs: &[(usize, usize, u8, u16)]) -> Plan {
    Plan::new(n, arcs.iter().map(|&(t, h, standing, cost)| Arc::new(t, h, standing, cost)).collect())
}

/// Case A's file, as document 01 prints it.
pub const FILE_A: [u8; 10] = [0x10, 0x40, 0x20, 0x01, 0x40, 0x01, 0x41, 0x00, 0x00, 0x03];

pub fn case_a() -> Plan {
    case_a_with(OPTIONAL, 3)
}

/// A with another standing and cost in arc 1.
fn case_a_with(standing: u8, cost: u16) -> Plan {
    plan(2, &[(0, 1, REQUIRED, 5), (1, 0, standing, cost)])
}

pub fn case_b() -> Plan {
    let streets = [(0, 1, REQUIRED, 1), (1, 0, OPTIONAL, 1), (2, 3, REQUIRED, 1), (3, 2, OPTIONAL, 1)];
    let ways = [(1, 2, OPTIONAL, 10), (3, 0, OPTIONAL, 10)];
    plan(4, &[&streets[..], &ways].concat())
}

pub fn case_c() -> Plan {
    let loops = [(0, 0, REQUIRED, 1), (1, 1, REQUIRED, 1), (2, 2, REQUIRED, 1)];
    let ways = [(0, 1, OPTIONAL, 2), (1, 2, OPTIONAL, 2), (2, 0, OPTIONAL, 2), (0, 2, OPTIONAL, 3)];
    plan(3, &[&loops[..], &ways].concat())
}

/// A's first arc alone.
pub(super) fn case_d() -> Plan {
    plan(2, &[(0, 1, REQUIRED, 5)])
}

/// A without a required arc.
pub(super) fn case_e() -> Plan {
    plan(2, &[(0, 1, OPTIONAL, 5), (1, 0, OPTIONAL, 3)])
}

/// A required loop of cost 1 at each vertex.
pub(super) fn loops(n: usize) -> Plan {
    Plan::new(n, (0..n).map(|v| Arc::new(v, v, REQUIRED, 1)).collect())
}

/// Cost, trees tried, whole and parts; or the refusal.
pub(super) type Stated = Result<(u64, u64, bool, u64), Refusal>;

/// A call, and what is stated of it.
pub(super) struct Row {
    pub what: String,
    pub file: Vec<u8>,
    pub budget: u64,
    pub places: usize,
    pub stated: Stated,
}

impl Row {
    fn new(what: &str, plan: &Plan, budget: u64, places: usize, stated: Stated) -> Row {
        Row { what: what.to_string(), file: file_of(plan), budget, places, stated }
    }
}

/// The cases, on a sheet that is just long enough.
pub(super) fn cases() -> Vec<Row> {
    let circle = Plan::new(64, (0..64).map(|v| Arc::new(v, (v + 1) % 64, REQUIRED, 1)).collect());
    let mut wider = fullest();
    wider.arcs.push(Arc::new(0, 0, CLOSED, 1));
    let rows = [
        ("A", case_a(), 10_000, Ok((8, 1, true, 1))),
        ("B", case_b(), 10_000, Ok((22, 1, true, 2))),
        ("C, one tree", case_c(), 1, Ok((14, 1, false, 3))),
        ("C, two trees", case_c(), 2, Ok((9, 2, true, 3))),
        ("D", case_d(), 10_000, Err(12)),
        ("D, budget first", case_d(), 0, Err(9)),
        ("E", case_e(), 10_000, Err(10)),
        ("E, budget first", case_e(), 0, Err(9)),
        ("F, eight", loops(8), 10_000, Err(12)),
        ("F, nine", loops(9), 10_000, Err(11)),
        ("G, cost 0", case_a_with(OPTIONAL, 0), 10_000, Ok((5, 1, true, 1))),
        ("G, standing 3", case_a_with(3, 3), 10_000, Err(7)),
        ("G, both", case_a_with(3, 0), 10_000, Err(7)),
        ("free arcs between all", free_circles(3), 10_000, Ok((3, 1, true, 3))),
        ("a free must arc", plan(2, &[(0, 1, REQUIRED, 0), (1, 0, OPTIONAL, 3)]), 10_000, Err(6)),
        (
            "a free closed arc",
            plan(2, &[(0, 1, REQUIRED, 5), (1, 0, OPTIONAL, 3), (1, 0, CLOSED, 0)]),
            1,
            Ok((8, 1, true, 1)),
        ),
        ("parallel arcs", parallel(), 10_000, Err(12)),
        ("n 64", circle, 10_000, Ok((64, 1, true, 1))),
        ("n 65", Plan { n: 65, ..case_a() }, 10_000, Err(3)),
        ("n 0", Plan { n: 0, ..case_a() }, 10_000, Err(3)),
        ("m 256", fullest(), 10_000, Ok((256 * 65_535, 1, true, 1))),
        ("m 257", wider, 10_000, Err(3)),
        ("m 0", Plan::new(2, vec![]), 10_000, Err(3)),
    ];
    rows.map(|(what, plan, budget, stated)| Row::new(what, &plan, budget, 17_266, stated)).into()
}

/// Budgets and sheets, on case A: what is refused, 0 for nothing.
fn limits() -> Vec<Row> {
    let budgets = [(0, 9), (1, 0), (1_000_000, 0), (1_000_001, 9), (1 << 32, 9), (1 << 32 | 1, 9), (u64::MAX, 9)];
    let sheets = [(17_267, 0), (17_266, 0), (17_265, 8), (2, 8), (1, 8), (0, 8)];
    let mut rows: Vec<(u64, usize, Refusal)> = vec![(0, 17_265, 8)];
    rows.extend(budgets.map(|(budget, refused)| (budget, 17_266, refused)));
    rows.extend(sheets.map(|(places, refused)| (10_000, places, refused)));
    let row = |(budget, places, refused)| {
        let stated = if refused == 0 { Ok((8, 1, true, 1)) } else { Err(refused) };
        Row::new("budget and sheet on A", &case_a(), budget, places, stated)
    };
    let mut rows: Vec<Row> = rows.into_iter().map(row).collect();
    rows.push(Row::new("standing before short sheet", &case_a_with(3, 3), 10_000, 0, Err(7)));
    rows
}

/// Case A with more arcs between its two: as many closed ones as make m arcs, which differ in cost, and arc 0 again at the places given.
fn repeated_at(m: usize, again: &[usize]) -> Plan {
    let mut plan = case_a();
    plan.arcs.extend((2..m).map(|k| Arc::new(k % 2, 1 - k % 2, CLOSED, k as u16)));
    for &k in again {
        plan.arcs[k] = plan.arcs[0];
    }
    plan
}

/// 13 repeated: where the two arcs stand, what they differ in, and which refusals come before it and after it.
fn repeats() -> Vec<Row> {
    let twins = |a: Arc, b: Arc| Plan::new(3, [case_a().arcs, vec![a, b]].concat());
    let arc = Arc::new(0, 1, CLOSED, 7);
    let (other_tail, other_head) = (Arc { tail: 2, ..arc }, Arc { head: 2, ..arc });
    let (other_standing, other_cost) = (Arc { standing: OPTIONAL, ..arc }, Arc { cost: 8, ..arc });
    let spot = Arc::new(2, 2, CLOSED, 9);
    let mut standing = repeated_at(9, &[4]);
    standing.arcs[8].standing = 3;
    let idle = plan(2, &[(0, 1, OPTIONAL, 5), (1, 0, OPTIONAL, 3), (0, 1, OPTIONAL, 5)]);
    let good = Ok((8, 1, true, 1));
    let rows = [
        ("repeated: none in 256", repeated_at(256, &[]), 1, 17_266, good),
        ("repeated: arcs 0 and 255", repeated_at(256, &[255]), 1, 17_266, Err(13)),
        ("repeated: neighbours", repeated_at(9, &[1]), 1, 17_266, Err(13)),
        ("repeated: three", repeated_at(9, &[3, 7]), 1, 17_266, Err(13)),
        ("repeated: closed arcs", twins(arc, arc), 1, 17_266, Err(13)),
        ("repeated: loops", twins(spot, spot), 1, 17_266, Err(13)),
        ("another tail", twins(arc, other_tail), 1, 17_266, good),
        ("another head", twins(arc, other_head), 1, 17_266, good),
        ("another standing", twins(arc, other_standing), 1, 17_266, good),
        ("another cost", twins(arc, other_cost), 1, 17_266, good),
        ("standing before repeated", standing, 1, 17_266, Err(7)),
        ("repeated before short sheet", repeated_at(9, &[4]), 1, 17_265, Err(13)),
        ("repeated before budget", repeated_at(9, &[4]), 0, 17_266, Err(13)),
        ("repeated before idle", idle, 1, 17_266, Err(13)),
    ];
    rows.map(|(what, plan, budget, places, stated)| Row::new(what, &plan, budget, places, stated)).into()
}

/// Holds a planner to all of them.
pub fn run_stated(found: &mut Findings, planner: &dyn Planner) {
    let rows = [cases(), limits(), repeats(), editions::rows(), faults::rows()];
    for Row { what, file, budget, places, stated } in rows.into_iter().flatten() {
        let told = planner.plan_call(&file, budget, &mut vec![0; places]).map(|a| (a.cost, a.trees, a.whole, a.parts));
        let about = || format!("{what}, budget {budget}, {places} places: {told:?} instead of {stated:?}");
        found.expect(Property::Stated, told == stated, about);
    }
    let mut sheet = vec![0; 17_266];
    let short = planner.short_call(&FILE_A, &mut sheet);
    let drive = short.is_ok_and(|a| (a.cost, a.floor) == (8, 8) && sheet[..a.places] == [0, 1]);
    let refused = planner.short_call(&FILE_A, &mut sheet[..17_265]) == Err(8);
    found.expect(Property::Stated, drive && refused, || "the short call on A".to_string());
    answers::run(found, planner);
}
