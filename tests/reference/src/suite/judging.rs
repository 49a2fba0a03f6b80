//! Lists of arcs to be judged: stated ones, each fault alone and in pairs, lists at the limit of their length, and random ones.

use super::faults::{good, spoiled_once, MAY, MUST, SHUT};
use crate::instances::{random_plan, Shape};
use crate::oracle::file_of;
use crate::plan::{Arc, Plan, CLOSED, MOST_PLACES, OPTIONAL, REQUIRED};
use crate::planner::{Judge, Planner, Refusal};
use crate::properties::{examine_judgement, examine_written, Findings, Property};
use crate::random::Random;

/// A file, a list, and what is stated of them.
struct Row {
    what: String,
    file: Vec<u8>,
    places: Vec<u16>,
    stated: Result<u64, Refusal>,
}

/// Two must arcs, of which one is a loop; a way back, a loop that may be driven, and a closed one.
fn streets() -> Plan {
    let arcs = vec![
        Arc::checked(0, 1, 5, 9),
        Arc::new(1, 0, OPTIONAL, 3),
        Arc::checked(1, 1, 7, 2),
        Arc::new(0, 0, OPTIONAL, 1),
        Arc::new(0, 0, CLOSED, 1),
    ];
    Plan { edition: 2, n: 2, arcs }
}

fn stated_rows() -> Vec<Row> {
    let file = file_of(&streets());
    let row = |&(what, places, stated): &(&str, &[u16], Result<u64, Refusal>)| Row {
        what: what.to_string(),
        file: file.clone(),
        places: places.to_vec(),
        stated,
    };
    let rows: &[(&str, &[u16], Result<u64, Refusal>)] = &[
        ("a drive", &[0, 2, 1], Ok(9 + 2 + 3)),
        ("from its second arc on", &[2, 1, 0], Ok(14)),
        ("from its last arc on", &[1, 0, 2], Ok(14)),
        ("a must arc twice", &[0, 2, 2, 1], Ok(14 + 7)),
        ("all of it twice", &[0, 2, 1, 0, 2, 1], Ok(14 + 5 + 7 + 3)),
        ("a must arc once among repeats", &[3, 3, 3, 0, 1, 3, 0, 1, 3, 3, 0, 2, 1], Ok(6 + 9 + 3 + 5 + 3 + 5 + 2 + 3)),
        ("the number m", &[0, 2, 1, 5], Err(14)),
        ("the highest number", &[65_535, 0, 2, 1], Err(14)),
        ("256 more", &[256, 2, 1], Err(14)),
        ("a closed loop", &[4, 0, 2, 1], Err(14)),
        ("a closed loop at the end, a gap at the start", &[0, 0, 2, 1, 4], Err(14)),
        ("nothing but a closed loop", &[4], Err(14)),
        ("a gap", &[0, 0, 2, 1], Err(15)),
        ("a gap between the last and the first", &[0, 2], Err(15)),
        ("one arc that is no loop", &[0], Err(15)),
        ("a gap at the end, a missed arc", &[0, 1, 1], Err(15)),
        ("a must arc missed", &[0, 1], Err(16)),
        ("both missed", &[3, 3], Err(16)),
        ("the loop alone", &[2], Err(16)),
        ("nothing", &[], Err(16)),
    ];
    rows.iter().map(row).collect()
}

/// What it is, its number, and what it does to a list.
type ListFault = (&'static str, Refusal, fn(&mut Vec<u16>));

/// What can be wrong with a list for the plan of [`good`], whose drive is the must arc and the way back.
fn list_faults() -> Vec<ListFault> {
    vec![
        ("a long list", 3, |list| list.resize(MOST_PLACES + 1, MUST as u16)),
        ("the number m at the end", 14, |list| list.push(SHUT as u16 + 1)),
        ("a closed arc at the end", 14, |list| list.push(SHUT as u16)),
        ("a gap at the start", 15, |list| list.insert(0, list.first().copied().unwrap_or(MAY as u16))),
        ("a gap at the end", 15, |list| list.push(list.last().copied().unwrap_or(MUST as u16))),
        ("the must arc missed", 16, |list| *list = vec![0, MAY as u16]),
        ("an empty list", 16, |list| list.clear()),
    ]
}

/// Each fault of a list alone, each pair of them, and each with each fault of the file that is looked at here.
fn spoiled_rows() -> Vec<Row> {
    let mut rows = Vec::new();
    for edition in [1, 2] {
        let faults = list_faults();
        let drive = [MUST as u16, MAY as u16];
        let mut add = |what: String, file: Vec<u8>, places: Vec<u16>, number| {
            rows.push(Row { what: format!("{what}, edition {edition}"), file, places, stated: Err(number) })
        };
        for (k, &(first, number, spoil)) in faults.iter().enumerate() {
            for &(second, _, spoil_too) in &faults[k..] {
                // Faults of the list itself are put in first, so that what is put in later does not take them away.
                let mut places = drive.to_vec();
                spoil_too(&mut places);
                spoil(&mut places);
                add(format!("{first}, {second}"), good(edition).file(), places, number);
            }
        }
        for (what, draft, number) in spoiled_once(edition, &[1, 2, 3, 4, 5, 6, 7, 13, 10]) {
            add(what.to_string(), draft.file(), drive.to_vec(), number);
            for &(fault, of_list, spoil) in &faults {
                let mut places = drive.to_vec();
                spoil(&mut places);
                let comes_before_3 = draft.file().len() < 3 || number == 2;
                let number = if of_list == 3 && !comes_before_3 { 3 } else { number };
                add(format!("{what}, {fault}"), draft.file(), places, number);
            }
        }
    }
    rows
}

/// Lists as long as they may be, and longer: a loop of the highest costs driven round, whole or with one wrong place.
fn long_rows() -> Vec<Row> {
    let arcs = vec![Arc::new(0, 0, REQUIRED, 65_535), Arc::new(1, 0, OPTIONAL, 1), Arc::new(0, 0, CLOSED, 1)];
    let file = file_of(&Plan::new(2, arcs));
    let row = |what: &str, length: usize, last: u16, stated| {
        let mut places = vec![0; length];
        places[length - 1] = last;
        Row { what: what.to_string(), file: file.clone(), places, stated }
    };
    vec![
        row("65,534 places", 65_534, 0, Ok(65_534 * 65_535)),
        row("65,535 places", 65_535, 0, Ok(65_535 * 65_535)),
        row("65,535 places, the last one closed", 65_535, 2, Err(14)),
        row("65,535 places, a gap before the last", 65_535, 1, Err(15)),
        row("65,536 places", 65_536, 0, Err(3)),
        row("65,536 places, the last one closed", 65_536, 2, Err(3)),
        row("100,000 places", 100_000, 0, Err(3)),
    ]
}

/// Holds a judge to what is stated.
pub fn run_stated_lists(found: &mut Findings, judge: &dyn Judge) {
    for Row { what, file, places, stated } in stated_rows().into_iter().chain(spoiled_rows()).chain(long_rows()) {
        let told = judge.judge(&file, &places);
        found.expect(Property::Stated, told == stated, || format!("{what}: {told:?} instead of {stated:?}"));
        examine_judgement(found, judge, &file, &places);
    }
}

/// The open arcs that leave a vertex.
fn leaving(plan: &Plan, v: u8) -> Vec<u16> {
    let leaves = |&k: &u16| plan.arcs[usize::from(k)].standing != CLOSED && plan.arcs[usize::from(k)].tail == v;
    (0..plan.arcs.len() as u16).filter(leaves).collect()
}

/// A walk along open arcs, of at most so many, from an arc on. It may end anywhere.
fn walk(random: &mut Random, plan: &Plan, most: usize) -> Vec<u16> {
    let mut list: Vec<u16> = Vec::new();
    let mut at = random.below(plan.n) as u8;
    while list.len() < most {
        let ways = leaving(plan, at);
        if ways.is_empty() {
            break;
        }
        let k = random.pick(&ways);
        list.push(k);
        at = plan.arcs[usize::from(k)].head;
        // once round is often wanted
        if at == plan.arcs[usize::from(list[0])].tail && random.once_in(3) {
            break;
        }
    }
    list
}

/// The first arcs of ways from a vertex to each other one, found breadth first.
fn way(plan: &Plan, from: u8, to: u8) -> Option<Vec<u16>> {
    let mut came: Vec<Option<u16>> = vec![None; plan.n];
    let (mut reached, mut next) = (vec![from], 0);
    while from != to && came[usize::from(to)].is_none() {
        let &v = reached.get(next)?;
        next += 1;
        for k in leaving(plan, v) {
            let head = plan.arcs[usize::from(k)].head;
            if head != from && came[usize::from(head)].is_none() {
                came[usize::from(head)] = Some(k);
                reached.push(head);
            }
        }
    }
    let mut list = Vec::new();
    let mut at = to;
    while at != from {
        let k = came[usize::from(at)]?;
        list.push(k);
        at = plan.arcs[usize::from(k)].tail;
    }
    list.reverse();
    Some(list)
}

/// A drive through the must arcs, in any order and some of them more than once, if there is one.
fn drive(random: &mut Random, plan: &Plan) -> Option<Vec<u16>> {
    let mut wanted: Vec<u16> =
        (0..plan.arcs.len() as u16).filter(|&k| plan.arcs[usize::from(k)].standing == REQUIRED).collect();
    let first = *wanted.first()?;
    if random.once_in(2) {
        wanted.push(first);
    }
    random.shuffle(&mut wanted);
    let arc = |k: u16| &plan.arcs[usize::from(k)];
    let mut list = Vec::new();
    for (i, &k) in wanted.iter().enumerate() {
        list.push(k);
        list.extend(way(plan, arc(k).head, arc(wanted[(i + 1) % wanted.len()]).tail)?);
    }
    Some(list)
}

/// A list that someone could send for a plan: a drive if there is one, or a walk, or any numbers; and at times one thing is changed.
fn random_list(random: &mut Random, plan: &Plan) -> Vec<u16> {
    let m = plan.arcs.len();
    let mut list = match random.below(8) {
        0 => (0..random.below(6)).map(|_| random.below(m + 1) as u16).collect(),
        1 => walk(random, plan, 30),
        2 => (0..m as u16).collect(),
        _ => drive(random, plan).unwrap_or_else(|| walk(random, plan, 30)),
    };
    if list.is_empty() {
        return list;
    }
    let (i, j) = (random.below(list.len()), random.below(list.len()));
    let arc = random.below(m);
    let any = random.pick(&[arc, arc, arc, m, m + 1, 255, 256, 65_535]) as u16;
    match random.below(12) {
        0 => list[i] = any,
        1 => list.insert(i, any),
        2 => list.push(any),
        3 => _ = list.remove(i),
        4 => list.swap(i, j),
        5 => list.rotate_left(i),
        6 => list.truncate(i),
        7 => list.extend_from_within(..),
        8 => list.insert(i, list[j]),
        _ => {}
    }
    list
}

/// Random plans with random lists: what each is judged to be; and beside what a planner answers for the plan.
pub fn run_lists(found: &mut Findings, judge: &dyn Judge, planner: &dyn Planner, seed: u64, plans: u64) {
    const SHAPES: [fn(&mut Random) -> Shape; 5] =
        [Shape::small, Shape::small, Shape::small, Shape::scattered, Shape::large];
    for seed in seed..seed + plans {
        let random = &mut Random::new(seed);
        let shape = random.pick(&SHAPES)(random);
        let plan = random_plan(random, &shape);
        let file = file_of(&plan);
        let lists: Vec<Vec<u16>> = (0..12).map(|_| random_list(random, &plan)).collect();
        for list in &lists {
            examine_judgement(found, judge, &file, list);
        }
        for budget in [1, 20] {
            examine_written(found, judge, planner, &file, budget, &lists);
        }
    }
}
