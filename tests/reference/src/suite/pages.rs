//! Pages of distances: the limits and the stated cases, random plans, and files of every kind.

use super::{damaged_file, tables, Shape, FILE_A};
use crate::instances::{fullest, random_plan};
use crate::oracle::file_of;
use crate::plan::{Arc, Plan, CLOSED, MOST_PAIRS, OPTIONAL, REQUIRED};
use crate::planner::DistanceCall;
use crate::properties::{examine_page, Findings, Property};
use crate::random::Random;

pub(super) const fn pair(first: u16, second: u16) -> u16 {
    256 * first + second
}

pub(super) const NO_PATH: u32 = 4_294_967_295;

/// What a page answers: its searches and its entries, or the refusal.
type Stated = Result<(usize, Vec<u32>), u32>;

/// Five vertices: a way 0, 1, 2 that is cheaper than the arc from 0 to 2, a closed arc from 0 to 3, no arc into 0, a loop at 1.
fn town() -> Plan {
    let arcs = [
        (0, 1, OPTIONAL, 2),
        (1, 2, REQUIRED, 3),
        (0, 2, OPTIONAL, 9),
        (0, 3, CLOSED, 1),
        (2, 3, OPTIONAL, 65_535),
        (1, 1, OPTIONAL, 4),
    ];
    Plan::new(5, arcs.iter().map(|&(t, h, standing, cost)| Arc::new(t, h, standing, cost)).collect())
}

/// The town's arcs, all of one standing.
fn all(standing: u8) -> Plan {
    let plan = town();
    Plan {
        arcs: plan.arcs.into_iter().map(|a| Arc::new(a.tail.into(), a.head.into(), standing, a.cost)).collect(),
        ..plan
    }
}

/// Each pair of the town's vertices, as many times as there is room for.
fn many(count: usize) -> Vec<u16> {
    (0..count as u16).map(|k| pair(k % 5, k / 5 % 5)).collect()
}

/// A page: what it is, its file, its pairs, how many distances there is room for, and what it answers.
type Page = (&'static str, Vec<u8>, Vec<u16>, usize, Stated);

fn stated() -> Vec<Page> {
    let file = || file_of(&town());
    let mut repeated = town();
    repeated.arcs.push(repeated.arcs[0]);
    let far = pair(0, 3);
    vec![
        ("no pair", file(), vec![], 3, Ok((0, vec![]))),
        ("no pair, no list", file(), vec![], 0, Ok((0, vec![]))),
        ("one pair", file(), vec![pair(0, 2)], 3, Ok((1, vec![5]))),
        ("a vertex and itself", file(), vec![pair(1, 1), pair(4, 4)], 2, Ok((2, vec![0, 0]))),
        ("no path", file(), vec![pair(2, 0), pair(0, 4)], 2, Ok((2, vec![NO_PATH, NO_PATH]))),
        ("a closed arc", file(), vec![far], 1, Ok((1, vec![65_540]))),
        ("equal pairs", file(), vec![far, far, far], 3, Ok((1, vec![65_540; 3]))),
        (
            "first vertices that come back",
            file(),
            [0, 1, 0, 1].map(|v| pair(v, 2)).into(),
            4,
            Ok((2, vec![5, 3, 5, 3])),
        ),
        ("one second vertex", file(), [0, 1, 2].map(|v| pair(v, 2)).into(), 3, Ok((3, vec![5, 3, 0]))),
        ("256 pairs of one first vertex", file(), vec![far; 256], 256, Ok((1, vec![65_540; 256]))),
        ("257 pairs", file(), vec![far; 257], 300, Err(17)),
        ("257 pairs on a short list", file(), vec![far; 257], 256, Err(17)),
        ("n - 1 first", file(), vec![pair(4, 0)], 1, Ok((1, vec![NO_PATH]))),
        ("n first", file(), vec![pair(5, 0)], 1, Err(17)),
        ("n - 1 second", file(), vec![pair(0, 4)], 1, Ok((1, vec![NO_PATH]))),
        ("n second", file(), vec![pair(0, 5)], 1, Err(17)),
        ("a stray pair at the end", file(), [many(255), vec![pair(0, 255)]].concat(), 256, Err(17)),
        ("a list one short", file(), many(25), 24, Err(8)),
        ("a stray pair before a short list", file(), [many(25), vec![pair(5, 0)]].concat(), 25, Err(17)),
        ("repeated before a stray pair", file_of(&repeated), vec![pair(9, 9)], 0, Err(13)),
        ("torn before a stray pair", file()[..9].to_vec(), vec![pair(9, 9)], 0, Err(1)),
        ("closed arcs only", file_of(&all(CLOSED)), vec![pair(0, 1), pair(0, 0)], 2, Ok((1, vec![NO_PATH, 0]))),
        ("no must arc", file_of(&all(OPTIONAL)), vec![pair(0, 3)], 1, Ok((1, vec![1]))),
        ("must arcs in paths", FILE_A.to_vec(), vec![pair(0, 1), pair(1, 0)], 2, Ok((2, vec![5, 3]))),
    ]
}

/// A page of a plan of n vertices: of few first vertices or of many, with equal pairs, and at times with a stray one.
fn random_page(random: &mut Random, n: usize) -> Vec<u16> {
    let count = random.pick(&[0, 1, 2, 3, 5, 20, 100, 255, MOST_PAIRS, MOST_PAIRS, MOST_PAIRS + 1]);
    let firsts = random.within(1..=n);
    let mut pairs: Vec<u16> = (0..count).map(|_| pair(random.below(firsts) as u16, random.below(n) as u16)).collect();
    if count > 0 && random.once_in(5) {
        let stray = [pair(n as u16, 0), pair(0, n as u16), pair(255, 255), random.bits() as u16];
        pairs[random.below(count)] = random.pick(&stray);
    }
    pairs
}

/// A list with more room than there are pairs, with just as much, or with too little.
fn random_room(random: &mut Random, pairs: usize) -> usize {
    random.pick(&[pairs, pairs, pairs + 1, pairs + 40, pairs.saturating_sub(1), 0])
}

/// Holds a distance call to all of them.
pub fn run_pages(found: &mut Findings, call: &dyn DistanceCall, seed: u64, rounds: u64) {
    for (what, file, pairs, room, stated) in stated() {
        let mut distances = vec![0; room];
        let told = call.distances(&file, &pairs, &mut distances);
        let told = told.map(|searches| (searches, distances[..pairs.len().min(room)].to_vec()));
        found.expect(Property::Stated, told == stated, || format!("{what}: {told:?} instead of {stated:?}"));
        examine_page(found, call, &file, &pairs, room);
    }
    tables::run(found, call);
    let random = &mut Random::new(seed);
    let mut plans = vec![fullest(), all(CLOSED)];
    for _ in 0..200 * rounds {
        let shape = random.pick(&[Shape::small as fn(&mut Random) -> Shape, Shape::large])(random);
        plans.push(random_plan(random, &shape));
    }
    for plan in plans {
        let file = file_of(&plan);
        for _ in 0..3 {
            let pairs = random_page(random, plan.n);
            let room = random_room(random, pairs.len());
            examine_page(found, call, &file, &pairs, room);
        }
        let (file, n) = (damaged_file(random), random.pick(&[1, 10, 64]));
        let pairs = random_page(random, n);
        let room = random_room(random, pairs.len());
        examine_page(found, call, &file, &pairs, room);
    }
}
