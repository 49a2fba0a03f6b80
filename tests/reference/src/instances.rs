//! Plans to try a planner on: random ones, and those of the benchmark.

mod drawn;
mod equal;
mod joined;
mod towns;
mod worked;

pub use drawn::{drawn_city, drawn_town, joined_loops};
pub use equal::many_paths;
pub use joined::{crossing, even, joined, one_above, star, Entries, HIGHEST_COUNT};
pub use towns::{dead_ends, town, towns};
pub use worked::{
    bound_choices, chorded_ring, loops_at_one, matrix, nested_circles, of_matrix, one_way, parallel, ties,
    two_ways_back, Matrix,
};

use crate::oracle::file_of;
use crate::plan::{Arc, Plan, CLOSED, MOST_ARCS, MOST_VERTICES, OPTIONAL, REQUIRED};
use crate::random::Random;
use std::ops::RangeInclusive;

/// What random plans look like.
pub struct Shape {
    pub vertices: RangeInclusive<usize>,
    pub parts: RangeInclusive<usize>,
    /// Vertices of a part, and required arcs of a part beside those that hold it together.
    pub part_size: RangeInclusive<usize>,
    pub more_required: RangeInclusive<usize>,
    /// Optional arcs beside those that make a drive possible.
    pub more_optional: RangeInclusive<usize>,
    pub closed: RangeInclusive<usize>,
    /// In one plan of so many a drive is left to chance.
    pub loose: usize,
    /// Whether there is an arc from each vertex to each other, so that there are many links.
    pub complete: bool,
}

impl Shape {
    /// Small enough for brute force: up to 5 parts of up to 3 vertices, or up to 8 of one.
    pub fn small(random: &mut Random) -> Shape {
        let (most_parts, size) = random.pick(&[(5, 1), (4, 2), (3, 3), (8, 1)]);
        let more_optional = random.pick(&[5, 16, 40]);
        let complete = random.once_in(4);
        Shape {
            vertices: 1..=if complete { 8 } else { 10 },
            parts: if most_parts == 8 { 6..=8 } else { 1..=most_parts },
            part_size: 1..=size,
            more_required: 0..=if most_parts == 8 { 0 } else { 2 },
            more_optional: 0..=more_optional,
            closed: 0..=3,
            loose: 6,
            complete,
        }
    }

    /// Up to all the limits.
    pub fn large(random: &mut Random) -> Shape {
        let more_optional = random.within(0..=150);
        let most_required = random.pick(&[0, 2, 20]);
        Shape {
            vertices: 12..=64,
            parts: 1..=8,
            part_size: 1..=8,
            more_required: 0..=most_required,
            more_optional: 0..=more_optional,
            closed: 0..=10,
            loose: 10,
            complete: false,
        }
    }

    /// Around the most parts that are allowed, every other plan without a drive.
    pub fn scattered(_: &mut Random) -> Shape {
        Shape {
            vertices: 8..=12,
            parts: 7..=10,
            part_size: 1..=1,
            more_required: 0..=1,
            more_optional: 0..=5,
            closed: 0..=2,
            loose: 2,
            complete: false,
        }
    }
}

/// A way to draw costs: many ties, the extremes, free arcs, or anything.
fn cost_law(random: &mut Random) -> impl Fn(&mut Random) -> u16 {
    let kind = random.below(14);
    move |random| match kind {
        0 => 1,
        1 => 65_535,
        2 => random.pick(&[1, 65_535]),
        3 => random.within(1..=2) as u16,
        4 | 5 => random.within(1..=9) as u16,
        // No arc is as long as two: what is an arc stays a link.
        6 | 7 => random.within(51..=99) as u16,
        // Free arcs, and circles of them: all, most, and some.
        8 => 0,
        9 | 10 => random.pick(&[0, 0, 0, 1, 5]),
        11 => random.within(0..=3) as u16,
        12 => random.pick(&[0, 65_535]),
        _ => random.within(1..=65_535) as u16,
    }
}

/// Ways to draw the checking cost of a required arc from its cost: below, at and above it. It is never 0.
const CHECKING_LAWS: usize = 6;

fn checking(random: &mut Random, law: usize, cost: u16) -> u16 {
    let cost = cost.max(1);
    match law {
        0 => cost,
        1 => random.within(1..=cost.into()) as u16,
        2 => random.within(cost.into()..=65_535) as u16,
        3 => random.pick(&[cost.max(2) - 1, cost, cost.min(65_534) + 1]),
        4 => random.pick(&[1, cost, 65_535]),
        _ => random.within(1..=65_535) as u16,
    }
}

/// A random plan. Its vertices are mixed, so that the parts' numbers follow no pattern.
pub fn random_plan(random: &mut Random, shape: &Shape) -> Plan {
    let n = random.within(shape.vertices.clone());
    let cost = cost_law(random);
    let mut vertices: Vec<usize> = (0..n).collect();
    random.shuffle(&mut vertices);
    let mut arcs = Vec::new();

    let mut rest = &vertices[..];
    for _ in 0..random.within(shape.parts.clone()) {
        let size = random.within(shape.part_size.clone()).min(rest.len());
        let (part, others) = rest.split_at(size);
        rest = others;
        if !part.is_empty() {
            require_part(random, &cost, part, shape.more_required.clone(), &mut arcs);
        }
    }

    // A circle through all vertices makes a drive possible; where one of its arcs is closed, chance decides.
    random.shuffle(&mut vertices);
    let broken = if random.once_in(shape.loose) { random.below(n) } else { n };
    for (i, &v) in vertices.iter().enumerate() {
        let standing = if i == broken { CLOSED } else { OPTIONAL };
        arcs.push(Arc::new(v, vertices[(i + 1) % n], standing, cost(random)));
    }
    if shape.complete {
        let pairs = (0..n * n).map(|k| (k / n, k % n)).filter(|(v, w)| v != w);
        arcs.extend(pairs.map(|(v, w)| Arc::new(v, w, OPTIONAL, cost(random))));
    }
    for (count, standing) in [(shape.more_optional.clone(), OPTIONAL), (shape.closed.clone(), CLOSED)] {
        for _ in 0..random.within(count) {
            arcs.push(Arc::new(random.below(n), random.below(n), standing, cost(random)));
        }
    }
    if random.once_in(3) {
        let twin = random.pick(&arcs);
        arcs.push(Arc::new(twin.tail.into(), twin.head.into(), twin.standing, cost(random)));
    }
    random.shuffle(&mut arcs);
    arcs.truncate(MOST_ARCS);
    let law = random.below(10);
    if law >= CHECKING_LAWS {
        price_required(&mut arcs);
    }
    part_twins(&mut arcs);
    let plan = Plan::new(n, arcs);
    if law < CHECKING_LAWS {
        check_by(random, plan, law)
    } else {
        plan
    }
}

/// Gives a cost of 1 to each required arc that is free: edition 1 has none.
fn price_required(arcs: &mut [Arc]) {
    for arc in arcs.iter_mut().filter(|arc| arc.standing == REQUIRED) {
        *arc = Arc::new(arc.tail.into(), arc.head.into(), REQUIRED, arc.cost.max(1));
    }
}

/// The plan in edition 2, its required arcs checked by a law; at times one of them stands there twice, at two checking costs.
fn check_by(random: &mut Random, plan: Plan, law: usize) -> Plan {
    let mut plan = checked(plan, |_, cost| checking(random, law, cost));
    let required: Vec<Arc> = plan.arcs.iter().filter(|a| a.standing == REQUIRED).copied().collect();
    if !required.is_empty() && plan.arcs.len() < MOST_ARCS && random.once_in(3) {
        let twin = random.pick(&required);
        let slower = Arc { checking: twin.checking % 65_535 + 1, ..twin };
        if !plan.arcs.contains(&slower) {
            plan.arcs.insert(random.below(plan.arcs.len() + 1), slower);
        }
    }
    plan
}

/// The plan in edition 2, its required arcs checked at what is said for their number and cost.
pub fn checked(mut plan: Plan, mut checking: impl FnMut(usize, u16) -> u16) -> Plan {
    plan.edition = 2;
    for (k, arc) in plan.arcs.iter_mut().enumerate().filter(|(_, arc)| arc.standing == REQUIRED) {
        arc.checking = checking(k, arc.cost);
    }
    plan
}

/// Gives another cost to each arc of edition 1 that agrees with one before it in all fields: such a plan is refused.
pub fn part_twins(arcs: &mut [Arc]) {
    for k in 0..arcs.len() {
        let (before, rest) = arcs.split_at_mut(k);
        while before.contains(&rest[0]) {
            let Arc { tail, head, standing, cost, .. } = rest[0];
            rest[0] = Arc::new(tail.into(), head.into(), standing, cost % 65_535 + 1);
        }
    }
}

/// Required arcs that join the vertices of a part, in any direction, and some more of them, loops and parallel arcs too.
fn require_part(
    random: &mut Random,
    cost: &impl Fn(&mut Random) -> u16,
    part: &[usize],
    more: RangeInclusive<usize>,
    arcs: &mut Vec<Arc>,
) {
    for (i, &v) in part.iter().enumerate() {
        let w = part[random.below(i.max(1))];
        let (tail, head) = if random.once_in(2) { (v, w) } else { (w, v) };
        // The first vertex would get a loop; a part of one vertex needs it.
        if i > 0 || part.len() == 1 {
            arcs.push(Arc::new(tail, head, REQUIRED, cost(random)));
        }
    }
    for _ in 0..random.within(more) {
        arcs.push(Arc::new(random.pick(part), random.pick(part), REQUIRED, cost(random)));
    }
}

/// A good file with up to three things wrong in its fields, often in the same arc, and one in its bytes.
pub fn damaged(random: &mut Random, plan: &Plan) -> Vec<u8> {
    let mut plan = plan.clone();
    let mut k = random.below(plan.arcs.len());
    for _ in 0..3 {
        if random.once_in(3) {
            k = random.below(plan.arcs.len());
        }
        match random.below(30) {
            0 | 1 => plan.arcs[k].cost = 0,
            2 => plan.arcs[k].standing = 3,
            3 => plan.arcs[k] = Arc { standing: 3, checking: 0, ..plan.arcs[k] },
            4 => plan.arcs[k].tail = random.within(0..=63) as u8,
            5 => plan.arcs[k].head = random.within(0..=63) as u8,
            6 => plan.n = random.within(0..=127),
            7 | 8 => plan.arcs[k] = random.pick(&plan.arcs),
            9 => plan.arcs[k].checking = 0,
            10 | 11 => plan.arcs[k].checking = random.pick(&[1, plan.arcs[k].cost, 65_535]),
            12 => plan.edition = random.pick(&[0, 1, 2, 3, 15]),
            _ => {}
        }
    }
    let mut file = file_of(&plan);
    match random.below(13) {
        0 => file.truncate(random.below(file.len() + 1)),
        1 => file.extend((0..random.within(1..=3)).map(|_| random.bits() as u8)),
        2 => {
            let at = random.below(file.len());
            file[at] ^= 1 << random.below(8);
        }
        3 => *file.last_mut().expect("a file has bytes") |= 1 << random.below(5),
        4 => file[1] = random.bits() as u8,
        5 => file[2] = random.bits() as u8,
        // the other edition, over the same arcs
        6 => file[0] ^= 0x30,
        _ => {}
    }
    file
}

/// Random bytes, of which most begin like a file.
pub fn random_bytes(random: &mut Random, length: usize) -> Vec<u8> {
    let mut bytes: Vec<u8> = (0..length).map(|_| random.bits() as u8).collect();
    if length >= 3 && !random.once_in(4) {
        // n from 1 to 64, and as many arcs as the edition and the length ask for, or nearly
        let (edition, width) = random.pick(&[(1, 30), (2, 46)]);
        let n = random.within(1..=64);
        let m = (length * 8).saturating_sub(20) / width + random.pick(&[0, 0, 0, 1]);
        let start = edition << 20 | n << 13 | (m % 512) << 4 | random.below(16);
        bytes[..3].copy_from_slice(&(start as u32).to_be_bytes()[1..]);
    }
    bytes
}

/// The most vertices and arcs, all required, and balanced as they stand.
pub fn fullest() -> Plan {
    let arc = |k: usize| Arc::new(k % MOST_VERTICES, (k + 1 + k / MOST_VERTICES) % MOST_VERTICES, REQUIRED, 65_535);
    Plan::new(MOST_VERTICES, (0..MOST_ARCS).map(arc).collect())
}

/// A required loop of cost 1 at each vertex, and free arcs that join all pairs both ways: every pair lies on circles of free arcs.
pub fn free_circles(n: usize) -> Plan {
    let loops = (0..n).map(|v| Arc::new(v, v, REQUIRED, 1));
    let pairs = (0..n * n).map(|k| (k / n, k % n)).filter(|(v, w)| v != w);
    Plan::new(n, loops.chain(pairs.map(|(v, w)| Arc::new(v, w, OPTIONAL, 0))).collect())
}

/// A ring of free arcs, with a required loop at each vertex but one in three.
pub fn free_ring(n: usize) -> Plan {
    let loops = (0..n).filter(|v| v % 3 != 2).map(|v| Arc::new(v, v, REQUIRED, 1));
    let ring = (0..n).map(|v| Arc::new(v, (v + 1) % n, OPTIONAL, 0));
    Plan::new(n, ring.chain(loops).collect())
}

/// A ring with as many required arcs as there is room for beside its first: each calls for a way all round, at the highest costs.
pub fn longest() -> Plan {
    let last = MOST_VERTICES - 1;
    let ring = (1..=last).map(|v| Arc::new(v, (v + 1) % MOST_VERTICES, OPTIONAL, 65_535));
    let required = (0..MOST_ARCS - last).map(|k| Arc::new(0, 1, REQUIRED, 65_535 - k as u16));
    Plan::new(MOST_VERTICES, ring.chain(required).collect())
}

/// In each part one required arc leads into a vertex that others leave, and nearly always it is the cheapest way there: it is passed again for each of
/// them, and checked once.
pub fn funnel(random: &mut Random) -> Plan {
    let (parts, leaves) = random.pick(&[(1, 2), (1, 4), (2, 2), (2, 3), (3, 2)]);
    let cost = |random: &mut Random| random.within(1..=20) as u16;
    let mut arcs = Vec::new();
    for part in 0..parts {
        let gate = part * (2 + leaves);
        arcs.push(Arc::new(gate, gate + 1, REQUIRED, cost(random)));
        arcs.push(Arc::new(gate, gate + 1, OPTIONAL, random.within(15..=60) as u16));
        for leaf in gate + 2..gate + 2 + leaves {
            arcs.push(Arc::new(gate + 1, leaf, REQUIRED, cost(random)));
            arcs.push(Arc::new(leaf, gate, OPTIONAL, random.pick(&[0, 1, 7, 20])));
        }
        let next = (part + 1) % parts * (2 + leaves);
        arcs.push(Arc::new(gate, next, OPTIONAL, cost(random)));
    }
    random.shuffle(&mut arcs);
    let law = random.below(CHECKING_LAWS);
    check_by(random, Plan::new(parts * (2 + leaves), arcs), law)
}

/// A ring whose arcs stand in the file against its direction, four for each step: from any vertex a round of relaxation finds one vertex more.
pub fn adverse_ring() -> Plan {
    let arc = |k: usize| {
        let tail = MOST_VERTICES - 1 - k % MOST_VERTICES;
        Arc::new(tail, (tail + 1) % MOST_VERTICES, OPTIONAL, 1 + (k / MOST_VERTICES) as u16)
    };
    Plan::new(MOST_VERTICES, (0..MOST_ARCS).map(arc).collect())
}
