//! Distance calls that are wrong.

use super::Mutant;
use crate::oracle::parse;
use crate::plan::{OPTIONAL, REQUIRED};
use crate::planner::{refusal, DistanceCall, Refusal};
use crate::properties::Property::{self, *};
use crate::yardstick::{distances, read, vertices, Yardstick, NO_PATH};

type Call = fn(&[u8], &[u16], &mut [u32]) -> Result<usize, Refusal>;

struct Altered(Call);

impl DistanceCall for Altered {
    fn distances(&self, plan: &[u8], pairs: &[u16], distances: &mut [u32]) -> Result<usize, Refusal> {
        self.0(plan, pairs, distances)
    }
}

fn right(plan: &[u8], pairs: &[u16], distances: &mut [u32]) -> Result<usize, Refusal> {
    Yardstick.distances(plan, pairs, distances)
}

/// How many of a list are different.
fn distinct<T: Ord>(list: impl Iterator<Item = T>) -> usize {
    list.collect::<std::collections::BTreeSet<T>>().len()
}

/// The right answer with each entry altered, by the pair's vertices.
fn entries(
    plan: &[u8],
    pairs: &[u16],
    list: &mut [u32],
    alter: impl Fn([usize; 2], u32) -> u32,
) -> Result<usize, Refusal> {
    let searches = right(plan, pairs, list)?;
    for (entry, &pair) in list.iter_mut().zip(pairs) {
        *entry = alter(vertices(pair), *entry);
    }
    Ok(searches)
}

/// The pairs that are not stray are answered; the others have no path.
fn let_through(
    plan: &[u8],
    pairs: &[u16],
    list: &mut [u32],
    is_good: fn(usize, &[u16]) -> bool,
) -> Result<usize, Refusal> {
    match right(plan, pairs, list) {
        Err(refusal::STRAY_PAIR) if is_good(read(plan)?.n, pairs) && pairs.len() <= list.len() => {
            list[..pairs.len()].fill(NO_PATH as u32);
            Ok(1)
        }
        result => result,
    }
}

const MUTANTS: [(&str, &[Property], Call); 22] = [
    ("a search for each pair", &[Searches], |p, x, d| right(p, x, d).map(|_| x.len())),
    ("a search for each pair that differs", &[Searches], |p, x, d| right(p, x, d).map(|_| distinct(x.iter()))),
    ("a search for each second vertex", &[Searches], |p, x, d| {
        right(p, x, d).map(|_| distinct(x.iter().map(|x| x % 256)))
    }),
    ("one row kept", &[Searches], |p, x, d| right(p, x, d).map(|_| x.chunk_by(|a, b| a / 256 == b / 256).count())),
    ("a search for each vertex", &[Searches], |p, x, d| right(p, x, d).and_then(|_| Ok(read(p)?.n))),
    ("no search counted", &[Searches], |p, x, d| right(p, x, d).map(|_| 0)),
    ("pairs turned round", &[Entries], |p, x, d| {
        let turned: Vec<u16> = x.iter().map(|x| x.swap_bytes()).collect();
        right(p, &turned, d)?;
        right(p, x, &mut vec![0; x.len()])
    }),
    ("closed arcs driven", &[Entries], |p, x, d| {
        let table = distances(&read(p)?, |a| Some(a.cost.into()));
        entries(p, x, d, |[i, j], _| table[i][j] as u32)
    }),
    ("must arcs in no path", &[Entries], |p, x, d| {
        let table = distances(&read(p)?, |a| (a.standing == OPTIONAL).then_some(a.cost.into()));
        entries(p, x, d, |[i, j], _| table[i][j] as u32)
    }),
    ("no path is 0", &[Entries], |p, x, d| entries(p, x, d, |_, e| if e == u32::MAX { 0 } else { e })),
    ("no path is 65,535", &[Entries], |p, x, d| entries(p, x, d, |_, e| e.min(65_535))),
    ("a round trip for a vertex and itself", &[Entries], |p, x, d| {
        let plan = read(p)?;
        let round =
            |v: usize| plan.arcs.iter().filter(|a| usize::from(a.tail) == v && a.tail == a.head).map(|a| a.cost).min();
        entries(p, x, d, |[i, j], e| if i == j { round(i).map_or(u32::MAX, u32::from) } else { e })
    }),
    ("an entry once", &[Entries], |p, x, d| {
        let before = d.to_vec();
        let searches = right(p, x, d)?;
        for k in 1..x.len() {
            if x[..k].contains(&x[k]) {
                d[k] = before[k];
            }
        }
        Ok(searches)
    }),
    ("the last entry left", &[Entries, SingleQuery], |p, x, d| {
        let last = d.get(x.len().wrapping_sub(1)).copied();
        let searches = right(p, x, d)?;
        if let (Some(last), true) = (last, x.len() > 1) {
            d[x.len() - 1] = last;
        }
        Ok(searches)
    }),
    ("other entries cleared", &[EntriesKept], |p, x, d| right(p, x, d).inspect(|_| d[x.len()..].fill(0))),
    ("entries written before a refusal", &[EntriesKept], |p, x, d| {
        let room = d.len().min(x.len());
        d[..room].fill(0);
        right(p, x, d)
    }),
    ("short list before stray pair", &[PageRefusal, Stated], |p, x, d| match right(p, x, d) {
        Err(refusal::STRAY_PAIR) if d.len() < x.len() => Err(refusal::SHORT_SHEET),
        result => result,
    }),
    ("stray pair before repeated", &[PageRefusal, Stated], |p, x, d| match right(p, x, d) {
        Err(refusal::REPEATED) if x.iter().any(|&x| vertices(x).iter().any(|&v| v >= parse(p).n)) => {
            Err(refusal::STRAY_PAIR)
        }
        result => result,
    }),
    ("257 pairs let through", &[PageRefusal, Stated], |p, x, d| let_through(p, x, d, |_, x| x.len() == 257)),
    ("n let through", &[PageRefusal, Stated], |p, x, d| {
        let_through(p, x, d, |n, x| x.len() <= 256 && x.iter().all(|&x| vertices(x).iter().all(|&v| v <= n)))
    }),
    ("second vertex not looked at", &[PageRefusal, Stated], |p, x, d| {
        let_through(p, x, d, |n, x| x.len() <= 256 && x.iter().all(|&x| vertices(x)[0] < n))
    }),
    ("plans without a must arc refused", &[PageRefusal, Stated], |p, x, d| {
        let before = d.to_vec();
        let searches = right(p, x, d)?;
        if read(p)?.arcs.iter().any(|a| a.standing == REQUIRED) {
            return Ok(searches);
        }
        d.copy_from_slice(&before);
        Err(refusal::IDLE)
    }),
];

pub fn mutants() -> Vec<Mutant<dyn DistanceCall>> {
    let mutant =
        |(name, violates, call)| Mutant { name, violates, wrong: Box::new(Altered(call)) as Box<dyn DistanceCall> };
    MUTANTS.into_iter().map(mutant).collect()
}
