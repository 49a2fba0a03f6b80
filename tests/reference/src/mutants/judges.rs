//! Judges that are wrong about a list of arcs.

use super::Mutant;
use crate::oracle::{judge_answer, parse, read_refusal, Graph};
use crate::plan::{Arc, CLOSED, MOST_PARTS, REQUIRED};
use crate::planner::{refusal, Judge, Refusal};
use crate::properties::Property::*;

type Call = fn(&[u8], &[u16]) -> Result<u64, Refusal>;

struct Wrong(Call);

impl Judge for Wrong {
    fn judge(&self, plan: &[u8], places: &[u16]) -> Result<u64, Refusal> {
        self.0(plan, places)
    }
}

/// The arcs of a list, if it has no foreign one.
fn arcs(file: &[u8], places: &[u16]) -> Vec<Arc> {
    let plan = parse(file);
    places.iter().map(|&k| plan.arcs[usize::from(k)]).collect()
}

/// The first fault by its place in the list, where there is one.
fn by_place(file: &[u8], places: &[u16]) -> Option<Refusal> {
    let plan = parse(file);
    let arc = |i: usize| plan.arcs.get(usize::from(places[i % places.len()]));
    (0..places.len()).find_map(|i| match (arc(i), arc(i + 1)) {
        (None, _) => Some(refusal::FOREIGN),
        (Some(a), _) if a.standing == CLOSED => Some(refusal::FOREIGN),
        (Some(a), Some(b)) if a.head != b.tail => Some(refusal::UNJOINED),
        _ => None,
    })
}

/// What is answered for the list with a way back put behind it, if it wants one.
fn closed_up(file: &[u8], places: &[u16]) -> Result<u64, Refusal> {
    let told = judge_answer(file, places);
    if told != Err(refusal::UNJOINED) {
        return told;
    }
    let joined = arcs(file, places).windows(2).all(|pair| pair[0].head == pair[1].tail);
    let sum = arcs(file, places).iter().map(|a| u64::from(a.cost)).sum();
    if joined {
        Ok(sum)
    } else {
        told
    }
}

pub fn mutants() -> Vec<Mutant<dyn Judge>> {
    let mut all = Vec::new();
    let mut add = |name, violates, call: Call| {
        all.push(Mutant { name, violates, wrong: Box::new(Wrong(call)) as Box<dyn Judge> })
    };

    // the faults
    add("the last arc need not lead to the first", &[Judgement, Stated], closed_up);
    add("faults by place", &[Judgement, Stated], |p, w| match judge_answer(p, w) {
        Err(14 | 15) => Err(by_place(p, w).expect("a fault")),
        told => told,
    });
    add("closed arcs may be driven", &[Judgement, Stated], |p, w| match judge_answer(p, w) {
        Err(refusal::FOREIGN) if w.iter().all(|&k| usize::from(k) < parse(p).arcs.len()) => {
            Ok(arcs(p, w).iter().map(|a| u64::from(a.cost)).sum())
        }
        told => told,
    });
    add("numbers are cut to the arcs there are", &[Judgement, Stated], |p, w| match judge_answer(p, w) {
        Err(refusal::FOREIGN) => {
            let m = parse(p).arcs.len() as u16;
            judge_answer(p, &w.iter().map(|k| k % m).collect::<Vec<u16>>())
        }
        told => told,
    });
    add("numbers as bytes", &[Stated], |p, w| judge_answer(p, &w.iter().map(|k| k % 256).collect::<Vec<u16>>()));
    add("missed arcs are not missed", &[Judgement, Stated], |p, w| match judge_answer(p, w) {
        Err(refusal::MISSED) => Ok(arcs(p, w).iter().map(|a| u64::from(a.cost)).sum()),
        told => told,
    });
    add("an empty list is a drive", &[Judgement, Stated], |p, w| match judge_answer(p, w) {
        Err(refusal::MISSED) if w.is_empty() => Ok(0),
        told => told,
    });
    add("an empty list is unjoined", &[Judgement, Stated], |p, w| match judge_answer(p, w) {
        Err(refusal::MISSED) if w.is_empty() => Err(refusal::UNJOINED),
        told => told,
    });
    add("missed before unjoined", &[Judgement, Stated], |p, w| match judge_answer(p, w) {
        Err(refusal::UNJOINED) => {
            let required = Graph::new(&parse(p)).required_arcs;
            Err(if required.iter().all(|&k| w.contains(&(k as u16))) { 15 } else { 16 })
        }
        told => told,
    });

    // the cost
    add("no checking pass", &[Judgement, Stated, WrittenPasses, FloorBelowJudged], |p, w| {
        judge_answer(p, w).map(|_| arcs(p, w).iter().map(|a| u64::from(a.cost)).sum())
    });
    add("every pass of a must arc is a checking pass", &[Judgement, Stated, WrittenPasses], |p, w| {
        let pass = |a: &Arc| u64::from(if a.standing == REQUIRED { a.checking } else { a.cost });
        judge_answer(p, w).map(|_| arcs(p, w).iter().map(pass).sum())
    });
    add("an arc is paid once", &[Judgement, Stated, FloorBelowJudged], |p, w| {
        let pass = |a: &Arc| u64::from(if a.standing == REQUIRED { a.checking } else { a.cost });
        let passed = |&k: &u16| w.contains(&k);
        judge_answer(p, w).map(|_| {
            let arcs = parse(p).arcs;
            (0..arcs.len() as u16).filter(passed).map(|k| pass(&arcs[usize::from(k)])).sum()
        })
    });
    add("the cost in 32 bits with a sign", &[Stated], |p, w| judge_answer(p, w).map(|cost| cost & 0x7FFF_FFFF));

    // what comes before
    add("65,536 places are judged", &[Judgement, Stated], |p, w| {
        let judged = if w.len() == 65_536 { &w[..65_535] } else { w };
        judge_answer(p, judged)
    });
    add("65,535 places are too many", &[Stated], |p, w| match judge_answer(p, w) {
        Ok(_) if w.len() == 65_535 => Err(refusal::EXTENT),
        told => told,
    });
    add("a long list is looked at after the file", &[Stated], |p, w| match judge_answer(p, w) {
        Err(refusal::EXTENT) if w.len() > 65_535 => match read_refusal(p, usize::MAX) {
            0 => Err(refusal::EXTENT),
            number => Err(number),
        },
        told => told,
    });
    add("a long list is looked at first", &[Stated], |p, w| {
        if w.len() > 65_535 {
            Err(refusal::EXTENT)
        } else {
            judge_answer(p, w)
        }
    });
    add("a plan without must arcs is judged", &[Stated], |p, w| match judge_answer(p, w) {
        Err(refusal::IDLE) => Err(refusal::MISSED),
        told => told,
    });
    add("scattered plans are refused", &[Judgement], |p, w| {
        let told = judge_answer(p, w);
        if told.is_ok() && Graph::new(&parse(p)).parts > MOST_PARTS {
            Err(refusal::SCATTERED)
        } else {
            told
        }
    });
    all
}
