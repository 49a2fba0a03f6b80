//! Calls at a departure that are wrong.

use super::Mutant;
use crate::oracle::{file_of, parse};
use crate::plan::{Departure, CLOSED, HIGHEST_BUDGET, OPTIONAL, REQUIRED, SHEET_PLACES};
use crate::planner::{refusal, Answer, DepartureCall, Planner, Refusal};
use crate::properties::Property::{self, *};
use crate::yardstick::{plan_at, read, Yardstick};

type Call = fn(&[u8], u64, &[u16], Departure, &mut [u16]) -> Result<Answer, Refusal>;

struct Altered(Call);

impl DepartureCall for Altered {
    fn plan_call_at(
        &self,
        plan: &[u8],
        budget: u64,
        windows: &[u16],
        departure: Departure,
        sheet: &mut [u16],
    ) -> Result<Answer, Refusal> {
        self.0(plan, budget, windows, departure, sheet)
    }
}

fn right(plan: &[u8], budget: u64, windows: &[u16], at: Departure, sheet: &mut [u16]) -> Result<Answer, Refusal> {
    Yardstick.plan_call_at(plan, budget, windows, at, sheet)
}

/// Each window altered, or left out.
fn altered(windows: &[u16], alter: impl Fn([u16; 4]) -> Option<[u16; 4]>) -> Vec<u16> {
    let rest = windows.chunks_exact(4).remainder();
    let all = windows.chunks_exact(4).filter_map(|w| alter([w[0], w[1], w[2], w[3]]));
    all.flatten().chain(rest.iter().copied()).collect()
}

fn is_good(m: usize, w: [u16; 4]) -> bool {
    usize::from(w[0]) < m && w[1] <= 6 && w[2] < w[3] && w[3] <= 1_440
}

/// Whether a window shuts its arc.
fn shuts(w: [u16; 4], at: Departure) -> bool {
    u32::from(w[1]) == at.weekday && (u32::from(w[2])..w[3].into()).contains(&at.minute)
}

/// The right answer; but where windows are refused as bad, that of those that are left once they are altered.
fn let_through(
    p: &[u8],
    b: u64,
    w: &[u16],
    t: Departure,
    s: &mut [u16],
    alter: fn([u16; 4]) -> Option<[u16; 4]>,
) -> Result<Answer, Refusal> {
    match right(p, b, w, t, s) {
        Err(refusal::BAD_WINDOW) => right(p, b, &altered(w, alter), t, s),
        result => result,
    }
}

/// What other windows give, where the right ones are not refused as bad, nor anything before them.
fn in_place_of(p: &[u8], b: u64, w: &[u16], t: Departure, s: &mut [u16], others: &[u16]) -> Result<Answer, Refusal> {
    match right(p, b, w, t, &mut s.to_vec()) {
        Ok(_) | Err(10..=12 | refusal::MUST_SHUT) => right(p, b, others, t, s),
        result => result,
    }
}

/// Whether a must arc is shut by a good window.
fn is_must_shut(p: &[u8], w: &[u16], t: Departure) -> bool {
    let arcs = parse(p).arcs;
    let shut = |w: [u16; 4]| is_good(arcs.len(), w) && shuts(w, t) && arcs[usize::from(w[0])].standing == REQUIRED;
    w.chunks_exact(4).any(|w| shut([w[0], w[1], w[2], w[3]]))
}

const MUTANTS: [(&str, &[Property], Call); 27] = [
    // what a window shuts
    ("t = to shuts", &[Refusal, Stated, ClosedByHand], |p, b, w, t, s| {
        let later = altered(w, |w| Some(if w[3] < 1_440 && w[2] < w[3] { [w[0], w[1], w[2], w[3] + 1] } else { w }));
        right(p, b, &later, t, s)
    }),
    ("t = from does not shut", &[Refusal, Stated, Drive, ClosedByHand], |p, b, w, t, s| {
        in_place_of(p, b, w, t, s, &altered(w, |w| (u32::from(w[2]) != t.minute).then_some(w)))
    }),
    ("another weekday's window shuts", &[Refusal, Stated, ClosedByHand], |p, b, w, t, s| {
        let day = t.weekday.min(7) as u16;
        right(p, b, &altered(w, |w| Some(if w[1] <= 6 { [w[0], day, w[2], w[3]] } else { w })), t, s)
    }),
    ("windows of the last weekday only", &[Refusal, Stated, Drive, ClosedByHand], |p, b, w, t, s| {
        in_place_of(p, b, w, t, s, &altered(w, |w| (w[1] == 6).then_some(w)))
    }),
    ("the first window of an arc only", &[Refusal, Stated, Drive], |p, b, w, t, s| {
        let all: Vec<&[u16]> = w.chunks_exact(4).collect();
        let firsts = (0..all.len()).filter(|&k| all[..k].iter().all(|v| v[0] != all[k][0]));
        in_place_of(p, b, w, t, s, &firsts.flat_map(|k| all[k].to_vec()).collect::<Vec<u16>>())
    }),
    ("windows play no part", &[Refusal, Stated, Drive, ClosedByHand], |p, b, w, t, s| in_place_of(p, b, w, t, s, &[])),
    ("shut at any later minute", &[Refusal, Stated], |p, b, w, t, s| {
        right(p, b, &altered(w, |w| Some(if w[2] < w[3] { [w[0], w[1], 0, w[3]] } else { w })), t, s)
    }),
    ("a window on a closed arc opens it", &[ClosedByHand], |p, b, w, t, s| {
        right(p, b, w, t, &mut s.to_vec())?;
        let mut plan = read(p)?;
        for w in w.chunks_exact(4).filter(|w| shuts([w[0], w[1], w[2], w[3]], t)) {
            let arc = &mut plan.arcs[usize::from(w[0])];
            arc.standing = if arc.standing == CLOSED { OPTIONAL } else { CLOSED };
        }
        Yardstick.plan_call(&file_of(&plan), b, s)
    }),
    ("made plans are held to 13", &[Refusal, Stated], |p, b, w, t, s| {
        right(p, b, w, t, &mut s.to_vec())?;
        Yardstick.plan_call(&file_of(&plan_at(read(p)?, w, t)), b, s)
    }),
    ("floor over all drives", &[FloorOfWhole, ClosedByHand], |p, b, w, t, s| {
        let a = right(p, b, w, t, s)?;
        let floor = Yardstick.plan_call(p, b, &mut s.to_vec()).map_or(a.floor, |open| open.floor);
        Ok(Answer { floor, ..a })
    }),
    ("multipliers of the open plan", &[Tight], |p, b, w, t, s| {
        let a = right(p, b, w, t, s)?;
        let open = Yardstick.plan_call(p, b, &mut s.to_vec()).map_or(a.multipliers, |open| open.multipliers);
        Ok(Answer { multipliers: open, ..a })
    }),
    ("no windows, no call", &[NoWindows, Stated], |p, b, w, t, s| match w {
        [] => Err(refusal::BAD_WINDOW),
        _ => right(p, b, w, t, s),
    }),
    // 20
    ("a shut must arc is dropped", &[Refusal, Stated], |p, b, w, t, s| match right(p, b, w, t, s) {
        Err(refusal::MUST_SHUT) => {
            let mut plan = plan_at(read(p)?, w, t);
            plan.arcs.iter_mut().filter(|a| a.standing == CLOSED).for_each(|a| a.checking = 0);
            Yardstick.plan_call(&file_of(&plan), b, s)
        }
        result => result,
    }),
    ("a shut must arc is driven", &[Refusal, Stated], |p, b, w, t, s| match right(p, b, w, t, s) {
        Err(refusal::MUST_SHUT) => {
            let arcs = read(p)?.arcs;
            right(p, b, &altered(w, |w| (arcs[usize::from(w[0])].standing != REQUIRED).then_some(w)), t, s)
        }
        result => result,
    }),
    ("20 after 10 to 12", &[Stated], |p, b, w, t, s| match right(p, b, w, t, s) {
        Err(refusal::MUST_SHUT) => Yardstick.plan_call(p, b, s).and(Err(refusal::MUST_SHUT)),
        result => result,
    }),
    ("20 before 19", &[Refusal, Stated], |p, b, w, t, s| match right(p, b, w, t, s) {
        Err(refusal::BAD_WINDOW) if is_must_shut(p, w, t) => Err(refusal::MUST_SHUT),
        result => result,
    }),
    // 19
    ("19 after 10 to 12", &[Stated], |p, b, w, t, s| match right(p, b, w, t, s) {
        Err(refusal::BAD_WINDOW) => Yardstick.plan_call(p, b, &mut s.to_vec()).and(Err(refusal::BAD_WINDOW)),
        result => result,
    }),
    ("19 before 9", &[Refusal, Stated], |p, b, w, t, s| match right(p, b, w, t, s) {
        Err(refusal::BUDGET) => right(p, HIGHEST_BUDGET, w, t, &mut vec![0; SHEET_PLACES])
            .map_or_else(|r| Err(if r == refusal::BAD_WINDOW { r } else { refusal::BUDGET }), |_| Err(refusal::BUDGET)),
        result => result,
    }),
    ("only windows of the day are tested", &[Refusal, Stated], |p, b, w, t, s| {
        right(p, b, &altered(w, |w| (u32::from(w[1]) == t.weekday).then_some(w)), t, s)
    }),
    ("129 windows let through", &[Refusal, Stated], |p, b, w, t, s| right(p, b, &w[..w.len().min(512)], t, s)),
    ("left over numbers let through", &[Stated], |p, b, w, t, s| right(p, b, &w[..w.len() / 4 * 4], t, s)),
    ("arc m let through", &[Refusal, Stated], |p, b, w, t, s| {
        let m = read(p).map_or(0, |plan| plan.arcs.len());
        match right(p, b, w, t, s) {
            Err(refusal::BAD_WINDOW) => right(p, b, &altered(w, |w| (usize::from(w[0]) < m).then_some(w)), t, s),
            result => result,
        }
    }),
    ("weekday 7 let through", &[Stated], |p, b, w, t, s| let_through(p, b, w, t, s, |w| (w[1] != 7).then_some(w))),
    ("from = to let through", &[Stated], |p, b, w, t, s| let_through(p, b, w, t, s, |w| (w[2] != w[3]).then_some(w))),
    ("to 1,441 let through", &[Stated], |p, b, w, t, s| let_through(p, b, w, t, s, |w| (w[3] != 1_441).then_some(w))),
    ("departure beyond its limits let through", &[Refusal, Stated], |p, b, w, t, s| {
        right(p, b, w, Departure { weekday: t.weekday.min(6), minute: t.minute.min(1_439) }, s)
    }),
    ("departure cut to 16 bits", &[Stated], |p, b, w, t, s| {
        right(p, b, w, Departure { weekday: t.weekday % 65_536, minute: t.minute % 65_536 }, s)
    }),
];

pub fn mutants() -> Vec<Mutant<dyn DepartureCall>> {
    let all = MUTANTS.iter();
    all.map(|&(name, violates, call)| Mutant {
        name,
        violates,
        wrong: Box::new(Altered(call)) as Box<dyn DepartureCall>,
    })
    .collect()
}
