//! Editors that are wrong.

use super::Mutant;
use crate::oracle::file_of;
use crate::plan::{Departure, Plan, CLOSED, REQUIRED};
use crate::planner::{refusal, Answer, Call, Change, DepartureCall, Editor, OpenPlan, Refusal};
use crate::properties::Property::{self, *};
use crate::yardstick::{changed, check_change, read, Yardstick};

/// What there is to alter: the plan and the marks as they are now, the plan that was opened, and the one that is asked for.
#[derive(Clone)]
struct State {
    opened: Plan,
    plan: Plan,
    marks: [Option<Plan>; 4],
    asked: Plan,
}

/// Takes a call wrongly.
type Take = fn(&mut State, Call) -> Result<(), Refusal>;

/// The plan that is asked for, and the windows.
type Ask = fn(&State, &[u16]) -> (Plan, Vec<u16>);

/// What opening leaves.
type Begin = fn(&mut State);

struct Altered {
    begin: Begin,
    take: Take,
    ask: Ask,
}

struct Open {
    state: State,
    take: Take,
    ask: Ask,
}

fn right(state: &mut State, call: Call) -> Result<(), Refusal> {
    match call {
        Call::Change(change) => {
            check_change(&state.plan, change)?;
            state.plan = changed(state.plan.clone(), change);
        }
        Call::Mark(mark) => *state.marks.get_mut(mark as usize).ok_or(refusal::NO_MARK)? = Some(state.plan.clone()),
        Call::Return(mark) => {
            state.plan = state.marks.get(mark as usize).cloned().flatten().ok_or(refusal::NO_MARK)?;
        }
    }
    state.asked = state.plan.clone();
    Ok(())
}

fn now(state: &State, windows: &[u16]) -> (Plan, Vec<u16>) {
    (state.plan.clone(), windows.to_vec())
}

fn nothing(_: &mut State) {}

/// Where the right refusal is this one, the change is made all the same.
fn let_through(state: &mut State, call: Call, number: Refusal) -> Result<(), Refusal> {
    match (right(state, call), call) {
        (Err(told), Call::Change(change)) if told == number => {
            state.plan = changed(state.plan.clone(), change);
            state.asked = state.plan.clone();
            Ok(())
        }
        (told, _) => told,
    }
}

/// A change is another one.
fn instead(state: &mut State, call: Call, other: fn(&Plan, Change) -> Change) -> Result<(), Refusal> {
    match call {
        Call::Change(change) if check_change(&state.plan, change).is_ok() => {
            let other = other(&state.plan, change);
            right(state, Call::Change(other))
        }
        call => right(state, call),
    }
}

impl Editor for Altered {
    fn open(&self, plan: &[u8]) -> Result<Box<dyn OpenPlan>, Refusal> {
        let plan = read(plan)?;
        let mut state = State { opened: plan.clone(), asked: plan.clone(), plan, marks: Default::default() };
        (self.begin)(&mut state);
        Ok(Box::new(Open { state, take: self.take, ask: self.ask }))
    }
}

impl OpenPlan for Open {
    fn file(&self) -> Vec<u8> {
        file_of(&self.state.plan)
    }

    fn call(&mut self, call: Call) -> Result<(), Refusal> {
        (self.take)(&mut self.state, call)
    }

    fn ask(&self, budget: u64, windows: &[u16], departure: Departure, sheet: &mut [u16]) -> Result<Answer, Refusal> {
        let (plan, windows) = (self.ask)(&self.state, windows);
        Yardstick.plan_call_at(&file_of(&plan), budget, &windows, departure, sheet)
    }
}

const TAKERS: [(&str, &[Property], Take); 23] = [
    // changes
    ("a change that repeats an arc is made", &[CallRefusal, OpenFile, OpenReads, Stated], |s, c| {
        let_through(s, c, refusal::REPEATED)
    }),
    ("a wrong checking cost is taken", &[CallRefusal, OpenFile, OpenReads, Stated], |s, c| {
        let_through(s, c, refusal::UNPRICED)
    }),
    ("a refused change alters", &[OpenFile, OpenReads], |s, c| {
        let told = right(s, c);
        match (told, c) {
            (Err(number), Call::Change(change)) if number != refusal::FOREIGN && change.standing < 3 => {
                s.plan = changed(s.plan.clone(), change);
            }
            _ => {}
        }
        told
    }),
    ("a refused change alters the cost", &[OpenFile], |s, c| {
        let told = right(s, c);
        if let (Err(refusal::STANDING), Call::Change(change)) = (told, c) {
            s.plan.arcs[change.arc as usize].cost = change.cost;
        }
        told
    }),
    ("the arc m is the last one", &[CallRefusal, OpenFile, Stated], |s, c| match c {
        Call::Change(change) => {
            let last = s.plan.arcs.len() as u32 - 1;
            right(s, Call::Change(Change { arc: change.arc.min(last), ..change }))
        }
        c => right(s, c),
    }),
    ("arcs go by their last eight bits", &[CallRefusal, Stated], |s, c| match c {
        Call::Change(change) => right(s, Call::Change(Change { arc: change.arc % 256, ..change })),
        c => right(s, c),
    }),
    ("14 after 7", &[CallRefusal, Stated], |s, c| match c {
        Call::Change(change) if change.standing > 2 && change.checking == 0 => Err(refusal::STANDING),
        c => right(s, c),
    }),
    ("7 before 6", &[CallRefusal, Stated], |s, c| match c {
        Call::Change(change) if (change.arc as usize) < s.plan.arcs.len() && change.standing > 2 => {
            Err(refusal::STANDING)
        }
        c => right(s, c),
    }),
    ("a closed arc may not be changed", &[CallRefusal, OpenFile, Stated], |s, c| match c {
        Call::Change(change) if s.plan.arcs.get(change.arc as usize).is_some_and(|a| a.standing == CLOSED) => {
            Err(refusal::FOREIGN)
        }
        c => right(s, c),
    }),
    ("the standing stays", &[OpenFile], |s, c| {
        instead(s, c, |plan, change| Change { standing: plan.arcs[change.arc as usize].standing, ..change })
    }),
    ("the cost stays", &[OpenFile], |s, c| {
        instead(s, c, |plan, change| Change { cost: plan.arcs[change.arc as usize].cost, ..change })
    }),
    ("a must arc is checked at its cost", &[OpenFile], |s, c| {
        instead(s, c, |_, change| match change.standing {
            REQUIRED => Change { checking: change.cost.max(1), ..change },
            _ => change,
        })
    }),
    ("the rules of edition 2 for both", &[CallRefusal, OpenFile, Stated], |s, c| match c {
        Call::Change(change) if s.plan.edition == 1 => {
            check_change(&Plan { edition: 2, ..s.plan.clone() }, change)?;
            s.plan = changed(s.plan.clone(), change);
            Ok(())
        }
        c => right(s, c),
    }),
    // marks
    ("a mark above 3 is mark 3", &[CallRefusal, Stated], |s, c| match c {
        Call::Mark(mark) => right(s, Call::Mark(mark.min(3))),
        c => right(s, c),
    }),
    ("a mark that is set stays", &[OpenFile, AskedAgain], |s, c| match c {
        Call::Mark(mark) if s.marks.get(mark as usize).is_some_and(Option::is_some) => Ok(()),
        c => right(s, c),
    }),
    ("setting a mark clears the others", &[CallRefusal, OpenFile, Stated], |s, c| {
        if let Call::Mark(0..=3) = c {
            s.marks = Default::default();
        }
        right(s, c)
    }),
    ("a mark follows later changes", &[OpenFile, AskedAgain], |s, c| {
        right(s, c)?;
        if let Call::Change(change) = c {
            for held in s.marks.iter_mut().flatten().filter(|held| check_change(held, change).is_ok()) {
                *held = changed(held.clone(), change);
            }
        }
        Ok(())
    }),
    ("a mark holds the plan that was opened", &[OpenFile, AskedAgain], |s, c| {
        right(s, c)?;
        if let Call::Mark(mark) = c {
            s.marks[mark as usize] = Some(s.opened.clone());
        }
        Ok(())
    }),
    // returns
    ("returning clears the marks", &[CallRefusal, OpenFile, Stated], |s, c| {
        right(s, c)?;
        if let Call::Return(_) = c {
            s.marks = Default::default();
        }
        Ok(())
    }),
    ("returning clears its mark", &[CallRefusal, OpenFile, Stated], |s, c| {
        right(s, c)?;
        if let Call::Return(mark) = c {
            s.marks[mark as usize] = None;
        }
        Ok(())
    }),
    ("returning clears later marks", &[CallRefusal, OpenFile, Stated], |s, c| {
        right(s, c)?;
        if let Call::Return(mark) = c {
            s.marks[mark as usize + 1..].fill(None);
        }
        Ok(())
    }),
    ("a mark never set holds the plan that was opened", &[CallRefusal, OpenFile, Stated], |s, c| {
        if let Call::Return(mark @ 0..=3) = c {
            s.marks[mark as usize].get_or_insert(s.opened.clone());
        }
        right(s, c)
    }),
    ("returning brings back the costs alone", &[OpenFile, AskedAgain], |s, c| {
        let before = s.plan.clone();
        right(s, c)?;
        if let Call::Return(_) = c {
            let mut tried = s.plan.clone();
            for (arc, was) in tried.arcs.iter_mut().zip(before.arcs) {
                (arc.standing, arc.checking) = (was.standing, was.checking);
            }
            s.plan = tried;
        }
        Ok(())
    }),
];

const ASKERS: [(&str, &[Property], Ask); 4] = [
    ("the plan that was opened is asked for", &[Asking], |s, w| (s.opened.clone(), w.to_vec())),
    ("asking goes by no window", &[Asking], |s, _| (s.plan.clone(), vec![])),
    ("closed arcs are asked for as open ones", &[Asking], |s, w| {
        let mut plan = s.plan.clone();
        plan.arcs.iter_mut().filter(|arc| arc.standing == CLOSED).for_each(|arc| arc.standing = 0);
        (plan, w.to_vec())
    }),
    ("mark 0 is asked for where it is set", &[Asking, AskedAgain], |s, w| {
        (s.marks[0].clone().unwrap_or(s.plan.clone()), w.to_vec())
    }),
];

pub fn mutants() -> Vec<Mutant<dyn Editor>> {
    let wrong = |begin, take, ask| Box::new(Altered { begin, take, ask }) as Box<dyn Editor>;
    let mut all: Vec<Mutant<dyn Editor>> = vec![];
    all.extend(TAKERS.map(|(name, violates, take)| Mutant { name, violates, wrong: wrong(nothing, take, now) }));
    all.extend(ASKERS.map(|(name, violates, ask)| Mutant { name, violates, wrong: wrong(nothing, right, ask) }));
    let sets_mark: Begin = |s| s.marks[0] = Some(s.plan.clone());
    let name = "opening sets mark 0";
    all.push(Mutant { name, violates: &[CallRefusal, Stated], wrong: wrong(sets_mark, right, now) });
    let not_after_returns: Take = |s, c| {
        let asked = s.asked.clone();
        right(s, c)?;
        if let Call::Return(_) = c {
            s.asked = asked;
        }
        Ok(())
    };
    let last_changed: Ask = |s, w| (s.asked.clone(), w.to_vec());
    let name = "after a return the plan before it is asked for";
    all.push(Mutant { name, violates: &[Asking, AskedAgain], wrong: wrong(nothing, not_after_returns, last_changed) });
    all
}
