//! An open plan by its history: nothing is kept but the calls that were accepted, and the plan is looked up in them from the end.

use super::{file_of, write_refusal};
use crate::plan::{Plan, LONGEST_FILE};
use crate::planner::{Call, Change, Refusal};

/// A plan that was opened, and the calls that were accepted since.
#[derive(Clone)]
pub struct History {
    opened: Plan,
    accepted: Vec<Call>,
}

impl History {
    pub fn new(opened: Plan) -> History {
        History { opened, accepted: vec![] }
    }

    /// The moment, counted in accepted calls, at which a mark was last set before another moment.
    fn set_at(&self, mark: u32, before: usize) -> Option<usize> {
        self.accepted[..before].iter().rposition(|&call| call == Call::Mark(mark))
    }

    /// The plan after so many accepted calls: the latest change of each arc since the moment that the last return leads back to, and what was before it.
    fn plan_after(&self, moment: usize) -> Plan {
        let last_return = self.accepted[..moment].iter().rposition(|call| matches!(call, Call::Return(_)));
        let (mut plan, since) = match last_return {
            None => (self.opened.clone(), 0),
            Some(place) => {
                let Call::Return(mark) = self.accepted[place] else { unreachable!("a return") };
                (self.plan_after(self.set_at(mark, place).expect("an accepted return has a mark")), place)
            }
        };
        for (k, arc) in plan.arcs.iter_mut().enumerate() {
            let latest = self.accepted[since..moment].iter().rev().find_map(|call| match call {
                Call::Change(change) if change.arc as usize == k => Some(*change),
                _ => None,
            });
            if let Some(Change { cost, checking, standing, .. }) = latest {
                (arc.cost, arc.checking, arc.standing) = (cost, checking, standing);
            }
        }
        plan
    }

    /// The plan as it is now.
    pub fn plan(&self) -> Plan {
        self.plan_after(self.accepted.len())
    }

    /// The file written from it.
    pub fn file(&self) -> Vec<u8> {
        file_of(&self.plan())
    }

    /// The refusal of a call, 0 for none; one that is not refused is part of the history from then on.
    pub fn call(&mut self, call: Call) -> Refusal {
        let number = match call {
            Call::Change(change) => self.change_refusal(change),
            Call::Mark(mark) if mark > 3 => 21,
            Call::Return(mark) if self.set_at(mark, self.accepted.len()).is_none() => 21,
            _ => 0,
        };
        if number == 0 {
            self.accepted.push(call);
        }
        number
    }

    /// "A change to arc m or above gets 14, and one the writer would refuse in the plan's edition gets the writer's number."
    fn change_refusal(&self, change: Change) -> Refusal {
        let mut tried = self.clone();
        if u64::from(change.arc) >= self.opened.arcs.len() as u64 {
            return 14;
        }
        tried.accepted.push(Call::Change(change));
        write_refusal(&tried.plan(), LONGEST_FILE)
    }
}
