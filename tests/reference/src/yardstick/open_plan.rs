//! A plan that is open for changes: the plan and the marks as they are now.

use super::{read, write, Yardstick};
use crate::plan::{Departure, Plan};
use crate::planner::{refusal, Answer, Call, Change, DepartureCall, Editor, OpenPlan, Refusal};

/// The plan with one arc changed.
pub fn changed(mut plan: Plan, change: Change) -> Plan {
    let arc = &mut plan.arcs[change.arc as usize];
    (arc.cost, arc.checking, arc.standing) = (change.cost, change.checking, change.standing);
    plan
}

/// 14, then the writer's refusals.
pub fn check_change(plan: &Plan, change: Change) -> Result<(), Refusal> {
    if plan.arcs.len() <= change.arc as usize {
        return Err(refusal::FOREIGN);
    }
    let plan = changed(plan.clone(), change);
    write(plan.edition, plan.n as u32, &plan.arcs).map(|_| ())
}

struct Open {
    plan: Plan,
    marks: [Option<Plan>; 4],
}

impl Editor for Yardstick {
    fn open(&self, plan: &[u8]) -> Result<Box<dyn OpenPlan>, Refusal> {
        Ok(Box::new(Open { plan: read(plan)?, marks: Default::default() }))
    }
}

impl OpenPlan for Open {
    fn file(&self) -> Vec<u8> {
        write(self.plan.edition, self.plan.n as u32, &self.plan.arcs).expect("an open plan can be written")
    }

    fn call(&mut self, call: Call) -> Result<(), Refusal> {
        match call {
            Call::Change(change) => {
                check_change(&self.plan, change)?;
                self.plan = changed(self.plan.clone(), change);
            }
            Call::Mark(mark) => {
                *self.marks.get_mut(mark as usize).ok_or(refusal::NO_MARK)? = Some(self.plan.clone());
            }
            Call::Return(mark) => {
                self.plan = self.marks.get(mark as usize).cloned().flatten().ok_or(refusal::NO_MARK)?;
            }
        }
        Ok(())
    }

    fn ask(&self, budget: u64, windows: &[u16], departure: Departure, sheet: &mut [u16]) -> Result<Answer, Refusal> {
        Yardstick.plan_call_at(&self.file(), budget, windows, departure, sheet)
    }
}
