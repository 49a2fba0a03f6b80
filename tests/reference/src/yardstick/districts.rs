//! Districts in turn: the line, its front first. A turn tries the trees of the turns before it again.

use super::{accept, answer, Yardstick};
use crate::plan::{MOST_DISTRICTS, SHEET_PLACES, TURN_TREES};
use crate::planner::{refusal, Answer, Districts, Machine, Planner, Refusal, Turn};
use std::collections::VecDeque;

/// A district that is not finished.
#[derive(Clone)]
pub struct District {
    pub place: u8,
    pub file: Vec<u8>,
    pub budget: u64,
    pub tried: u64,
}

impl District {
    pub fn plan_call(&self, budget: u64, sheet: &mut [u16]) -> Answer {
        Yardstick.plan_call(&self.file, budget, sheet).expect("its entry was not refused")
    }

    /// Tries so many trees more, or the rest of T.
    pub fn serve(&mut self, trees: u64, sheet: &mut [u16]) -> Turn {
        let District { place, budget, .. } = *self;
        let so_far = self.plan_call((self.tried + trees).min(budget), &mut vec![0; SHEET_PLACES]);
        self.tried = so_far.trees;
        if so_far.whole || so_far.trees == budget {
            return Turn::Finished { place, answer: Box::new(self.plan_call(budget, sheet)) };
        }
        Turn::Unfinished { place, cost: so_far.cost, trees: so_far.trees }
    }
}

/// The plan call's refusals but 8, in their order.
pub fn check_entry(file: &[u8], budget: u64) -> Result<(), Refusal> {
    let plan = accept(file, budget, SHEET_PLACES)?;
    answer(&Yardstick, plan, 1, &mut vec![0; SHEET_PLACES]).map(|_| ())
}

/// The lowest place that no district of a line has.
pub fn lowest_free(line: &VecDeque<District>) -> u8 {
    (0..).find(|&place| line.iter().all(|district| district.place != place)).expect("a line is short")
}

#[derive(Clone, Default)]
pub struct Line(pub VecDeque<District>);

impl Line {
    /// Whether the front district's place is one of eight, and no other has it.
    fn is_in_place(&self) -> bool {
        let mut places = self.0.iter().map(|district| district.place);
        places.next().is_some_and(|front| usize::from(front) < MOST_DISTRICTS && places.all(|place| place != front))
    }

    /// The front district tries so many trees more. With a long sheet it has to be in its place.
    pub fn turn_of(&mut self, trees: u64, sheet: &mut [u16]) -> Result<Turn, Refusal> {
        if sheet.len() >= SHEET_PLACES && !self.is_in_place() {
            return Ok(Turn::Empty);
        }
        self.go_on(trees, sheet)
    }

    /// The same, wherever it is.
    pub fn go_on(&mut self, trees: u64, sheet: &mut [u16]) -> Result<Turn, Refusal> {
        let Some(mut front) = self.0.pop_front() else { return Ok(Turn::Empty) };
        if sheet.len() < SHEET_PLACES {
            self.0.push_front(front);
            return Err(refusal::SHORT_SHEET);
        }
        let turn = front.serve(trees, sheet);
        if let Turn::Unfinished { .. } = turn {
            self.0.push_back(front);
        }
        Ok(turn)
    }
}

impl Machine for Line {
    fn enter(&mut self, plan: &[u8], budget: u64) -> Result<u8, Refusal> {
        check_entry(plan, budget)?;
        if self.0.len() == MOST_DISTRICTS {
            return Err(refusal::FULL);
        }
        let place = lowest_free(&self.0);
        self.0.push_back(District { place, file: plan.to_vec(), budget, tried: 0 });
        Ok(place)
    }

    fn turn(&mut self, sheet: &mut [u16]) -> Result<Turn, Refusal> {
        self.turn_of(TURN_TREES, sheet)
    }

    fn is_new(&self) -> bool {
        self.0.is_empty()
    }

    fn displace(&mut self, place: u8) {
        self.0.front_mut().expect("a district is inside").place = place;
    }
}

impl Districts for Yardstick {
    fn start(&self) -> Box<dyn Machine> {
        Box::new(Line::default())
    }
}
