//! Districts in turn by their history: nothing is kept but what each brought and whose each accepted call was. Turns are counted in that list, and the line is the
//! order in which districts had their last call.

use crate::plan::SHEET_PLACES;
use crate::planner::Refusal;

/// A district that was let in: its place, and T.
struct District {
    place: u8,
    trees: u64,
}

/// The districts by the order of their entries, finished ones too, and the number of the district of each accepted entry and turn.
#[derive(Default)]
pub struct Line {
    districts: Vec<District>,
    calls: Vec<usize>,
}

/// What a turn has to meet: no district inside; a short sheet; or the district of that number, which goes on or finishes.
#[derive(Clone, Copy, PartialEq, Eq, Debug)]
pub enum Due {
    Empty,
    ShortSheet,
    GoesOn(usize),
    Finishes(usize),
}

impl Line {
    /// The turns of its own that a district has had: its calls but its entry.
    fn turns(&self, district: usize) -> u64 {
        self.calls.iter().filter(|&&of| of == district).count() as u64 - 1
    }

    /// "It finishes in turn T ÷ 1,000 of its own, rounded up."
    fn is_inside(&self, district: usize) -> bool {
        self.turns(district) < self.districts[district].trees.div_ceil(1_000)
    }

    fn inside(&self) -> impl Iterator<Item = usize> + '_ {
        (0..self.districts.len()).filter(|&district| self.is_inside(district))
    }

    /// The district whose last call, entry or turn, is the longest ago.
    fn front(&self) -> Option<usize> {
        self.inside().min_by_key(|&district| self.calls.iter().rposition(|&of| of == district))
    }

    pub fn place(&self, district: usize) -> u8 {
        self.districts[district].place
    }

    /// The trees that a district has tried.
    pub fn tried(&self, district: usize) -> u64 {
        (1_000 * self.turns(district)).min(self.districts[district].trees)
    }

    /// An entry, with T or the plan call's refusal for a long sheet: the place or the refusal. "22 full: eight districts are unfinished; at entry, after the plan call's own
    /// refusals but 8."
    pub fn enter(&mut self, trees: Result<u64, Refusal>) -> Result<u8, Refusal> {
        let trees = trees?;
        if self.inside().count() == 8 {
            return Err(22);
        }
        let free = |place: &u8| self.inside().all(|district| self.place(district) != *place);
        let place = (0..8).find(free).expect("a free place");
        self.calls.push(self.districts.len());
        self.districts.push(District { place, trees });
        Ok(place)
    }

    /// A turn with a sheet of so many places.
    pub fn turn(&mut self, places: usize) -> Due {
        let Some(front) = self.front() else { return Due::Empty };
        if places < SHEET_PLACES {
            return Due::ShortSheet;
        }
        self.calls.push(front);
        match self.is_inside(front) {
            true => Due::GoesOn(front),
            false => Due::Finishes(front),
        }
    }
}
