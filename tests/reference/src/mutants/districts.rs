//! Machines of districts that are wrong.

use super::Mutant;
use crate::plan::{HIGHEST_BUDGET, MOST_DISTRICTS, SHEET_PLACES, TURN_TREES};
use crate::planner::{refusal, Answer, Districts, Machine, Planner, Refusal, Turn};
use crate::properties::Property::{self, *};
use crate::yardstick::{check_entry, lowest_free, District, Line, Steps};
use std::collections::BTreeSet;

/// What there is to alter: the line, places that stay taken, and whether something stays where a district has left.
#[derive(Clone, Default)]
struct State {
    line: Line,
    lost: BTreeSet<u8>,
    kept: bool,
}

/// Lets a district in wrongly.
type Entry = fn(&mut State, &[u8], u64) -> Result<u8, Refusal>;

/// Takes a turn wrongly.
type Service = fn(&mut State, &mut [u16]) -> Result<Turn, Refusal>;

struct Altered {
    enter: Entry,
    turn: Service,
}

struct Wrong {
    state: State,
    enter: Entry,
    turn: Service,
}

impl Districts for Altered {
    fn start(&self) -> Box<dyn Machine> {
        Box::new(Wrong { state: State::default(), enter: self.enter, turn: self.turn })
    }
}

impl Machine for Wrong {
    fn enter(&mut self, plan: &[u8], budget: u64) -> Result<u8, Refusal> {
        (self.enter)(&mut self.state, plan, budget)
    }

    fn turn(&mut self, sheet: &mut [u16]) -> Result<Turn, Refusal> {
        (self.turn)(&mut self.state, sheet)
    }

    fn is_new(&self) -> bool {
        self.state.line.is_new() && !self.state.kept
    }

    fn displace(&mut self, place: u8) {
        self.state.line.displace(place);
    }
}

/// The right entry, but for places that stay taken.
fn right_entry(s: &mut State, file: &[u8], budget: u64) -> Result<u8, Refusal> {
    s.line.enter(file, budget)?;
    let taken: BTreeSet<u8> = s.line.0.iter().rev().skip(1).map(|district| district.place).collect();
    place_last(s, (0..).find(|place| !taken.contains(place) && !s.lost.contains(place)).expect("few are lost"))
}

fn right_turn(s: &mut State, sheet: &mut [u16]) -> Result<Turn, Refusal> {
    s.line.turn(sheet)
}

/// The district that has just entered has this place.
fn place_last(s: &mut State, place: u8) -> Result<u8, Refusal> {
    s.line.0.back_mut().expect("it has just entered").place = place;
    Ok(place)
}

/// What is done once a district has entered, or gone to the back, or left.
fn entered(s: &mut State, file: &[u8], budget: u64, after: fn(&mut Line)) -> Result<u8, Refusal> {
    let told = right_entry(s, file, budget)?;
    after(&mut s.line);
    Ok(told)
}

fn gone_on(s: &mut State, sheet: &mut [u16], after: fn(&mut Line)) -> Result<Turn, Refusal> {
    let told = right_turn(s, sheet)?;
    if let Turn::Unfinished { .. } = told {
        after(&mut s.line);
    }
    Ok(told)
}

fn left(s: &mut State, sheet: &mut [u16], after: fn(&mut State, u8)) -> Result<Turn, Refusal> {
    let told = right_turn(s, sheet)?;
    if let Turn::Finished { place, .. } = told {
        after(s, place);
    }
    Ok(told)
}

/// Another answer of a district that has left, from the district as it was before its last turn and the right answer.
fn answered(
    s: &mut State,
    sheet: &mut [u16],
    other: fn(&District, Answer, &mut [u16]) -> Answer,
) -> Result<Turn, Refusal> {
    let front = s.line.0.front().cloned();
    match (right_turn(s, &mut sheet.to_vec())?, front) {
        (Turn::Finished { place, answer }, Some(front)) => {
            Ok(Turn::Finished { place, answer: Box::new(other(&front, *answer, sheet)) })
        }
        (told, _) => Ok(told),
    }
}

/// Other words of a district that goes on, from the district as it was before the turn.
fn told_so_far(
    s: &mut State,
    sheet: &mut [u16],
    other: fn(&District, (u64, u64)) -> (u64, u64),
) -> Result<Turn, Refusal> {
    let front = s.line.0.front().cloned();
    match (right_turn(s, sheet)?, front) {
        (Turn::Unfinished { place, cost, trees }, Some(front)) => {
            let (cost, trees) = other(&front, (cost, trees));
            Ok(Turn::Unfinished { place, cost, trees })
        }
        (told, _) => Ok(told),
    }
}

/// Refuses as the right one does, and moves something then.
fn refused_entry(
    s: &mut State,
    file: &[u8],
    budget: u64,
    numbers: std::ops::RangeInclusive<Refusal>,
    moves: fn(&mut State),
) -> Result<u8, Refusal> {
    let told = right_entry(s, file, budget);
    if told.is_err_and(|number| numbers.contains(&number)) {
        moves(s);
    }
    told
}

fn refused_turn(s: &mut State, sheet: &mut [u16], moves: fn(&mut Line)) -> Result<Turn, Refusal> {
    let told = right_turn(s, sheet);
    if told.is_err() {
        moves(&mut s.line);
    }
    told
}

/// A planner that leaves out the trees before one.
struct Since(u64);

impl Steps for Since {
    fn considers(&self, place: u64) -> bool {
        place >= self.0
    }
}

const ENTRIES: [(&str, &[Property], Entry); 15] = [
    // places
    ("the highest free place", &[LowestPlace, FrontServed, Stated], |s, f, b| {
        right_entry(s, f, b)?;
        let taken: Vec<u8> = s.line.0.iter().rev().skip(1).map(|district| district.place).collect();
        place_last(s, (0..8).rev().find(|place| !taken.contains(place)).expect("one is free"))
    }),
    ("the place after the highest that is taken", &[LowestPlace, Stated], |s, f, b| {
        right_entry(s, f, b)?;
        let above = s.line.0.iter().rev().skip(1).map(|district| district.place + 1).max().unwrap_or(0);
        place_last(s, above)
    }),
    ("the number of districts inside is the place", &[LowestPlace, Stated], |s, f, b| {
        right_entry(s, f, b)?;
        let inside = s.line.0.len() as u8 - 1;
        place_last(s, inside)
    }),
    // refusals
    ("the ninth is let in", &[EntryRefusal, SevenTurns, Stated], |s, f, b| match right_entry(s, f, b) {
        Err(refusal::FULL) if s.line.0.len() == MOST_DISTRICTS => {
            let place = lowest_free(&s.line.0);
            s.line.0.push_back(District { place, file: f.to_vec(), budget: b, tried: 0 });
            Ok(place)
        }
        told => told,
    }),
    ("the eighth is kept out", &[EntryRefusal, Stated], |s, f, b| {
        check_entry(f, b)?;
        match s.line.0.len() {
            7 => Err(refusal::FULL),
            _ => right_entry(s, f, b),
        }
    }),
    ("22 before all others", &[EntryRefusal, Stated], |s, f, b| match s.line.0.len() {
        8 => Err(refusal::FULL),
        _ => right_entry(s, f, b),
    }),
    ("budgets are cut to the highest", &[EntryRefusal, Stated], |s, f, b| right_entry(s, f, b.min(HIGHEST_BUDGET))),
    ("budgets go by their last 32 bits", &[EntryRefusal, Stated], |s, f, b| right_entry(s, f, b & 0xFFFF_FFFF)),
    ("plans without a drive are let in", &[EntryRefusal, Returns, Stated], |s, f, b| {
        match check_entry(f, b) {
            Err(10..=12) if s.line.0.len() < MOST_DISTRICTS => {}
            _ => return right_entry(s, f, b),
        }
        let place = lowest_free(&s.line.0);
        s.line.0.push_back(District { place, file: f.to_vec(), budget: b, tried: 0 });
        Ok(place)
    }),
    ("a refused entry takes a place", &[LowestPlace, NothingMoves, Stated], |s, f, b| {
        refused_entry(s, f, b, 1..=21, |s| {
            s.lost.insert(lowest_free(&s.line.0));
        })
    }),
    ("an entry that finds no place moves the line", &[FrontServed, NothingMoves], |s, f, b| {
        refused_entry(s, f, b, 22..=22, |s| s.line.0.rotate_left(1))
    }),
    ("a refused entry sends the last one out", &[NothingMoves, Stated], |s, f, b| {
        refused_entry(s, f, b, 1..=21, |s| {
            s.line.0.pop_back();
        })
    }),
    // the line
    ("an entrant goes to the front", &[FrontServed, Stated], |s, f, b| entered(s, f, b, |line| line.0.rotate_right(1))),
    ("an entrant goes ahead of the last", &[FrontServed, Stated], |s, f, b| {
        entered(s, f, b, |line| {
            let last = line.0.len() - 1;
            line.0.swap(last, last.saturating_sub(1));
        })
    }),
    ("the entrant's budget goes for all", &[AnswerOfTurns], |s, f, b| {
        entered(s, f, b, |line| {
            let budget = line.0.back().map_or(1, |district| district.budget);
            line.0.iter_mut().filter(|district| district.tried < budget).for_each(|district| district.budget = budget);
        })
    }),
];

const TURNS: [(&str, &[Property], Service); 28] = [
    // the line
    ("the front stays at the front", &[FrontServed, SevenTurns, Stated], |s, sheet| {
        gone_on(s, sheet, |line| line.0.rotate_right(1))
    }),
    ("the unfinished goes ahead of the last", &[FrontServed, SevenTurns, Stated], |s, sheet| {
        gone_on(s, sheet, |line| {
            let last = line.0.len() - 1;
            line.0.swap(last, last.saturating_sub(1));
        })
    }),
    ("the last takes the place in line of one that leaves", &[FrontServed, SevenTurns, Stated], |s, sheet| {
        left(s, sheet, |s, _| s.line.0.rotate_right(1.min(s.line.0.len())))
    }),
    ("a short sheet moves the line", &[FrontServed, NothingMoves, Stated], |s, sheet| {
        refused_turn(s, sheet, |line| line.0.rotate_left(1))
    }),
    ("a short sheet takes a turn", &[TreesSoFar, LastTurn, NothingMoves, Stated], |s, sheet| {
        refused_turn(s, sheet, |line| {
            let front = &mut line.0[0];
            front.tried = front.plan_call((front.tried + TURN_TREES).min(front.budget), &mut [0; SHEET_PLACES]).trees;
        })
    }),
    ("a short sheet sends the front out", &[NothingMoves, TurnRefusal, Stated], |s, sheet| {
        refused_turn(s, sheet, |line| {
            line.0.pop_front();
        })
    }),
    // places
    ("the place is not freed", &[LowestPlace, Stated], |s, sheet| {
        left(s, sheet, |s, place| {
            s.lost.insert(place);
        })
    }),
    ("a turn of an empty machine takes a place", &[LowestPlace, NothingMoves, Stated], |s, sheet| {
        if s.line.0.is_empty() {
            s.lost.insert(0);
        }
        right_turn(s, sheet)
    }),
    ("the place of the one behind is told", &[FrontServed, Stated], |s, sheet| match right_turn(s, sheet)? {
        Turn::Finished { place, answer } => {
            Ok(Turn::Finished { place: s.line.0.front().map_or(place, |front| front.place), answer })
        }
        told => Ok(told),
    }),
    ("a district at place 8 is gone on with", &[Misplaced], |s, sheet| match s.line.0.front() {
        Some(front) if front.place == 8 => s.line.go_on(TURN_TREES, sheet),
        _ => right_turn(s, sheet),
    }),
    ("the plan of one that leaves stays in the machine", &[Drained], |s, sheet| left(s, sheet, |s, _| s.kept = true)),
    // refusals
    ("a short sheet gets 8 from an empty machine", &[TurnRefusal, Stated], |s, sheet| {
        if sheet.len() < SHEET_PLACES {
            return Err(refusal::SHORT_SHEET);
        }
        right_turn(s, sheet)
    }),
    ("a short sheet will do before the last turn", &[TurnRefusal, Stated], |s, sheet| {
        let long = &mut vec![0; SHEET_PLACES.max(sheet.len())];
        let mut tried = s.clone();
        match right_turn(&mut tried, long)? {
            told @ Turn::Unfinished { .. } => {
                *s = tried;
                Ok(told)
            }
            _ => right_turn(s, sheet),
        }
    }),
    // the sheet
    ("the drive is written in each turn", &[SheetBetween], |s, sheet| {
        let told = right_turn(s, sheet)?;
        if let (Turn::Unfinished { trees, .. }, Some(back)) = (&told, s.line.0.back()) {
            back.plan_call(*trees, sheet);
        }
        Ok(told)
    }),
    ("a turn of an empty machine clears the sheet", &[SheetBetween], |s, sheet| {
        if s.line.0.is_empty() {
            sheet.fill(0);
        }
        right_turn(s, sheet)
    }),
    ("the drive is not written", &[AnswerOfTurns], |s, sheet| right_turn(s, &mut sheet.to_vec())),
    // turns and trees
    ("1,001 trees a turn", &[TreesSoFar, LastTurn, Stated], |s, sheet| s.line.turn_of(1_001, sheet)),
    ("999 trees a turn", &[TreesSoFar, LastTurn, Stated], |s, sheet| s.line.turn_of(999, sheet)),
    ("all trees in one turn", &[LastTurn, Stated], |s, sheet| s.line.turn_of(HIGHEST_BUDGET, sheet)),
    ("one turn more where T is a multiple of 1,000", &[LastTurn, Stated], |s, sheet| {
        let front = s.line.0.front().cloned();
        match (right_turn(&mut s.clone(), &mut sheet.to_vec())?, front) {
            (Turn::Finished { place, answer }, Some(front))
                if answer.trees % TURN_TREES == 0 && front.tried < answer.trees =>
            {
                s.line.0.rotate_left(1);
                s.line.0.back_mut().expect("it goes to the back").tried = answer.trees;
                Ok(Turn::Unfinished { place, cost: answer.cost, trees: answer.trees })
            }
            _ => right_turn(s, sheet),
        }
    }),
    ("the trees of the turn alone are told", &[TreesSoFar, Stated], |s, sheet| {
        told_so_far(s, sheet, |front, (cost, trees)| (cost, trees - front.tried))
    }),
    // costs
    ("the least cost of the last turn's trees", &[CostSoFar], |s, sheet| {
        told_so_far(s, sheet, |front, (_, trees)| {
            let since = Since(front.tried).plan_call(&front.file, trees, &mut [0; SHEET_PLACES]);
            (since.expect("a good plan").cost, trees)
        })
    }),
    ("the least cost of the first turn's trees", &[CostSoFar], |s, sheet| {
        told_so_far(s, sheet, |front, (_, trees)| (front.plan_call(TURN_TREES, &mut [0; SHEET_PLACES]).cost, trees))
    }),
    ("the cost at the budget", &[CostSoFar], |s, sheet| {
        told_so_far(s, sheet, |front, (_, trees)| (front.plan_call(front.budget, &mut [0; SHEET_PLACES]).cost, trees))
    }),
    // answers
    ("an answer of the trees before the last turn", &[AnswerOfTurns], |s, sheet| {
        answered(s, sheet, |front, answer, sheet| match front.tried {
            0 => front.plan_call(answer.trees, sheet),
            tried => Answer { trees: answer.trees, ..front.plan_call(tried, sheet) },
        })
    }),
    ("an answer of the last turn's trees", &[AnswerOfTurns], |s, sheet| {
        answered(s, sheet, |front, answer, sheet| {
            let since = Since(front.tried).plan_call(&front.file, front.budget, sheet).expect("a good plan");
            Answer { whole: answer.whole, ..since }
        })
    }),
    ("one place too many is counted", &[AnswerOfTurns], |s, sheet| {
        answered(s, sheet, |front, answer, sheet| Answer {
            places: answer.places + 1,
            ..front.plan_call(front.budget, sheet)
        })
    }),
    ("an answer of many turns is whole", &[AnswerOfTurns], |s, sheet| {
        answered(s, sheet, |front, answer, sheet| Answer {
            whole: answer.whole || front.tried > 0,
            ..front.plan_call(front.budget, sheet)
        })
    }),
];

pub fn mutants() -> Vec<Mutant<dyn Districts>> {
    let wrong = |enter, turn| Box::new(Altered { enter, turn }) as Box<dyn Districts>;
    let mut all: Vec<Mutant<dyn Districts>> = vec![];
    all.extend(ENTRIES.map(|(name, violates, enter)| Mutant { name, violates, wrong: wrong(enter, right_turn) }));
    all.extend(TURNS.map(|(name, violates, turn)| Mutant { name, violates, wrong: wrong(right_entry, turn) }));
    all
}
