//! The proved library behind the traits, through the package `postman` (`bindings/rust`).

mod districts;

use crate::planner::{
    Answer, Call, Car, CarsAnswer, CarsCall, Change, Codec, Counter, DeepCall, DepartureCall, DistanceCall, Editor,
    Judge, OpenPlan, Planner, Refusal, TreeCount,
};
use postman::limits::{ANSWER_WORDS, OPEN_BYTES, RECORD_BYTES};
use postman::raw;
use reference::plan::{Arc, Departure, MOST_VERTICES};

/// The proved library.
#[derive(Clone, Copy, Default, Debug)]
pub struct Proved;

/// An answer that is lent to a call: its words and its multipliers.
type Lent = ([u64; ANSWER_WORDS], [i64; MOST_VERTICES]);

const EMPTY: Lent = ([0; ANSWER_WORDS], [0; MOST_VERTICES]);

/// What a call put into a lent answer, taken apart, unless it refused.
fn taken(told: Result<(), postman::Refusal>, (words, multipliers): Lent) -> Result<Answer, Refusal> {
    told.map_err(postman::Refusal::number)?;
    let [places, cost, floor, trees, whole, parts] = words;
    let places = usize::try_from(places).expect("places are counted");
    Ok(Answer { places, cost, floor, trees, whole: whole != 0, parts, multipliers })
}

/// Lends an answer to a call and takes it apart.
fn answered(call: impl FnOnce(&mut [u64], &mut [i64]) -> Result<(), postman::Refusal>) -> Result<Answer, Refusal> {
    let mut lent = EMPTY;
    let told = call(&mut lent.0, &mut lent.1);
    taken(told, lent)
}

impl Planner for Proved {
    fn plan_call(&self, plan: &[u8], budget: u64, sheet: &mut [u16]) -> Result<Answer, Refusal> {
        answered(|answer, multipliers| raw::plan_call(plan, budget, sheet, answer, multipliers))
    }

    fn short_call(&self, plan: &[u8], sheet: &mut [u16]) -> Result<Answer, Refusal> {
        answered(|answer, multipliers| raw::short_call(plan, sheet, answer, multipliers))
    }
}

impl DepartureCall for Proved {
    fn plan_call_at(
        &self,
        plan: &[u8],
        budget: u64,
        windows: &[u16],
        departure: Departure,
        sheet: &mut [u16],
    ) -> Result<Answer, Refusal> {
        let Departure { weekday, minute } = departure;
        answered(|answer, multipliers| {
            raw::plan_call_at(plan, budget, windows, weekday, minute, sheet, answer, multipliers)
        })
    }
}

impl DeepCall for Proved {
    fn deep_call(&self, plan: &[u8], budget: u64, rounds: u32, sheet: &mut [u16]) -> Result<Answer, Refusal> {
        answered(|answer, multipliers| raw::deep_call(plan, budget, rounds, sheet, answer, multipliers))
    }
}

impl CarsCall for Proved {
    fn two_cars(&self, plan: &[u8], first: Car, second: Car) -> CarsAnswer {
        fn lend<'a>(car: Car<'a>, (answer, multipliers): &'a mut Lent) -> raw::Car<'a> {
            let Car { marks, budget, sheet } = car;
            raw::Car { marks, budget, sheet, answer, multipliers }
        }
        let mut lent = [EMPTY; 2];
        let [one, other] = &mut lent;
        let told = raw::two_cars(plan, lend(first, one), lend(second, other)).map_err(postman::Refusal::number)?;
        Ok([taken(told[0], lent[0]), taken(told[1], lent[1])])
    }
}

fn to_bytes(a: &Arc) -> [u8; RECORD_BYTES] {
    let ([cost_high, cost_low], [checking_high, checking_low]) = (a.cost.to_be_bytes(), a.checking.to_be_bytes());
    [a.tail, a.head, a.standing, cost_high, cost_low, checking_high, checking_low]
}

fn from_bytes(b: &[u8]) -> Arc {
    let number = |high, low| u16::from_be_bytes([b[high], b[low]]);
    Arc { tail: b[0], head: b[1], standing: b[2], cost: number(3, 4), checking: number(5, 6) }
}

impl Codec for Proved {
    fn read(&self, bytes: &[u8], records: &mut [Arc]) -> Result<(u8, usize, usize), Refusal> {
        let mut lent: Vec<u8> = records.iter().flat_map(to_bytes).collect();
        let counts = raw::read_plan(bytes, &mut lent);
        // All records are taken back, not only the m that were asked for: what the library did to the others is seen by the caller.
        for (record, b) in records.iter_mut().zip(lent.chunks_exact(RECORD_BYTES)) {
            *record = from_bytes(b);
        }
        counts.map_err(postman::Refusal::number)
    }

    fn write(&self, edition: u8, n: u32, records: &[Arc], bytes: &mut [u8]) -> Result<usize, Refusal> {
        let lent: Vec<u8> = records.iter().flat_map(to_bytes).collect();
        raw::write_plan(edition.into(), n, &lent, bytes).map_err(postman::Refusal::number)
    }
}

impl DistanceCall for Proved {
    fn distances(&self, plan: &[u8], pairs: &[u16], distances: &mut [u32]) -> Result<usize, Refusal> {
        raw::distances(plan, pairs, distances).map_err(postman::Refusal::number)
    }
}

impl Counter for Proved {
    fn tree_count(&self, plan: &[u8]) -> Result<TreeCount, Refusal> {
        raw::tree_count(plan).map(|count| TreeCount::of(count.into())).map_err(postman::Refusal::number)
    }
}

/// An open plan as the library lends it.
struct Open(Vec<u8>);

impl Editor for Proved {
    fn open(&self, plan: &[u8]) -> Result<Box<dyn OpenPlan>, Refusal> {
        // What the state held before the opening must not matter.
        let mut state = vec![0xA5; OPEN_BYTES];
        raw::open(plan, &mut state).map_err(postman::Refusal::number)?;
        Ok(Box::new(Open(state)))
    }
}

impl OpenPlan for Open {
    fn file(&self) -> Vec<u8> {
        let length = usize::from(u16::from_be_bytes([self.0[0], self.0[1]]));
        self.0[2..2 + length].to_vec()
    }

    fn call(&mut self, call: Call) -> Result<(), Refusal> {
        let state = &mut self.0;
        match call {
            Call::Change(Change { arc, cost, checking, standing }) => raw::change(state, arc, cost, checking, standing),
            Call::Mark(mark) => raw::mark(state, mark),
            Call::Return(mark) => raw::return_to(state, mark),
        }
        .map_err(postman::Refusal::number)
    }

    fn ask(&self, budget: u64, windows: &[u16], departure: Departure, sheet: &mut [u16]) -> Result<Answer, Refusal> {
        let Departure { weekday, minute } = departure;
        answered(|answer, multipliers| raw::ask(&self.0, budget, windows, weekday, minute, sheet, answer, multipliers))
    }
}

impl Judge for Proved {
    fn judge(&self, plan: &[u8], places: &[u16]) -> Result<u64, Refusal> {
        raw::judge(plan, places).map_err(postman::Refusal::number)
    }
}
