//! The library's machine of districts behind the traits.

use super::{taken, Lent, Proved, EMPTY};
use crate::planner::{Districts, Machine, Refusal, Turn};
use postman::limits::{COST, DISTRICTS_BYTES, FINISHED, NO_DISTRICT, TREES};
use postman::raw;

/// A machine as the library lends it.
struct LentMachine(Vec<u8>);

impl Districts for Proved {
    fn start(&self) -> Box<dyn Machine> {
        // What the bytes held before the start must not matter.
        let mut machine = vec![0xA5; DISTRICTS_BYTES];
        raw::districts_start(&mut machine).expect("as many bytes as a machine takes");
        Box::new(LentMachine(machine))
    }
}

/// What a turn told, from the number that it answers.
fn turn_of(told: usize, lent: Lent) -> Turn {
    let place = (told % FINISHED) as u8;
    match told / FINISHED {
        0 => Turn::Unfinished { place, cost: lent.0[COST], trees: lent.0[TREES] },
        1 => Turn::Finished { place, answer: Box::new(taken(Ok(()), lent).expect("no refusal")) },
        _ => {
            assert_eq!(told, NO_DISTRICT);
            Turn::Empty
        }
    }
}

impl Machine for LentMachine {
    fn enter(&mut self, plan: &[u8], budget: u64) -> Result<u8, Refusal> {
        raw::enter(&mut self.0, plan, budget).map(|place| place as u8).map_err(postman::Refusal::number)
    }

    fn turn(&mut self, sheet: &mut [u16]) -> Result<Turn, Refusal> {
        let mut lent = EMPTY;
        let told = raw::turn(&mut self.0, sheet, &mut lent.0, &mut lent.1).map_err(postman::Refusal::number)?;
        Ok(turn_of(told, lent))
    }

    fn is_new(&self) -> bool {
        self.0.iter().all(|&byte| byte == 0)
    }

    fn displace(&mut self, place: u8) {
        self.0[0] = place;
    }
}
