//! Eight districts in turn.

use crate::answer::Lent;
use crate::limits::{COST, DISTRICTS_BYTES, FINISHED, NO_DISTRICT, TREES};
use crate::{raw, Answer, Refusal};

/// A machine that lays drives for up to eight districts in turn. Each enters at the back of the line; a turn goes to the front one, which tries 1,000 trees, or
/// those that are left of its budget or of its plan. A refused entry moves nothing. A machine that all districts have left is equal to a new one.
///
/// ```
/// use postman::{plan_call, Arc, Districts, Edition, Plan, Refusal, Standing, Turn};
///
/// // Three loops that must be driven, and four streets between them.
/// let must = |v| Arc::new(v, v, Standing::Required, 1);
/// let may = |tail, head, cost| Arc::new(tail, head, Standing::Optional, cost);
/// let arcs = vec![must(0), must(1), must(2), may(0, 1, 2), may(1, 2, 2), may(2, 0, 2), may(0, 2, 3)];
/// let file = Plan { edition: Edition::First, vertices: 3, arcs }.write()?;
///
/// let mut districts = Districts::new();
/// assert_eq!(districts.turn(), None);
/// assert_eq!((districts.enter(&file, 1)?, districts.enter(&file, 2)?), (0, 1));
/// assert_eq!(districts.enter(&file, 0), Err(Refusal::Budget));
///
/// assert_eq!(districts.turn(), Some(Turn::Finished { place: 0, answer: plan_call(&file, 1)?.into() }));
/// assert_eq!(districts.enter(&file, 2)?, 0);
/// assert_eq!(districts.turn(), Some(Turn::Finished { place: 1, answer: plan_call(&file, 2)?.into() }));
/// # Ok::<(), Refusal>(())
/// ```
#[derive(Clone, PartialEq, Eq, Debug)]
pub struct Districts {
    machine: Box<[u8; DISTRICTS_BYTES]>,
}

/// A district's turn.
///
/// ```
/// use postman::{Districts, Refusal, Turn};
///
/// let mut districts = Districts::new();
/// districts.enter(&[0x10, 0x40, 0x20, 0x01, 0x40, 0x01, 0x41, 0x00, 0x00, 0x03], 10)?;
/// match districts.turn() {
///     Some(Turn::Finished { place, answer }) => assert_eq!((place, answer.cost), (0, 8)),
///     Some(Turn::Unfinished { .. }) | None => panic!("its plan has one tree"),
/// }
/// # Ok::<(), Refusal>(())
/// ```
#[derive(Clone, PartialEq, Eq, Debug)]
pub enum Turn {
    /// It is not finished, and goes to the back of the line.
    Unfinished {
        /// The district's place.
        place: usize,
        /// The least cost of the trees so far.
        cost: u64,
        /// The trees so far.
        trees: u64,
    },
    /// Its last turn: it leaves, and its place is free.
    Finished {
        /// The district's place.
        place: usize,
        /// What [`plan_call`](crate::plan_call) answers for its file and its budget, however many turns it took.
        answer: Box<Answer>,
    },
}

impl Districts {
    /// A machine with no district inside.
    ///
    /// ```
    /// assert_eq!(postman::Districts::new().turn(), None);
    /// ```
    pub fn new() -> Districts {
        let mut machine = Box::new([0; DISTRICTS_BYTES]);
        raw::districts_start(&mut *machine).expect("a machine of the bytes that it takes");
        Districts { machine }
    }

    /// A district enters with its plan file and a budget: its place, the lowest of 0 to 7 that is free. Refuses with 1 to 7 and 9 to 13 as
    /// [`plan_call`](crate::plan_call) does, and with 22 where eight districts are unfinished.
    ///
    /// ```
    /// use postman::{Districts, Refusal};
    ///
    /// let file = [0x10, 0x40, 0x20, 0x01, 0x40, 0x01, 0x41, 0x00, 0x00, 0x03];
    /// let mut districts = Districts::new();
    /// for place in 0..8 {
    ///     assert_eq!(districts.enter(&file, 10), Ok(place));
    /// }
    /// assert_eq!(districts.enter(&file, 10), Err(Refusal::Full));
    /// ```
    pub fn enter(&mut self, file: &[u8], budget: u64) -> Result<usize, Refusal> {
        raw::enter(&mut *self.machine, file, budget)
    }

    /// A turn of the front district, or nothing with no district inside.
    ///
    /// ```
    /// use postman::{Districts, Refusal, Turn};
    ///
    /// let file = [0x10, 0x40, 0x20, 0x01, 0x40, 0x01, 0x41, 0x00, 0x00, 0x03];
    /// let mut districts = Districts::new();
    /// districts.enter(&file, 10)?;
    /// assert!(matches!(districts.turn(), Some(Turn::Finished { place: 0, .. })));
    /// assert_eq!(districts.turn(), None);
    /// # Ok::<(), Refusal>(())
    /// ```
    pub fn turn(&mut self) -> Option<Turn> {
        let mut lent = Lent::new();
        let number = raw::turn(&mut *self.machine, &mut lent.sheet, &mut lent.answer, &mut lent.multipliers);
        match number.expect("a sheet that is long enough") {
            NO_DISTRICT => None,
            place if place < FINISHED => {
                Some(Turn::Unfinished { place, cost: lent.answer[COST], trees: lent.answer[TREES] })
            }
            last => Some(Turn::Finished { place: last - FINISHED, answer: Box::new(lent.taken()) }),
        }
    }

    /// The machine as bytes, to be kept; `include/postman.h` says what they are.
    ///
    /// ```
    /// use postman::{Districts, Refusal};
    ///
    /// let mut districts = Districts::new();
    /// districts.enter(&[0x10, 0x40, 0x20, 0x01, 0x40, 0x01, 0x41, 0x00, 0x00, 0x03], 10)?;
    /// let mut kept = Districts::from_bytes(districts.as_bytes());
    /// assert_eq!(kept, districts);
    /// assert_eq!(kept.turn(), districts.turn());
    /// # Ok::<(), Refusal>(())
    /// ```
    pub fn as_bytes(&self) -> &[u8; DISTRICTS_BYTES] {
        &self.machine
    }

    /// The machine that [`as_bytes`](Districts::as_bytes) gave. Any bytes are one, and no call fails on them; what is said of turns is said of those. In others a front district that cannot be
    /// gone on with is answered as none: nothing moves.
    ///
    /// ```
    /// use postman::limits::DISTRICTS_BYTES;
    /// use postman::Districts;
    ///
    /// assert_eq!(Districts::from_bytes(&[0; DISTRICTS_BYTES]), Districts::new());
    /// ```
    pub fn from_bytes(machine: &[u8; DISTRICTS_BYTES]) -> Districts {
        Districts { machine: Box::new(*machine) }
    }
}

impl Default for Districts {
    fn default() -> Districts {
        Districts::new()
    }
}

#[cfg(test)]
mod tests {
    use super::*;
    use crate::limits::{ANSWER_WORDS, LONGEST_FILE, MOST_DISTRICTS, MULTIPLIERS, SHEET_PLACES, TURN_TREES};
    use crate::plan_call;

    const CASE_A: [u8; 10] = [0x10, 0x40, 0x20, 0x01, 0x40, 0x01, 0x41, 0x00, 0x00, 0x03];

    fn example(name: &str) -> Vec<u8> {
        std::fs::read(format!("{}/../../examples/{name}", env!("CARGO_MANIFEST_DIR"))).unwrap()
    }

    /// A slice that is too short for the machine is refused first and keeps its bytes; of a longer one the rest is kept.
    #[test]
    fn machines_of_another_length() {
        assert_eq!(DISTRICTS_BYTES, MOST_DISTRICTS * (1 + 8 + LONGEST_FILE + 4 + 8 + 16 + 4) + 8);
        let mut short = vec![0xA5; DISTRICTS_BYTES - 1];
        assert_eq!(raw::districts_start(&mut short), Err(Refusal::ShortSheet));
        assert_eq!(raw::enter(&mut short, &[], 0), Err(Refusal::ShortSheet));
        let (mut sheet, mut answer, mut multipliers) = ([0xA5A5; 2], [7; 2], [7; 2]);
        assert_eq!(raw::turn(&mut short, &mut sheet, &mut answer, &mut multipliers), Err(Refusal::ShortSheet));
        assert_eq!((short, sheet), (vec![0xA5; DISTRICTS_BYTES - 1], [0xA5A5; 2]));
        assert_eq!((answer, multipliers), ([7; 2], [7; 2]));

        let mut long = vec![0xA5; DISTRICTS_BYTES + 3];
        assert_eq!(raw::districts_start(&mut long), Ok(()));
        assert!(long[..DISTRICTS_BYTES].iter().all(|&byte| byte == 0));
        assert_eq!(raw::enter(&mut long, &CASE_A, 1), Ok(0));
        let mut sheet = vec![0; SHEET_PLACES];
        assert_eq!(raw::turn(&mut long, &mut sheet, &mut [], &mut []), Ok(FINISHED));
        assert_eq!(long[DISTRICTS_BYTES..], [0xA5; 3]);
    }

    /// Any bytes are a machine: no call fails on them.
    #[test]
    fn any_bytes_are_a_machine() {
        let mut sheet = vec![0xA5A5; SHEET_PLACES];
        for byte in [1, 0x10, 0x7F, 0xFF] {
            let mut machine = vec![byte; DISTRICTS_BYTES];
            let before = machine.clone();
            assert_eq!(raw::turn(&mut machine, &mut sheet, &mut [], &mut []), Ok(NO_DISTRICT));
            assert_eq!(raw::enter(&mut machine, &CASE_A, 1), Err(Refusal::Full));
            assert_eq!((machine == before, sheet.iter().all(|&place| place == 0xA5A5)), (true, true));
        }
    }

    /// Eight districts, a ninth, a short sheet, and turns until all have left.
    #[test]
    fn each_is_answered_as_one_plan_call() {
        let file = example("large_town.plan");
        let budgets = [2_500, 1, 1_000, 1_001, 3_000, 999, 2_000, 1];
        let mut districts = Districts::new();
        for (place, &budget) in budgets.iter().enumerate() {
            assert_eq!(districts.enter(&file, budget), Ok(place));
        }
        assert_eq!(districts.enter(&file, 1), Err(Refusal::Full));
        assert_eq!(districts.enter(&file, 0), Err(Refusal::Budget));

        let before = districts.clone();
        let (mut sheet, mut answer) = (vec![7; SHEET_PLACES - 1], [7; ANSWER_WORDS]);
        let refused = raw::turn(&mut *districts.machine, &mut sheet, &mut answer, &mut []);
        assert_eq!((refused, answer), (Err(Refusal::ShortSheet), [7; ANSWER_WORDS]));
        assert!(districts == before && sheet.iter().all(|&place| place == 7));

        let mut turns = [0; MOST_DISTRICTS];
        while let Some(turn) = districts.turn() {
            match turn {
                Turn::Unfinished { place, cost, trees } => {
                    turns[place] += 1;
                    assert_eq!(trees, turns[place] * TURN_TREES);
                    assert_eq!(cost, plan_call(&file, trees).unwrap().cost);
                }
                Turn::Finished { place, answer } => {
                    turns[place] += 1;
                    assert_eq!(Ok(*answer), plan_call(&file, budgets[place]));
                }
            }
        }
        assert_eq!(turns, budgets.map(|budget| (budget + TURN_TREES - 1) / TURN_TREES));
        assert_eq!(districts, Districts::new());
    }

    /// A front district at a place of 8 or more, or at another's, is answered as none, and nothing moves.
    #[test]
    fn places_that_are_none() {
        let mut districts = Districts::new();
        assert_eq!((districts.enter(&CASE_A, 1), districts.enter(&CASE_A, 1)), (Ok(0), Ok(1)));
        for place in [8, 9, 16, 255, 1] {
            let mut machine = *districts.as_bytes();
            machine[0] = place;
            let mut other = Districts::from_bytes(&machine);
            assert_eq!((other.turn(), other.as_bytes()), (None, &machine));
        }
    }

    /// Before the last turn sheet and multipliers are untouched, and of the words only cost and trees are told.
    #[test]
    fn the_sheet_is_written_in_the_last_turn_only() {
        let file = example("large_town.plan");
        let mut districts = Districts::new();
        assert_eq!(districts.enter(&file, TURN_TREES + 1), Ok(0));
        let (mut sheet, mut answer, mut multipliers) = (vec![7; SHEET_PLACES], [7; ANSWER_WORDS], [7; MULTIPLIERS]);
        let first = raw::turn(&mut *districts.machine, &mut sheet, &mut answer, &mut multipliers);
        assert_eq!(first, Ok(0));
        assert!(sheet.iter().all(|&place| place == 7) && multipliers == [7; MULTIPLIERS]);
        assert_eq!(answer, [0, plan_call(&file, TURN_TREES).unwrap().cost, 0, TURN_TREES, 0, 0]);
        let last = raw::turn(&mut *districts.machine, &mut sheet, &mut answer, &mut multipliers);
        assert_eq!(last, Ok(FINISHED));
        let whole = plan_call(&file, TURN_TREES + 1).unwrap();
        assert_eq!(answer[COST], whole.cost);
        assert_eq!((&sheet[..whole.drive.len()], multipliers), (&whole.drive[..], whole.multipliers));
    }
}
