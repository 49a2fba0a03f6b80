//! A plan that is open for changes, with marks to come back to.

use crate::answer::answered;
use crate::limits::{LONGEST_FILE, MARKS, OPEN_BYTES};
use crate::windows::numbers_of;
use crate::{raw, Answer, Departure, Plan, Refusal, Standing, Window};

/// A plan that is open for changes, and four marks, 0 to 3, that hold it as it was. A refused call alters nothing.
///
/// ```
/// use postman::{plan_call_at, Arc, Departure, Edition, OpenPlan, Plan, Refusal, Standing};
///
/// // A street that must be driven, a short way back, and a long one.
/// let may = |cost| Arc::new(1, 0, Standing::Optional, cost);
/// let file = Plan { edition: Edition::First, vertices: 2, arcs: vec![Arc::new(0, 1, Standing::Required, 5), may(3), may(9)] }.write()?;
/// let departure = Departure { weekday: 0, minute: 480 };
///
/// let mut open = OpenPlan::open(&file)?;
/// let before = open.ask(10, &[], departure)?;
/// assert_eq!(before.drive, [0, 1]);
///
/// // What if the short way is closed?
/// open.mark(0)?;
/// open.change(1, 3, 0, Standing::Closed)?;
/// assert_eq!(open.ask(10, &[], departure)?.drive, [0, 2]);
/// assert_eq!(open.ask(10, &[], departure), plan_call_at(open.file(), 10, &[], departure));
///
/// // A change that the writer would refuse alters nothing: two arcs would agree.
/// assert_eq!(open.change(2, 3, 0, Standing::Closed), Err(Refusal::Repeated));
/// assert_eq!(open.change(3, 3, 0, Standing::Closed), Err(Refusal::Foreign));
///
/// open.return_to(0)?;
/// assert_eq!(open.file(), file);
/// assert_eq!(open.ask(10, &[], departure)?, before);
/// assert_eq!(open.return_to(1), Err(Refusal::NoMark));
/// # Ok::<(), Refusal>(())
/// ```
#[derive(Clone, PartialEq, Eq, Debug)]
pub struct OpenPlan {
    state: Box<[u8; OPEN_BYTES]>,
}

/// The file number `i` of a state: 0 is that of the plan, and those of the marks follow. A length above the longest file's counts as that.
fn file_in(state: &[u8; OPEN_BYTES], i: usize) -> &[u8] {
    let at = i * (2 + LONGEST_FILE);
    let length = usize::from(u16::from_be_bytes([state[at], state[at + 1]])).min(LONGEST_FILE);
    &state[at + 2..at + 2 + length]
}

impl OpenPlan {
    /// Opens a plan file, with no mark set. Refuses with 1 to 7 and 13.
    ///
    /// ```
    /// use postman::{OpenPlan, Refusal};
    ///
    /// let file = [0x10, 0x40, 0x20, 0x01, 0x40, 0x01, 0x41, 0x00, 0x00, 0x03];
    /// assert_eq!(OpenPlan::open(&file)?.return_to(0), Err(Refusal::NoMark));
    /// assert_eq!(OpenPlan::open(&file[..9]), Err(Refusal::Torn));
    /// # Ok::<(), Refusal>(())
    /// ```
    pub fn open(file: &[u8]) -> Result<OpenPlan, Refusal> {
        let mut state = Box::new([0; OPEN_BYTES]);
        raw::open(file, &mut *state)?;
        Ok(OpenPlan { state })
    }

    /// Sets an arc's cost, checking cost and standing; a closed arc may be changed too. Refuses with 14 for an arc that the plan does not have, else
    /// with 6 or 13 if the changed plan could not be written in its edition.
    ///
    /// ```
    /// use postman::{OpenPlan, Refusal, Standing};
    ///
    /// let mut open = OpenPlan::open(&[0x10, 0x40, 0x20, 0x01, 0x40, 0x01, 0x41, 0x00, 0x00, 0x03])?;
    /// open.change(0, 6, 6, Standing::Required)?;
    /// assert_eq!(open.plan().arcs[0].cost, 6);
    /// assert_eq!(open.change(0, 6, 7, Standing::Required), Err(Refusal::Unpriced)); // edition 1
    /// # Ok::<(), Refusal>(())
    /// ```
    pub fn change(&mut self, arc: u32, cost: u16, checking: u16, standing: Standing) -> Result<(), Refusal> {
        raw::change(&mut *self.state, arc, cost, checking, standing.number())
    }

    /// Sets a mark, from 0 to 3: it holds the plan as it is now, in place of what it held before. Refuses with 21 above 3.
    ///
    /// ```
    /// use postman::{OpenPlan, Refusal};
    ///
    /// let mut open = OpenPlan::open(&[0x10, 0x40, 0x20, 0x01, 0x40, 0x01, 0x41, 0x00, 0x00, 0x03])?;
    /// assert_eq!((open.mark(3), open.mark(4)), (Ok(()), Err(Refusal::NoMark)));
    /// # Ok::<(), Refusal>(())
    /// ```
    pub fn mark(&mut self, mark: u32) -> Result<(), Refusal> {
        raw::mark(&mut *self.state, mark)
    }

    /// Brings back the plan that a mark holds, and keeps all marks. Refuses with 21 above 3, and for a mark that was never set.
    ///
    /// ```
    /// use postman::{OpenPlan, Refusal, Standing};
    ///
    /// let mut open = OpenPlan::open(&[0x10, 0x40, 0x20, 0x01, 0x40, 0x01, 0x41, 0x00, 0x00, 0x03])?;
    /// open.mark(0)?;
    /// open.change(1, 9, 0, Standing::Optional)?;
    /// open.return_to(0)?;
    /// assert_eq!(open.plan().arcs[1].cost, 3);
    /// # Ok::<(), Refusal>(())
    /// ```
    pub fn return_to(&mut self, mark: u32) -> Result<(), Refusal> {
        raw::return_to(&mut *self.state, mark)
    }

    /// The file of the plan as it is now.
    ///
    /// ```
    /// use postman::{OpenPlan, Refusal};
    ///
    /// let file = [0x10, 0x40, 0x20, 0x01, 0x40, 0x01, 0x41, 0x00, 0x00, 0x03];
    /// assert_eq!(OpenPlan::open(&file)?.file(), file);
    /// # Ok::<(), Refusal>(())
    /// ```
    pub fn file(&self) -> &[u8] {
        file_in(&self.state, 0)
    }

    /// The plan as it is now.
    ///
    /// ```
    /// use postman::{OpenPlan, Plan, Refusal};
    ///
    /// let file = [0x10, 0x40, 0x20, 0x01, 0x40, 0x01, 0x41, 0x00, 0x00, 0x03];
    /// assert_eq!(OpenPlan::open(&file)?.plan(), Plan::read(&file)?);
    /// # Ok::<(), Refusal>(())
    /// ```
    pub fn plan(&self) -> Plan {
        Plan::read(self.file()).expect("the file of an open plan reads")
    }

    /// What [`plan_call_at`](crate::plan_call_at) answers for the plan as it is now. Refuses with 9 to 12, 19 and 20.
    ///
    /// ```
    /// use postman::{Departure, OpenPlan, Refusal};
    ///
    /// let open = OpenPlan::open(&[0x10, 0x40, 0x20, 0x01, 0x40, 0x01, 0x41, 0x00, 0x00, 0x03])?;
    /// assert_eq!(open.ask(10, &[], Departure { weekday: 0, minute: 480 })?.cost, 8);
    /// # Ok::<(), Refusal>(())
    /// ```
    pub fn ask(&self, budget: u64, windows: &[Window], departure: Departure) -> Result<Answer, Refusal> {
        let numbers = numbers_of(windows);
        let Departure { weekday, minute } = departure;
        answered(|sheet, answer, multipliers| {
            raw::ask(&*self.state, budget, &numbers, weekday, minute, sheet, answer, multipliers)
        })
    }

    /// The plan and its marks as bytes, to be kept; `include/postman.h` says what they are.
    ///
    /// ```
    /// use postman::{OpenPlan, Refusal, Standing};
    ///
    /// let mut open = OpenPlan::open(&[0x10, 0x40, 0x20, 0x01, 0x40, 0x01, 0x41, 0x00, 0x00, 0x03])?;
    /// open.mark(2)?;
    /// open.change(1, 4, 0, Standing::Optional)?;
    /// let mut kept = OpenPlan::from_bytes(open.as_bytes())?;
    /// assert_eq!(kept, open);
    /// kept.return_to(2)?;
    /// assert_eq!(kept.plan().arcs[1].cost, 3);
    /// # Ok::<(), Refusal>(())
    /// ```
    pub fn as_bytes(&self) -> &[u8; OPEN_BYTES] {
        &self.state
    }

    /// The plan and its marks that [`as_bytes`](OpenPlan::as_bytes) gave. The files of the plan and of all marks that are set have to read: refuses with 1
    /// to 7 and 13.
    ///
    /// ```
    /// use postman::limits::OPEN_BYTES;
    /// use postman::{OpenPlan, Refusal};
    ///
    /// assert_eq!(OpenPlan::from_bytes(&[0; OPEN_BYTES]), Err(Refusal::Torn));
    /// ```
    pub fn from_bytes(state: &[u8; OPEN_BYTES]) -> Result<OpenPlan, Refusal> {
        Plan::read(file_in(state, 0))?;
        let marks = (1..=MARKS).map(|i| file_in(state, i)).filter(|file| !file.is_empty());
        marks.map(Plan::read).collect::<Result<Vec<Plan>, Refusal>>()?;
        Ok(OpenPlan { state: Box::new(*state) })
    }
}

#[cfg(test)]
mod tests {
    use super::*;
    use crate::{plan_call_at, Arc, Edition};

    const CASE_A: [u8; 10] = [0x10, 0x40, 0x20, 0x01, 0x40, 0x01, 0x41, 0x00, 0x00, 0x03];
    const NOON: Departure = Departure { weekday: 1, minute: 720 };

    /// A slice that is too short for the state is refused, after the file at opening and first otherwise, and keeps its bytes; of a longer one the rest is
    /// kept.
    #[test]
    fn states_of_another_length() {
        assert_eq!(OPEN_BYTES, (1 + MARKS) * (2 + LONGEST_FILE));
        let mut short = vec![0xA5; OPEN_BYTES - 1];
        for file in [&CASE_A[..9], &CASE_A[..]] {
            let first = if file.len() == 9 { Refusal::Torn } else { Refusal::ShortSheet };
            assert_eq!(raw::open(file, &mut short), Err(first));
        }
        assert_eq!(raw::change(&mut short, 9, 1, 1, 9), Err(Refusal::ShortSheet));
        assert_eq!(raw::mark(&mut short, 9), Err(Refusal::ShortSheet));
        assert_eq!(raw::return_to(&mut short, 9), Err(Refusal::ShortSheet));
        let mut sheet = [0xA5A5; 2];
        assert_eq!(raw::ask(&short, 0, &[1], 9, 9, &mut sheet, &mut [], &mut []), Err(Refusal::ShortSheet));
        assert_eq!((short, sheet), (vec![0xA5; OPEN_BYTES - 1], [0xA5A5; 2]));

        let mut long = vec![0xA5; OPEN_BYTES + 3];
        assert_eq!(raw::open(&CASE_A, &mut long), Ok(()));
        assert_eq!(raw::change(&mut long, 1, 4, 0, 0), Ok(()));
        assert_eq!(raw::mark(&mut long, 3), Ok(()));
        assert_eq!(raw::return_to(&mut long, 3), Ok(()));
        assert_eq!(long[OPEN_BYTES..], [0xA5; 3]);
        assert_eq!(long[11], 4);
    }

    /// Any bytes are a state: what does not read is refused as reading refuses it.
    #[test]
    fn any_bytes_are_a_state() {
        let mut sheet = vec![0; crate::limits::SHEET_PLACES];
        for (byte, refusal) in [(0, Refusal::Torn), (0x11, Refusal::Extent), (0xFF, Refusal::Edition)] {
            let mut state = vec![byte; OPEN_BYTES];
            assert_eq!(raw::change(&mut state, 0, 1, 0, 0), Err(refusal));
            assert_eq!(raw::ask(&state, 1, &[], 0, 0, &mut sheet, &mut [], &mut []), Err(refusal));
            let set = if byte == 0 { Err(Refusal::NoMark) } else { Ok(()) };
            assert_eq!(raw::return_to(&mut state, 3), set);
            assert_eq!(raw::mark(&mut state, 0), Ok(()));
            assert_eq!(raw::mark(&mut state, 4), Err(Refusal::NoMark));
            assert_eq!(state, vec![byte; OPEN_BYTES]);
        }
    }

    /// A mark that is set where there is no plan holds none: it counts as never set, whatever it held before.
    #[test]
    fn a_mark_without_a_plan_is_not_set() {
        let mut open = OpenPlan::open(&CASE_A).unwrap();
        open.mark(1).unwrap();
        let mut state = *open.as_bytes();
        state[..2].fill(0);
        assert_eq!(raw::mark(&mut state, 1), Ok(()));
        assert_eq!(raw::return_to(&mut state, 1), Err(Refusal::NoMark));
        assert_eq!(raw::change(&mut state, 0, 1, 1, 1), Err(Refusal::Torn));
    }

    /// A file's length above the longest file's counts as that, in the plan and in a mark; a return brings the length back as it is.
    #[test]
    fn lengths_above_the_longest_files() {
        let file: Vec<u8> = longest_plan().write().unwrap();
        assert_eq!(file.len(), LONGEST_FILE);
        let open = OpenPlan::open(&file).unwrap();
        for length in [LONGEST_FILE as u16 + 1, 4_096, u16::MAX] {
            let mut state = *open.as_bytes();
            state[..2].copy_from_slice(&length.to_be_bytes());
            let mut long = OpenPlan::from_bytes(&state).unwrap();
            assert_eq!((long.file(), long.plan()), (&file[..], open.plan()));
            assert_eq!(long.ask(1, &[], NOON).unwrap(), open.ask(1, &[], NOON).unwrap());
            long.mark(3).unwrap();
            assert_eq!(long.as_bytes()[4 * (2 + LONGEST_FILE)..][..2], length.to_be_bytes());
            long.change(0, 9, 8, Standing::Required).unwrap();
            assert_eq!(long.as_bytes()[..2], (LONGEST_FILE as u16).to_be_bytes());
            long.return_to(3).unwrap();
            assert_eq!(long.as_bytes()[..2], length.to_be_bytes());
            assert_eq!(long.file(), file);
        }
    }

    /// Four rings in the second edition, whose file is the longest.
    fn longest_plan() -> Plan {
        let arcs = (0..256).map(|k| Arc::checked((k % 64) as u8, ((k + 1) % 64) as u8, k, k + 1)).collect();
        Plan { edition: Edition::Second, vertices: 64, arcs }
    }

    /// Bytes of which a mark does not read are no open plan, since a return would bring that back.
    #[test]
    fn kept_marks_have_to_read() {
        let mut open = OpenPlan::open(&CASE_A).unwrap();
        open.mark(0).unwrap();
        let mut state = *open.as_bytes();
        state[2 + LONGEST_FILE + 2] = 0x30;
        assert_eq!(OpenPlan::from_bytes(&state), Err(Refusal::Edition));
        state[2 + LONGEST_FILE..][..2].fill(0);
        assert!(OpenPlan::from_bytes(&state).is_ok());
    }

    #[test]
    fn asking_is_the_plan_call_for_the_file() {
        let file = std::fs::read(concat!(env!("CARGO_MANIFEST_DIR"), "/../../examples/town.plan")).unwrap();
        let mut open = OpenPlan::open(&file).unwrap();
        let mut told = vec![];
        for arc in 0..open.plan().arcs.len() as u32 {
            open.mark(arc % 4).unwrap();
            told.push((arc % 4, open.ask(20, &[], NOON)));
            let changed = open.change(arc, 7, 0, Standing::Closed);
            assert!(matches!(changed, Ok(()) | Err(Refusal::Repeated)));
            assert_eq!(open.ask(20, &[], NOON), plan_call_at(open.file(), 20, &[], NOON));
        }
        for (mark, before) in told.into_iter().rev().take(4) {
            open.return_to(mark).unwrap();
            assert_eq!(open.ask(20, &[], NOON), before);
        }
    }
}
