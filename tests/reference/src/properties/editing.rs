//! Plans that are open for changes.

use super::call::{call, FILL};
use super::{Findings, Property};
use crate::oracle::{parse, read_refusal, History};
use crate::plan::{Departure, SHEET_PLACES};
use crate::planner::{Answer, Call, DepartureCall, Editor, OpenPlan, Refusal};

/// What is asked between calls.
#[derive(Clone, Debug)]
pub struct Question {
    pub budget: u64,
    pub windows: Vec<u16>,
    pub departure: Departure,
}

/// A step of a history: a call, or asking.
#[derive(Clone, Debug)]
pub enum Step {
    Call(Call),
    Ask(Question),
}

type Told = Option<(Result<Answer, Refusal>, Vec<u16>)>;

fn asked(found: &mut Findings, open: &dyn OpenPlan, question: &Question) -> Told {
    let Question { budget, windows, departure } = question;
    call(found, SHEET_PLACES, FILL, |sheet| open.ask(*budget, windows, *departure, sheet))
}

/// Opens a file and takes the steps: each refusal and the file after each step are those of the history; asking is the plan call at a departure, of a
/// callee that is right, for the file; and after a return it is what it was at the mark. Gives the refusals, 0 for none.
pub fn examine_editing(
    found: &mut Findings,
    editor: &dyn Editor,
    callee: &dyn DepartureCall,
    file: &[u8],
    steps: &[Step],
) -> Vec<Refusal> {
    let expected = read_refusal(file, usize::MAX);
    let mut open = match (editor.open(file), expected) {
        (Ok(open), 0) => open,
        (told, _) => {
            let told = told.err().unwrap_or(0);
            found.expect(Property::CallRefusal, told == expected, || {
                format!("opening: {told}, not {expected}: {file:02x?}")
            });
            return vec![told];
        }
    };
    let mut history = History::new(parse(file));
    let mut numbers = vec![0];
    let whole_day = Question { budget: 2, windows: vec![], departure: Departure { weekday: 0, minute: 0 } };
    // what asking gave when a mark was last set
    let mut at_marks: [Option<Told>; 4] = Default::default();
    for (number, step) in steps.iter().enumerate() {
        match step {
            Step::Call(taken) => {
                let told = open.call(*taken).err().unwrap_or(0);
                let expected = history.call(*taken);
                found.expect(Property::CallRefusal, told == expected, || {
                    format!("step {number}, {taken:?}: {told}, not {expected}, in {:?}", history.plan())
                });
                numbers.push(told);
                match *taken {
                    Call::Mark(mark) if told == 0 && mark < 4 => {
                        at_marks[mark as usize] = Some(asked(found, &*open, &whole_day));
                    }
                    Call::Return(mark) if told == 0 && mark < 4 => {
                        if let Some(before) = &at_marks[mark as usize] {
                            let again = asked(found, &*open, &whole_day);
                            found.expect(Property::AskedAgain, again == *before, || {
                                format!("step {number}, mark {mark}")
                            });
                        }
                    }
                    _ => {}
                }
            }
            Step::Ask(question) => {
                let Question { budget, windows, departure } = question;
                let told = asked(found, &*open, question);
                let file = history.file();
                let plain = call(found, SHEET_PLACES, FILL, |sheet| {
                    callee.plan_call_at(&file, *budget, windows, *departure, sheet)
                });
                found.expect(Property::Asking, told == plain, || format!("step {number}, {question:?}"));
            }
        }
        let (now, expected) = (open.file(), history.file());
        found.expect(Property::OpenFile, now == expected, || format!("step {number}, {step:?}: {now:02x?}"));
        found.expect(Property::OpenReads, read_refusal(&now, usize::MAX) == 0, || format!("step {number}, {step:?}"));
    }
    numbers
}
