//! The plan call, the short call, and judging a drive.

use crate::limits::{ANSWER_WORDS, COST, FLOOR, MULTIPLIERS, PARTS, PLACES, SHEET_PLACES, TREES, WHOLE};
use crate::{raw, Refusal};

/// What a call answers for a plan that is not refused.
///
/// ```
/// use postman::{short_call, Answer, Refusal};
///
/// let file = [0x10, 0x40, 0x20, 0x01, 0x40, 0x01, 0x41, 0x00, 0x00, 0x03];
/// let Answer { drive, cost, floor, trees, whole, parts, multipliers } = short_call(&file)?;
/// assert_eq!((drive, cost, floor, trees, whole, parts), (vec![0, 1], 8, 8, 1, true, 1));
/// assert!(multipliers[2..].iter().all(|&u| u == 0));
/// # Ok::<(), Refusal>(())
/// ```
#[derive(Clone, PartialEq, Eq, Debug)]
pub struct Answer {
    /// The drive: numbers of arcs, the lowest required one first. Each arc begins where the one before it ends, and the first where the last ends.
    /// It is made of the required arcs, each once, and of paths between their ends: each a cheapest one, of the fewest arcs, and of those the lowest list
    /// of arc numbers.
    pub drive: Vec<u16>,
    /// What the drive costs: the least of the trees tried. One pass of each required arc costs what it costs to check it, and every other pass
    /// what it costs to drive.
    pub cost: u64,
    /// No drive costs less.
    pub floor: u64,
    /// Trees tried.
    pub trees: u64,
    /// Whether these are all trees. Then the floor is the cost, and no drive is cheaper.
    pub whole: bool,
    /// The plan's parts: the vertices of required arcs, joined by these.
    pub parts: u64,
    /// One multiplier for each vertex, 0 where no required arc begins or ends.
    pub multipliers: [i64; MULTIPLIERS],
}

/// What a call is lent for one drive.
pub(crate) struct Lent {
    pub(crate) sheet: Vec<u16>,
    pub(crate) answer: [u64; ANSWER_WORDS],
    pub(crate) multipliers: [i64; MULTIPLIERS],
}

impl Lent {
    pub(crate) fn new() -> Lent {
        Lent { sheet: vec![0; SHEET_PLACES], answer: [0; ANSWER_WORDS], multipliers: [0; MULTIPLIERS] }
    }

    /// What a call that is not refused put into it, taken apart.
    pub(crate) fn taken(self) -> Answer {
        let Lent { sheet: mut drive, answer: words, multipliers } = self;
        drive.truncate(usize::try_from(words[PLACES]).expect("places of the sheet"));
        Answer {
            drive,
            cost: words[COST],
            floor: words[FLOOR],
            trees: words[TREES],
            whole: words[WHOLE] != 0,
            parts: words[PARTS],
            multipliers,
        }
    }
}

/// Lends a sheet and an answer to a call, and takes them apart.
pub(crate) fn answered(
    call: impl FnOnce(&mut [u16], &mut [u64], &mut [i64]) -> Result<(), Refusal>,
) -> Result<Answer, Refusal> {
    let mut lent = Lent::new();
    call(&mut lent.sheet, &mut lent.answer, &mut lent.multipliers)?;
    Ok(lent.taken())
}

/// Lays a drive for a plan file, trying at most `budget` trees, from 1 to 1,000,000. Refuses with 1 to 7 and 9 to 13.
///
/// ```
/// use postman::{plan_call, Arc, Edition, Plan, Refusal, Standing};
///
/// // Three loops that must be driven, and four streets between them.
/// let must = |v| Arc::new(v, v, Standing::Required, 1);
/// let may = |tail, head, cost| Arc::new(tail, head, Standing::Optional, cost);
/// let arcs = vec![must(0), must(1), must(2), may(0, 1, 2), may(1, 2, 2), may(2, 0, 2), may(0, 2, 3)];
/// let file = Plan { edition: Edition::First, vertices: 3, arcs }.write()?;
///
/// let first = plan_call(&file, 1)?;
/// assert_eq!((first.cost, first.floor, first.whole), (14, 9, false));
/// let all = plan_call(&file, 2)?;
/// assert_eq!((all.cost, all.floor, all.whole), (9, 9, true));
/// assert_eq!(plan_call(&file, 0), Err(Refusal::Budget));
/// # Ok::<(), Refusal>(())
/// ```
pub fn plan_call(file: &[u8], budget: u64) -> Result<Answer, Refusal> {
    answered(|sheet, answer, multipliers| raw::plan_call(file, budget, sheet, answer, multipliers))
}

/// Lays a drive for a plan file by rounds of the plan call, from 1 to 1,000, of which the cheapest drive and the highest floor are answered: some
/// go on where the fewest trees are left, with `budget` more, every second where few are, and all others after the first number the vertices anew. It
/// ends as soon as floor and cost meet, which `whole` says; `trees` are those of all rounds. Never dearer, and its floor never lower, than
/// [`plan_call`] with that budget; more rounds are never worse. Refuses with 1 to 7, 9 to 13 and 23.
///
/// ```
/// use postman::{deep_call, plan_call, Arc, Edition, Plan, Refusal, Standing};
///
/// let must = |v| Arc::new(v, v, Standing::Required, 1);
/// let may = |tail, head, cost| Arc::new(tail, head, Standing::Optional, cost);
/// let arcs = vec![must(0), must(1), must(2), may(0, 1, 2), may(1, 2, 2), may(2, 0, 2), may(0, 2, 3)];
/// let file = Plan { edition: Edition::First, vertices: 3, arcs }.write()?;
///
/// let first = deep_call(&file, 1, 1)?;
/// assert_eq!((first.drive, first.cost, first.whole), (plan_call(&file, 1)?.drive, 14, false));
/// let deep = deep_call(&file, 1, 2)?;
/// assert_eq!((deep.cost, deep.floor, deep.whole), (9, 9, true));
/// assert_eq!(deep_call(&file, 1, 0), Err(Refusal::Rounds));
/// # Ok::<(), Refusal>(())
/// ```
pub fn deep_call(file: &[u8], budget: u64, rounds: u32) -> Result<Answer, Refusal> {
    answered(|sheet, answer, multipliers| raw::deep_call(file, budget, rounds, sheet, answer, multipliers))
}

/// Lays a drive for a plan file, trying at most 100,000 trees. Refuses with 1 to 7 and 10 to 13.
///
/// ```
/// use postman::{short_call, Refusal};
///
/// let answer = short_call(&[0x10, 0x40, 0x20, 0x01, 0x40, 0x01, 0x41, 0x00, 0x00, 0x03])?;
/// assert_eq!(answer.drive, [0, 1]);
/// assert_eq!((answer.cost, answer.parts), (8, 1));
/// # Ok::<(), Refusal>(())
/// ```
pub fn short_call(file: &[u8]) -> Result<Answer, Refusal> {
    answered(|sheet, answer, multipliers| raw::short_call(file, sheet, answer, multipliers))
}

/// Judges a drive that someone else laid for a plan file: what it costs, if it is a drive. It is refused with 14 if it has an arc that may not be
/// driven, else with 15 if it has a gap, else with 16 if a required arc is missed; before that with 1 to 7, 13 and 10, and with 3 above 65,535
/// places. It goes by the plan's own required arcs, so that a drive of [`two_cars`](crate::two_cars) need not pass.
///
/// ```
/// use postman::{judge, plan_call, Refusal};
///
/// let file = [0x10, 0x40, 0x20, 0x01, 0x40, 0x01, 0x41, 0x00, 0x00, 0x03];
/// let answer = plan_call(&file, 10_000)?;
/// assert_eq!(judge(&file, &answer.drive)?, answer.cost);
/// let sent = judge(&file, &[0, 1, 0, 1])?;
/// assert!(answer.floor <= sent);
/// assert_eq!(judge(&file, &[0, 1, 1]), Err(Refusal::Unjoined));
/// # Ok::<(), Refusal>(())
/// ```
pub fn judge(file: &[u8], drive: &[u16]) -> Result<u64, Refusal> {
    raw::judge(file, drive)
}

#[cfg(test)]
mod tests {
    use super::*;
    use crate::{Arc, Edition, Plan, Standing};

    fn call(edition: Edition, vertices: u32, arcs: Vec<Arc>) -> Result<Answer, Refusal> {
        short_call(&Plan { edition, vertices, arcs }.write().unwrap())
    }

    fn refusal_of(vertices: u32, arcs: Vec<Arc>) -> Option<Refusal> {
        call(Edition::First, vertices, arcs).err()
    }

    /// The only way into vertex 1 must be driven, and twice: one pass of it is slow, and the other is not.
    #[test]
    fn one_pass_is_checked() {
        let optional = |tail, head| Arc::new(tail, head, Standing::Optional, 1);
        for (checking, cost) in [(1, 15), (5, 19), (9, 23)] {
            let checked = [Arc::checked(0, 1, 5, checking), Arc::checked(1, 2, 2, 4), Arc::checked(1, 3, 2, 3)];
            let arcs = [&checked[..], &[optional(2, 0), optional(3, 0)]].concat();
            let answer = call(Edition::Second, 4, arcs).unwrap();
            assert_eq!((answer.cost, answer.floor, answer.whole), (cost, cost, true));
            assert_eq!(answer.drive.iter().filter(|&&k| k == 0).count(), 2);
        }
    }

    /// One round is the plan call but for whole; more are never worse, and change nothing once floor and cost have met.
    #[test]
    fn rounds_are_never_worse() {
        let file = std::fs::read(concat!(env!("CARGO_MANIFEST_DIR"), "/../../examples/town.plan")).unwrap();
        for budget in [1, 100] {
            let plain = plan_call(&file, budget).unwrap();
            let one = deep_call(&file, budget, 1).unwrap();
            assert_eq!(one.whole, one.cost == one.floor);
            assert_eq!(Answer { whole: plain.whole, ..one.clone() }, plain);
            let mut before = one;
            for rounds in 2..40 {
                let after = deep_call(&file, budget, rounds).unwrap();
                assert!(after.cost <= before.cost && before.floor <= after.floor && after.floor <= after.cost);
                assert!(!before.whole || after == before);
                assert_eq!(judge(&file, &after.drive), Ok(after.cost));
                before = after;
            }
        }
        for rounds in [0, 1_001, u32::MAX] {
            assert_eq!(deep_call(&file, 1, rounds), Err(Refusal::Rounds));
            assert_eq!(deep_call(&file, 0, rounds), Err(Refusal::Budget));
        }
    }

    /// Where the checking costs agree the editions do.
    #[test]
    fn both_editions_answer_alike() {
        let file = std::fs::read(concat!(env!("CARGO_MANIFEST_DIR"), "/../../examples/town.plan")).unwrap();
        let first = Plan::read(&file).unwrap();
        let second = Plan { edition: Edition::Second, ..first.clone() };
        assert_eq!(first.edition, Edition::First);
        assert_eq!(short_call(&second.write().unwrap()), short_call(&file));
    }

    #[test]
    fn plans_without_a_drive_are_refused() {
        use Standing::{Closed, Optional, Required};
        assert_eq!(refusal_of(2, vec![Arc::new(0, 1, Required, 5)]), Some(Refusal::CutOff));
        assert_eq!(refusal_of(2, vec![Arc::new(0, 1, Required, 5), Arc::new(1, 0, Closed, 3)]), Some(Refusal::CutOff));
        assert_eq!(refusal_of(2, vec![Arc::new(0, 1, Optional, 5), Arc::new(1, 0, Optional, 3)]), Some(Refusal::Idle));
        assert_eq!(refusal_of(9, (0..9).map(|v| Arc::new(v, v, Required, 1)).collect()), Some(Refusal::Scattered));
        assert_eq!(refusal_of(2, vec![Arc::new(0, 1, Required, 5), Arc::new(1, 0, Optional, 3)]), None);
    }

    #[test]
    fn budgets_beyond_the_limits_are_refused() {
        let file = [0x10, 0x40, 0x20, 0x01, 0x40, 0x01, 0x41, 0x00, 0x00, 0x03];
        for budget in [0, 1_000_001, u64::MAX] {
            assert_eq!(plan_call(&file, budget), Err(Refusal::Budget));
        }
        for budget in [1, 1_000_000] {
            assert_eq!(plan_call(&file, budget), short_call(&file));
        }
    }
}
