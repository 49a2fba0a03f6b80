//! The plan as data, read from a file and written to one.

use crate::limits::{LONGEST_FILE, MOST_ARCS, RECORD_BYTES};
use crate::{raw, Edition, Refusal};

/// What may be done with an arc.
///
/// ```
/// use postman::{short_call, Arc, Edition, Plan, Refusal, Standing};
///
/// let drive = |back| {
///     let arcs = vec![Arc::new(0, 1, Standing::Required, 5), Arc::new(1, 0, back, 3)];
///     short_call(&Plan { edition: Edition::First, vertices: 2, arcs }.write()?).map(|answer| answer.drive)
/// };
/// assert_eq!(drive(Standing::Optional), Ok(vec![0, 1]));
/// assert_eq!(drive(Standing::Closed), Err(Refusal::CutOff));
/// ```
#[derive(Clone, Copy, PartialEq, Eq, PartialOrd, Ord, Hash, Debug, Default)]
pub enum Standing {
    /// It may be driven.
    #[default]
    Optional = 0,
    /// It must be driven.
    Required = 1,
    /// It is held in the file and never driven.
    Closed = 2,
}

impl Standing {
    /// The standing of a number.
    ///
    /// ```
    /// use postman::Standing;
    ///
    /// assert_eq!(Standing::from_number(1), Some(Standing::Required));
    /// assert_eq!(Standing::from_number(3), None);
    /// ```
    pub fn from_number(number: u8) -> Option<Standing> {
        match number {
            0 => Some(Standing::Optional),
            1 => Some(Standing::Required),
            2 => Some(Standing::Closed),
            _ => None,
        }
    }

    /// The standing's number, from 0 to 2.
    ///
    /// ```
    /// assert_eq!(postman::Standing::Closed.number(), 2);
    /// ```
    pub fn number(self) -> u8 {
        self as u8
    }
}

/// A street that can be driven in one direction.
///
/// ```
/// use postman::{Arc, Standing};
///
/// let arc = Arc { tail: 0, head: 1, standing: Standing::Required, cost: 5, checking: 9 };
/// assert_eq!(arc, Arc::checked(0, 1, 5, 9));
/// ```
#[derive(Clone, Copy, PartialEq, Eq, Hash, Debug)]
pub struct Arc {
    /// The vertex at which it begins.
    pub tail: u8,
    /// The vertex at which it ends.
    pub head: u8,
    /// What may be done with it.
    pub standing: Standing,
    /// What it costs to drive it. It may be 0, but not in a required arc of the first edition.
    pub cost: u16,
    /// What the one pass costs on which a required arc is checked, 1 or more; it may be below the cost or above it. 0 in all other arcs.
    pub checking: u16,
}

impl Arc {
    /// An arc that is checked, if it is required, at what it costs to drive. The first edition has no others.
    ///
    /// ```
    /// use postman::{Arc, Standing};
    ///
    /// assert_eq!(Arc::new(0, 1, Standing::Required, 5).checking, 5);
    /// assert_eq!(Arc::new(0, 1, Standing::Optional, 5).checking, 0);
    /// ```
    pub fn new(tail: u8, head: u8, standing: Standing, cost: u16) -> Arc {
        let checking = if standing == Standing::Required { cost } else { 0 };
        Arc { tail, head, standing, cost, checking }
    }

    /// A required arc whose checking pass costs `checking`. It takes the second edition.
    ///
    /// ```
    /// use postman::{Arc, Edition, Plan, Refusal};
    ///
    /// let plan = |edition| Plan { edition, vertices: 1, arcs: vec![Arc::checked(0, 0, 5, 9)] };
    /// assert!(plan(Edition::Second).write().is_ok());
    /// assert_eq!(plan(Edition::First).write(), Err(Refusal::Unpriced));
    /// ```
    pub fn checked(tail: u8, head: u8, cost: u16, checking: u16) -> Arc {
        Arc { tail, head, standing: Standing::Required, cost, checking }
    }

    fn to_record(self) -> [u8; RECORD_BYTES] {
        let ([cost_high, cost_low], [checking_high, checking_low]) =
            (self.cost.to_be_bytes(), self.checking.to_be_bytes());
        [self.tail, self.head, self.standing.number(), cost_high, cost_low, checking_high, checking_low]
    }

    fn from_record(record: &[u8]) -> Arc {
        let standing = Standing::from_number(record[2]).expect("a file with another standing is refused");
        let number = |high, low| u16::from_be_bytes([record[high], record[low]]);
        Arc { tail: record[0], head: record[1], standing, cost: number(3, 4), checking: number(5, 6) }
    }
}

/// A directed graph. Arcs go by their index.
///
/// ```
/// use postman::{judge, Arc, Edition, Plan, Refusal, Standing};
///
/// // Two streets between the same two corners: the drive takes the second one back.
/// let may = |cost| Arc::new(1, 0, Standing::Optional, cost);
/// let plan = Plan { edition: Edition::First, vertices: 2, arcs: vec![Arc::new(0, 1, Standing::Required, 5), may(9), may(3)] };
/// assert_eq!(judge(&plan.write()?, &[0, 2]), Ok(8));
/// # Ok::<(), Refusal>(())
/// ```
#[derive(Clone, PartialEq, Eq, Hash, Debug)]
pub struct Plan {
    /// The edition of its file.
    pub edition: Edition,
    /// The number of vertices, from 1 to 64. They are 0 to this minus 1.
    pub vertices: u32,
    /// The arcs, from 1 to 256.
    pub arcs: Vec<Arc>,
}

impl Plan {
    /// Reads a plan file. Refuses with 1 to 7 and 13.
    ///
    /// ```
    /// use postman::{Arc, Edition, Plan, Refusal, Standing};
    ///
    /// let file = [0x10, 0x40, 0x20, 0x01, 0x40, 0x01, 0x41, 0x00, 0x00, 0x03];
    /// let plan = Plan::read(&file)?;
    /// assert_eq!((plan.edition, plan.vertices), (Edition::First, 2));
    /// assert_eq!(plan.arcs, [Arc::new(0, 1, Standing::Required, 5), Arc::new(1, 0, Standing::Optional, 3)]);
    /// assert_eq!(plan.write()?, file);
    /// assert_eq!(Plan::read(&file[..9]), Err(Refusal::Torn));
    /// # Ok::<(), Refusal>(())
    /// ```
    pub fn read(file: &[u8]) -> Result<Plan, Refusal> {
        let mut records = [0; MOST_ARCS * RECORD_BYTES];
        let (edition, n, m) = raw::read_plan(file, &mut records)?;
        let edition = Edition::from_number(edition).expect("a file of another edition is refused");
        let vertices = u32::try_from(n).expect("a plan has at most 64 vertices");
        let arcs = records.chunks_exact(RECORD_BYTES).take(m).map(Arc::from_record).collect();
        Ok(Plan { edition, vertices, arcs })
    }

    /// Writes the plan's file, in its edition, which reads back to the plan. Refuses with 3, 5, 6 and 13.
    ///
    /// ```
    /// use postman::{Arc, Edition, Plan, Refusal};
    ///
    /// let mut plan = Plan { edition: Edition::Second, vertices: 1, arcs: vec![Arc::checked(0, 0, 7, 20)] };
    /// let file = plan.write()?;
    /// assert_eq!(Plan::read(&file)?, plan);
    /// plan.edition = Edition::First;
    /// assert_eq!(plan.write(), Err(Refusal::Unpriced));
    /// plan.arcs = vec![Arc::checked(0, 0, 7, 7); 2];
    /// assert_eq!(plan.write(), Err(Refusal::Repeated));
    /// # Ok::<(), Refusal>(())
    /// ```
    pub fn write(&self) -> Result<Vec<u8>, Refusal> {
        let records: Vec<u8> = self.arcs.iter().flat_map(|arc| arc.to_record()).collect();
        let mut bytes = vec![0; LONGEST_FILE];
        let length = raw::write_plan(self.edition.number().into(), self.vertices, &records, &mut bytes)?;
        bytes.truncate(length);
        Ok(bytes)
    }
}

#[cfg(test)]
mod tests {
    use super::*;

    fn arc(tail: u8, head: u8, cost: u16) -> Arc {
        Arc::new(tail, head, Standing::Optional, cost)
    }

    fn plan(vertices: u32, arcs: Vec<Arc>) -> Plan {
        Plan { edition: Edition::First, vertices, arcs }
    }

    #[test]
    fn every_standing_has_its_number() {
        for number in 0..=255 {
            let standing = Standing::from_number(number);
            assert_eq!(standing.map(Standing::number), (number <= 2).then_some(number));
        }
    }

    #[test]
    fn the_largest_plan_reads_back() {
        let arcs = |arc: fn(u16) -> Arc| -> Vec<Arc> { (0..256).map(arc).collect() };
        let first = plan(64, arcs(|k| arc((k % 64) as u8, 63, 65_280 + k)));
        let second = arcs(|k| Arc::checked((k % 64) as u8, 63, 65_280 + k, 65_535 - k));
        for (plan, length) in [(first, 963), (Plan { edition: Edition::Second, ..plan(64, second) }, LONGEST_FILE)] {
            let file = plan.write().unwrap();
            assert_eq!(file.len(), length);
            assert_eq!(Plan::read(&file[..length - 1]), Err(Refusal::Torn));
            assert_eq!(Plan::read(&[&file[..], &[0]].concat()), Err(Refusal::Margin));
            assert_eq!(Plan::read(&file), Ok(plan));
        }
    }

    #[test]
    fn plans_beyond_the_limits_are_refused() {
        let arcs = |m: u16| -> Vec<Arc> { (1..=m).map(|cost| arc(0, 0, cost)).collect() };
        for (vertices, m) in [(0, 1), (65, 1), (u32::MAX, 1), (1, 0), (1, 257)] {
            assert_eq!(plan(vertices, arcs(m)).write(), Err(Refusal::Extent), "{vertices} vertices, {m} arcs");
        }
        assert_eq!(plan(2, vec![arc(0, 2, 1)]).write(), Err(Refusal::OffSheet));
        assert_eq!(plan(2, vec![Arc::checked(0, 1, 0, 0)]).write(), Err(Refusal::Unpriced));
    }

    /// A cost of 0 in any arc, but for required ones of the first edition.
    #[test]
    fn free_arcs_read_back() {
        let closed = Arc::new(1, 1, Standing::Closed, 0);
        let first = plan(2, vec![arc(0, 1, 0), closed, Arc::checked(1, 0, 7, 7)]);
        let second = Plan { edition: Edition::Second, ..plan(2, vec![arc(0, 1, 0), closed, Arc::checked(1, 0, 0, 7)]) };
        for plan in [first, second] {
            assert_eq!(Plan::read(&plan.write().unwrap()), Ok(plan));
        }
    }

    /// A checking cost of 0 in a required arc, or another in any other arc; and in the first edition any but the cost.
    #[test]
    fn wrong_checking_costs_are_refused() {
        let of = |edition, arc| Plan { edition, ..plan(2, vec![arc]) }.write().err();
        for edition in [Edition::First, Edition::Second] {
            for arc in
                [Arc::checked(0, 1, 5, 0), Arc { checking: 5, ..arc(0, 1, 5) }, Arc { checking: 1, ..arc(0, 1, 5) }]
            {
                assert_eq!(of(edition, arc), Some(Refusal::Unpriced));
            }
            assert_eq!(of(edition, Arc::checked(0, 1, 5, 5)), None);
            assert_eq!(of(edition, arc(0, 1, 5)), None);
        }
        for checking in [1, 4, 6, 65_535] {
            assert_eq!(of(Edition::First, Arc::checked(0, 1, 5, checking)), Some(Refusal::Unpriced));
            assert_eq!(of(Edition::Second, Arc::checked(0, 1, 5, checking)), None);
        }
    }

    /// Two arcs that agree but for their checking costs are two arcs.
    #[test]
    fn arcs_may_differ_in_their_checking_costs() {
        let of = |second| Plan { edition: Edition::Second, ..plan(2, vec![Arc::checked(0, 1, 5, 9), second]) }.write();
        assert_eq!(of(Arc::checked(0, 1, 5, 8)).map(|file| file.len()), Ok(14));
        assert_eq!(of(Arc::checked(0, 1, 5, 9)), Err(Refusal::Repeated));
    }
}
