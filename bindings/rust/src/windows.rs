//! The plan call at a departure.

use crate::answer::answered;
use crate::{raw, Answer, Refusal};

/// A time in which an arc is shut: on a weekday, from a minute of the day on and before another.
///
/// ```
/// use postman::{plan_call_at, Departure, Refusal, Window};
///
/// // The only way back is shut on Wednesday morning.
/// let file = [0x10, 0x40, 0x20, 0x01, 0x40, 0x01, 0x41, 0x00, 0x00, 0x03];
/// let window = Window { arc: 1, weekday: 2, from: 480, to: 720 };
/// let at = |minute| plan_call_at(&file, 10, &[window], Departure { weekday: 2, minute }).err();
/// assert_eq!((at(479), at(480), at(719), at(720)), (None, Some(Refusal::CutOff), Some(Refusal::CutOff), None));
/// ```
#[derive(Clone, Copy, PartialEq, Eq, Hash, Debug)]
pub struct Window {
    /// The arc's number, of whatever standing it is.
    pub arc: u16,
    /// 0, Monday, to 6.
    pub weekday: u16,
    /// The first minute in which the arc is shut.
    pub from: u16,
    /// The first minute in which it is open again, above `from` and at most 1,440.
    pub to: u16,
}

/// When the drive begins. Later minutes play no part.
///
/// ```
/// use postman::{plan_call_at, Departure, Refusal};
///
/// let file = [0x10, 0x40, 0x20, 0x01, 0x40, 0x01, 0x41, 0x00, 0x00, 0x03];
/// let last = Departure { weekday: 6, minute: 1_439 };
/// assert!(plan_call_at(&file, 10, &[], last).is_ok());
/// assert_eq!(plan_call_at(&file, 10, &[], Departure { weekday: 7, ..last }), Err(Refusal::BadWindow));
/// ```
#[derive(Clone, Copy, PartialEq, Eq, Hash, Debug)]
pub struct Departure {
    /// 0, Monday, to 6.
    pub weekday: u32,
    /// 0 to 1,439.
    pub minute: u32,
}

/// Windows as they are lent.
pub(crate) fn numbers_of(windows: &[Window]) -> Vec<u16> {
    windows.iter().flat_map(|w| [w.arc, w.weekday, w.from, w.to]).collect()
}

/// Lays a drive for a plan file, trying at most `budget` trees, that avoids the arcs shut at departure by up to 128 windows. Its floor is over such
/// drives. Refuses with 1 to 7, 9 to 13, 19 and 20.
///
/// ```
/// use postman::{plan_call, plan_call_at, Arc, Departure, Edition, Plan, Refusal, Standing, Window};
///
/// // A street that must be driven, a short way back over the market, and a long one around it.
/// let may = |cost| Arc::new(1, 0, Standing::Optional, cost);
/// let file = Plan { edition: Edition::First, vertices: 2, arcs: vec![Arc::new(0, 1, Standing::Required, 5), may(3), may(9)] }.write()?;
/// let market = Window { arc: 1, weekday: 5, from: 360, to: 840 };
///
/// let saturday = plan_call_at(&file, 1, &[market], Departure { weekday: 5, minute: 839 })?;
/// assert_eq!((saturday.drive, saturday.cost, saturday.floor), (vec![0, 2], 14, 14));
/// for (weekday, minute) in [(5, 840), (6, 839)] {
///     assert_eq!(plan_call_at(&file, 1, &[market], Departure { weekday, minute })?, plan_call(&file, 1)?);
/// }
/// let parade = Window { arc: 0, ..market };
/// assert_eq!(plan_call_at(&file, 1, &[market, parade], Departure { weekday: 5, minute: 360 }), Err(Refusal::MustShut));
/// # Ok::<(), Refusal>(())
/// ```
pub fn plan_call_at(file: &[u8], budget: u64, windows: &[Window], departure: Departure) -> Result<Answer, Refusal> {
    let numbers = numbers_of(windows);
    let Departure { weekday, minute } = departure;
    answered(|sheet, answer, multipliers| {
        raw::plan_call_at(file, budget, &numbers, weekday, minute, sheet, answer, multipliers)
    })
}

#[cfg(test)]
mod tests {
    use super::*;
    use crate::limits::{DAY_MINUTES, LAST_WEEKDAY, MOST_WINDOWS};
    use crate::plan_call;

    const CASE_A: [u8; 10] = [0x10, 0x40, 0x20, 0x01, 0x40, 0x01, 0x41, 0x00, 0x00, 0x03];
    const NOON: Departure = Departure { weekday: 1, minute: 720 };
    const NIGHT: Window = Window { arc: 1, weekday: 1, from: 0, to: 60 };

    #[test]
    fn windows_beyond_the_limits_are_refused() {
        let call = |windows: &[Window], departure| plan_call_at(&CASE_A, 1, windows, departure).err();
        assert_eq!(call(&[NIGHT; MOST_WINDOWS], NOON), None);
        assert_eq!(call(&[NIGHT; MOST_WINDOWS + 1], NOON), Some(Refusal::BadWindow));
        for window in [
            Window { arc: 2, ..NIGHT },
            Window { weekday: 7, ..NIGHT },
            Window { from: 60, ..NIGHT },
            Window { to: 1_441, ..NIGHT },
        ] {
            assert_eq!(call(&[NIGHT, window], NOON), Some(Refusal::BadWindow), "{window:?}");
        }
        let last = Departure { weekday: LAST_WEEKDAY, minute: DAY_MINUTES - 1 };
        assert_eq!(call(&[], last), None);
        assert_eq!(call(&[], Departure { weekday: 7, ..last }), Some(Refusal::BadWindow));
        assert_eq!(call(&[], Departure { minute: 1_440, ..last }), Some(Refusal::BadWindow));
    }

    #[test]
    fn no_windows_change_nothing() {
        let file = std::fs::read(concat!(env!("CARGO_MANIFEST_DIR"), "/../../examples/town.plan")).unwrap();
        for budget in [0, 1, 10] {
            assert_eq!(plan_call_at(&file, budget, &[], NOON), plan_call(&file, budget));
        }
    }
}
