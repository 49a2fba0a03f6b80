//! The refusals.

use std::error::Error;
use std::fmt;

/// Why a call was refused. Of several refusals that apply, the calls give the first in this order: 1 (under three bytes), 2, 3, 1 (length),
/// 4, then arc by arc 5, 6, 7, then 13, then 17, then 8 and 9, then 18 to 20 or 23, then 10 to 12, then 22, then 14 to 16. The calls of
/// an open plan have an order of their own.
///
/// ```
/// use postman::{short_call, Refusal};
///
/// let refusal = short_call(&[0x30, 0x40, 0x20]).unwrap_err();
/// assert_eq!(refusal, Refusal::Edition);
/// assert_eq!((refusal.number(), refusal.word()), (2, "edition"));
/// assert_eq!(refusal.to_string(), "refusal 2, edition: the edition is neither 1 nor 2");
/// ```
#[derive(Clone, Copy, PartialEq, Eq, PartialOrd, Ord, Hash, Debug)]
#[non_exhaustive]
pub enum Refusal {
    /// The file has under 3 bytes, or fewer than its arcs need.
    Torn = 1,
    /// The edition is neither 1 nor 2.
    Edition = 2,
    /// No vertex or more than 64, no arc or more than 256, or a list of more than 65,535 places.
    Extent = 3,
    /// The file has more bytes than its arcs need, or a fill bit is 1.
    Margin = 4,
    /// An arc's tail or head is no vertex.
    OffSheet = 5,
    /// A required arc's checking cost is 0, or another arc's is not; or one cannot be written in edition 1. A required arc of edition 1 that costs 0 has none.
    Unpriced = 6,
    /// An arc's standing is above 2.
    Standing = 7,
    /// Too few records, bytes, places or distances are lent.
    ShortSheet = 8,
    /// The budget is 0 or above 1,000,000.
    Budget = 9,
    /// No arc must be driven.
    Idle = 10,
    /// The plan has more than 8 parts.
    Scattered = 11,
    /// No drive exists: some required vertex has no path to another.
    CutOff = 12,
    /// Two arcs agree in all their fields.
    Repeated = 13,
    /// A judged list has a number that no arc has, or that of a closed arc; or an arc that is to be changed is none.
    Foreign = 14,
    /// An arc of a judged list does not lead to the next one, or the last one to the first.
    Unjoined = 15,
    /// An arc that must be driven is not in a judged list.
    Missed = 16,
    /// More than 256 pairs, or one of what is no vertex.
    StrayPair = 17,
    /// A car's marks are not as many as the arcs, one is neither 0 nor 1, or a closed arc is marked.
    BadMarks = 18,
    /// A window, the number of windows or the departure is beyond its limits.
    BadWindow = 19,
    /// An arc that must be driven is shut at departure.
    MustShut = 20,
    /// A mark's number is above 3, or the mark was never set.
    NoMark = 21,
    /// Eight districts are unfinished.
    Full = 22,
    /// The rounds are 0 or above 1,000.
    Rounds = 23,
}

impl Refusal {
    /// All refusals, by their numbers.
    ///
    /// ```
    /// use postman::Refusal;
    ///
    /// assert_eq!((Refusal::ALL[0], Refusal::ALL.len()), (Refusal::Torn, 23));
    /// ```
    pub const ALL: &'static [Refusal] = &[
        Refusal::Torn,
        Refusal::Edition,
        Refusal::Extent,
        Refusal::Margin,
        Refusal::OffSheet,
        Refusal::Unpriced,
        Refusal::Standing,
        Refusal::ShortSheet,
        Refusal::Budget,
        Refusal::Idle,
        Refusal::Scattered,
        Refusal::CutOff,
        Refusal::Repeated,
        Refusal::Foreign,
        Refusal::Unjoined,
        Refusal::Missed,
        Refusal::StrayPair,
        Refusal::BadMarks,
        Refusal::BadWindow,
        Refusal::MustShut,
        Refusal::NoMark,
        Refusal::Full,
        Refusal::Rounds,
    ];

    /// The refusal's number.
    ///
    /// ```
    /// assert_eq!(postman::Refusal::CutOff.number(), 12);
    /// ```
    pub fn number(self) -> u32 {
        self as u32
    }

    /// The refusal of a number.
    ///
    /// ```
    /// use postman::Refusal;
    ///
    /// assert_eq!(Refusal::from_number(12), Some(Refusal::CutOff));
    /// assert_eq!(Refusal::from_number(0), None);
    /// ```
    pub fn from_number(number: u32) -> Option<Refusal> {
        Refusal::ALL.iter().copied().find(|refusal| refusal.number() == number)
    }

    /// The refusal's trade word.
    ///
    /// ```
    /// assert_eq!(postman::Refusal::CutOff.word(), "cut off");
    /// ```
    pub fn word(self) -> &'static str {
        self.words().0
    }

    /// The trade word, and what it means.
    fn words(self) -> (&'static str, &'static str) {
        match self {
            Refusal::Torn => ("torn", "the file has under 3 bytes, or fewer than its arcs need"),
            Refusal::Edition => ("edition", "the edition is neither 1 nor 2"),
            Refusal::Extent => {
                ("extent", "no vertex or more than 64, no arc or more than 256, or a list of more than 65,535 places")
            }
            Refusal::Margin => ("margin", "the file has more bytes than its arcs need, or a fill bit is 1"),
            Refusal::OffSheet => ("off sheet", "an arc's tail or head is no vertex"),
            Refusal::Unpriced => ("unpriced", "an arc's checking cost is wrong"),
            Refusal::Standing => ("standing", "an arc's standing is above 2"),
            Refusal::ShortSheet => ("short sheet", "too few records, bytes, places or distances are lent"),
            Refusal::Budget => ("budget", "the budget is 0 or above 1,000,000"),
            Refusal::Idle => ("idle", "no arc must be driven"),
            Refusal::Scattered => ("scattered", "the plan has more than 8 parts"),
            Refusal::CutOff => ("cut off", "no drive exists: some required vertex has no path to another"),
            Refusal::Repeated => ("repeated", "two arcs agree in all their fields"),
            Refusal::Foreign => (
                "foreign",
                "a judged list has a number that no arc has, or that of a closed arc; or a changed arc is none",
            ),
            Refusal::Unjoined => {
                ("unjoined", "an arc of a judged list does not lead to the next one, or the last one to the first")
            }
            Refusal::Missed => ("missed", "an arc that must be driven is not in a judged list"),
            Refusal::StrayPair => ("stray pair", "more than 256 pairs, or one of what is no vertex"),
            Refusal::BadMarks => (
                "bad marks",
                "a car's marks are not as many as the arcs, one is neither 0 nor 1, or a closed arc is marked",
            ),
            Refusal::BadWindow => {
                ("bad window", "a window, the number of windows or the departure is beyond its limits")
            }
            Refusal::MustShut => ("must shut", "an arc that must be driven is shut at departure"),
            Refusal::NoMark => ("no mark", "a mark's number is above 3, or the mark was never set"),
            Refusal::Full => ("full", "eight districts are unfinished"),
            Refusal::Rounds => ("rounds", "the rounds are 0 or above 1,000"),
        }
    }
}

impl fmt::Display for Refusal {
    fn fmt(&self, f: &mut fmt::Formatter<'_>) -> fmt::Result {
        let (word, meaning) = self.words();
        write!(f, "refusal {}, {word}: {meaning}", self.number())
    }
}

impl Error for Refusal {}

#[cfg(test)]
mod tests {
    use super::*;

    #[test]
    fn numbers_ascend() {
        let numbers: Vec<u32> = Refusal::ALL.iter().map(|refusal| refusal.number()).collect();
        assert_eq!(numbers, (1..=23).collect::<Vec<u32>>());
        for &refusal in Refusal::ALL {
            assert_eq!(Refusal::from_number(refusal.number()), Some(refusal));
        }
        for number in [0, 24, u32::MAX] {
            assert_eq!(Refusal::from_number(number), None);
        }
    }

    #[test]
    fn trade_words_differ() {
        for a in Refusal::ALL {
            for b in Refusal::ALL {
                assert_eq!(a.word() == b.word(), a == b);
            }
        }
    }
}
