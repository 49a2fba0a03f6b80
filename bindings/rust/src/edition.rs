//! The editions of the plan file.

/// An edition of the plan file.
///
/// ```
/// use postman::{Edition, Plan, Refusal};
///
/// let file = [0x10, 0x40, 0x20, 0x01, 0x40, 0x01, 0x41, 0x00, 0x00, 0x03];
/// let first = Plan::read(&file)?;
/// assert_eq!(first.edition, Edition::First);
/// let second = Plan { edition: Edition::Second, ..first }.write()?;
/// assert_eq!(Plan::read(&second)?.edition, Edition::Second);
/// # Ok::<(), Refusal>(())
/// ```
#[derive(Clone, Copy, PartialEq, Eq, PartialOrd, Ord, Hash, Debug, Default)]
pub enum Edition {
    /// An arc has no checking cost of its own: a required arc is checked at its cost.
    #[default]
    First = 1,
    /// A required arc has a checking cost beside its cost.
    Second = 2,
}

impl Edition {
    /// The edition of a number.
    ///
    /// ```
    /// use postman::Edition;
    ///
    /// assert_eq!(Edition::from_number(2), Some(Edition::Second));
    /// assert_eq!(Edition::from_number(3), None);
    /// ```
    pub fn from_number(number: u8) -> Option<Edition> {
        match number {
            1 => Some(Edition::First),
            2 => Some(Edition::Second),
            _ => None,
        }
    }

    /// The edition's number, 1 or 2.
    ///
    /// ```
    /// assert_eq!(postman::Edition::Second.number(), 2);
    /// ```
    pub fn number(self) -> u8 {
        self as u8
    }
}

#[cfg(test)]
mod tests {
    use super::*;

    #[test]
    fn every_edition_has_its_number() {
        for number in 0..=255 {
            let edition = Edition::from_number(number);
            assert_eq!(edition.map(Edition::number), [1, 2].contains(&number).then_some(number));
        }
    }
}
