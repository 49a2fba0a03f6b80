//! Counts that are wrong.

use super::Mutant;
use crate::planner::{refusal, Counter, Refusal, TreeCount};
use crate::properties::Property::*;
use crate::yardstick::{count_by_layers, entry_counts, EntryCounts, Yardstick};

struct Altered(fn(&[u8]) -> Result<TreeCount, Refusal>);

impl Counter for Altered {
    fn tree_count(&self, plan: &[u8]) -> Result<TreeCount, Refusal> {
        self.0(plan)
    }
}

/// A count from the entries.
fn counted(file: &[u8], count: impl Fn(&EntryCounts, usize) -> u128) -> Result<TreeCount, Refusal> {
    entry_counts(file).map(|(entries, parts)| TreeCount::of(count(&entries, parts)))
}

/// The product of all entries: circles and all.
fn product(entries: &EntryCounts, parts: usize) -> u128 {
    entries[1..parts].iter().map(|row| u128::from(row.iter().sum::<u64>())).product()
}

pub fn mutants() -> Vec<Mutant<dyn Counter>> {
    let mutant = |name, violates, wrong| Mutant { name, violates, wrong: Box::new(Altered(wrong)) as Box<dyn Counter> };
    vec![
        mutant("circles counted too", &[TreeCount, WholeTold], |file| counted(file, product)),
        mutant("above from the highest number on", &[TreeCount], |file| {
            let count = Yardstick.tree_count(file)?;
            Ok(if count == self::TreeCount::Known(u32::MAX) { self::TreeCount::Above } else { count })
        }),
        mutant("counted up to the highest number", &[TreeCount], |file| {
            counted(file, |entries, parts| count_by_layers(entries, parts).min(u64::from(u32::MAX)).into())
        }),
        mutant("one entry from each component that has some", &[TreeCount, WholeTold], |file| {
            counted(file, |entries, parts| count_by_layers(&entries.map(|row| row.map(|n| n.min(1))), parts).into())
        }),
        mutant("trees of the root's own entries", &[TreeCount, WholeTold], |file| {
            counted(file, |entries, parts| entries[1..parts].iter().map(|row| u128::from(row[0])).product())
        }),
        mutant("cut off plans have no tree", &[TreeCount], |file| match Yardstick.tree_count(file) {
            Err(refusal::CUT_OFF) => Ok(self::TreeCount::Known(0)),
            result => result,
        }),
        mutant("no tree where there is one part", &[TreeCount], |file| {
            counted(file, |entries, parts| if parts == 1 { 0 } else { count_by_layers(entries, parts).into() })
        }),
    ]
}
