//! The distance call.

use super::{Findings, Property};
use crate::oracle::{page, page_refusal, parse};
use crate::planner::DistanceCall;

/// No distance, nor what stands for no path.
const FILL: u32 = 0xA5A5_A5A5;

/// Holds the distance call, on a page and on a list for so many distances, to the oracle.
pub fn examine_page(found: &mut Findings, call: &dyn DistanceCall, file: &[u8], pairs: &[u16], room: usize) {
    let mut distances = vec![FILL; room];
    let result = call.distances(file, pairs, &mut distances);
    let about = || format!("{result:?}, {distances:?} with room for {room} for {pairs:?} of {file:02x?}");
    let kept = match page_refusal(file, pairs, room) {
        0 => {
            let (entries, searches) = page(&parse(file), pairs);
            found.expect(Property::PageRefusal, result.is_ok(), about);
            found.expect(Property::Entries, distances[..pairs.len()] == entries, about);
            found.expect(Property::Searches, result == Ok(searches), || format!("{searches} expected: {}", about()));
            examine_queries(found, call, file, pairs, &distances);
            &distances[pairs.len()..]
        }
        number => {
            found.expect(Property::PageRefusal, result == Err(number), || format!("{number} expected: {}", about()));
            &distances[..]
        }
    };
    found.expect(Property::EntriesKept, kept.iter().all(|&entry| entry == FILL), about);
}

/// The first pair, the last and one between them, each as a page of its own.
fn examine_queries(found: &mut Findings, call: &dyn DistanceCall, file: &[u8], pairs: &[u16], distances: &[u32]) {
    let (len, mut one) = (pairs.len(), [FILL]);
    for k in [0, len / 2, len.saturating_sub(1)].into_iter().filter(|&k| k < len) {
        let result = call.distances(file, &pairs[k..=k], &mut one);
        let about = || format!("pair {k} of {pairs:?}, alone: {result:?}, {one:?}, not {}", distances[k]);
        found.expect(Property::SingleQuery, result == Ok(1) && one[0] == distances[k], about);
    }
}
