//! Distances for a page of pairs of vertices.

use crate::limits::{NO_PATH, PAIR};
use crate::{raw, Refusal};

/// The distances of a page.
///
/// ```
/// use postman::{distances, Distances};
///
/// let file = [0x10, 0x40, 0x20, 0x01, 0x40, 0x01, 0x41, 0x00, 0x00, 0x03];
/// assert_eq!(distances(&file, &[(1, 0)]), Ok(Distances { entries: vec![Some(3)], searches: 1 }));
/// ```
#[derive(Clone, PartialEq, Eq, Debug)]
pub struct Distances {
    /// The least cost of a path for each pair, in the pairs' order, or none where there is no path.
    pub entries: Vec<Option<u32>>,
    /// The searches run: as many as there are distinct first vertices.
    pub searches: usize,
}

/// The distances of up to 256 pairs of vertices of a plan file, each from the first vertex to the second. Refuses with 1 to 7, 13 and 17.
///
/// ```
/// use postman::{distances, Arc, Edition, Plan, Refusal, Standing};
///
/// let may = |tail, head, cost| Arc::new(tail, head, Standing::Optional, cost);
/// let file = Plan { edition: Edition::First, vertices: 4, arcs: vec![may(0, 1, 2), may(1, 2, 2), may(0, 2, 5)] }.write()?;
/// let page = distances(&file, &[(0, 1), (0, 2), (2, 0), (3, 3)])?;
/// assert_eq!(page.entries, [Some(2), Some(4), None, Some(0)]);
/// assert_eq!(page.searches, 3);
/// assert_eq!(distances(&file, &[(0, 4)]), Err(Refusal::StrayPair));
/// # Ok::<(), Refusal>(())
/// ```
pub fn distances(file: &[u8], pairs: &[(u8, u8)]) -> Result<Distances, Refusal> {
    let pairs: Vec<u16> = pairs.iter().map(|&(first, second)| PAIR * u16::from(first) + u16::from(second)).collect();
    let mut entries = vec![0; pairs.len()];
    let searches = raw::distances(file, &pairs, &mut entries)?;
    let entries = entries.into_iter().map(|entry| (entry != NO_PATH).then_some(entry)).collect();
    Ok(Distances { entries, searches })
}

#[cfg(test)]
mod tests {
    use super::*;
    use crate::limits::MOST_PAIRS;

    const CASE_A: [u8; 10] = [0x10, 0x40, 0x20, 0x01, 0x40, 0x01, 0x41, 0x00, 0x00, 0x03];

    #[test]
    fn pages_beyond_the_limits_are_refused() {
        assert_eq!(distances(&CASE_A, &[]), Ok(Distances { entries: vec![], searches: 0 }));
        assert_eq!(distances(&CASE_A, &[(0, 1); MOST_PAIRS]).map(|page| page.searches), Ok(1));
        assert_eq!(distances(&CASE_A, &[(0, 1); MOST_PAIRS + 1]), Err(Refusal::StrayPair));
        for pair in [(2, 0), (0, 2), (255, 255)] {
            assert_eq!(distances(&CASE_A, &[(0, 1), pair]), Err(Refusal::StrayPair), "{pair:?}");
        }
        assert_eq!(distances(&CASE_A[..9], &[(2, 2)]), Err(Refusal::Torn));
    }

    #[test]
    fn short_lists_are_refused_after_stray_pairs() {
        let mut list = [7; 2];
        assert_eq!(raw::distances(&CASE_A, &[0, 1, PAIR], &mut list), Err(Refusal::ShortSheet));
        assert_eq!(raw::distances(&CASE_A, &[0, 1, 2 * PAIR], &mut list), Err(Refusal::StrayPair));
        assert_eq!(list, [7; 2]);
    }
}
