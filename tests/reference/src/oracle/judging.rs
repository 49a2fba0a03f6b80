//! What judging a list of arcs answers: by the sets of arcs that it holds, by its tails and heads as two lists, and by how often each arc occurs.

use super::{parse, read_refusal};
use crate::plan::{CLOSED, MOST_PLACES, REQUIRED};
use crate::planner::Refusal;
use std::collections::BTreeSet;

/// The cost, or the first refusal that applies.
pub fn judge_answer(bytes: &[u8], places: &[u16]) -> Result<u64, Refusal> {
    let mut number = read_refusal(bytes, usize::MAX);
    if places.len() > MOST_PLACES {
        // What comes before 3 is told by the first three bytes, or by their being fewer.
        number = match read_refusal(bytes.get(..3).unwrap_or_default(), 0) {
            1 if bytes.len() < 3 => 1,
            2 => 2,
            _ => 3,
        };
    }
    if number != 0 {
        return Err(number);
    }
    let arcs = parse(bytes).arcs;
    let numbers = |standings: &[u8]| -> BTreeSet<usize> {
        (0..arcs.len()).filter(|&k| standings.contains(&arcs[k].standing)).collect()
    };
    let (required, closed) = (numbers(&[REQUIRED]), numbers(&[CLOSED]));
    let list: Vec<usize> = places.iter().map(|&k| k.into()).collect();
    let passed: BTreeSet<usize> = list.iter().copied().collect();
    let is_foreign = passed.iter().any(|k| *k >= arcs.len() || closed.contains(k));
    let ends =
        |end: fn(&crate::plan::Arc) -> u8| -> Vec<Option<u8>> { list.iter().map(|&k| arcs.get(k).map(end)).collect() };
    let (mut heads, tails) = (ends(|a| a.head), ends(|a| a.tail));
    let turned = usize::from(!heads.is_empty());
    heads.rotate_right(turned);
    let conditions =
        [(required.is_empty(), 10), (is_foreign, 14), (heads != tails, 15), (!required.is_subset(&passed), 16)];
    if let Some(&(_, number)) = conditions.iter().find(|(applies, _)| *applies) {
        return Err(number);
    }
    // Every pass at its plain cost; then for each must arc one pass less at that cost, and one more at its checking cost.
    let mut passes = vec![0; arcs.len()];
    list.iter().for_each(|&k| passes[k] += 1u64);
    let plain: u64 = arcs.iter().zip(&passes).map(|(a, passes)| passes * u64::from(a.cost)).sum();
    let of_required =
        |cost: fn(&crate::plan::Arc) -> u16| -> u64 { required.iter().map(|&k| u64::from(cost(&arcs[k]))).sum() };
    Ok(plain - of_required(|a| a.cost) + of_required(|a| a.checking))
}
