//! Judging a drive: three passes along the list.

use super::read;
use crate::plan::{Arc, CLOSED, MOST_PLACES, REQUIRED};
use crate::planner::{refusal, Refusal};

/// What the drive of the arc numbers `places` costs, or the first fault.
pub fn judge(bytes: &[u8], places: &[u16]) -> Result<u64, Refusal> {
    if places.len() > MOST_PLACES {
        return Err(match bytes {
            [] | [_] | [_, _] => refusal::TORN,
            [first, ..] if ![1, 2].contains(&(first >> 4)) => refusal::EDITION,
            _ => refusal::EXTENT,
        });
    }
    let arcs = read(bytes)?.arcs;
    if !arcs.iter().any(|a| a.standing == REQUIRED) {
        return Err(refusal::IDLE);
    }
    let drive: Option<Vec<usize>> = places.iter().map(|&k| open(&arcs, k.into())).collect();
    let drive = drive.ok_or(refusal::FOREIGN)?;
    if is_unjoined(&arcs, &drive) {
        return Err(refusal::UNJOINED);
    }
    cost(&arcs, &drive).ok_or(refusal::MISSED)
}

/// The number of an arc that may be driven.
fn open(arcs: &[Arc], k: usize) -> Option<usize> {
    arcs.get(k).filter(|a| a.standing != CLOSED).map(|_| k)
}

/// Whether the car, which comes from the last arc, is somewhere not where the next arc begins.
fn is_unjoined(arcs: &[Arc], drive: &[usize]) -> bool {
    let Some(&last) = drive.last() else { return false };
    let mut at = arcs[last].head;
    for &k in drive {
        if arcs[k].tail != at {
            return true;
        }
        at = arcs[k].head;
    }
    false
}

/// What the passes cost, the first of each required arc at its checking cost; none if one of those is missing.
fn cost(arcs: &[Arc], drive: &[usize]) -> Option<u64> {
    let mut due: Vec<bool> = arcs.iter().map(|a| a.standing == REQUIRED).collect();
    let pass = |&k: &usize| u64::from(if std::mem::take(&mut due[k]) { arcs[k].checking } else { arcs[k].cost });
    let sum = drive.iter().map(pass).sum();
    (!due.contains(&true)).then_some(sum)
}
