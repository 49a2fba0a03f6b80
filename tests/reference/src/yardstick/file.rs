//! The plan file, by shifting through a window of bits.

use crate::plan::{Arc, Plan, MOST_ARCS, MOST_VERTICES, REQUIRED};
use crate::planner::{refusal, Refusal};

/// Bytes of a file of m arcs: 20 bits, and 30 for each arc or, in edition 2, 46.
fn file_length(edition: u8, m: usize) -> usize {
    let width = if edition == 2 { 46 } else { 30 };
    (20 + width * m).div_ceil(8)
}

/// Takes bit fields from the front of a file.
struct BitReader<'a> {
    rest: &'a [u8],
    window: u64,
    held: u32,
}

impl BitReader<'_> {
    fn take(&mut self, width: u32) -> u32 {
        while self.held < width {
            let (&byte, rest) = self.rest.split_first().expect("the length was tested");
            self.rest = rest;
            self.window = self.window << 8 | u64::from(byte);
            self.held += 8;
        }
        self.held -= width;
        let field = self.window >> self.held & ((1 << width) - 1);
        field as u32
    }
}

fn check_edition(edition: u8) -> Result<(), Refusal> {
    (edition == 1 || edition == 2).then_some(()).ok_or(refusal::EDITION)
}

fn check_extent(n: usize, m: usize) -> Result<(), Refusal> {
    let good = (1..=MOST_VERTICES).contains(&n) && (1..=MOST_ARCS).contains(&m);
    good.then_some(()).ok_or(refusal::EXTENT)
}

/// The checking cost of an arc in edition 1.
fn implied_checking(standing: u8, cost: u16) -> u16 {
    if standing == REQUIRED {
        cost
    } else {
        0
    }
}

fn check_arc(edition: u8, n: usize, a: &Arc) -> Result<(), Refusal> {
    if usize::from(a.tail.max(a.head)) >= n {
        return Err(refusal::OFF_SHEET);
    }
    let is_implied = a.checking == implied_checking(a.standing, a.cost);
    if (a.checking == 0) == (a.standing == REQUIRED) || edition == 1 && !is_implied {
        return Err(refusal::UNPRICED);
    }
    if a.standing > 2 {
        return Err(refusal::STANDING);
    }
    Ok(())
}

/// 5 to 7, arc by arc, then 13.
fn check_arcs(edition: u8, n: usize, arcs: &[Arc]) -> Result<(), Refusal> {
    arcs.iter().try_for_each(|a| check_arc(edition, n, a))?;
    let repeated = arcs.iter().enumerate().any(|(k, a)| arcs[..k].contains(a));
    (!repeated).then_some(()).ok_or(refusal::REPEATED)
}

fn take_arc(bits: &mut BitReader, edition: u8) -> Arc {
    let (tail, head) = (bits.take(6) as u8, bits.take(6) as u8);
    let (standing, cost) = (bits.take(2) as u8, bits.take(16) as u16);
    let checking = if edition == 2 { bits.take(16) as u16 } else { implied_checking(standing, cost) };
    Arc { tail, head, standing, cost, checking }
}

/// The plan of a file, or refusals 1 to 7 and 13.
pub fn read(bytes: &[u8]) -> Result<Plan, Refusal> {
    if bytes.len() < 3 {
        return Err(refusal::TORN);
    }
    let mut bits = BitReader { rest: bytes, window: 0, held: 0 };
    let edition = bits.take(4) as u8;
    check_edition(edition)?;
    let n = bits.take(7) as usize;
    let m = bits.take(9) as usize;
    check_extent(n, m)?;
    if bytes.len() < file_length(edition, m) {
        return Err(refusal::TORN);
    }
    let arcs: Vec<Arc> = (0..m).map(|_| take_arc(&mut bits, edition)).collect();
    let fill = bits.held;
    if bytes.len() > file_length(edition, m) || bits.take(fill) != 0 {
        return Err(refusal::MARGIN);
    }
    check_arcs(edition, n, &arcs)?;
    Ok(Plan { edition, n, arcs })
}

/// The file of a plan, or refusals 2, 3, 5 to 7 and 13.
pub fn write(edition: u8, n: u32, arcs: &[Arc]) -> Result<Vec<u8>, Refusal> {
    let n = n as usize;
    check_edition(edition)?;
    check_extent(n, arcs.len())?;
    check_arcs(edition, n, arcs)?;
    let mut bytes = Vec::with_capacity(file_length(edition, arcs.len()));
    let (mut window, mut held) = (0, 0);
    let mut put = |field: u64, width: u32| {
        window = window << width | field;
        held += width;
        while held >= 8 {
            held -= 8;
            bytes.push((window >> held) as u8);
        }
    };
    put(edition.into(), 4);
    put(n as u64, 7);
    put(arcs.len() as u64, 9);
    for a in arcs {
        put(a.tail.into(), 6);
        put(a.head.into(), 6);
        put(a.standing.into(), 2);
        put(a.cost.into(), 16);
        if edition == 2 {
            put(a.checking.into(), 16);
        }
    }
    // Seven bits complete any byte that was begun, and begin none that stays.
    put(0, 7);
    Ok(bytes)
}
