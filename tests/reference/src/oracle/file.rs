//! The plan file as a string of the characters 0 and 1.

use crate::plan::{Arc, Plan};
use crate::planner::Refusal;

/// Appends the last bits of a number, as many as wanted.
fn push_bits(bits: &mut String, number: u64, width: usize) {
    bits.extend((0..width).rev().map(|i| if (number >> i).is_multiple_of(2) { '0' } else { '1' }));
}

fn number(bits: &str) -> usize {
    bits.bytes().fold(0, |x, bit| 2 * x + usize::from(bit == b'1'))
}

fn unpack(bytes: &[u8]) -> String {
    let mut bits = String::with_capacity(8 * bytes.len());
    bytes.iter().for_each(|&byte| push_bits(&mut bits, byte.into(), 8));
    bits
}

/// The bits of an arc, by edition.
fn arc_bits(edition: u8) -> usize {
    let fields = [6, 6, 2, 16, 16];
    fields[..if edition == 2 { 5 } else { 4 }].iter().sum()
}

/// The bits of a file of m arcs, before the fill, and its bytes.
fn bit_length(edition: u8, m: usize) -> usize {
    4 + 7 + 9 + m * arc_bits(edition)
}

fn byte_length(edition: u8, m: usize) -> usize {
    let bits = bit_length(edition, m);
    bits / 8 + usize::from(!bits.is_multiple_of(8))
}

/// The fields of a file that is long enough for its arc count, whatever they hold.
pub fn parse(bytes: &[u8]) -> Plan {
    let bits = unpack(bytes);
    let edition = number(&bits[..4]) as u8;
    let arcs = (0..number(&bits[11..20])).map(|k| {
        let arc = &bits[bit_length(edition, k)..bit_length(edition, k + 1)];
        let byte = |from: usize, to: usize| number(&arc[from..to]) as u8;
        let cost = number(&arc[14..30]) as u16;
        // "In edition 1 a must arc's checking cost is its cost, any other arc's is 0."
        let checking = match (edition, &arc[12..14]) {
            (2, _) => number(&arc[30..]) as u16,
            (_, "01") => cost,
            _ => 0,
        };
        Arc { tail: byte(0, 6), head: byte(6, 12), standing: byte(12, 14), cost, checking }
    });
    Plan { edition, n: number(&bits[4..11]), arcs: arcs.collect() }
}

/// Whether a file has a header, and as many bytes as its arcs need.
pub fn is_long_enough(bytes: &[u8]) -> bool {
    let bits = unpack(bytes);
    bits.len() >= 24 && bits.len() >= bit_length(number(&bits[..4]) as u8, number(&bits[11..20]))
}

/// Whether the checking cost is a good one: there is one in a must arc and in no other, and in edition 1 it is the cost. A plain cost of 0 is good.
fn is_priced(edition: u8, a: &Arc) -> bool {
    match (edition, a.standing == 1) {
        (_, false) => a.checking == 0,
        (1, true) => a.checking > 0 && a.checking == a.cost,
        (_, true) => a.checking > 0,
    }
}

/// The first arc that breaks a limit gives its first number; where none does, 13 if two arcs are the same once all are sorted; 0 for none.
fn arcs_refusal(edition: u8, n: usize, arcs: &[Arc]) -> Refusal {
    let of_arc = |a: &Arc| match a {
        a if usize::from(a.tail) >= n || usize::from(a.head) >= n => 5,
        a if !is_priced(edition, a) => 6,
        a if a.standing > 2 => 7,
        _ => 0,
    };
    let mut sorted: Vec<_> = arcs.iter().map(|a| (a.tail, a.head, a.standing, a.cost, a.checking)).collect();
    sorted.sort();
    let repeated = if sorted.windows(2).any(|pair| pair[0] == pair[1]) { 13 } else { 0 };
    arcs.iter().map(of_arc).find(|&number| number != 0).unwrap_or(repeated)
}

fn is_off_limits(n: usize, m: usize) -> bool {
    !(1..=64).contains(&n) || !(1..=256).contains(&m)
}

/// Reading's refusal, 0 for none, where the list has room for so many records.
pub fn read_refusal(bytes: &[u8], room: usize) -> Refusal {
    let bits = unpack(bytes);
    if bits.len() < 24 {
        return 1;
    }
    let edition = match &bits[..4] {
        "0001" => 1,
        "0010" => 2,
        _ => return 2,
    };
    let (n, m) = (number(&bits[4..11]), number(&bits[11..20]));
    if is_off_limits(n, m) {
        return 3;
    }
    if bytes.len() < byte_length(edition, m) {
        return 1;
    }
    if bytes.len() > byte_length(edition, m) || bits[bit_length(edition, m)..].contains('1') {
        return 4;
    }
    match arcs_refusal(edition, n, &parse(bytes).arcs) {
        0 if room < m => 8,
        number => number,
    }
}

/// Writing's refusal, 0 for none, where the slice has room for so many bytes.
pub fn write_refusal(plan: &Plan, room: usize) -> Refusal {
    let &Plan { edition, n, ref arcs } = plan;
    if ![1, 2].contains(&edition) {
        return 2;
    }
    if is_off_limits(n, arcs.len()) {
        return 3;
    }
    match arcs_refusal(edition, n, arcs) {
        0 if room < byte_length(edition, arcs.len()) => 8,
        number => number,
    }
}

/// The file of a plan; fields that are too wide are cut, so that bad files can be made too. An edition that is none has arcs like those of edition 1.
pub fn file_of(plan: &Plan) -> Vec<u8> {
    let mut bits = String::new();
    let mut push = |number: u64, width: usize| push_bits(&mut bits, number, width);
    push(plan.edition.into(), 4);
    push(plan.n as u64, 7);
    push(plan.arcs.len() as u64, 9);
    for a in &plan.arcs {
        push(a.tail.into(), 6);
        push(a.head.into(), 6);
        push(a.standing.into(), 2);
        push(a.cost.into(), 16);
        if plan.edition == 2 {
            push(a.checking.into(), 16);
        }
    }
    while !bits.len().is_multiple_of(8) {
        bits.push('0');
    }
    bits.as_bytes().chunks(8).map(|byte| byte.iter().fold(0, |x, &bit| x << 1 | (bit - b'0'))).collect()
}
