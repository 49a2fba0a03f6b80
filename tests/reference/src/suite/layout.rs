//! Files spelt in bytes, which nothing of this package wrote.

use super::stated::{case_a, case_b, case_c, case_d, case_e, loops, plan};
use crate::instances::{free_circles, two_ways_back};
use crate::plan::{Arc, Plan, CLOSED, OPTIONAL, REQUIRED};
use crate::planner::{Codec, Refusal};
use crate::properties::{examine_codec, Findings, Property};

/// The bytes that pairs of hexadecimal digits spell.
fn spelt(digits: &str) -> Vec<u8> {
    digits.split_whitespace().map(|pair| u8::from_str_radix(pair, 16).expect("two digits")).collect()
}

/// A plan of edition 2 between two vertices.
fn second(arcs: &[Arc]) -> Plan {
    Plan { edition: 2, n: 2, arcs: arcs.to_vec() }
}

/// What it is, its bytes, and the plan that they hold.
pub type Spelt = (&'static str, Vec<u8>, Plan);

pub fn spelt_files() -> Vec<Spelt> {
    first_edition()
        .into_iter()
        .chain(second_edition())
        .map(|(what, digits, plan)| (what, spelt(digits), plan))
        .collect()
}

fn first_edition() -> Vec<(&'static str, &'static str, Plan)> {
    let must = (0, 1, REQUIRED, 5);
    vec![
        ("B", "10 80 60 01 40 00 41 00 00 01 08 34 00 04 30 80 00 10 42 00 02 83 00 00 0a", case_b()),
        ("C", "10 60 70 00 40 00 41 05 00 01 08 24 00 04 00 40 00 20 42 00 00 82 00 00 02 00 20 00 0c", case_c()),
        ("D", "10 40 10 01 40 01 40", case_d()),
        ("E", "10 40 20 01 00 01 41 00 00 03", case_e()),
        (
            "F, eight",
            "11 00 80 00 40 00 41 05 00 01 08 24 00 04 30 d0 00 11 04 40 00 45 15 00 01 18 64 00 04 71 d0 00 10",
            loops(8),
        ),
        (
            "F, nine",
            "11 20 90 00 40 00 41 05 00 01 08 24 00 04 30 d0 00 11 04 40 00 45 15 00 01 18 64 00 04 71 d0 00 12 \
             08 40 00 40",
            loops(9),
        ),
        (
            "free arcs between all",
            "10 60 90 00 40 00 41 05 00 01 08 24 00 04 00 40 00 00 02 00 00 01 00 00 00 04 20 00 00 20 00 00 00 \
             81 00 00 00",
            free_circles(3),
        ),
        ("n 64", "18 00 10 00 00 00 40", plan(64, &[(0, 0, OPTIONAL, 1)])),
        ("the highest cost", "10 40 20 01 40 01 40 04 ff ff", plan(2, &[must, (0, 1, OPTIONAL, 65_535)])),
        ("a closed arc", "10 40 20 01 40 01 40 06 00 01", plan(2, &[must, (0, 1, CLOSED, 1)])),
        (
            "A and arc 0 at another cost",
            "10 40 30 01 40 01 41 00 00 03 00 14 00 18",
            plan(2, &[must, (1, 0, OPTIONAL, 3), (0, 1, REQUIRED, 6)]),
        ),
    ]
}

fn second_edition() -> Vec<(&'static str, &'static str, Plan)> {
    let must = |service| Arc::checked(0, 1, 5, service);
    let back = Arc::new(1, 0, OPTIONAL, 3);
    vec![
        ("A checked at its cost", "20 40 20 01 40 01 40 01 41 00 00 03 00 00", second(&[must(5), back])),
        ("A checked at 1", "20 40 20 01 40 01 40 00 41 00 00 03 00 00", second(&[must(1), back])),
        ("A checked at 65,535", "20 40 20 01 40 01 7f ff c1 00 00 03 00 00", second(&[must(65_535), back])),
        (
            "a free must arc checked at 9",
            "20 40 20 01 40 00 00 02 41 00 00 03 00 00",
            second(&[Arc::checked(0, 1, 0, 9), back]),
        ),
        (
            "a free way back",
            "20 40 20 01 40 01 40 02 41 00 00 00 00 00",
            second(&[must(9), Arc::new(1, 0, OPTIONAL, 0)]),
        ),
        (
            "a closed way back",
            "20 40 20 01 40 01 40 02 41 02 00 03 00 00",
            second(&[must(9), Arc::new(1, 0, CLOSED, 3)]),
        ),
        ("one arc", "20 40 10 01 40 01 40 02 40", second(&[must(9)])),
        ("twice, checked at 9 and 8", "20 40 20 01 40 01 40 02 40 05 00 05 00 08", second(&[must(9), must(8)])),
        (
            "A, and arc 0 checked at 8 too",
            "20 40 30 01 40 01 40 02 41 00 00 03 00 00 00 14 00 14 00 20",
            second(&[must(9), back, must(8)]),
        ),
        ("two must arcs back", "20 40 30 01 40 00 80 01 c1 01 00 01 00 01 04 04 00 0c 00 0c", two_ways_back()),
    ]
}

/// What it is, its bytes, and what refuses them.
pub fn refused_files() -> Vec<(&'static str, Vec<u8>, Refusal)> {
    let files = [
        ("no byte", "", 1),
        ("a header alone", "10 40 20", 1),
        ("a header alone, edition 3", "30 40 20", 2),
        ("a header alone, n 64", "18 00 10", 1),
        ("a header alone, n 65", "18 20 10", 3),
        ("a header alone, m 256", "10 50 00", 1),
        ("a header alone, m 257", "10 50 10", 3),
        ("one byte long", "10 40 20 01 40 01 41 00 00 03 00", 4),
        ("the first fill bit", "10 40 10 01 40 01 60", 4),
        ("the last fill bit", "10 40 10 01 40 01 41", 4),
        ("n 1", "10 20 20 01 40 01 41 00 00 03", 5),
        ("m 1 in the bytes of m 2", "10 40 10 01 40 01 41 00 00 03", 4),
        ("m 256 in the bytes of m 2", "10 50 00 01 40 01 41 00 00 03", 1),
        ("one byte long, edition 2", "20 40 20 01 40 01 40 02 41 00 00 03 00 00 00", 4),
        ("the first fill bit, edition 2", "20 40 10 01 40 01 40 02 60", 4),
        ("the last fill bit, edition 2", "20 40 10 01 40 01 40 02 41", 4),
        ("m 256 in the bytes of m 2, edition 2", "20 50 00 01 40 01 40 02 41 00 00 03 00 00", 1),
    ];
    files.map(|(what, digits, number)| (what, spelt(digits), number)).into()
}

/// Records whose fields are wider than the file's, after case A's first.
fn wide_records() -> [(&'static str, Arc, Refusal); 5] {
    let arc = Arc::new(0, 1, OPTIONAL, 1);
    [
        ("tail 64, which is 0 in six bits", Arc { tail: 64, ..arc }, 5),
        ("head 255", Arc { head: 255, ..arc }, 5),
        ("standing 4, which is 0 in two bits", Arc { standing: 4, ..arc }, 7),
        ("standing 255", Arc { standing: 255, ..arc }, 7),
        ("standing 4 at cost 0", Arc { standing: 4, cost: 0, ..arc }, 7),
    ]
}

/// Holds reading and writing to all of them, with room for more, for just so much, and for less.
pub(super) fn run(found: &mut Findings, codec: &dyn Codec) {
    for (what, file, plan) in spelt_files() {
        let (m, length) = (plan.arcs.len(), file.len());
        let mut records = vec![Arc::default(); m];
        let told = codec.read(&file, &mut records);
        let about = || format!("reading, {what}: {told:?}, {records:?}");
        found.expect(Property::Stated, told == Ok((plan.edition, plan.n, m)) && records == plan.arcs, about);
        let mut bytes = vec![0; length];
        let told = codec.write(plan.edition, plan.n as u32, &plan.arcs, &mut bytes);
        found.expect(Property::Stated, told == Ok(length) && bytes == file, || {
            format!("writing, {what}: {told:?}, {bytes:02x?}")
        });
        for (room, bytes) in [(m + 2, length + 2), (m, length), (m - 1, length - 1), (0, 0)] {
            examine_codec(found, codec, &file, room, bytes);
        }
    }
    for (what, file, number) in refused_files() {
        let told = codec.read(&file, &mut [Arc::default(); 2]);
        found.expect(Property::Stated, told == Err(number), || format!("reading, {what}: {told:?}"));
        examine_codec(found, codec, &file, 1, file.len());
    }
    for (what, arc, number) in wide_records() {
        for edition in [1, 2] {
            let told = codec.write(edition, 2, &[case_a().arcs[0], arc], &mut [0; 14]);
            found.expect(Property::Stated, told == Err(number), || format!("writing, {what}: {told:?}"));
        }
    }
}
