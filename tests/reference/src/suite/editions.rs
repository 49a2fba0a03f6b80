//! Both editions and the checking cost, in document 02's numbers.

use super::stated::{case_a, case_c, Row, Stated, FILE_A};
use super::{faults, layout};
use crate::instances::{checked, fullest};
use crate::oracle::file_of;
use crate::plan::{Arc, Plan, CLOSED, OPTIONAL};
use crate::planner::{Codec, Refusal};
use crate::properties::{Findings, Property};

/// Case A in edition 2, its first arc checked at 9.
pub const FILE_A_CHECKED: [u8; 14] =
    [0x20, 0x40, 0x20, 0x01, 0x40, 0x01, 0x40, 0x02, 0x41, 0x00, 0x00, 0x03, 0x00, 0x00];

/// Case A with a free way back.
const FILE_A_FREE: [u8; 10] = [0x10, 0x40, 0x20, 0x01, 0x40, 0x01, 0x41, 0x00, 0x00, 0x00];

fn case_a_free() -> Vec<Arc> {
    vec![case_a().arcs[0], Arc::new(1, 0, OPTIONAL, 0)]
}

/// Case A in edition 2, with more arcs.
fn case_a_checked(checking: u16, more: &[Arc]) -> Plan {
    let mut plan = checked(case_a(), |_, _| checking);
    plan.arcs.extend(more);
    plan
}

/// Case A in edition 2, with another second arc.
fn case_a_with(standing: u8, cost: u16, checking: u16) -> Plan {
    let mut plan = case_a_checked(5, &[]);
    plan.arcs[1] = Arc { standing, cost, checking, ..plan.arcs[1] };
    plan
}

/// The only way into vertex 1 is a must arc, and two others leave it: one pass is slow, and the other is not.
fn passed_twice(checking: u16) -> Plan {
    let musts = [Arc::checked(0, 1, 5, checking), Arc::checked(1, 2, 2, 4), Arc::checked(1, 3, 2, 3)];
    let mays = [Arc::new(2, 0, OPTIONAL, 1), Arc::new(3, 0, OPTIONAL, 1)];
    Plan { edition: 2, n: 4, arcs: [&musts[..], &mays].concat() }
}

/// A must arc that costs nothing once it is checked, and a free way back.
fn free_must(checking: u16) -> Plan {
    Plan { edition: 2, n: 2, arcs: vec![Arc::checked(0, 1, 0, checking), Arc::new(1, 0, OPTIONAL, 0)] }
}

/// The most arcs in edition 2, checked at 1, 2, and so on.
fn fullest_checked() -> Plan {
    checked(fullest(), |k, _| 1 + k as u16)
}

/// The file with another edition in its first four bits.
fn relabelled(file: &[u8], edition: u8) -> Vec<u8> {
    let mut file = file.to_vec();
    file[0] = edition << 4 | file[0] & 15;
    file
}

/// The plan call's rows.
pub(super) fn rows() -> Vec<Row> {
    let one = |cost: u64| -> Stated { Ok((cost, 1, true, 1)) };
    let slow_loops = checked(case_c(), |_, _| 100);
    let mut wider = fullest_checked();
    wider.arcs.push(Arc::new(0, 0, CLOSED, 1));
    let plans = [
        ("A checked at its cost", case_a_checked(5, &[]), 1, one(8)),
        ("A checked at 1", case_a_checked(1, &[]), 1, one(4)),
        ("A checked at 65,535", case_a_checked(65_535, &[]), 1, one(65_538)),
        ("C checked at 100, one tree", slow_loops.clone(), 1, Ok((311, 1, false, 3))),
        ("C checked at 100, two trees", slow_loops, 2, Ok((306, 2, true, 3))),
        ("a must arc passed twice, above its cost", passed_twice(9), 1, one(23)),
        ("a must arc passed twice, at its cost", passed_twice(5), 1, one(19)),
        ("a must arc passed twice, below its cost", passed_twice(1), 1, one(15)),
        ("no checking cost", case_a_checked(0, &[]), 1, Err(6)),
        ("an optional arc's checking cost", case_a_with(OPTIONAL, 3, 1), 1, Err(6)),
        ("a closed arc's checking cost", case_a_with(CLOSED, 3, 1), 1, Err(6)),
        ("standing 3 with a checking cost", case_a_with(3, 3, 1), 1, Err(6)),
        ("standing 3", case_a_with(3, 3, 0), 1, Err(7)),
        ("standing 3 and cost 0", case_a_with(3, 0, 0), 1, Err(7)),
        ("cost 0", case_a_with(OPTIONAL, 0, 0), 1, one(5)),
        ("cost 0 and a checking cost", case_a_with(OPTIONAL, 0, 1), 1, Err(6)),
        ("a closed arc at cost 0", case_a_checked(5, &[Arc::new(0, 0, CLOSED, 0)]), 1, one(8)),
        ("a free must arc checked at 4, with a free way back", free_must(4), 1, one(4)),
        ("a free must arc without a checking cost", free_must(0), 1, Err(6)),
        ("twice, checked at 9 and 8", case_a_checked(9, &[Arc::checked(0, 1, 5, 8)]), 1, one(23)),
        ("twice, checked at 9", case_a_checked(9, &[Arc::checked(0, 1, 5, 9)]), 1, Err(13)),
        ("twice, of two standings", case_a_checked(9, &[Arc::new(0, 1, OPTIONAL, 5)]), 1, one(12)),
        ("m 256 in edition 2", fullest_checked(), 1, one(256 * 257 / 2)),
        ("m 257 in edition 2", wider, 1, Err(3)),
        ("n 65 in edition 2", Plan { n: 65, ..case_a_checked(9, &[]) }, 1, Err(3)),
    ];
    let mut files = vec![("A checked at 9".to_string(), FILE_A_CHECKED.to_vec(), 1, one(12))];
    files.extend(plans.map(|(what, plan, budget, stated)| (what.to_string(), file_of(&plan), budget, stated)));
    for (plan, length, cost) in [(fullest(), 963, 256 * 65_535), (fullest_checked(), 1_475, 256 * 257 / 2)] {
        for (bytes, stated) in [(length - 1, Err(1)), (length, one(cost)), (length + 1, Err(4))] {
            let mut file = file_of(&plan);
            file.resize(bytes, 0);
            files.push((format!("256 arcs in {bytes} bytes of {length}"), file, 1, stated));
        }
    }
    // Arcs of the other edition are too short, or too long.
    files.push(("A in edition 2, arcs of 30 bits".to_string(), relabelled(&FILE_A, 2), 1, Err(1)));
    files.push(("A in edition 1, arcs of 46 bits".to_string(), relabelled(&FILE_A_CHECKED, 1), 1, Err(4)));
    for edition in (0..=15).filter(|edition| ![1, 2].contains(edition)) {
        files.push((format!("edition {edition}"), relabelled(&FILE_A, edition), 1, Err(2)));
        files.push((format!("edition {edition}, longer"), relabelled(&FILE_A_CHECKED, edition), 1, Err(2)));
    }
    files.into_iter().map(|(what, file, budget, stated)| Row { what, file, budget, places: 17_266, stated }).collect()
}

/// Holds reading and writing to both editions of case A and to the longest files, and to the order of refusals.
pub fn run_stated_codec(found: &mut Findings, codec: &dyn Codec) {
    let readings = [
        (&FILE_A[..], 1, case_a().arcs),
        (&FILE_A_CHECKED, 2, case_a_checked(9, &[]).arcs),
        (&FILE_A_FREE, 1, case_a_free()),
    ];
    for (file, edition, arcs) in readings {
        let mut records = vec![Arc::default(); 2];
        let told = codec.read(file, &mut records);
        let about = || format!("reading {file:02x?}: {told:?}, {records:?}");
        found.expect(Property::Stated, told == Ok((edition, 2, 2)) && records == arcs, about);
    }
    for Writing { what, edition, arcs, room, stated } in writings() {
        let mut bytes = vec![0; room];
        let told = codec.write(edition, 2, &arcs, &mut bytes);
        let good = match stated {
            Ok(file) => told == Ok(file.len()) && bytes.starts_with(file),
            Err(number) => told == Err(number),
        };
        found.expect(Property::Stated, good, || format!("writing, {what}: {told:?}, {bytes:02x?}"));
    }
    for (plan, length) in [(fullest(), 963), (fullest_checked(), 1_475)] {
        for (room, stated) in [(length - 1, Err(8)), (length, Ok(length)), (length + 1, Ok(length))] {
            let told = codec.write(plan.edition, 64, &plan.arcs, &mut vec![0; room]);
            found.expect(Property::Stated, told == stated, || format!("256 arcs into {room} bytes: {told:?}"));
        }
    }
    layout::run(found, codec);
    faults::run_codec(found, codec);
}

/// Arcs between two vertices, and the file that they are written to in an edition and so many bytes, or the refusal.
struct Writing {
    what: &'static str,
    edition: u8,
    arcs: Vec<Arc>,
    room: usize,
    stated: Result<&'static [u8], Refusal>,
}

fn writings() -> Vec<Writing> {
    let a = || case_a().arcs;
    let a_checked = || case_a_checked(9, &[]).arcs;
    let way_checked = || case_a_with(OPTIONAL, 3, 1).arcs;
    let rows = [
        ("A", 1, a(), 10, Ok(&FILE_A[..])),
        ("A in 20 bytes", 1, a(), 20, Ok(&FILE_A)),
        ("A in 9 bytes", 1, a(), 9, Err(8)),
        ("A checked at 9", 2, a_checked(), 14, Ok(&FILE_A_CHECKED)),
        ("A checked at 9 in 13 bytes", 2, a_checked(), 13, Err(8)),
        ("A checked at 9 in edition 1", 1, a_checked(), 14, Err(6)),
        ("A checked at 9 in edition 1, in 9 bytes", 1, a_checked(), 9, Err(6)),
        ("an optional arc's checking cost in edition 1", 1, way_checked(), 14, Err(6)),
        ("an optional arc's checking cost in edition 2", 2, way_checked(), 14, Err(6)),
        ("a free must arc in edition 1", 1, free_must(0).arcs, 14, Err(6)),
        ("a free must arc with a checking cost in edition 1", 1, free_must(4).arcs, 14, Err(6)),
        ("a free way in edition 1", 1, case_a_free(), 14, Ok(&FILE_A_FREE)),
        ("edition 0", 0, a(), 14, Err(2)),
        ("edition 3", 3, a(), 14, Err(2)),
        ("edition 15", 15, a(), 14, Err(2)),
        ("edition 17, which is 1 in four bits", 17, a(), 14, Err(2)),
        ("edition 18, which is 2 in four bits", 18, a_checked(), 14, Err(2)),
        ("edition 255", 255, a(), 14, Err(2)),
        ("edition 0, no arc", 0, vec![], 14, Err(2)),
        ("edition 3 in 0 bytes", 3, a_checked(), 0, Err(2)),
        ("edition 1, no arc", 1, vec![], 14, Err(3)),
    ];
    rows.map(|(what, edition, arcs, room, stated)| Writing { what, edition, arcs, room, stated }).into()
}
