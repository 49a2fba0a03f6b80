//! The order of refusals, in both editions: of two faults in one call the one that comes first in document 01's order is told.

use super::stated::Row;
use crate::oracle::file_of;
use crate::plan::{Arc, Plan, CLOSED, OPTIONAL, REQUIRED, SHEET_PLACES};
use crate::planner::{Codec, Refusal};
use crate::properties::{Findings, Property};

/// What a call is made with.
#[derive(Clone)]
pub(super) struct Draft {
    pub plan: Plan,
    /// Whether the file's last bit is set, which is a fill bit, and what is cut from its end.
    fill_bit: bool,
    cut: fn(usize) -> usize,
    /// Whether the sheet, the list of records or the slice of bytes is one short.
    short: bool,
    budget: u64,
}

/// The required arc, an optional one and a closed one; the ten arcs before them are a ring.
pub(super) const MUST: usize = 10;
pub(super) const MAY: usize = 11;
pub(super) const SHUT: usize = 12;

/// A call without a fault.
pub(super) fn good(edition: u8) -> Draft {
    let mut arcs: Vec<Arc> = (0..10).map(|v| Arc::new(v, (v + 1) % 10, OPTIONAL, 20 + v as u16)).collect();
    arcs.extend([Arc::new(0, 1, REQUIRED, 5), Arc::new(1, 0, OPTIONAL, 3), Arc::new(3, 3, CLOSED, 9)]);
    if edition == 2 {
        arcs[MUST].checking = 9;
    }
    Draft { plan: Plan { edition, n: 10, arcs }, fill_bit: false, cut: |length| length, short: false, budget: 10 }
}

impl Draft {
    pub fn file(&self) -> Vec<u8> {
        let mut file = file_of(&self.plan);
        *file.last_mut().expect("a file has bytes") |= u8::from(self.fill_bit);
        file.truncate((self.cut)(file.len()));
        file
    }

    /// So much room, or one less.
    fn room(&self, enough: usize) -> usize {
        enough - usize::from(self.short)
    }
}

struct Fault {
    what: &'static str,
    number: Refusal,
    /// What it cannot stand together with.
    excludes: &'static [&'static str],
    spoil: fn(&mut Draft),
}

/// In document 01's order, arc by arc.
fn faults(edition: u8) -> Vec<Fault> {
    let fault = |what, number, spoil| Fault { what, number, excludes: &[], spoil };
    let mut all = vec![
        fault("two bytes", 1, |draft| draft.cut = |_| 2),
        fault("edition 0", 2, |draft| draft.plan.edition = 0),
        fault("edition 3", 2, |draft| draft.plan.edition = 3),
        fault("edition 15", 2, |draft| draft.plan.edition = 15),
        fault("n 0", 3, |draft| draft.plan.n = 0),
        fault("n 65", 3, |draft| draft.plan.n = 65),
        fault("m 257", 3, |draft| draft.plan.arcs.resize(257, Arc::new(0, 0, CLOSED, 1))),
        fault("one byte short", 1, |draft| draft.cut = |length| length - 1),
        fault("a fill bit", 4, |draft| draft.fill_bit = true),
        fault("tail in the required arc", 5, |draft| draft.plan.arcs[MUST].tail = 10),
        fault("cost in the required arc", 6, |draft| draft.plan.arcs[MUST].cost = 0),
        fault("checking in the required arc", 6, |draft| draft.plan.arcs[MUST].checking = 0),
        fault("standing of the required arc", 7, |draft| {
            draft.plan.arcs[MUST] = Arc { standing: 3, checking: 0, ..draft.plan.arcs[MUST] }
        }),
        fault("head in the optional arc", 5, |draft| draft.plan.arcs[MAY].head = 63),
        fault("checking in the optional arc", 6, |draft| draft.plan.arcs[MAY].checking = 1),
        fault("standing of the optional arc", 7, |draft| draft.plan.arcs[MAY].standing = 3),
        fault("head in the closed arc", 5, |draft| draft.plan.arcs[SHUT].head = 11),
        fault("checking in the closed arc", 6, |draft| draft.plan.arcs[SHUT].checking = 65_535),
        fault("standing of the closed arc", 7, |draft| draft.plan.arcs[SHUT].standing = 3),
        fault("the same arc twice", 13, |draft| draft.plan.arcs[9] = draft.plan.arcs[0]),
        fault("short", 8, |draft| draft.short = true),
        fault("budget 0", 9, |draft| draft.budget = 0),
        fault("no required arc", 10, |draft| {
            draft.plan.arcs[MUST] = Arc { standing: OPTIONAL, checking: 0, ..draft.plan.arcs[MUST] }
        }),
        fault("nine parts", 11, |draft| (0..10).for_each(|v| draft.plan.arcs[v] = Arc::new(v, v, REQUIRED, 7))),
        fault("no way back", 12, |draft| [9, MAY].iter().for_each(|&k| draft.plan.arcs[k].standing = CLOSED)),
    ];
    for fault in &mut all {
        fault.excludes = match fault.what {
            "cost in the required arc" | "checking in the required arc" => {
                &["standing of the required arc", "no required arc"]
            }
            "no required arc" => &["nine parts"],
            _ => &[],
        };
    }
    // The file of edition 1 has no place for these, and in edition 2 a must arc may be free.
    all.retain(|fault| edition == 2 || !fault.what.starts_with("checking"));
    all.retain(|fault| edition == 1 || fault.what != "cost in the required arc");
    all
}

/// Each fault among these numbers alone, and each pair of them: what it is, the call, and what has to be told.
fn spoiled(edition: u8, numbers: &[Refusal]) -> Vec<(String, Draft, Refusal)> {
    let mut all = faults(edition);
    all.retain(|fault| numbers.contains(&fault.number));
    let mut drafts = Vec::new();
    for (k, first) in all.iter().enumerate() {
        for second in &all[k..] {
            if !first.excludes.contains(&second.what) {
                let mut draft = good(edition);
                (second.spoil)(&mut draft);
                (first.spoil)(&mut draft);
                drafts.push((format!("{}, {}, edition {edition}", first.what, second.what), draft, first.number));
            }
        }
    }
    drafts
}

/// Each fault among these numbers alone.
pub(super) fn spoiled_once(edition: u8, numbers: &[Refusal]) -> Vec<(&'static str, Draft, Refusal)> {
    let of = faults(edition).into_iter().filter(|fault| numbers.contains(&fault.number));
    of.map(|Fault { what, number, spoil, .. }| {
        let mut draft = good(edition);
        spoil(&mut draft);
        (what, draft, number)
    })
    .collect()
}

/// The plan call's rows. With the budget of 10 the good call is whole.
pub(super) fn rows() -> Vec<Row> {
    let numbers: Vec<Refusal> = (1..=13).collect();
    let row = |(what, draft, number): (String, Draft, Refusal)| {
        let places = draft.room(SHEET_PLACES);
        Row { what, file: draft.file(), budget: draft.budget, places, stated: Err(number) }
    };
    let mut rows: Vec<Row> = [1, 2].iter().flat_map(|&edition| spoiled(edition, &numbers)).map(row).collect();
    for (edition, cost) in [(1, 8), (2, 12)] {
        let what = format!("no fault, edition {edition}");
        rows.push(Row { what, file: good(edition).file(), budget: 10, places: 17_266, stated: Ok((cost, 1, true, 1)) });
    }
    rows
}

/// Holds reading and writing to the order of theirs.
pub(super) fn run_codec(found: &mut Findings, codec: &dyn Codec) {
    for edition in [1, 2] {
        for (what, draft, number) in spoiled(edition, &[1, 2, 3, 4, 5, 6, 7, 13, 8]) {
            let mut records = vec![Arc::default(); draft.room(draft.plan.arcs.len())];
            let told = codec.read(&draft.file(), &mut records);
            let about = || format!("reading, {what}: {told:?} instead of {number}");
            found.expect(Property::Stated, told == Err(number), about);
        }
        for (what, draft, number) in spoiled(edition, &[2, 3, 5, 6, 7, 13, 8]) {
            let Plan { edition, n, arcs } = &draft.plan;
            let mut bytes = vec![0; draft.room(draft.file().len())];
            let told = codec.write(*edition, *n as u32, arcs, &mut bytes);
            let about = || format!("writing, {what}: {told:?} instead of {number}");
            found.expect(Property::Stated, told == Err(number), about);
        }
    }
}
