//! Readers and writers that are wrong.

use super::Mutant;
use crate::oracle::{is_long_enough, parse};
use crate::plan::Arc;
use crate::planner::{refusal, Codec, Refusal};
use crate::properties::Property::*;
use crate::yardstick::Yardstick;

type Read = fn(&[u8], &mut [Arc]) -> Result<(u8, usize, usize), Refusal>;
type Write = fn(u8, u32, &[Arc], &mut [u8]) -> Result<usize, Refusal>;

struct Altered(Read, Write);

impl Codec for Altered {
    fn read(&self, bytes: &[u8], records: &mut [Arc]) -> Result<(u8, usize, usize), Refusal> {
        self.0(bytes, records)
    }

    fn write(&self, edition: u8, n: u32, records: &[Arc], bytes: &mut [u8]) -> Result<usize, Refusal> {
        self.1(edition, n, records, bytes)
    }
}

/// Reads a file that is refused by this number all the same.
fn read_despite(number: Refusal, bytes: &[u8], records: &mut [Arc]) -> Result<(u8, usize, usize), Refusal> {
    match Yardstick.read(bytes, records) {
        Err(refused) if refused == number && parse(bytes).arcs.len() <= records.len() => {
            let plan = parse(bytes);
            records[..plan.arcs.len()].copy_from_slice(&plan.arcs);
            Ok((plan.edition, plan.n, plan.arcs.len()))
        }
        result => result,
    }
}

/// The bits of an arc.
fn width(edition: u8) -> usize {
    if edition == 2 {
        46
    } else {
        30
    }
}

/// Whether two records agree in what is left of them.
fn has_twins(records: &[Arc], left: fn(&Arc) -> Arc) -> bool {
    (0..records.len()).any(|k| records[..k].iter().any(|other| left(other) == left(&records[k])))
}

pub fn mutants() -> Vec<Mutant<dyn Codec>> {
    let read: Read = |bytes, records| Yardstick.read(bytes, records);
    let write: Write = |e, n, records, bytes| Yardstick.write(e, n, records, bytes);
    let mutant = |name, violates, read, write| Mutant {
        name,
        violates,
        wrong: Box::new(Altered(read, write)) as Box<dyn Codec>,
    };
    vec![
        mutant(
            "other records cleared",
            &[RecordsKept],
            |b, r| Yardstick.read(b, r).inspect(|&(_, _, m)| r[m..].fill(Arc::default())),
            write,
        ),
        mutant(
            "records written before a refusal",
            &[RecordsKept],
            |b, r| {
                r.iter_mut().take(1).for_each(|a| *a = Arc::default());
                Yardstick.read(b, r)
            },
            write,
        ),
        mutant(
            "tail and head exchanged",
            &[Reading],
            |b, r| {
                let counts = Yardstick.read(b, r)?;
                r[..counts.2].iter_mut().for_each(|a| *a = Arc { tail: a.head, head: a.tail, ..*a });
                Ok(counts)
            },
            write,
        ),
        mutant(
            "short record list not looked at",
            &[Reading],
            |b, r| {
                let mut longer = vec![Arc::default(); 256];
                let result = Yardstick.read(b, &mut longer)?;
                let m = result.2.min(r.len());
                r[..m].copy_from_slice(&longer[..m]);
                Ok(result)
            },
            write,
        ),
        mutant("repeated arcs let through", &[Reading], |b, r| read_despite(refusal::REPEATED, b, r), write),
        mutant(
            "short list before repeated",
            &[Reading],
            |b, r| match Yardstick.read(b, r) {
                Err(refusal::REPEATED) if r.len() < parse(b).arcs.len() => Err(refusal::SHORT_SHEET),
                result => result,
            },
            write,
        ),
        mutant("repeated only next to each other", &[Writing], read, |e, n, r, b| match Yardstick.write(e, n, r, b) {
            Err(refusal::REPEATED) if r.windows(2).all(|pair| pair[0] != pair[1]) => Ok(0),
            result => result,
        }),
        mutant("repeated whatever the standing", &[Writing], read, |e, n, r, b| {
            let twins = has_twins(r, |a| Arc { standing: 0, checking: 0, ..*a });
            match Yardstick.write(e, n, r, b) {
                Ok(_) if twins => Err(refusal::REPEATED),
                result => result,
            }
        }),
        mutant("repeated whatever the checking cost", &[Writing], read, |e, n, r, b| {
            let twins = has_twins(r, |a| Arc { checking: 0, ..*a });
            match Yardstick.write(e, n, r, b) {
                Ok(_) if twins => Err(refusal::REPEATED),
                result => result,
            }
        }),
        mutant("short slice before repeated", &[Writing], read, |e, n, r, b| match Yardstick.write(e, n, r, b) {
            Err(refusal::REPEATED) if b.len() * 8 < 20 + width(e) * r.len() => Err(refusal::SHORT_SHEET),
            result => result,
        }),
        mutant("other bytes cleared", &[BytesKept], read, |e, n, r, b| {
            Yardstick.write(e, n, r, b).inspect(|&length| b[length..].fill(0))
        }),
        mutant("bytes written before a refusal", &[BytesKept], read, |e, n, r, b| {
            b.iter_mut().take(1).for_each(|byte| *byte = 0x10);
            Yardstick.write(e, n, r, b)
        }),
        mutant("fill bits left as they were", &[Writing], read, |e, n, r, b| {
            let before = b.to_vec();
            let length = Yardstick.write(e, n, r, b)?;
            let fill = length * 8 - 20 - width(e) * r.len();
            b[length - 1] |= before[length - 1] & ((1 << fill) - 1);
            Ok(length)
        }),
        mutant("wide fields cut", &[Writing], read, |e, n, r, b| {
            let cut: Vec<Arc> = r
                .iter()
                .map(|a| Arc { tail: a.tail % 64, head: a.head % 64, standing: a.standing % 4, ..*a })
                .collect();
            Yardstick.write(e, n, &cut, b)
        }),
        mutant("short slice before unpriced", &[Writing], read, |e, n, r, b| match Yardstick.write(e, n, r, b) {
            Err(refusal::UNPRICED) if b.len() < 20 => Err(refusal::SHORT_SHEET),
            result => result,
        }),
        mutant(
            "free arcs not read",
            &[Reading, Stated],
            |b, r| match Yardstick.read(b, &mut r.to_vec()) {
                Ok(_) if parse(b).arcs.iter().any(|a| a.cost == 0) => Err(refusal::UNPRICED),
                _ => Yardstick.read(b, r),
            },
            write,
        ),
        mutant("free arcs not written", &[Writing, Stated], read, |e, n, r, b| {
            match Yardstick.write(e, n, r, &mut b.to_vec()) {
                Ok(_) if r.iter().any(|a| a.cost == 0) => Err(refusal::UNPRICED),
                _ => Yardstick.write(e, n, r, b),
            }
        }),
        mutant(
            "edition 2 read with arcs of 30 bits",
            &[Reading, Stated],
            |b, r| match b {
                [first, rest @ ..] if first >> 4 == 2 => {
                    let (_, n, m) = Yardstick.read(&[&[first ^ 0x30], rest].concat(), r)?;
                    Ok((2, n, m))
                }
                _ => Yardstick.read(b, r),
            },
            write,
        ),
        mutant("edition not told", &[Reading, Stated], |b, r| Yardstick.read(b, r).map(|(_, n, m)| (1, n, m)), write),
        mutant(
            "checking cost of edition 1 left 0",
            &[Reading, Stated],
            |b, r| {
                let (edition, n, m) = Yardstick.read(b, r)?;
                if edition == 1 {
                    r[..m].iter_mut().for_each(|a| a.checking = 0);
                }
                Ok((edition, n, m))
            },
            write,
        ),
        mutant(
            "checking cost of edition 1 in every arc",
            &[Reading, Stated],
            |b, r| {
                let (edition, n, m) = Yardstick.read(b, r)?;
                if edition == 1 {
                    r[..m].iter_mut().for_each(|a| a.checking = a.cost);
                }
                Ok((edition, n, m))
            },
            write,
        ),
        mutant(
            "checking cost untested in reading",
            &[Reading, Stated],
            |b, r| {
                let priced = !is_long_enough(b) || parse(b).arcs.iter().all(|a| a.cost > 0 && a.standing < 3);
                if priced {
                    read_despite(refusal::UNPRICED, b, r)
                } else {
                    Yardstick.read(b, r)
                }
            },
            write,
        ),
        mutant(
            "standing before cost in reading",
            &[Reading, Stated],
            |b, r| match Yardstick.read(b, r) {
                Err(refusal::UNPRICED) if parse(b).arcs.iter().any(|a| a.standing == 3) => Err(refusal::STANDING),
                result => result,
            },
            write,
        ),
        mutant("standing before cost in writing", &[Writing, Stated], read, |e, n, r, b| {
            match Yardstick.write(e, n, r, b) {
                Err(refusal::UNPRICED) if r.iter().any(|a| a.standing > 2) => Err(refusal::STANDING),
                result => result,
            }
        }),
        mutant("checking cost of other arcs untested in writing", &[Writing, Stated], read, |e, n, r, b| {
            let tested: Vec<Arc> =
                r.iter().map(|a| if a.standing == 1 { *a } else { Arc { checking: 0, ..*a } }).collect();
            Yardstick.write(e, n, &tested, b)
        }),
        mutant("another checking cost lost in edition 1", &[Writing, Stated], read, |e, n, r, b| {
            let lost =
                |a: &Arc| Arc { checking: if a.standing == 1 && a.checking > 0 { a.cost } else { a.checking }, ..*a };
            let lost: Vec<Arc> = r.iter().map(|a| if e == 1 { lost(a) } else { *a }).collect();
            Yardstick.write(e, n, &lost, b)
        }),
        mutant("checking cost written in edition 1 too", &[Writing, Stated], read, |e, n, r, b| {
            let mut wide = vec![0; b.len()];
            let length = Yardstick.write(e, n, r, b)?;
            match Yardstick.write(2, n, r, &mut wide) {
                Ok(longer) if e == 1 => {
                    b[..longer].copy_from_slice(&wide[..longer]);
                    b[0] ^= 0x30;
                    Ok(longer)
                }
                _ => Ok(length),
            }
        }),
        mutant("edition cut to four bits", &[Writing, Stated], read, |e, n, r, b| Yardstick.write(e & 15, n, r, b)),
        mutant("edition 1 written whatever is asked", &[Writing, Stated], read, |_, n, r, b| {
            Yardstick.write(1, n, r, b)
        }),
        mutant("extent before edition in writing", &[Writing, Stated], read, |e, n, r, b| {
            match Yardstick.write(e, n, r, b) {
                Err(refusal::EDITION) if n == 0 || n > 64 || r.is_empty() || r.len() > 256 => Err(refusal::EXTENT),
                result => result,
            }
        }),
        mutant("short slice before another checking cost", &[Writing, Stated], read, |e, n, r, b| {
            match Yardstick.write(e, n, r, b) {
                Err(refusal::UNPRICED) if b.len() * 8 < 20 + width(e) * r.len() => Err(refusal::SHORT_SHEET),
                result => result,
            }
        }),
    ]
}
