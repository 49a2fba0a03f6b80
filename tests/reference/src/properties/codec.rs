//! Reading and writing.

use super::{Findings, Property};
use crate::oracle::{file_of, is_long_enough, parse, read_refusal, write_refusal};
use crate::plan::{Arc, Plan};
use crate::planner::Codec;

const FILL: Arc = Arc { tail: 0xA5, head: 0x5A, standing: 0xC3, cost: 0xA5C3, checking: 0x3C5A };
const BYTE_FILL: u8 = 0xA5;

/// Holds reading of a file into so many records, and writing of what it holds into so many bytes, in its edition and in the other, to the oracle.
pub fn examine_codec(found: &mut Findings, codec: &dyn Codec, file: &[u8], room: usize, bytes: usize) {
    examine_reading(found, codec, file, room);
    if is_long_enough(file) {
        let plan = parse(file);
        examine_writing(found, codec, &Plan { edition: 3 - plan.edition.clamp(1, 2), ..plan.clone() }, bytes);
        examine_writing(found, codec, &plan, bytes);
    }
}

fn examine_reading(found: &mut Findings, codec: &dyn Codec, file: &[u8], room: usize) {
    let mut records = vec![FILL; room];
    let result = codec.read(file, &mut records);
    let about = || format!("{result:?} with room for {room} for {file:02x?}");
    match read_refusal(file, room) {
        0 => {
            let plan = parse(file);
            let m = plan.arcs.len();
            found.expect(
                Property::Reading,
                result == Ok((plan.edition, plan.n, m)) && records[..m] == plan.arcs,
                about,
            );
            found.expect(Property::RecordsKept, records[m..].iter().all(|a| *a == FILL), about);
        }
        number => {
            found.expect(Property::Reading, result == Err(number), || format!("{number} expected: {}", about()));
            found.expect(Property::RecordsKept, records.iter().all(|a| *a == FILL), about);
        }
    }
}

/// The plan may hold what no file can.
pub fn examine_writing(found: &mut Findings, codec: &dyn Codec, plan: &Plan, room: usize) {
    let mut bytes = vec![BYTE_FILL; room];
    let result = codec.write(plan.edition, plan.n as u32, &plan.arcs, &mut bytes);
    let about = || format!("{result:?} with room for {room} for {plan:?}");
    let kept = match write_refusal(plan, room) {
        0 => {
            let file = file_of(plan);
            found.expect(Property::Writing, result == Ok(file.len()) && bytes[..file.len()] == file, about);
            &bytes[file.len()..]
        }
        number => {
            found.expect(Property::Writing, result == Err(number), || format!("{number} expected: {}", about()));
            &bytes[..]
        }
    };
    found.expect(Property::BytesKept, kept.iter().all(|&byte| byte == BYTE_FILL), about);
}
