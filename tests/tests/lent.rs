//! What is lent to the functions of the library, byte by byte, through the package's `raw` functions: a refusal moves none of it, and a machine of
//! districts is its bytes, whatever they are.
#![cfg(feature = "proved")]

use postman::limits::{ANSWER_WORDS, COST, DISTRICTS_BYTES, FINISHED, NO_DISTRICT, PLACES, RECORD_BYTES, TREES};
use postman::raw;
use postman_tests::instances::joined_loops;
use postman_tests::oracle::{file_of, judge, parse};
use postman_tests::plan::{LONGEST_FILE, MOST_VERTICES, SHEET_PLACES};
use postman_tests::random::Random;
use postman_tests::suite::FILE_A;

/// An answer that is lent to a call: its words and its multipliers.
type Lent = ([u64; ANSWER_WORDS], [i64; MOST_VERTICES]);

/// A refusal changes nothing that is lent.
#[test]
fn refusals_keep_what_is_lent() {
    let mut sheet = [0xA5A5; 9];
    let mut answer = [0xA5A5_A5A5_A5A5_A5A5; ANSWER_WORDS];
    let mut multipliers = [-0x5A5A_5A5A; MOST_VERTICES];
    let mut record = [0xA5; RECORD_BYTES];
    let mut bytes = [0xA5; LONGEST_FILE];
    let file = [0x30, 0x40, 0x20]; // edition 3
    let edition = postman::Refusal::Edition;
    assert_eq!(raw::plan_call(&file, 1, &mut sheet, &mut answer, &mut multipliers), Err(edition));
    assert_eq!(raw::deep_call(&file, 1, 1, &mut sheet, &mut answer, &mut multipliers), Err(edition));
    assert_eq!(raw::short_call(&file, &mut sheet, &mut answer, &mut multipliers), Err(edition));
    assert_eq!(raw::read_plan(&file, &mut record), Err(edition));
    let mut others = (sheet, answer, multipliers);
    let mut cars = |file: &[u8], budget| {
        let (marks, sheet, answer, multipliers) = (&[1, 0][..], &mut sheet, &mut answer, &mut multipliers);
        let first = raw::Car { marks, budget, sheet, answer, multipliers };
        let (sheet, answer, multipliers) = (&mut others.0, &mut others.1, &mut others.2);
        raw::two_cars(file, first, raw::Car { marks, budget, sheet, answer, multipliers })
    };
    assert_eq!(cars(&file, 1), Err(edition));
    let short = Err(postman::Refusal::ShortSheet);
    assert_eq!(cars(&[0x10, 0x40, 0x20, 0x01, 0x40, 0x01, 0x41, 0x00, 0x00, 0x03], 1), Ok([short, short]));
    assert_eq!(others, (sheet, answer, multipliers));
    let records = [0, 0, 0, 0, 1, 0, 0];
    assert_eq!(raw::write_plan(3, 1, &records, &mut bytes), Err(edition));
    assert_eq!(raw::write_plan(1, 65, &records, &mut bytes), Err(postman::Refusal::Extent));
    assert_eq!(sheet, [0xA5A5; 9]);
    assert_eq!(answer, [0xA5A5_A5A5_A5A5_A5A5; ANSWER_WORDS]);
    assert_eq!(multipliers, [-0x5A5A_5A5A; MOST_VERTICES]);
    assert_eq!(record, [0xA5; RECORD_BYTES]);
    assert_eq!(bytes, [0xA5; LONGEST_FILE]);
}

/// Bytes after a machine that no call may touch.
const MORE: usize = 9;
const FILL: u8 = 0xA5;

/// What a call is lent, filled with what no call writes.
fn filled() -> (Vec<u16>, Lent) {
    (vec![0xA5A5; SHEET_PLACES], ([0xA5A5_A5A5_A5A5; 6], [-0x5A5A_5A5A; 64]))
}

/// A turn of lent bytes: what it told, and the sheet, the words and the multipliers afterwards.
fn turn(machine: &mut [u8], places: usize) -> (Result<usize, postman::Refusal>, (Vec<u16>, Lent)) {
    let (mut sheet, mut lent) = filled();
    let told = raw::turn(machine, &mut sheet[..places], &mut lent.0, &mut lent.1);
    (told, (sheet, lent))
}

fn started(bytes: usize) -> Vec<u8> {
    let mut machine = vec![FILL; bytes];
    assert_eq!(raw::districts_start(&mut machine), Ok(()));
    machine
}

fn many_trees() -> Vec<u8> {
    file_of(&joined_loops(&mut Random::new(1), 7))
}

/// A turn before the last fills cost and trees, and else the words with 0; the multipliers and the sheet are the last turn's.
#[test]
fn turns_before_the_last_fill_two_words() {
    let mut machine = started(DISTRICTS_BYTES);
    assert_eq!(raw::enter(&mut machine, &many_trees(), 1_001), Ok(0));
    let (told, (sheet, (words, multipliers))) = turn(&mut machine, SHEET_PLACES);
    let mut two = [0; 6];
    (two[COST], two[TREES]) = (words[COST], 1_000);
    assert_eq!((told, words), (Ok(0), two));
    assert!(two[COST] > 0);
    let (kept, lent) = filled();
    assert_eq!((sheet, multipliers), (kept, lent.1));
    let (told, (_, (words, multipliers))) = turn(&mut machine, SHEET_PLACES);
    assert_eq!((told, words[TREES]), (Ok(FINISHED), 1_001));
    assert!(!multipliers.contains(&lent.1[0]));
}

/// A refused entry, a short sheet, and a turn with no district inside change no lent byte; nor does a slice that no machine fits into.
#[test]
fn nothing_that_is_lent_moves() {
    let short = Err(postman::Refusal::ShortSheet);
    let mut few = vec![FILL; DISTRICTS_BYTES - 1];
    assert_eq!(raw::districts_start(&mut few), Err(postman::Refusal::ShortSheet));
    assert_eq!(raw::enter(&mut few, &FILE_A, 1), short);
    assert_eq!(turn(&mut few, SHEET_PLACES), (short, filled()));
    assert_eq!(few, vec![FILL; DISTRICTS_BYTES - 1]);

    let mut machine = started(DISTRICTS_BYTES);
    for places in [SHEET_PLACES, SHEET_PLACES - 1, 0] {
        assert_eq!(turn(&mut machine, places), (Ok(NO_DISTRICT), filled()));
    }
    assert_eq!(machine, started(DISTRICTS_BYTES));
    for place in 0..8 {
        assert_eq!(raw::enter(&mut machine, &many_trees(), 5_000), Ok(place));
    }
    let before = machine.clone();
    assert_eq!(raw::enter(&mut machine, &FILE_A, 1), Err(postman::Refusal::Full));
    assert_eq!(raw::enter(&mut machine, &FILE_A[..9], 1), Err(postman::Refusal::Torn));
    assert_eq!(raw::enter(&mut machine, &FILE_A, 0), Err(postman::Refusal::Budget));
    assert_eq!(turn(&mut machine, SHEET_PLACES - 1), (short, filled()));
    assert_eq!(machine, before);
}

/// A slice that is longer, and a machine that is copied between calls, tell the same.
#[test]
fn machines_are_their_bytes() {
    let (mut machine, mut longer) = (started(DISTRICTS_BYTES), started(DISTRICTS_BYTES + MORE));
    for number in 0..40 {
        machine = machine.clone();
        if number % 3 == 0 {
            let told = raw::enter(&mut machine, &many_trees(), 1_000 + number);
            assert_eq!(raw::enter(&mut longer, &many_trees(), 1_000 + number), told);
        }
        assert_eq!(turn(&mut longer, SHEET_PLACES), turn(&mut machine, SHEET_PLACES));
        assert_eq!(longer[..DISTRICTS_BYTES], machine);
    }
    assert_eq!(longer[DISTRICTS_BYTES..], [FILL; MORE]);
}

/// The front district's place and file, what it holds behind its file, the number of those that wait, and all.
const FIELDS: [std::ops::Range<usize>; 4] =
    [0..200, 1_484..1_516, DISTRICTS_BYTES - 8..DISTRICTS_BYTES, 0..DISTRICTS_BYTES];

/// Random bytes, or some bytes of the machine changed.
fn disturb(random: &mut Random, machine: &mut [u8]) {
    if random.once_in(10) {
        return machine[..DISTRICTS_BYTES].fill_with(|| random.bits() as u8);
    }
    for _ in 0..random.pick(&[1, 1, 2, 3, 30]) {
        let field = FIELDS[random.below(4)].clone();
        let any = random.bits() as u8;
        machine[random.within(field.start..=field.end - 1)] = random.pick(&[0, 1, 8, 255, any, any]);
    }
}

/// The file of the front district.
fn front_file(machine: &[u8]) -> Vec<u8> {
    let length = machine[1..9].iter().fold(0, |length, &byte| length << 8 | usize::from(byte));
    machine[9..9 + length].to_vec()
}

/// Any bytes are a machine: random ones, and those of a machine under way with some changed. Calls come back, keep to the machine's bytes, and move nothing
/// in a refusal; and what is written on a sheet is a drive of the front district's plan.
#[test]
fn any_bytes_are_a_machine() {
    let random = &mut Random::new(1);
    let mut under_way = started(DISTRICTS_BYTES + MORE);
    for budget in [1_500, 3_000, 2, 1_000_000, 2_000] {
        assert!(raw::enter(&mut under_way, &many_trees(), budget).is_ok());
    }
    (0..2).for_each(|_| assert!(turn(&mut under_way, SHEET_PLACES).0.is_ok()));
    let (mut moved, mut laid) = (0, 0);
    for _ in 0..400 {
        let mut machine = under_way.clone();
        disturb(random, &mut machine);
        for _ in 0..6 {
            let before = machine.clone();
            let (told, (sheet, (words, _))) = turn(&mut machine, SHEET_PLACES - random.pick(&[0, 0, 0, 1]));
            assert!(told.is_ok() || (&machine, &sheet) == (&before, &filled().0), "{told:?}");
            moved += usize::from(machine != before);
            if sheet != filled().0 {
                let (drive, rest) = sheet.split_at(words[PLACES] as usize);
                assert!(judge(&parse(&front_file(&before)), drive).is_ok(), "{told:?}");
                assert!(rest.iter().all(|&place| place == filled().0[0]));
                laid += 1;
            }
            let before = machine.clone();
            let entry = raw::enter(&mut machine, &FILE_A, random.pick(&[0, 1, 7]));
            assert!(entry.is_ok() || machine == before, "{entry:?}");
            assert_eq!(machine[DISTRICTS_BYTES..], [FILL; MORE]);
        }
    }
    assert!(moved > 200 && laid > 50, "{moved} turns of districts, {laid} drives");
}
