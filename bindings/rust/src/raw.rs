//! The library's functions over slices of the caller's, just as `include/postman.h` has them.
//!
//! The functions ask nothing but what C does: a pointer and the length behind it belong together, and a slice that may be changed overlaps no
//! other. Rust's references give both, so these calls are safe. A refusal changes no lent slice; one of a car alone changes none of that car's.
//!
//! ```
//! use postman::limits::{ANSWER_WORDS, COST, PLACES, SHEET_PLACES};
//! use postman::raw;
//!
//! let (mut sheet, mut answer) = ([0; SHEET_PLACES], [0; ANSWER_WORDS]);
//! let file = [0x10, 0x40, 0x20, 0x01, 0x40, 0x01, 0x41, 0x00, 0x00, 0x03];
//! raw::plan_call(&file, 10, &mut sheet, &mut answer, &mut [])?;
//! assert_eq!((answer[COST], &sheet[..answer[PLACES] as usize]), (8, &[0, 1][..]));
//! # Ok::<(), postman::Refusal>(())
//! ```

use crate::ffi;
use crate::limits::{COUNTS, EDITIONS, FIRST_CAR};
use crate::Refusal;

/// What was asked for, or the refusal: minus its number.
fn unless_refused(number: i64) -> Result<usize, Refusal> {
    usize::try_from(number).map_err(|_| {
        let refusal = u32::try_from(number.unsigned_abs()).ok().and_then(Refusal::from_number);
        refusal.unwrap_or_else(|| panic!("the library answers {number}, which is no refusal"))
    })
}

/// Reads the file `plan`: its edition, and its numbers of vertices and arcs, n and m. Refuses with 1 to 8 and 13.
///
/// `records` has room for a seventh of its bytes, and bytes left over are no record. The file's arcs are put into its first m records; later
/// bytes are untouched. With fewer than m records it is refused with 8.
///
/// ```
/// let file = [0x10, 0x40, 0x20, 0x01, 0x40, 0x01, 0x41, 0x00, 0x00, 0x03];
/// let mut records = [0xFF; 16];
/// assert_eq!(postman::raw::read_plan(&file, &mut records), Ok((1, 2, 2)));
/// assert_eq!(records, [0, 1, 1, 0, 5, 0, 5, 1, 0, 0, 0, 3, 0, 0, 0xFF, 0xFF]);
/// ```
pub fn read_plan(plan: &[u8], records: &mut [u8]) -> Result<(u8, usize, usize), Refusal> {
    // SAFETY: each pointer comes with the length of its own slice, and those that may be changed overlap no other.
    let number = unsafe { ffi::postman_read_plan(plan.as_ptr(), plan.len(), records.as_mut_ptr(), records.len()) };
    let told = unless_refused(number)?;
    let edition = u8::try_from(told / EDITIONS).expect("an edition is 1 or 2");
    Ok((edition, told % EDITIONS / COUNTS, told % COUNTS))
}

/// Writes the file of an edition, of `n` vertices and the arcs `records`: the file's length in bytes. Refuses with 2, 3, 5 to 8 and 13.
///
/// m is a seventh of the bytes of `records`, and bytes left over are no record. The file is put into `bytes` from its start; later bytes are
/// untouched. With fewer bytes than the file has it is refused with 8;
/// [`LONGEST_FILE`](crate::limits::LONGEST_FILE) always suffice.
///
/// ```
/// let mut bytes = [0xFF; 12];
/// let records = [0, 1, 1, 0, 5, 0, 5, 1, 0, 0, 0, 3, 0, 0];
/// assert_eq!(postman::raw::write_plan(1, 2, &records, &mut bytes), Ok(10));
/// assert_eq!(bytes, [0x10, 0x40, 0x20, 0x01, 0x40, 0x01, 0x41, 0x00, 0x00, 0x03, 0xFF, 0xFF]);
/// ```
pub fn write_plan(edition: u32, n: u32, records: &[u8], bytes: &mut [u8]) -> Result<usize, Refusal> {
    // SAFETY: as in `read_plan`.
    unless_refused(unsafe {
        ffi::postman_write_plan(edition, n, records.as_ptr(), records.len(), bytes.as_mut_ptr(), bytes.len())
    })
}

/// The plan call on lent slices: lays a closed drive for the file `plan`, trying at most `budget` trees. Refuses with 1 to 13.
///
/// `sheet` takes the drive's arc numbers from its start, the lowest required arc first; the answer's word
/// [`PLACES`](crate::limits::PLACES) says how many. Later places are untouched. With fewer than
/// [`SHEET_PLACES`](crate::limits::SHEET_PLACES) places it is refused with 8. `answer` takes the
/// [`ANSWER_WORDS`](crate::limits::ANSWER_WORDS) words, and `multipliers` the [`MULTIPLIERS`](crate::limits::MULTIPLIERS) multipliers: as
/// many as fit, from the start, and later elements are untouched.
///
/// ```
/// use postman::limits::{ANSWER_WORDS, COST, FLOOR, MULTIPLIERS, PLACES, SHEET_PLACES};
///
/// let file = [0x10, 0x40, 0x20, 0x01, 0x40, 0x01, 0x41, 0x00, 0x00, 0x03];
/// let mut sheet = vec![0; SHEET_PLACES];
/// let (mut answer, mut multipliers) = ([0; ANSWER_WORDS], [0; MULTIPLIERS]);
/// postman::raw::plan_call(&file, 10_000, &mut sheet, &mut answer, &mut multipliers)?;
/// assert_eq!((answer[PLACES], answer[COST], answer[FLOOR]), (2, 8, 8));
/// assert_eq!(sheet[..2], [0, 1]);
/// # Ok::<(), postman::Refusal>(())
/// ```
pub fn plan_call(
    plan: &[u8],
    budget: u64,
    sheet: &mut [u16],
    answer: &mut [u64],
    multipliers: &mut [i64],
) -> Result<(), Refusal> {
    // SAFETY: as in `read_plan`.
    unless_refused(unsafe {
        ffi::postman_plan_call(
            plan.as_ptr(),
            plan.len(),
            budget,
            sheet.as_mut_ptr(),
            sheet.len(),
            answer.as_mut_ptr(),
            answer.len(),
            multipliers.as_mut_ptr(),
            multipliers.len(),
        )
    })
    .map(|_| ())
}

/// The deep call on lent slices: rounds of [`plan_call`], of which the cheapest drive and the highest floor are answered. Refuses with 1 to 13, and
/// with 23 where the rounds are 0 or above [`MOST_ROUNDS`](crate::limits::MOST_ROUNDS). The words are as in a plan call, but
/// [`WHOLE`](crate::limits::WHOLE) says that floor and cost are equal, and [`TREES`](crate::limits::TREES) are those of all rounds.
///
/// ```
/// use postman::limits::{ANSWER_WORDS, COST, FLOOR, MULTIPLIERS, SHEET_PLACES, WHOLE};
///
/// let file = [0x10, 0x40, 0x20, 0x01, 0x40, 0x01, 0x41, 0x00, 0x00, 0x03];
/// let mut sheet = vec![0; SHEET_PLACES];
/// let (mut answer, mut multipliers) = ([0; ANSWER_WORDS], [0; MULTIPLIERS]);
/// postman::raw::deep_call(&file, 10_000, 100, &mut sheet, &mut answer, &mut multipliers)?;
/// assert_eq!((answer[COST], answer[FLOOR], answer[WHOLE]), (8, 8, 1));
/// # Ok::<(), postman::Refusal>(())
/// ```
pub fn deep_call(
    plan: &[u8],
    budget: u64,
    rounds: u32,
    sheet: &mut [u16],
    answer: &mut [u64],
    multipliers: &mut [i64],
) -> Result<(), Refusal> {
    // SAFETY: as in `read_plan`.
    unless_refused(unsafe {
        ffi::postman_deep_call(
            plan.as_ptr(),
            plan.len(),
            budget,
            rounds,
            sheet.as_mut_ptr(),
            sheet.len(),
            answer.as_mut_ptr(),
            answer.len(),
            multipliers.as_mut_ptr(),
            multipliers.len(),
        )
    })
    .map(|_| ())
}

/// The short call on lent slices: [`plan_call`] with a budget of [`DEFAULT_BUDGET`](crate::limits::DEFAULT_BUDGET). It never refuses with 9.
///
/// ```
/// let refused = postman::raw::short_call(&[0x10, 0x40], &mut [], &mut [], &mut []);
/// assert_eq!(refused, Err(postman::Refusal::Torn));
/// ```
pub fn short_call(plan: &[u8], sheet: &mut [u16], answer: &mut [u64], multipliers: &mut [i64]) -> Result<(), Refusal> {
    // SAFETY: as in `read_plan`.
    unless_refused(unsafe {
        ffi::postman_short_call(
            plan.as_ptr(),
            plan.len(),
            sheet.as_mut_ptr(),
            sheet.len(),
            answer.as_mut_ptr(),
            answer.len(),
            multipliers.as_mut_ptr(),
            multipliers.len(),
        )
    })
    .map(|_| ())
}

/// The plan call at a departure, on lent slices: [`plan_call`] with the arcs closed that are shut at that minute of that weekday. Refuses with 1 to
/// 13, 19 and 20.
///
/// `windows` has [`WINDOW_NUMBERS`](crate::limits::WINDOW_NUMBERS) numbers a window: arc, weekday, from, to. A window of the departure's weekday
/// shuts its arc if from ≤ minute < to. A length that is no multiple of four is refused with 19.
///
/// ```
/// use postman::limits::SHEET_PLACES;
///
/// let file = [0x10, 0x40, 0x20, 0x01, 0x40, 0x01, 0x41, 0x00, 0x00, 0x03];
/// let mut sheet = vec![0; SHEET_PLACES];
/// let mut call = |windows: &[u16]| postman::raw::plan_call_at(&file, 1, windows, 2, 540, &mut sheet, &mut [], &mut []);
/// assert_eq!(call(&[]), Ok(()));
/// assert_eq!(call(&[1, 2, 480, 720]), Err(postman::Refusal::CutOff));
/// assert_eq!(call(&[1, 3, 480, 720]), Ok(()));
/// assert_eq!(call(&[0, 2, 480, 720]), Err(postman::Refusal::MustShut));
/// assert_eq!(call(&[1, 2, 480]), Err(postman::Refusal::BadWindow));
/// ```
#[allow(clippy::too_many_arguments)]
pub fn plan_call_at(
    plan: &[u8],
    budget: u64,
    windows: &[u16],
    weekday: u32,
    minute: u32,
    sheet: &mut [u16],
    answer: &mut [u64],
    multipliers: &mut [i64],
) -> Result<(), Refusal> {
    // SAFETY: as in `read_plan`.
    unless_refused(unsafe {
        ffi::postman_plan_call_at(
            plan.as_ptr(),
            plan.len(),
            budget,
            windows.as_ptr(),
            windows.len(),
            weekday,
            minute,
            sheet.as_mut_ptr(),
            sheet.len(),
            answer.as_mut_ptr(),
            answer.len(),
            multipliers.as_mut_ptr(),
            multipliers.len(),
        )
    })
    .map(|_| ())
}

/// What a car lends to the call for two.
///
/// ```
/// use postman::limits::{ANSWER_WORDS, MULTIPLIERS, SHEET_PLACES};
/// use postman::raw::Car;
///
/// let mut sheet = vec![0; SHEET_PLACES];
/// let (mut answer, mut multipliers) = ([0; ANSWER_WORDS], [0; MULTIPLIERS]);
/// let car = Car { marks: &[1, 0], budget: 10, sheet: &mut sheet, answer: &mut answer, multipliers: &mut multipliers };
/// assert_eq!(car.marks.len(), 2);
/// ```
pub struct Car<'a> {
    /// A byte for each arc: 1 if the car must drive it, else 0.
    pub marks: &'a [u8],
    /// The most trees to try.
    pub budget: u64,
    /// Takes the car's drive, as in [`plan_call`].
    pub sheet: &'a mut [u16],
    /// Takes the words of its answer.
    pub answer: &'a mut [u64],
    /// Takes its multipliers.
    pub multipliers: &'a mut [i64],
}

/// A car's own refusal: its number, or 0 for none.
fn of_car(number: usize) -> Result<(), Refusal> {
    let number = i64::try_from(number).expect("a number below the first car's factor");
    unless_refused(-number).map(|_| ())
}

/// The call for two cars on lent slices: [`plan_call`] for each, on a plan of its own in which the arcs with the mark 1 must be driven, at their
/// checking cost if they have one, else at their cost, and those with the mark 0 may be. Refuses both with 1 to 7 and 13; else each car is answered or
/// refused by itself, with 8, 9, 18 and 10 to 12, in this order.
///
/// ```
/// use postman::limits::SHEET_PLACES;
/// use postman::raw::{two_cars, Car};
/// use postman::Refusal;
///
/// let file = [0x10, 0x40, 0x20, 0x01, 0x40, 0x01, 0x41, 0x00, 0x00, 0x03];
/// let mut sheets = [vec![7; SHEET_PLACES], vec![7; SHEET_PLACES]];
/// let [first, second] = &mut sheets;
/// let marked = Car { marks: &[0, 1], budget: 1, sheet: first, answer: &mut [], multipliers: &mut [] };
/// let bad = Car { marks: &[0, 2], budget: 1, sheet: second, answer: &mut [], multipliers: &mut [] };
/// assert_eq!(two_cars(&file, marked, bad), Ok([Ok(()), Err(Refusal::BadMarks)]));
/// assert_eq!((&sheets[0][..3], &sheets[1][..3]), (&[1, 0, 7][..], &[7, 7, 7][..]));
/// ```
pub fn two_cars(plan: &[u8], first: Car, second: Car) -> Result<[Result<(), Refusal>; 2], Refusal> {
    // SAFETY: as in `read_plan`.
    let told = unless_refused(unsafe {
        ffi::postman_two_cars(
            plan.as_ptr(),
            plan.len(),
            first.marks.as_ptr(),
            first.marks.len(),
            first.budget,
            first.sheet.as_mut_ptr(),
            first.sheet.len(),
            first.answer.as_mut_ptr(),
            first.answer.len(),
            first.multipliers.as_mut_ptr(),
            first.multipliers.len(),
            second.marks.as_ptr(),
            second.marks.len(),
            second.budget,
            second.sheet.as_mut_ptr(),
            second.sheet.len(),
            second.answer.as_mut_ptr(),
            second.answer.len(),
            second.multipliers.as_mut_ptr(),
            second.multipliers.len(),
        )
    })?;
    Ok([told / FIRST_CAR, told % FIRST_CAR].map(of_car))
}

/// Opens the file `plan` for changes: `state` takes the open plan, with no mark set. Refuses with 1 to 7 and 13, and with 8 if `state` has fewer than
/// [`OPEN_BYTES`](crate::limits::OPEN_BYTES) bytes. Later bytes are untouched, here and in [`change`], [`mark`] and [`return_to`].
///
/// ```
/// use postman::limits::OPEN_BYTES;
/// use postman::raw::{change, mark, open, return_to};
/// use postman::Refusal;
///
/// let file = [0x10, 0x40, 0x20, 0x01, 0x40, 0x01, 0x41, 0x00, 0x00, 0x03];
/// let mut state = vec![0; OPEN_BYTES];
/// open(&file, &mut state)?;
/// assert_eq!((state[..2].to_vec(), &state[2..12]), (vec![0, 10], &file[..]));
///
/// mark(&mut state, 0)?;
/// change(&mut state, 1, 9, 0, 0)?;
/// assert_eq!(state[11], 0x09);
/// assert_eq!(change(&mut state, 2, 9, 0, 0), Err(Refusal::Foreign));
/// return_to(&mut state, 0)?;
/// assert_eq!(&state[2..12], &file[..]);
/// assert_eq!(return_to(&mut state, 1), Err(Refusal::NoMark));
/// # Ok::<(), Refusal>(())
/// ```
pub fn open(plan: &[u8], state: &mut [u8]) -> Result<(), Refusal> {
    // SAFETY: as in `read_plan`.
    unless_refused(unsafe { ffi::postman_open(plan.as_ptr(), plan.len(), state.as_mut_ptr(), state.len()) }).map(|_| ())
}

/// Changes one arc of an open plan: its cost, its checking cost and its standing. Refuses with 14 for an arc that the plan does not have, else with
/// what writing the changed plan in its edition is refused for: 6, 7 or 13. Any bytes are a state; one that is too short is refused with 8 first, and
/// one whose plan does not read for what reading refuses.
///
/// ```
/// use postman::limits::OPEN_BYTES;
/// use postman::{raw, Refusal};
///
/// let mut state = [0; OPEN_BYTES];
/// raw::open(&[0x10, 0x40, 0x20, 0x01, 0x40, 0x01, 0x41, 0x00, 0x00, 0x03], &mut state)?;
/// assert_eq!(raw::change(&mut state, 1, 4, 0, 0), Ok(()));
/// assert_eq!(raw::change(&mut state, 2, 4, 0, 0), Err(Refusal::Foreign));
/// # Ok::<(), Refusal>(())
/// ```
pub fn change(state: &mut [u8], arc: u32, cost: u16, checking: u16, standing: u8) -> Result<(), Refusal> {
    // SAFETY: as in `read_plan`.
    unless_refused(unsafe { ffi::postman_change(state.as_mut_ptr(), state.len(), arc, cost, checking, standing) })
        .map(|_| ())
}

/// Sets a mark of an open plan: it holds the plan as it is now. Refuses with 21 above 3, and with 8 as [`change`] does.
///
/// ```
/// use postman::limits::OPEN_BYTES;
/// use postman::{raw, Refusal};
///
/// let mut state = [0; OPEN_BYTES];
/// raw::open(&[0x10, 0x40, 0x20, 0x01, 0x40, 0x01, 0x41, 0x00, 0x00, 0x03], &mut state)?;
/// assert_eq!(raw::mark(&mut state, 3), Ok(()));
/// assert_eq!(raw::mark(&mut state, 4), Err(Refusal::NoMark));
/// # Ok::<(), Refusal>(())
/// ```
pub fn mark(state: &mut [u8], mark: u32) -> Result<(), Refusal> {
    // SAFETY: as in `read_plan`.
    unless_refused(unsafe { ffi::postman_mark(state.as_mut_ptr(), state.len(), mark) }).map(|_| ())
}

/// Returns to a mark of an open plan, and keeps all marks. Refuses with 21 above 3 and for a mark that was never set, and with 8 as [`change`] does.
///
/// ```
/// use postman::limits::OPEN_BYTES;
/// use postman::{raw, Refusal};
///
/// let mut state = [0; OPEN_BYTES];
/// raw::open(&[0x10, 0x40, 0x20, 0x01, 0x40, 0x01, 0x41, 0x00, 0x00, 0x03], &mut state)?;
/// assert_eq!(raw::return_to(&mut state, 0), Err(Refusal::NoMark));
/// raw::mark(&mut state, 0)?;
/// assert_eq!(raw::return_to(&mut state, 0), Ok(()));
/// # Ok::<(), Refusal>(())
/// ```
pub fn return_to(state: &mut [u8], mark: u32) -> Result<(), Refusal> {
    // SAFETY: as in `read_plan`.
    unless_refused(unsafe { ffi::postman_return(state.as_mut_ptr(), state.len(), mark) }).map(|_| ())
}

/// The plan call at a departure for an open plan: what [`plan_call_at`] answers for its file. Refuses with 8 first if `state` is too short.
///
/// ```
/// use postman::limits::{ANSWER_WORDS, COST, OPEN_BYTES, SHEET_PLACES};
/// use postman::{raw, Refusal};
///
/// let mut state = [0; OPEN_BYTES];
/// raw::open(&[0x10, 0x40, 0x20, 0x01, 0x40, 0x01, 0x41, 0x00, 0x00, 0x03], &mut state)?;
/// let (mut sheet, mut answer) = (vec![0; SHEET_PLACES], [0; ANSWER_WORDS]);
/// raw::ask(&state, 10, &[], 0, 480, &mut sheet, &mut answer, &mut [])?;
/// assert_eq!(answer[COST], 8);
/// # Ok::<(), Refusal>(())
/// ```
#[allow(clippy::too_many_arguments)]
pub fn ask(
    state: &[u8],
    budget: u64,
    windows: &[u16],
    weekday: u32,
    minute: u32,
    sheet: &mut [u16],
    answer: &mut [u64],
    multipliers: &mut [i64],
) -> Result<(), Refusal> {
    // SAFETY: as in `read_plan`.
    unless_refused(unsafe {
        ffi::postman_ask(
            state.as_ptr(),
            state.len(),
            budget,
            windows.as_ptr(),
            windows.len(),
            weekday,
            minute,
            sheet.as_mut_ptr(),
            sheet.len(),
            answer.as_mut_ptr(),
            answer.len(),
            multipliers.as_mut_ptr(),
            multipliers.len(),
        )
    })
    .map(|_| ())
}

/// Makes `machine` a machine of districts with no district inside. It takes [`DISTRICTS_BYTES`](crate::limits::DISTRICTS_BYTES) bytes; later bytes are
/// untouched, here and in [`enter`] and [`turn`]. A shorter one is refused with 8, before all else.
///
/// ```
/// use postman::limits::DISTRICTS_BYTES;
/// use postman::{raw, Refusal};
///
/// assert_eq!(raw::districts_start(&mut [1; DISTRICTS_BYTES]), Ok(()));
/// assert_eq!(raw::districts_start(&mut [1; DISTRICTS_BYTES - 1]), Err(Refusal::ShortSheet));
/// ```
pub fn districts_start(machine: &mut [u8]) -> Result<(), Refusal> {
    // SAFETY: as in `read_plan`.
    unless_refused(unsafe { ffi::postman_districts_start(machine.as_mut_ptr(), machine.len()) }).map(|_| ())
}

/// A district enters a machine at the back of the line, with the file `plan` and a budget: its place, the lowest that is free. Refuses with 1 to 7, 9 to
/// 13, and 22 where eight districts are unfinished; then nothing moves.
///
/// ```
/// use postman::limits::DISTRICTS_BYTES;
/// use postman::{raw, Refusal};
///
/// let mut machine = [0; DISTRICTS_BYTES];
/// raw::districts_start(&mut machine)?;
/// assert_eq!(raw::enter(&mut machine, &[0x10, 0x40, 0x20, 0x01, 0x40, 0x01, 0x41, 0x00, 0x00, 0x03], 10), Ok(0));
/// assert_eq!(raw::enter(&mut machine, &[], 10), Err(Refusal::Torn));
/// # Ok::<(), Refusal>(())
/// ```
pub fn enter(machine: &mut [u8], plan: &[u8], budget: u64) -> Result<usize, Refusal> {
    // SAFETY: as in `read_plan`.
    unless_refused(unsafe {
        ffi::postman_enter(machine.as_mut_ptr(), machine.len(), plan.as_ptr(), plan.len(), budget)
    })
}

/// A turn of a machine's front district: it tries 1,000 trees, or those that are left. Its place, if it is not finished: `answer` has the least cost and the
/// trees tried so far then, and 0 in its other words; sheet and multipliers are untouched. [`FINISHED`] plus its place in its last turn: sheet, `answer` and
/// multipliers have what one [`plan_call`] gives, and its place is free. [`NO_DISTRICT`] with no district inside, and then nothing is changed. Refuses with 8
/// for a short sheet, if a district is inside.
///
/// Any bytes are a machine. What is said here is said of those that [`enter`] and [`turn`] lead to from [`districts_start`].
///
/// [`FINISHED`]: crate::limits::FINISHED
/// [`NO_DISTRICT`]: crate::limits::NO_DISTRICT
///
/// ```
/// use postman::limits::{DISTRICTS_BYTES, FINISHED, NO_DISTRICT, SHEET_PLACES};
/// use postman::{raw, Refusal};
///
/// let mut machine = [0; DISTRICTS_BYTES];
/// raw::districts_start(&mut machine)?;
/// raw::enter(&mut machine, &[0x10, 0x40, 0x20, 0x01, 0x40, 0x01, 0x41, 0x00, 0x00, 0x03], 10)?;
/// let mut sheet = vec![0; SHEET_PLACES];
/// assert_eq!(raw::turn(&mut machine, &mut sheet, &mut [], &mut []), Ok(FINISHED));
/// assert_eq!(sheet[..2], [0, 1]);
/// assert_eq!(raw::turn(&mut machine, &mut sheet, &mut [], &mut []), Ok(NO_DISTRICT));
/// # Ok::<(), Refusal>(())
/// ```
pub fn turn(
    machine: &mut [u8],
    sheet: &mut [u16],
    answer: &mut [u64],
    multipliers: &mut [i64],
) -> Result<usize, Refusal> {
    // SAFETY: as in `read_plan`.
    unless_refused(unsafe {
        ffi::postman_turn(
            machine.as_mut_ptr(),
            machine.len(),
            sheet.as_mut_ptr(),
            sheet.len(),
            answer.as_mut_ptr(),
            answer.len(),
            multipliers.as_mut_ptr(),
            multipliers.len(),
        )
    })
}

/// Distances for a page of pairs of vertices of the file `plan`, on lent slices: the number of searches run, one for each first vertex. Refuses
/// with 1 to 8, 13 and 17.
///
/// A pair is [`PAIR`](crate::limits::PAIR) × first + second. `distances` takes the pairs' distances from its start, and later entries are
/// untouched; [`NO_PATH`](crate::limits::NO_PATH) stands for no path. With fewer entries than pairs it is refused with 8.
///
/// ```
/// use postman::limits::PAIR;
///
/// let file = [0x10, 0x40, 0x20, 0x01, 0x40, 0x01, 0x41, 0x00, 0x00, 0x03];
/// let mut distances = [7; 4];
/// assert_eq!(postman::raw::distances(&file, &[1, PAIR, 0], &mut distances), Ok(2));
/// assert_eq!(distances, [5, 3, 0, 7]);
/// ```
pub fn distances(plan: &[u8], pairs: &[u16], distances: &mut [u32]) -> Result<usize, Refusal> {
    // SAFETY: as in `read_plan`.
    unless_refused(unsafe {
        ffi::postman_distances(
            plan.as_ptr(),
            plan.len(),
            pairs.as_ptr(),
            pairs.len(),
            distances.as_mut_ptr(),
            distances.len(),
        )
    })
}

/// The number of trees of the file `plan`, exactly, or 4,294,967,296, one more than [`HIGHEST_COUNT`](crate::limits::HIGHEST_COUNT), for every
/// number above that. Refuses with 1 to 7 and 10 to 13.
///
/// ```
/// let file = [0x10, 0x40, 0x20, 0x01, 0x40, 0x01, 0x41, 0x00, 0x00, 0x03];
/// assert_eq!(postman::raw::tree_count(&file), Ok(1));
/// ```
pub fn tree_count(plan: &[u8]) -> Result<u64, Refusal> {
    // SAFETY: as in `read_plan`.
    unless_refused(unsafe { ffi::postman_tree_count(plan.as_ptr(), plan.len()) }).map(|count| count as u64)
}

/// Judges a drive that someone else laid for the file `plan`: what the drive of the arc numbers `places` costs. Refuses with 1 to 7, 10 and 13
/// to 16, those of the list last and by number, wherever they stand.
///
/// ```
/// use postman::Refusal;
///
/// let file = [0x10, 0x40, 0x20, 0x01, 0x40, 0x01, 0x41, 0x00, 0x00, 0x03];
/// assert_eq!(postman::raw::judge(&file, &[1, 0]), Ok(8));
/// assert_eq!(postman::raw::judge(&file, &[0, 0, 2]), Err(Refusal::Foreign));
/// assert_eq!(postman::raw::judge(&file, &[0]), Err(Refusal::Unjoined));
/// assert_eq!(postman::raw::judge(&file, &[]), Err(Refusal::Missed));
/// ```
pub fn judge(plan: &[u8], places: &[u16]) -> Result<u64, Refusal> {
    // SAFETY: as in `read_plan`.
    let number = unsafe { ffi::postman_judge(plan.as_ptr(), plan.len(), places.as_ptr(), places.len()) };
    unless_refused(number).map(|cost| cost as u64)
}

#[cfg(test)]
mod tests {
    use super::*;
    use crate::limits::{ANSWER_WORDS, DEFAULT_BUDGET, MULTIPLIERS, SHEET_PLACES};

    const CASE_A: [u8; 10] = [0x10, 0x40, 0x20, 0x01, 0x40, 0x01, 0x41, 0x00, 0x00, 0x03];
    /// The same in edition 2, its first arc checked at 9.
    const CHECKED: [u8; 14] = [0x20, 0x40, 0x20, 0x01, 0x40, 0x01, 0x40, 0x02, 0x41, 0x00, 0x00, 0x03, 0x00, 0x00];

    #[test]
    fn numbers_below_zero_are_refusals() {
        assert_eq!(unless_refused(0), Ok(0));
        assert_eq!(unless_refused(1026), Ok(1026));
        for &refusal in Refusal::ALL {
            assert_eq!(unless_refused(-i64::from(refusal.number())), Err(refusal));
        }
    }

    #[test]
    #[should_panic(expected = "no refusal")]
    fn other_numbers_are_not_taken_for_refusals() {
        let _ = unless_refused(i64::MIN);
    }

    /// An answer or multipliers slice that is too short takes as many as fit; what is left of one that is longer is untouched.
    #[test]
    fn answers_take_what_fits() {
        let mut whole = ([0; ANSWER_WORDS], [0; MULTIPLIERS]);
        let mut sheet = vec![0; SHEET_PLACES];
        assert_eq!(plan_call(&CASE_A, 1, &mut sheet, &mut whole.0, &mut whole.1), Ok(()));
        assert_eq!(whole.0, [2, 8, 8, 1, 1, 1]);
        for words in 0..=ANSWER_WORDS + 2 {
            for count in [0, 1, 2, 63, 64, 65] {
                let (mut answer, mut multipliers) = (vec![77; words], vec![-77; count]);
                assert_eq!(short_call(&CASE_A, &mut sheet, &mut answer, &mut multipliers), Ok(()));
                let (fit, fit_u) = (words.min(ANSWER_WORDS), count.min(MULTIPLIERS));
                assert_eq!(answer[..fit], whole.0[..fit]);
                assert_eq!(multipliers[..fit_u], whole.1[..fit_u]);
                assert!(answer[fit..].iter().all(|&word| word == 77));
                assert!(multipliers[fit_u..].iter().all(|&u| u == -77));
            }
        }
    }

    /// The short call is the plan call at the default budget, on a plan whose trees are more than that.
    #[test]
    fn short_call_has_the_default_budget() {
        let file = std::fs::read(concat!(env!("CARGO_MANIFEST_DIR"), "/../../examples/large_town.plan")).unwrap();
        let lend = || (vec![0; SHEET_PLACES], [0; ANSWER_WORDS], [0; MULTIPLIERS]);
        let (mut short, mut full) = (lend(), lend());
        assert_eq!(short_call(&file, &mut short.0, &mut short.1, &mut short.2), Ok(()));
        assert_eq!(plan_call(&file, DEFAULT_BUDGET, &mut full.0, &mut full.1, &mut full.2), Ok(()));
        assert!(short == full);
        assert_eq!(short.1[crate::limits::TREES], DEFAULT_BUDGET);
    }

    /// Seven bytes are a record, and up to six left over are none.
    #[test]
    fn bytes_left_over_are_no_record() {
        let mut records = [0xA5; 13];
        assert_eq!(read_plan(&CASE_A, &mut records), Err(Refusal::ShortSheet));
        assert_eq!(records, [0xA5; 13]);
        let mut bytes = [0; 10];
        let records = [0, 1, 1, 0, 5, 0, 5, 1, 0, 0, 0, 3, 0, 0, 9, 9, 9, 9, 9, 9];
        assert_eq!(write_plan(1, 2, &records, &mut bytes), Ok(10));
        assert_eq!(bytes, CASE_A);
    }

    /// The second edition both ways, and editions that there are not.
    #[test]
    fn editions_are_told() {
        let mut records = [0; 14];
        assert_eq!(read_plan(&CHECKED, &mut records), Ok((2, 2, 2)));
        assert_eq!(records, [0, 1, 1, 0, 5, 0, 9, 1, 0, 0, 0, 3, 0, 0]);
        let mut bytes = [0; 14];
        assert_eq!(write_plan(2, 2, &records, &mut bytes), Ok(14));
        assert_eq!(bytes, CHECKED);
        assert_eq!(write_plan(1, 2, &records, &mut bytes), Err(Refusal::Unpriced));
        for edition in [0, 3, 15, 16, 255, 256, 257, 258, 65_537, u32::MAX] {
            assert_eq!(write_plan(edition, 0, &records, &mut bytes), Err(Refusal::Edition));
        }
        for edition in (0..16).filter(|edition| ![1, 2].contains(edition)) {
            let mut file = CHECKED;
            file[0] = edition << 4;
            assert_eq!(read_plan(&file, &mut records), Err(Refusal::Edition));
        }
        assert_eq!(bytes, CHECKED);
    }
}
