//! The numbers that bound plans, sheets and answers: the constants of `include/postman.h`, without their prefix.
//!
//! ```
//! use postman::limits::*;
//!
//! assert_eq!(OPEN_BYTES, (1 + MARKS) * (2 + LONGEST_FILE));
//! assert_eq!(LONGEST_FILE, (4 + 7 + 9 + MOST_ARCS * 46 + 7) / 8);
//! assert!(DEFAULT_BUDGET <= HIGHEST_BUDGET);
//! ```

/// The bytes of stack that a thread needs for any of the calls; a thread of Rust's has 2 MiB.
pub const STACK_BYTES: usize = 524_288;

/// The most vertices of a plan.
pub const MOST_VERTICES: usize = 64;
/// The most arcs of a plan.
pub const MOST_ARCS: usize = 256;
/// The most bytes of a plan file.
pub const LONGEST_FILE: usize = 1_475;

/// The most parts of a plan that is not refused.
pub const MOST_PARTS: usize = 8;

/// The places that a sheet must have at least. No drive takes more.
pub const SHEET_PLACES: usize = 17_266;

/// The most places of a list that is judged.
pub const MOST_PLACES: usize = 65_535;

/// The budget of the short call.
pub const DEFAULT_BUDGET: u64 = 100_000;
/// The highest budget of the plan call. The lowest is 1.
pub const HIGHEST_BUDGET: u64 = 1_000_000;

/// The most rounds of the deep call. The fewest are 1.
pub const MOST_ROUNDS: u32 = 1_000;

/// The highest number of trees that is answered.
pub const HIGHEST_COUNT: u32 = 4_294_967_295;

/// The distance that stands for "no path".
pub const NO_PATH: u32 = 4_294_967_295;

/// The most pairs of a page.
pub const MOST_PAIRS: usize = 256;
/// What the first vertex of a pair is multiplied by: a pair is 256 first + second.
pub const PAIR: u16 = 256;

/// The most windows of a plan call at a departure.
pub const MOST_WINDOWS: usize = 128;
/// The numbers of a window: its arc, its weekday, and the minutes from which and to which it shuts the arc.
pub const WINDOW_NUMBERS: usize = 4;
/// The last weekday. Monday is 0.
pub const LAST_WEEKDAY: u32 = 6;
/// The minutes of a day: a window ends at this minute at the latest, and a departure is before it.
pub const DAY_MINUTES: u32 = 1_440;

/// What the first car's own refusal is multiplied by in the answer of the call for two cars; the second's is added.
pub const FIRST_CAR: usize = 256;

/// The bytes of an open plan: five files, that of the plan and those of its marks, each with two bytes for its length before it.
pub const OPEN_BYTES: usize = 7_385;
/// The marks of an open plan, which are 0 to 3.
pub const MARKS: usize = 4;

/// The bytes of a machine of districts: eight districts, and the number of those that wait.
pub const DISTRICTS_BYTES: usize = 12_136;
/// The most districts of a machine.
pub const MOST_DISTRICTS: usize = 8;
/// The trees that a turn takes, but for a district's last.
pub const TURN_TREES: u64 = 1_000;
/// A district's last turn answers this plus its place.
pub const FINISHED: usize = 8;
/// What a turn answers with no district inside.
pub const NO_DISTRICT: usize = 16;

/// The bytes of a record, which is an arc: tail, head, standing, the high byte and the low byte of its cost, and those of its checking cost.
pub const RECORD_BYTES: usize = 7;
/// The index of a record's tail.
pub const RECORD_TAIL: usize = 0;
/// The index of a record's head.
pub const RECORD_HEAD: usize = 1;
/// The index of a record's standing.
pub const RECORD_STANDING: usize = 2;
/// The index of the high byte of a record's cost.
pub const RECORD_COST_HIGH: usize = 3;
/// The index of the low byte of a record's cost.
pub const RECORD_COST_LOW: usize = 4;
/// The index of the high byte of a record's checking cost.
pub const RECORD_CHECKING_HIGH: usize = 5;
/// The index of the low byte of a record's checking cost.
pub const RECORD_CHECKING_LOW: usize = 6;

/// The words of an answer.
pub const ANSWER_WORDS: usize = 6;
/// The index of the number of places that the drive takes.
pub const PLACES: usize = 0;
/// The index of the drive's cost.
pub const COST: usize = 1;
/// The index of the floor.
pub const FLOOR: usize = 2;
/// The index of the number of trees tried.
pub const TREES: usize = 3;
/// The index of the word that is 1 if all trees were tried, else 0.
pub const WHOLE: usize = 4;
/// The index of the number of parts.
pub const PARTS: usize = 5;

/// The multipliers of an answer.
pub const MULTIPLIERS: usize = 64;

/// A file that was read answers this many times its edition, plus [`COUNTS`] times its vertices, plus its arcs.
pub const EDITIONS: usize = 65_536;
/// A file that was read answers [`EDITIONS`] times its edition, plus this many times its vertices, plus its arcs.
pub const COUNTS: usize = 512;
