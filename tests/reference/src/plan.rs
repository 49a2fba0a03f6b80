//! The plan as data, and the numbers that bound it. The yardstick and the oracle share these types and nothing else: no rule of the planner
//! stands here, but for [`Arc::new`], which neither of them uses.

/// An arc as the plan file's reader and writer hold it: fields wider than those of the file.
#[derive(Clone, Copy, PartialEq, Eq, Debug, Default)]
pub struct Arc {
    pub tail: u8,
    pub head: u8,
    /// 0: may be driven; 1: must be driven; 2: closed.
    pub standing: u8,
    /// What a pass costs.
    pub cost: u16,
    /// What the pass costs on which a required arc is checked (document 02: the checking cost); 0 in other arcs.
    pub checking: u16,
}

/// Standings.
pub const OPTIONAL: u8 = 0;
pub const REQUIRED: u8 = 1;
pub const CLOSED: u8 = 2;

/// A directed graph with vertices 0 to n − 1 and numbered arcs.
#[derive(Clone, PartialEq, Eq, Debug, Default)]
pub struct Plan {
    /// The edition of its file: 1, or 2, whose arcs have a checking cost of their own.
    pub edition: u8,
    pub n: usize,
    pub arcs: Vec<Arc>,
}

/// The most vertices and arcs of a plan, and the most bytes of its file.
pub const MOST_VERTICES: usize = 64;
pub const MOST_ARCS: usize = 256;
pub const LONGEST_FILE: usize = 1_475;

/// The places that a sheet for the drive must have at least.
pub const SHEET_PLACES: usize = 17_266;

/// The most places of a list that is judged.
pub const MOST_PLACES: usize = 65_535;

/// The short call's budget, the one that the program `drive` names, and the highest that the plan call takes.
pub const DEFAULT_BUDGET: u64 = 100_000;
pub const PROGRAM_BUDGET: u64 = 10_000;
pub const HIGHEST_BUDGET: u64 = 1_000_000;

/// The most rounds of a deep call.
pub const MOST_ROUNDS: u32 = 1_000;

/// The most pairs of a page of distances.
pub const MOST_PAIRS: usize = 256;

/// The most windows of a plan call at a departure.
pub const MOST_WINDOWS: usize = 128;

/// The most districts inside a machine, and the trees of a turn.
pub const MOST_DISTRICTS: usize = 8;
pub const TURN_TREES: u64 = 1_000;

/// When a drive begins: a weekday from 0, Monday, to 6, and a minute of the day.
#[derive(Clone, Copy, PartialEq, Eq, Debug)]
pub struct Departure {
    pub weekday: u32,
    pub minute: u32,
}

/// The most components ("parts") of a plan.
pub const MOST_PARTS: usize = 8;

impl Arc {
    /// An arc as edition 1 has it: a required arc is checked at its cost.
    pub fn new(tail: usize, head: usize, standing: u8, cost: u16) -> Arc {
        let checking = if standing == REQUIRED { cost } else { 0 };
        Arc { tail: tail as u8, head: head as u8, standing, cost, checking }
    }

    /// A required arc that is checked at another cost.
    pub fn checked(tail: usize, head: usize, cost: u16, checking: u16) -> Arc {
        Arc { checking, ..Arc::new(tail, head, REQUIRED, cost) }
    }
}

impl Plan {
    /// A plan of edition 1.
    pub fn new(n: usize, arcs: Vec<Arc>) -> Plan {
        Plan { edition: 1, n, arcs }
    }
}
