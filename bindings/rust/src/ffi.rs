//! The library's C functions, as `include/postman.h` declares them. A test of `tests/` holds these declarations to the header's and to the
//! library's source.

extern "C" {
    pub fn postman_read_plan(plan: *const u8, plan_len: usize, records: *mut u8, records_len: usize) -> i64;

    pub fn postman_write_plan(
        edition: u32,
        n: u32,
        records: *const u8,
        records_len: usize,
        bytes: *mut u8,
        bytes_len: usize,
    ) -> i64;

    pub fn postman_plan_call(
        plan: *const u8,
        plan_len: usize,
        budget: u64,
        sheet: *mut u16,
        sheet_len: usize,
        answer: *mut u64,
        answer_len: usize,
        multipliers: *mut i64,
        multipliers_len: usize,
    ) -> i64;

    pub fn postman_deep_call(
        plan: *const u8,
        plan_len: usize,
        budget: u64,
        rounds: u32,
        sheet: *mut u16,
        sheet_len: usize,
        answer: *mut u64,
        answer_len: usize,
        multipliers: *mut i64,
        multipliers_len: usize,
    ) -> i64;

    pub fn postman_plan_call_at(
        plan: *const u8,
        plan_len: usize,
        budget: u64,
        windows: *const u16,
        windows_len: usize,
        weekday: u32,
        minute: u32,
        sheet: *mut u16,
        sheet_len: usize,
        answer: *mut u64,
        answer_len: usize,
        multipliers: *mut i64,
        multipliers_len: usize,
    ) -> i64;

    pub fn postman_short_call(
        plan: *const u8,
        plan_len: usize,
        sheet: *mut u16,
        sheet_len: usize,
        answer: *mut u64,
        answer_len: usize,
        multipliers: *mut i64,
        multipliers_len: usize,
    ) -> i64;

    pub fn postman_two_cars(
        plan: *const u8,
        plan_len: usize,
        marks_1: *const u8,
        marks_1_len: usize,
        budget_1: u64,
        sheet_1: *mut u16,
        sheet_1_len: usize,
        answer_1: *mut u64,
        answer_1_len: usize,
        multipliers_1: *mut i64,
        multipliers_1_len: usize,
        marks_2: *const u8,
        marks_2_len: usize,
        budget_2: u64,
        sheet_2: *mut u16,
        sheet_2_len: usize,
        answer_2: *mut u64,
        answer_2_len: usize,
        multipliers_2: *mut i64,
        multipliers_2_len: usize,
    ) -> i64;

    pub fn postman_open(plan: *const u8, plan_len: usize, state: *mut u8, state_len: usize) -> i64;

    pub fn postman_change(state: *mut u8, state_len: usize, arc: u32, cost: u16, checking: u16, standing: u8) -> i64;

    pub fn postman_mark(state: *mut u8, state_len: usize, mark: u32) -> i64;

    pub fn postman_return(state: *mut u8, state_len: usize, mark: u32) -> i64;

    pub fn postman_ask(
        state: *const u8,
        state_len: usize,
        budget: u64,
        windows: *const u16,
        windows_len: usize,
        weekday: u32,
        minute: u32,
        sheet: *mut u16,
        sheet_len: usize,
        answer: *mut u64,
        answer_len: usize,
        multipliers: *mut i64,
        multipliers_len: usize,
    ) -> i64;

    pub fn postman_districts_start(machine: *mut u8, machine_len: usize) -> i64;

    pub fn postman_enter(machine: *mut u8, machine_len: usize, plan: *const u8, plan_len: usize, budget: u64) -> i64;

    pub fn postman_turn(
        machine: *mut u8,
        machine_len: usize,
        sheet: *mut u16,
        sheet_len: usize,
        answer: *mut u64,
        answer_len: usize,
        multipliers: *mut i64,
        multipliers_len: usize,
    ) -> i64;

    pub fn postman_distances(
        plan: *const u8,
        plan_len: usize,
        pairs: *const u16,
        pairs_len: usize,
        distances: *mut u32,
        distances_len: usize,
    ) -> i64;

    pub fn postman_tree_count(plan: *const u8, plan_len: usize) -> i64;

    pub fn postman_judge(plan: *const u8, plan_len: usize, places: *const u16, places_len: usize) -> i64;
}
