//! The calls as C sees them, unsafe and unwrapped; `include/himm.h` documents each.

/// The kinds of a reading.
pub const HIMM_SECONDS_TAKEN: u32 = 0;
pub const HIMM_SECONDS_WAITED: u32 = 1;

extern "C" {
    pub fn himm_open_fresh(book: *mut u32, book_len: usize, sheet: *mut u32, sheet_len: usize) -> u32;
    pub fn himm_open_ladder(book: *mut u32, book_len: usize, sheet: *mut u32, sheet_len: usize) -> u32;
    pub fn himm_open_table(rows: *const u32, rows_len: usize, book: *mut u32, book_len: usize, sheet: *mut u32, sheet_len: usize) -> u32;
    pub fn himm_ladder(depth: u32, rows: *mut u32, rows_len: usize, length: *mut u32) -> u32;
    pub fn himm_load(
        book: *mut u32,
        book_len: usize,
        sheet: *mut u32,
        sheet_len: usize,
        stream: *const u8,
        stream_len: usize,
        bytes_taken: *mut u64,
        commands_taken: *mut u64,
    ) -> u32;
    pub fn himm_exit(
        book: *const u32,
        book_len: usize,
        sheet: *const u32,
        sheet_len: usize,
        machine: u32,
        command: u32,
        cost: *mut u32,
    ) -> u32;
    pub fn himm_step(book: *const u32, book_len: usize, state: u32, command: u32, next: *mut u32, cost: *mut u32, node: *mut u32) -> u32;
    pub fn himm_plan(
        book: *const u32,
        book_len: usize,
        sheet: *const u32,
        sheet_len: usize,
        from: u32,
        to: u32,
        plan: *mut u8,
        plan_len: usize,
        cost: *mut u32,
        count: *mut u32,
    ) -> u32;
    pub fn himm_write(book: *const u32, book_len: usize, out: *mut u8, out_len: usize, length: *mut u32) -> u32;
    pub fn himm_choose(
        book: *const u32,
        book_len: usize,
        from: u32,
        to: u32,
        first: *const u8,
        first_len: usize,
        second: *const u8,
        second_len: usize,
        which: *mut u32,
        used: *mut u32,
    ) -> u32;
    pub fn himm_merge(
        first: *const u32,
        first_len: usize,
        second: *const u32,
        second_len: usize,
        book: *mut u32,
        book_len: usize,
        sheet: *mut u32,
        sheet_len: usize,
    ) -> u32;
    pub fn himm_import(
        node: u32,
        command: u32,
        target: u32,
        kind: u32,
        seconds: f32,
        dead_time: f32,
        out: *mut u8,
        out_len: usize,
        length: *mut u32,
    ) -> u32;
    pub fn himm_walkers(book: *const u32, book_len: usize, node: u32, limit: u32, walkers: *const u32, walkers_len: usize) -> u32;
    pub fn himm_walk(
        book: *const u32,
        book_len: usize,
        node: u32,
        limit: u32,
        walkers: *mut u32,
        walkers_len: usize,
        walker: u32,
        command: u32,
        cost: *mut u32,
        acted: *mut u32,
    ) -> u32;
    pub fn himm_by_command(book: *const u32, book_len: usize, out: *mut u32, out_len: usize) -> u32;
    pub fn himm_by_node(book: *const u32, book_len: usize, out: *mut u32, out_len: usize) -> u32;
    pub fn himm_open_fresh_by_command(book: *mut u32, book_len: usize, sheet: *mut u32, sheet_len: usize) -> u32;
    pub fn himm_open_ladder_by_command(book: *mut u32, book_len: usize, sheet: *mut u32, sheet_len: usize) -> u32;
    pub fn himm_open_table_by_command(
        rows: *const u32,
        rows_len: usize,
        book: *mut u32,
        book_len: usize,
        sheet: *mut u32,
        sheet_len: usize,
    ) -> u32;
    pub fn himm_load_by_command(
        book: *mut u32,
        book_len: usize,
        sheet: *mut u32,
        sheet_len: usize,
        stream: *const u8,
        stream_len: usize,
        bytes_taken: *mut u64,
        commands_taken: *mut u64,
    ) -> u32;
    pub fn himm_exit_by_command(
        book: *const u32,
        book_len: usize,
        sheet: *const u32,
        sheet_len: usize,
        machine: u32,
        command: u32,
        cost: *mut u32,
    ) -> u32;
    pub fn himm_step_by_command(
        book: *const u32,
        book_len: usize,
        state: u32,
        command: u32,
        next: *mut u32,
        cost: *mut u32,
        node: *mut u32,
    ) -> u32;
    pub fn himm_plan_by_command(
        book: *const u32,
        book_len: usize,
        sheet: *const u32,
        sheet_len: usize,
        from: u32,
        to: u32,
        plan: *mut u8,
        plan_len: usize,
        cost: *mut u32,
        count: *mut u32,
    ) -> u32;
    pub fn himm_write_by_command(book: *const u32, book_len: usize, out: *mut u8, out_len: usize, length: *mut u32) -> u32;
    pub fn himm_choose_by_command(
        book: *const u32,
        book_len: usize,
        from: u32,
        to: u32,
        first: *const u8,
        first_len: usize,
        second: *const u8,
        second_len: usize,
        which: *mut u32,
        used: *mut u32,
    ) -> u32;
    pub fn himm_merge_by_command(
        first: *const u32,
        first_len: usize,
        second: *const u32,
        second_len: usize,
        book: *mut u32,
        book_len: usize,
        sheet: *mut u32,
        sheet_len: usize,
    ) -> u32;
    pub fn himm_walkers_by_command(
        book: *const u32,
        book_len: usize,
        node: u32,
        limit: u32,
        walkers: *const u32,
        walkers_len: usize,
    ) -> u32;
    pub fn himm_walk_by_command(
        book: *const u32,
        book_len: usize,
        node: u32,
        limit: u32,
        walkers: *mut u32,
        walkers_len: usize,
        walker: u32,
        command: u32,
        cost: *mut u32,
        acted: *mut u32,
    ) -> u32;
}
