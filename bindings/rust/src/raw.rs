//! The functions of `include/gutkavu.h`, as C sees them.

extern "C" {
    pub fn gutkavu_read(
        text: *const u8,
        text_len: usize,
        table: *mut u32,
        table_len: usize,
        line: *mut u32,
    ) -> u32;
    pub fn gutkavu_write(
        table: *const u32,
        table_len: usize,
        out: *mut u8,
        out_len: usize,
        length: *mut u32,
    ) -> u32;
    pub fn gutkavu_synthesise(
        graph: *const u32,
        graph_len: usize,
        machine: *mut u32,
        machine_len: usize,
    ) -> u32;
    pub fn gutkavu_run_graph(
        graph: *const u32,
        graph_len: usize,
        registers: *mut u32,
        registers_len: usize,
        start: u32,
        budget: u32,
        halted: *mut u32,
        count: *mut u32,
        next: *mut u32,
        flag: *mut u32,
    ) -> u32;
    pub fn gutkavu_run_machine(
        machine: *const u32,
        machine_len: usize,
        registers: *mut u32,
        registers_len: usize,
        start: u32,
        budget: u32,
        halted: *mut u32,
        count: *mut u32,
        next: *mut u32,
        flag: *mut u32,
        blocks: *mut u64,
    ) -> u32;
    pub fn gutkavu_run_graph_with_words(
        graph: *const u32,
        graph_len: usize,
        registers: *mut u32,
        registers_len: usize,
        start: u32,
        budget: u32,
        words: *const u32,
        words_len: usize,
        starters: *const u32,
        starters_len: usize,
        outcome: *mut u32,
        count: *mut u32,
        next: *mut u32,
        flag: *mut u32,
    ) -> u32;
    pub fn gutkavu_run_machine_with_words(
        machine: *const u32,
        machine_len: usize,
        registers: *mut u32,
        registers_len: usize,
        start: u32,
        budget: u32,
        words: *const u32,
        words_len: usize,
        outcome: *mut u32,
        count: *mut u32,
        next: *mut u32,
        flag: *mut u32,
        blocks: *mut u64,
    ) -> u32;
    pub fn gutkavu_touches(
        machine: *const u32,
        machine_len: usize,
        state: u32,
        reg: u32,
        touched: *mut u32,
    ) -> u32;
    pub fn gutkavu_first_touching(
        machine: *const u32,
        machine_len: usize,
        reg: u32,
        state: *mut u32,
    ) -> u32;
    pub fn gutkavu_bounds(
        machine: *const u32,
        machine_len: usize,
        lowest: *mut u32,
        lowest_len: usize,
        highest: *mut u32,
        highest_len: usize,
        state: u32,
    ) -> u32;
    pub fn gutkavu_compare_captures(
        registers: u32,
        first: *const u8,
        first_len: usize,
        second: *const u8,
        second_len: usize,
        recording: *mut u32,
        line: *mut u64,
        shared: *mut u64,
        differs: *mut u32,
        cycle: *mut u32,
    ) -> u32;
}
