//! The library's functions as C sees them (include/yelomawin.h). Each is total: it refuses whatever it cannot take, whatever the lists hold.
//! A list is a pointer and then a length. The pointer is aligned for its elements and not null, even to none; a list lent for writing
//! overlaps no other list of the call.
unsafe extern "C" {
    pub fn yelomawin_root(x: f64) -> f64;
    pub fn yelomawin_validate(
        rows: u64, cols: u64,
        row_ptr: *const u32, row_ptr_len: usize, col_idx: *const u32, col_idx_len: usize, values: *const f64, values_len: usize,
    ) -> u64;
    pub fn yelomawin_diagonal(
        rows: u64, cols: u64,
        row_ptr: *const u32, row_ptr_len: usize, col_idx: *const u32, col_idx_len: usize, values: *const f64, values_len: usize,
        diagonal: *mut f64, diagonal_len: usize, answer: *mut u64, answer_len: usize,
    ) -> u64;
    pub fn yelomawin_blocks(
        rows: u64, cols: u64,
        row_ptr: *const u32, row_ptr_len: usize, col_idx: *const u32, col_idx_len: usize, values: *const f64, values_len: usize,
        block_size: u64, factors: *mut f64, factors_len: usize, answer: *mut u64, answer_len: usize,
    ) -> u64;
    pub fn yelomawin_block_apply(
        rows: u64, block_size: u64, factors: *const f64, factors_len: usize,
        residual: *const f64, residual_len: usize, correction: *mut f64, correction_len: usize, answer: *mut u64, answer_len: usize,
    ) -> u64;
    pub fn yelomawin_group(
        nodes: u64, group_size: u64, offsets: *const u32, offsets_len: usize, neighbours: *const u32, neighbours_len: usize,
        ids: *mut u32, ids_len: usize, work: *mut u32, work_len: usize, answer: *mut u64, answer_len: usize,
    ) -> u64;
    pub fn yelomawin_group_log(
        nodes: u64, group_size: u64, offsets: *const u32, offsets_len: usize, neighbours: *const u32, neighbours_len: usize,
        ids: *mut u32, ids_len: usize, log: *mut u32, log_len: usize, work: *mut u32, work_len: usize, answer: *mut u64, answer_len: usize,
    ) -> u64;
    pub fn yelomawin_estimate(
        rows: u64, cols: u64,
        row_ptr: *const u32, row_ptr_len: usize, col_idx: *const u32, col_idx_len: usize, values: *const f64, values_len: usize,
        diagonal: *const f64, diagonal_len: usize, work: *mut f64, work_len: usize, answer: *mut u64, answer_len: usize,
    ) -> u64;
    pub fn yelomawin_setup(
        rows: u64, cols: u64,
        row_ptr: *const u32, row_ptr_len: usize, col_idx: *const u32, col_idx_len: usize, values: *const f64, values_len: usize,
        block_size: u64, group_size: u64, aggregation: u64, basis: u64, coarse_policy: u64,
        setup_ints: *mut u32, setup_ints_len: usize, setup_floats: *mut f64, setup_floats_len: usize,
        work_ints: *mut u32, work_ints_len: usize, work_floats: *mut f64, work_floats_len: usize,
        record: *mut u64, record_len: usize,
    ) -> u64;
    pub fn yelomawin_apply(
        record: *const u64, record_len: usize, setup_ints: *const u32, setup_ints_len: usize, setup_floats: *const f64, setup_floats_len: usize,
        residual: *const f64, residual_len: usize, correction: *mut f64, correction_len: usize,
        work: *mut f64, work_len: usize, answer: *mut u64, answer_len: usize,
    ) -> u64;
}
