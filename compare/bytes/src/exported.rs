//! The library's functions on numbers and byte lists.
unsafe extern "C" {
    pub fn yelomawin_bytes_root(bits: u64) -> u64;
    pub fn yelomawin_bytes_validate(
        rows: u64, cols: u64, row_ptr: *const u8, l1: usize, col_idx: *const u8, l2: usize, values: *const u8, l3: usize,
        row_room: *mut u32, l4: usize, col_room: *mut u32, l5: usize, value_room: *mut f64, l6: usize,
    ) -> u64;
    pub fn yelomawin_bytes_diagonal(
        rows: u64, cols: u64, row_ptr: *const u8, l1: usize, col_idx: *const u8, l2: usize, values: *const u8, l3: usize,
        row_room: *mut u32, l4: usize, col_room: *mut u32, l5: usize, value_room: *mut f64, l6: usize,
        diagonal_room: *mut f64, l7: usize, answer_room: *mut u64, l8: usize, diagonal: *mut u8, l9: usize, answer: *mut u8, l10: usize,
    ) -> u64;
    pub fn yelomawin_bytes_blocks(
        rows: u64, cols: u64, row_ptr: *const u8, l1: usize, col_idx: *const u8, l2: usize, values: *const u8, l3: usize, block_size: u64,
        row_room: *mut u32, l4: usize, col_room: *mut u32, l5: usize, value_room: *mut f64, l6: usize,
        factor_room: *mut f64, l7: usize, answer_room: *mut u64, l8: usize, factors: *mut u8, l9: usize, answer: *mut u8, l10: usize,
    ) -> u64;
    pub fn yelomawin_bytes_block_apply(
        rows: u64, block_size: u64, factors: *const u8, l1: usize, residual: *const u8, l2: usize,
        factor_room: *mut f64, l3: usize, residual_room: *mut f64, l4: usize,
        correction_room: *mut f64, l5: usize, answer_room: *mut u64, l6: usize, correction: *mut u8, l7: usize, answer: *mut u8, l8: usize,
    ) -> u64;
    pub fn yelomawin_bytes_group(
        nodes: u64, group_size: u64, offsets: *const u8, l1: usize, neighbours: *const u8, l2: usize,
        offset_room: *mut u32, l3: usize, neighbour_room: *mut u32, l4: usize,
        ids_room: *mut u32, l5: usize, work: *mut u32, l6: usize, answer_room: *mut u64, l7: usize, ids: *mut u8, l8: usize, answer: *mut u8, l9: usize,
    ) -> u64;
    pub fn yelomawin_bytes_group_log(
        nodes: u64, group_size: u64, offsets: *const u8, l1: usize, neighbours: *const u8, l2: usize,
        offset_room: *mut u32, l3: usize, neighbour_room: *mut u32, l4: usize,
        ids_room: *mut u32, l5: usize, log_room: *mut u32, l6: usize, work: *mut u32, l7: usize, answer_room: *mut u64, l8: usize,
        ids: *mut u8, l9: usize, log: *mut u8, l10: usize, answer: *mut u8, l11: usize,
    ) -> u64;
    pub fn yelomawin_bytes_estimate(
        rows: u64, cols: u64, row_ptr: *const u8, l1: usize, col_idx: *const u8, l2: usize, values: *const u8, l3: usize, diagonal: *const u8, l4: usize,
        row_room: *mut u32, l5: usize, col_room: *mut u32, l6: usize, value_room: *mut f64, l7: usize, diagonal_room: *mut f64, l8: usize,
        work: *mut f64, l9: usize, answer_room: *mut u64, l10: usize, answer: *mut u8, l11: usize,
    ) -> u64;
    pub fn yelomawin_bytes_setup(
        rows: u64, cols: u64, row_ptr: *const u8, l1: usize, col_idx: *const u8, l2: usize, values: *const u8, l3: usize,
        block_size: u64, group_size: u64, aggregation: u64, basis: u64, coarse_policy: u64,
        row_room: *mut u32, l4: usize, col_room: *mut u32, l5: usize, value_room: *mut f64, l6: usize,
        ints_room: *mut u32, l7: usize, floats_room: *mut f64, l8: usize, work_ints: *mut u32, l9: usize, work_floats: *mut f64, l10: usize,
        record_room: *mut u64, l11: usize, setup_ints: *mut u8, l12: usize, setup_floats: *mut u8, l13: usize, record: *mut u8, l14: usize,
    ) -> u64;
    pub fn yelomawin_bytes_apply(
        record: *const u8, l1: usize, setup_ints: *const u8, l2: usize, setup_floats: *const u8, l3: usize, residual: *const u8, l4: usize,
        record_room: *mut u64, l5: usize, ints_room: *mut u32, l6: usize, floats_room: *mut f64, l7: usize, residual_room: *mut f64, l8: usize,
        correction_room: *mut f64, l9: usize, work: *mut f64, l10: usize, answer_room: *mut u64, l11: usize,
        correction: *mut u8, l12: usize, answer: *mut u8, l13: usize,
    ) -> u64;
}
