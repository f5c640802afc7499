//! The C interface as Rust declares it: the one place in Rust where the signatures of include/spoonripple.h stand. `tests/signatures.rs` compares them
//! with the header and with the Rattle source.
//!
//! What makes each call in this crate sound: a pointer and a length come from one slice, so that they are valid, aligned and not null; what is
//! lent for writing is a `&mut` slice, which overlaps nothing else; numbers are any; no call keeps a pointer or unwinds.

unsafe extern "C" {
    pub fn spoonripple_octet_add(a: u8, b: u8, out: *mut u64, out_len: usize) -> u32;
    pub fn spoonripple_octet_sub(a: u8, b: u8, out: *mut u64, out_len: usize) -> u32;
    pub fn spoonripple_octet_mul(a: u8, b: u8, out: *mut u64, out_len: usize) -> u32;
    pub fn spoonripple_octet_fma(a: u8, b: u8, c: u8, out: *mut u64, out_len: usize) -> u32;
    pub fn spoonripple_octet_div(a: u8, by: u8, out: *mut u64, out_len: usize) -> u32;
    pub fn spoonripple_octet_alpha(i: usize, out: *mut u64, out_len: usize) -> u32;
    pub fn spoonripple_run_add(dst: *mut u8, dst_len: usize, src: *const u8, src_len: usize, out: *mut u64, out_len: usize) -> u32;
    pub fn spoonripple_run_scale(dst: *mut u8, dst_len: usize, c: u8, out: *mut u64, out_len: usize) -> u32;
    pub fn spoonripple_run_fma(dst: *mut u8, dst_len: usize, src: *const u8, src_len: usize, c: u8, out: *mut u64, out_len: usize) -> u32;
    pub fn spoonripple_payload_id_read(bytes: *const u8, bytes_len: usize, out: *mut u64, out_len: usize) -> u32;
    pub fn spoonripple_payload_id_write(sbn: u8, esi: u32, store: *mut u8, store_len: usize) -> u32;
    pub fn spoonripple_transmission_read(bytes: *const u8, bytes_len: usize, out: *mut u64, out_len: usize) -> u32;
    pub fn spoonripple_transmission_write(f: u64, t: u16, z: u8, n: u16, al: u8, store: *mut u8, store_len: usize) -> u32;
    pub fn spoonripple_transmission_check(f: u64, t: u16, z: u8, n: u16, al: u8) -> u32;
    pub fn spoonripple_packet_read(bytes: *const u8, bytes_len: usize, out: *mut u64, out_len: usize) -> u32;
    pub fn spoonripple_packet_write(sbn: u8, esi: u32, bytes: *const u8, bytes_len: usize, store: *mut u8, store_len: usize) -> u32;
    pub fn spoonripple_partition(i: u32, j: u32, out: *mut u64, out_len: usize) -> u32;
    pub fn spoonripple_rand(tables: *const u32, tables_len: usize, y: u32, i: u8, m: u32, out: *mut u64, out_len: usize) -> u32;
    pub fn spoonripple_deg(v: u32, w: u32, out: *mut u64, out_len: usize) -> u32;
    pub fn spoonripple_row_check(k: u32, j: u32, s: u32, h: u32, w: u32, out: *mut u64, out_len: usize) -> u32;
    pub fn spoonripple_isi(k: u32, j: u32, s: u32, h: u32, w: u32, l: u32, p: u32, b: u32, p1: u32, count: u32, esi: u32, out: *mut u64, out_len: usize) -> u32;
    pub fn spoonripple_tuple(k: u32, j: u32, s: u32, h: u32, w: u32, l: u32, p: u32, b: u32, p1: u32, tables: *const u32, tables_len: usize, isi: u32, out: *mut u64, out_len: usize) -> u32;
    pub fn spoonripple_slab_with_zeros(store: *mut u8, store_len: usize, count: usize, t: u16) -> u32;
    pub fn spoonripple_slab_locate(len: usize, count: usize, t: u16, order: *const u32, order_len: usize, i: usize, out: *mut u64, out_len: usize) -> u32;
    pub fn spoonripple_slab_add_assign(store: *mut u8, store_len: usize, count: usize, t: u16, order: *const u32, order_len: usize, dest: usize, src: usize, out: *mut u64, out_len: usize) -> u32;
    pub fn spoonripple_slab_mulassign_scalar(store: *mut u8, store_len: usize, count: usize, t: u16, order: *const u32, order_len: usize, dest: usize, scalar: u8, out: *mut u64, out_len: usize) -> u32;
    pub fn spoonripple_slab_fma(store: *mut u8, store_len: usize, count: usize, t: u16, order: *const u32, order_len: usize, dest: usize, src: usize, scalar: u8, out: *mut u64, out_len: usize) -> u32;
    pub fn spoonripple_matrix_new(words: *mut u64, words_len: usize, height: usize, width: usize) -> u32;
    pub fn spoonripple_matrix_set(words: *mut u64, words_len: usize, height: usize, width: usize, i: usize, j: usize, value: u8) -> u32;
    pub fn spoonripple_matrix_get(words: *const u64, words_len: usize, height: usize, width: usize, i: usize, j: usize, out: *mut u64, out_len: usize) -> u32;
    pub fn spoonripple_matrix_count_ones(words: *const u64, words_len: usize, height: usize, width: usize, i: usize, start: usize, end: usize, out: *mut u64, out_len: usize) -> u32;
    pub fn spoonripple_matrix_get_ones_in_column(words: *const u64, words_len: usize, height: usize, width: usize, j: usize, start: usize, end: usize, list: *mut u32, list_len: usize, out: *mut u64, out_len: usize) -> u32;
    pub fn spoonripple_matrix_query_non_zero_columns(words: *const u64, words_len: usize, height: usize, width: usize, i: usize, start: usize, list: *mut u32, list_len: usize, out: *mut u64, out_len: usize) -> u32;
    pub fn spoonripple_matrix_swap_rows(words: *mut u64, words_len: usize, height: usize, width: usize, i: usize, j: usize) -> u32;
    pub fn spoonripple_matrix_swap_columns(words: *mut u64, words_len: usize, height: usize, width: usize, i: usize, j: usize, start: usize) -> u32;
    pub fn spoonripple_matrix_add_assign_rows(words: *mut u64, words_len: usize, height: usize, width: usize, dest: usize, src: usize) -> u32;
    pub fn spoonripple_matrix_resize(words: *mut u64, words_len: usize, height: usize, width: usize, new_height: usize, new_width: usize) -> u32;
    pub fn spoonripple_enc_indices(k: u32, j: u32, s: u32, h: u32, w: u32, l: u32, p: u32, b: u32, p1: u32, d: u32, a: u32, tuple_b: u32, d1: u32, a1: u32, b1: u32, list: *mut u32, list_len: usize) -> u32;
    pub fn spoonripple_hdpc_rows(k: u32, j: u32, s: u32, h: u32, w: u32, l: u32, p: u32, b: u32, p1: u32, tables: *const u32, tables_len: usize, store: *mut u8, store_len: usize) -> u32;
    pub fn spoonripple_constraint_matrix(k: u32, j: u32, s: u32, h: u32, w: u32, l: u32, p: u32, b: u32, p1: u32, tables: *const u32, tables_len: usize, isis: *const u32, isis_len: usize, words: *mut u64, words_len: usize) -> u32;
    pub fn spoonripple_constraint_matrix_no_hdpc(k: u32, j: u32, s: u32, h: u32, w: u32, l: u32, p: u32, b: u32, p1: u32, tables: *const u32, tables_len: usize, isis: *const u32, isis_len: usize, words: *mut u64, words_len: usize) -> u32;
    pub fn spoonripple_encode(k: u32, j: u32, s: u32, h: u32, w: u32, l: u32, p: u32, b: u32, p1: u32, tables: *const u32, tables_len: usize, count: u32, t: u16, esi: u32, intermediates: *const u8, intermediates_len: usize, out: *mut u8, out_len: usize) -> u32;
    pub fn spoonripple_solve(k: u32, j: u32, s: u32, h: u32, w: u32, l: u32, p: u32, b: u32, p1: u32, tables: *const u32, tables_len: usize, count: u32, t: u16, esis: *const u32, esis_len: usize, symbols: *const u8, symbols_len: usize, rows: *mut u8, rows_len: usize, values: *mut u8, values_len: usize, out: *mut u8, out_len: usize, shortfall: *mut u64, shortfall_len: usize) -> u32;
    pub fn spoonripple_display(count: u32, t: u16, esis: *const u32, esis_len: usize, arrivals: *const u8, arrivals_len: usize, rebuilt: *const u8, rebuilt_len: usize, i: u32, out: *mut u64, out_len: usize) -> u32;
    pub fn spoonripple_intake_begin(k: u32, j: u32, s: u32, h: u32, w: u32, l: u32, p: u32, b: u32, p1: u32, tables: *const u32, tables_len: usize, count: u32, t: u16, state: *mut u32, state_len: usize, pivots: *const u16, pivots_len: usize, rows: *const u8, rows_len: usize, values: *const u8, values_len: usize) -> u32;
    pub fn spoonripple_intake_packet(esi: u32, symbol: *const u8, symbol_len: usize, state: *mut u32, state_len: usize, pivots: *mut u16, pivots_len: usize, rows: *mut u8, rows_len: usize, values: *mut u8, values_len: usize) -> u32;
    pub fn spoonripple_intake_question(state: *mut u32, state_len: usize, pivots: *mut u16, pivots_len: usize, rows: *mut u8, rows_len: usize, values: *mut u8, values_len: usize, out: *mut u8, out_len: usize, shortfall: *mut u64, shortfall_len: usize) -> u32;
}
