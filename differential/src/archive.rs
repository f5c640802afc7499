//! Our archive, each call wrapped so that it takes slices, and any: rows, tables and stores that the crate in bindings/rust would refuse to make too. What
//! bench/ times is inlined, so that both sides make one call.
use spoonripple::sys::*;

/// A value, or the code of the refusal: its number, and above that byte the part that 4 has.
pub type Answer<T> = Result<T, u32>;

#[inline]
fn done(code: u32) -> Answer<()> {
    if code == 0 { Ok(()) } else { Err(code) }
}

/// K', J, S, H, W.
pub type Row = [u32; 5];

/// A row with what the check makes of it: K', J, S, H, W, L, P, B, P1. `rows::record` makes the harness's own.
pub type Record = [u32; 9];

/// A call on octets: its value goes to `out`, which may have any room.
macro_rules! octet_call {
    ($name:ident, $inner:ident, $($arg:ident: $kind:ty),+) => {
        #[inline]
        pub fn $name($($arg: $kind),+, out: &mut [u64]) -> Answer<()> {
            done(unsafe { $inner($($arg),+, out.as_mut_ptr(), out.len()) })
        }
    };
}
octet_call!(octet_add, spoonripple_octet_add, a: u8, b: u8);
octet_call!(octet_sub, spoonripple_octet_sub, a: u8, b: u8);
octet_call!(octet_mul, spoonripple_octet_mul, a: u8, b: u8);
octet_call!(octet_div, spoonripple_octet_div, a: u8, by: u8);
octet_call!(octet_fma, spoonripple_octet_fma, a: u8, b: u8, c: u8);
octet_call!(octet_alpha, spoonripple_octet_alpha, i: usize);

// These three, and the three on the symbols of a slab that end in `out` too, answer there whether all bytes of the destination are 0 now: 1, else 0.

#[inline]
pub fn run_add(dst: &mut [u8], src: &[u8], out: &mut [u64]) -> Answer<()> {
    done(unsafe { spoonripple_run_add(dst.as_mut_ptr(), dst.len(), src.as_ptr(), src.len(), out.as_mut_ptr(), out.len()) })
}

#[inline]
pub fn run_scale(dst: &mut [u8], c: u8, out: &mut [u64]) -> Answer<()> {
    done(unsafe { spoonripple_run_scale(dst.as_mut_ptr(), dst.len(), c, out.as_mut_ptr(), out.len()) })
}

#[inline]
pub fn run_fma(dst: &mut [u8], src: &[u8], c: u8, out: &mut [u64]) -> Answer<()> {
    done(unsafe { spoonripple_run_fma(dst.as_mut_ptr(), dst.len(), src.as_ptr(), src.len(), c, out.as_mut_ptr(), out.len()) })
}

pub fn payload_id_read(bytes: &[u8], out: &mut [u64]) -> Answer<()> {
    done(unsafe { spoonripple_payload_id_read(bytes.as_ptr(), bytes.len(), out.as_mut_ptr(), out.len()) })
}

pub fn payload_id_write(sbn: u8, esi: u32, store: &mut [u8]) -> Answer<()> {
    done(unsafe { spoonripple_payload_id_write(sbn, esi, store.as_mut_ptr(), store.len()) })
}

pub fn transmission_read(bytes: &[u8], out: &mut [u64]) -> Answer<()> {
    done(unsafe { spoonripple_transmission_read(bytes.as_ptr(), bytes.len(), out.as_mut_ptr(), out.len()) })
}

pub fn transmission_write(f: u64, t: u16, z: u8, n: u16, al: u8, store: &mut [u8]) -> Answer<()> {
    done(unsafe { spoonripple_transmission_write(f, t, z, n, al, store.as_mut_ptr(), store.len()) })
}

pub fn transmission_check(f: u64, t: u16, z: u8, n: u16, al: u8) -> Answer<()> {
    done(unsafe { spoonripple_transmission_check(f, t, z, n, al) })
}

pub fn packet_read(bytes: &[u8], out: &mut [u64]) -> Answer<()> {
    done(unsafe { spoonripple_packet_read(bytes.as_ptr(), bytes.len(), out.as_mut_ptr(), out.len()) })
}

pub fn packet_write(sbn: u8, esi: u32, payload: &[u8], store: &mut [u8]) -> Answer<()> {
    done(unsafe { spoonripple_packet_write(sbn, esi, payload.as_ptr(), payload.len(), store.as_mut_ptr(), store.len()) })
}

pub fn partition(i: u32, j: u32, out: &mut [u64]) -> Answer<()> {
    done(unsafe { spoonripple_partition(i, j, out.as_mut_ptr(), out.len()) })
}

pub fn deg(v: u32, w: u32, out: &mut [u64]) -> Answer<()> {
    done(unsafe { spoonripple_deg(v, w, out.as_mut_ptr(), out.len()) })
}

pub fn rand(tables: &[u32], y: u32, i: u8, m: u32, out: &mut [u64]) -> Answer<()> {
    done(unsafe { spoonripple_rand(tables.as_ptr(), tables.len(), y, i, m, out.as_mut_ptr(), out.len()) })
}

pub fn row_check([k, j, s, h, w]: Row, out: &mut [u64]) -> Answer<()> {
    done(unsafe { spoonripple_row_check(k, j, s, h, w, out.as_mut_ptr(), out.len()) })
}

pub fn isi([k, j, s, h, w, l, p, b, p1]: Record, count: u32, esi: u32, out: &mut [u64]) -> Answer<()> {
    done(unsafe { spoonripple_isi(k, j, s, h, w, l, p, b, p1, count, esi, out.as_mut_ptr(), out.len()) })
}

pub fn tuple([k, j, s, h, w, l, p, b, p1]: Record, tables: &[u32], isi: u32, out: &mut [u64]) -> Answer<()> {
    done(unsafe { spoonripple_tuple(k, j, s, h, w, l, p, b, p1, tables.as_ptr(), tables.len(), isi, out.as_mut_ptr(), out.len()) })
}

/// The numbers of a slab: how many symbols, of how many bytes.
#[derive(Clone, Copy, Debug)]
pub struct Slab {
    pub count: usize,
    pub size: u16,
}

pub fn slab_with_zeros(store: &mut [u8], slab: Slab) -> Answer<()> {
    done(unsafe { spoonripple_slab_with_zeros(store.as_mut_ptr(), store.len(), slab.count, slab.size) })
}

pub fn slab_locate(len: usize, slab: Slab, order: &[u32], i: usize, out: &mut [u64]) -> Answer<()> {
    done(unsafe { spoonripple_slab_locate(len, slab.count, slab.size, order.as_ptr(), order.len(), i, out.as_mut_ptr(), out.len()) })
}

#[inline]
pub fn slab_add_assign(store: &mut [u8], slab: Slab, order: &[u32], dest: usize, src: usize, out: &mut [u64]) -> Answer<()> {
    done(unsafe {
        spoonripple_slab_add_assign(
            store.as_mut_ptr(), store.len(), slab.count, slab.size, order.as_ptr(), order.len(), dest, src, out.as_mut_ptr(), out.len(),
        )
    })
}

pub fn slab_mulassign_scalar(store: &mut [u8], slab: Slab, order: &[u32], dest: usize, scalar: u8, out: &mut [u64]) -> Answer<()> {
    done(unsafe {
        spoonripple_slab_mulassign_scalar(
            store.as_mut_ptr(), store.len(), slab.count, slab.size, order.as_ptr(), order.len(), dest, scalar, out.as_mut_ptr(), out.len(),
        )
    })
}

#[inline]
pub fn slab_fma(store: &mut [u8], slab: Slab, order: &[u32], dest: usize, src: usize, scalar: u8, out: &mut [u64]) -> Answer<()> {
    done(unsafe {
        spoonripple_slab_fma(
            store.as_mut_ptr(), store.len(), slab.count, slab.size, order.as_ptr(), order.len(), dest, src, scalar, out.as_mut_ptr(), out.len(),
        )
    })
}

/// The numbers of a matrix: how many rows and columns.
#[derive(Clone, Copy, Debug)]
pub struct Shape {
    pub height: usize,
    pub width: usize,
}

pub fn matrix_new(words: &mut [u64], m: Shape) -> Answer<()> {
    done(unsafe { spoonripple_matrix_new(words.as_mut_ptr(), words.len(), m.height, m.width) })
}

pub fn matrix_set(words: &mut [u64], m: Shape, i: usize, j: usize, value: u8) -> Answer<()> {
    done(unsafe { spoonripple_matrix_set(words.as_mut_ptr(), words.len(), m.height, m.width, i, j, value) })
}

pub fn matrix_get(words: &[u64], m: Shape, i: usize, j: usize, out: &mut [u64]) -> Answer<()> {
    done(unsafe { spoonripple_matrix_get(words.as_ptr(), words.len(), m.height, m.width, i, j, out.as_mut_ptr(), out.len()) })
}

pub fn matrix_count_ones(words: &[u64], m: Shape, i: usize, start: usize, end: usize, out: &mut [u64]) -> Answer<()> {
    done(unsafe { spoonripple_matrix_count_ones(words.as_ptr(), words.len(), m.height, m.width, i, start, end, out.as_mut_ptr(), out.len()) })
}

pub fn matrix_get_ones_in_column(words: &[u64], m: Shape, j: usize, start: usize, end: usize, list: &mut [u32], out: &mut [u64]) -> Answer<()> {
    done(unsafe {
        spoonripple_matrix_get_ones_in_column(words.as_ptr(), words.len(), m.height, m.width, j, start, end, list.as_mut_ptr(), list.len(), out.as_mut_ptr(), out.len())
    })
}

pub fn matrix_query_non_zero_columns(words: &[u64], m: Shape, i: usize, start: usize, list: &mut [u32], out: &mut [u64]) -> Answer<()> {
    done(unsafe {
        spoonripple_matrix_query_non_zero_columns(words.as_ptr(), words.len(), m.height, m.width, i, start, list.as_mut_ptr(), list.len(), out.as_mut_ptr(), out.len())
    })
}

pub fn matrix_swap_rows(words: &mut [u64], m: Shape, i: usize, j: usize) -> Answer<()> {
    done(unsafe { spoonripple_matrix_swap_rows(words.as_mut_ptr(), words.len(), m.height, m.width, i, j) })
}

pub fn matrix_swap_columns(words: &mut [u64], m: Shape, i: usize, j: usize, start: usize) -> Answer<()> {
    done(unsafe { spoonripple_matrix_swap_columns(words.as_mut_ptr(), words.len(), m.height, m.width, i, j, start) })
}

#[inline]
pub fn matrix_add_assign_rows(words: &mut [u64], m: Shape, dest: usize, src: usize) -> Answer<()> {
    done(unsafe { spoonripple_matrix_add_assign_rows(words.as_mut_ptr(), words.len(), m.height, m.width, dest, src) })
}

pub fn matrix_resize(words: &mut [u64], m: Shape, new: Shape) -> Answer<()> {
    done(unsafe { spoonripple_matrix_resize(words.as_mut_ptr(), words.len(), m.height, m.width, new.height, new.width) })
}

pub fn enc_indices([k, j, s, h, w, l, p, b, p1]: Record, [d, a, tuple_b, d1, a1, b1]: [u32; 6], list: &mut [u32]) -> Answer<()> {
    done(unsafe { spoonripple_enc_indices(k, j, s, h, w, l, p, b, p1, d, a, tuple_b, d1, a1, b1, list.as_mut_ptr(), list.len()) })
}

pub fn hdpc_rows([k, j, s, h, w, l, p, b, p1]: Record, tables: &[u32], store: &mut [u8]) -> Answer<()> {
    done(unsafe { spoonripple_hdpc_rows(k, j, s, h, w, l, p, b, p1, tables.as_ptr(), tables.len(), store.as_mut_ptr(), store.len()) })
}

#[inline]
pub fn constraint_matrix([k, j, s, h, w, l, p, b, p1]: Record, tables: &[u32], ids: &[u32], words: &mut [u64]) -> Answer<()> {
    done(unsafe {
        spoonripple_constraint_matrix(k, j, s, h, w, l, p, b, p1, tables.as_ptr(), tables.len(), ids.as_ptr(), ids.len(), words.as_mut_ptr(), words.len())
    })
}

pub fn constraint_matrix_no_hdpc([k, j, s, h, w, l, p, b, p1]: Record, tables: &[u32], ids: &[u32], words: &mut [u64]) -> Answer<()> {
    done(unsafe {
        spoonripple_constraint_matrix_no_hdpc(k, j, s, h, w, l, p, b, p1, tables.as_ptr(), tables.len(), ids.as_ptr(), ids.len(), words.as_mut_ptr(), words.len())
    })
}

pub fn encode([k, j, s, h, w, l, p, b, p1]: Record, tables: &[u32], count: u32, t: u16, esi: u32, intermediates: &[u8], out: &mut [u8]) -> Answer<()> {
    done(unsafe {
        spoonripple_encode(
            k, j, s, h, w, l, p, b, p1, tables.as_ptr(), tables.len(), count, t, esi,
            intermediates.as_ptr(), intermediates.len(), out.as_mut_ptr(), out.len(),
        )
    })
}

/// What arrived of a block of `count` source symbols of t octets: ESIs, and the symbols one after the other.
#[derive(Clone, Copy, Debug)]
pub struct Arrived<'a> {
    pub count: u32,
    pub t: u16,
    pub esis: &'a [u32],
    pub symbols: &'a [u8],
}

/// The four stores that `solve` is lent.
#[derive(Clone, Debug, Default, PartialEq)]
pub struct Stores {
    pub rows: Vec<u8>,
    pub values: Vec<u8>,
    pub out: Vec<u8>,
    pub shortfall: Vec<u64>,
}

/// 0 solved, 100 contradiction, 101 open, else the code of the refusal.
#[inline]
pub fn solve([k, j, s, h, w, l, p, b, p1]: Record, tables: &[u32], came: Arrived, lent: &mut Stores) -> u32 {
    let Stores { rows, values, out, shortfall } = lent;
    unsafe {
        spoonripple_solve(
            k, j, s, h, w, l, p, b, p1, tables.as_ptr(), tables.len(), came.count, came.t,
            came.esis.as_ptr(), came.esis.len(), came.symbols.as_ptr(), came.symbols.len(),
            rows.as_mut_ptr(), rows.len(), values.as_mut_ptr(), values.len(), out.as_mut_ptr(), out.len(), shortfall.as_mut_ptr(), shortfall.len(),
        )
    }
}

/// What is the intake's between calls and lent to each of them: its state, its pivots and its two stores.
pub struct Held<'a> {
    pub state: &'a mut [u32],
    pub pivots: &'a mut [u16],
    pub rows: &'a mut [u8],
    pub values: &'a mut [u8],
}

/// The words of a state.
pub const INTAKE_STATE: usize = 1037;

#[inline]
pub fn intake_begin([k, j, s, h, w, l, p, b, p1]: Record, tables: &[u32], count: u32, t: u16, held: &mut Held) -> Answer<()> {
    let Held { state, pivots, rows, values } = held;
    done(unsafe {
        spoonripple_intake_begin(
            k, j, s, h, w, l, p, b, p1, tables.as_ptr(), tables.len(), count, t,
            state.as_mut_ptr(), state.len(), pivots.as_ptr(), pivots.len(), rows.as_ptr(), rows.len(), values.as_ptr(), values.len(),
        )
    })
}

#[inline]
pub fn intake_packet(esi: u32, symbol: &[u8], held: &mut Held) -> Answer<()> {
    let Held { state, pivots, rows, values } = held;
    done(unsafe {
        spoonripple_intake_packet(
            esi, symbol.as_ptr(), symbol.len(),
            state.as_mut_ptr(), state.len(), pivots.as_mut_ptr(), pivots.len(), rows.as_mut_ptr(), rows.len(), values.as_mut_ptr(), values.len(),
        )
    })
}

/// 0 solved, 100 contradiction, 101 open, else the code of the refusal, as `solve`.
#[inline]
pub fn intake_question(held: &mut Held, out: &mut [u8], shortfall: &mut [u64]) -> u32 {
    let Held { state, pivots, rows, values } = held;
    unsafe {
        spoonripple_intake_question(
            state.as_mut_ptr(), state.len(), pivots.as_mut_ptr(), pivots.len(), rows.as_mut_ptr(), rows.len(), values.as_mut_ptr(), values.len(),
            out.as_mut_ptr(), out.len(), shortfall.as_mut_ptr(), shortfall.len(),
        )
    }
}

/// The source symbols of a block, encoded from its intermediate symbols.
pub fn rebuilt(record: Record, tables: &[u32], count: u32, t: u16, set: &[u8]) -> Answer<Vec<u8>> {
    let mut block = vec![0; count as usize * usize::from(t)];
    for (esi, symbol) in (0..).zip(block.chunks_mut(t.into())) {
        encode(record, tables, count, t, esi, set, symbol)?;
    }
    Ok(block)
}

/// Where source symbol i is shown from: what arrived, or the rebuilt store.
pub fn display(came: Arrived, rebuilt: &[u8], i: u32, out: &mut [u64]) -> Answer<()> {
    let Arrived { count, t, esis, symbols } = came;
    done(unsafe {
        spoonripple_display(count, t, esis.as_ptr(), esis.len(), symbols.as_ptr(), symbols.len(), rebuilt.as_ptr(), rebuilt.len(), i, out.as_mut_ptr(), out.len())
    })
}
