//! Symbols in lent bytes: `count` symbols of t bytes at the front of a store, one after the other.
//!
//! An `order` says where a symbol lies: symbol i is physical symbol `order[i]`. It is empty (none) or as long as the count, and may repeat; only the
//! entries that a call uses are looked at. A call writes the bytes of one symbol, all others stay.
//!
//! Refused by every call, in this order: 2 where the count is above 131,070, 8 where the store is shorter than count · t bytes or the order has
//! another length, 6 where a symbol lies outside. Symbols of 0 bytes are taken.
//!
//! What changes a symbol tells whether that one is all zero now, so that nobody has to look through it again. A symbol of 0 bytes is.
//!
//! ```
//! use spoonripple::slab::{Slab, add_assign, fma, mulassign_scalar};
//!
//! let (mut store, two) = ([5, 0, 7, 5, 0, 6], Slab { count: 2, t: 3 });
//! assert_eq!(add_assign(&mut store, two, &[], 0, 1), Ok(false));
//! assert_eq!(store, [0, 0, 1, 5, 0, 6]);
//! assert_eq!(fma(&mut store, two, &[1, 0], 0, 1, 0), Ok(false)); // with this order symbol 0 lies behind symbol 1
//! assert_eq!(mulassign_scalar(&mut store, two, &[1, 0], 0, 0), Ok(true));
//! assert_eq!(store, [0, 0, 1, 0, 0, 0]);
//! ```
use crate::refusal::{Refusal, done, values, yes};
use crate::sys;
use std::ops::Range;

/// How many symbols, of how many bytes.
#[derive(Clone, Copy, Debug, PartialEq, Eq)]
pub struct Slab {
    /// How many symbols.
    pub count: usize,
    /// The bytes of one.
    pub t: u16,
}

/// All count · t bytes become 0. No symbol can lie outside here: only 2 and 8 are refused.
pub fn with_zeros(store: &mut [u8], slab: Slab) -> Result<(), Refusal> {
    done(unsafe { sys::spoonripple_slab_with_zeros(store.as_mut_ptr(), store.len(), slab.count, slab.t) })
}

/// Where symbol i lies in a store of `len` bytes.
pub fn locate(len: usize, slab: Slab, order: &[u32], i: usize) -> Result<Range<usize>, Refusal> {
    let Slab { count, t } = slab;
    let [start, end] = values(|out, room| unsafe { sys::spoonripple_slab_locate(len, count, t, order.as_ptr(), order.len(), i, out, room) })?;
    Ok(start as usize..end as usize)
}

/// dest + src, in `dest`: `Ok(true)` where `dest` is all zero now. Refused last: 7 where the two are one physical symbol.
pub fn add_assign(store: &mut [u8], slab: Slab, order: &[u32], dest: usize, src: usize) -> Result<bool, Refusal> {
    let Slab { count, t } = slab;
    yes(|out, room| unsafe { sys::spoonripple_slab_add_assign(store.as_mut_ptr(), store.len(), count, t, order.as_ptr(), order.len(), dest, src, out, room) })
}

/// scalar · dest, in `dest`: `Ok(true)` where `dest` is all zero now.
pub fn mulassign_scalar(store: &mut [u8], slab: Slab, order: &[u32], dest: usize, scalar: u8) -> Result<bool, Refusal> {
    let Slab { count, t } = slab;
    yes(|out, room| unsafe {
        sys::spoonripple_slab_mulassign_scalar(store.as_mut_ptr(), store.len(), count, t, order.as_ptr(), order.len(), dest, scalar, out, room)
    })
}

/// dest + scalar · src, in `dest`: `Ok(true)` where `dest` is all zero now. Refused last: 7 where the two are one physical symbol.
pub fn fma(store: &mut [u8], slab: Slab, order: &[u32], dest: usize, src: usize, scalar: u8) -> Result<bool, Refusal> {
    let Slab { count, t } = slab;
    yes(|out, room| unsafe { sys::spoonripple_slab_fma(store.as_mut_ptr(), store.len(), count, t, order.as_ptr(), order.len(), dest, src, scalar, out, room) })
}
