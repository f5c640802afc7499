//! Octets and runs of octets: the field GF(256) of RFC 6330, section 5.7. No table is kept for them: products and powers are worked out by doubling and
//! exclusive or, quotients from products.
//!
//! What changes a run tells whether it is all zero now, so that nobody has to look through it again. A run of length 0 is.
//!
//! ```
//! use spoonripple::octets::{run_add, run_fma, run_scale};
//!
//! let mut run = [5, 0, 7];
//! assert_eq!(run_add(&mut run, &[5, 0, 6]), Ok(false));
//! assert_eq!(run, [0, 0, 1]);
//! assert_eq!(run_fma(&mut run, &[0, 0, 142], 2), Ok(true)); // 2 · 142 is 1
//! assert!(run_scale(&mut run, 9)); // as before: what matters is what it is now
//! assert_eq!((run, run_add(&mut [], &[])), ([0; 3], Ok(true)));
//! ```
use crate::refusal::{Refusal, values, yes};
use crate::sys;

/// An octet that a call answers which is never refused once it has room for it, and `values` gives it that.
fn octet(call: impl FnOnce(*mut u64, usize) -> u32) -> u8 {
    let [x] = values(call).expect("only a missing room is refused");
    x as u8
}

/// a + b, which is exclusive or.
pub fn add(a: u8, b: u8) -> u8 {
    octet(|out, room| unsafe { sys::spoonripple_octet_add(a, b, out, room) })
}

/// a - b, which is the same as a + b.
pub fn sub(a: u8, b: u8) -> u8 {
    octet(|out, room| unsafe { sys::spoonripple_octet_sub(a, b, out, room) })
}

/// a · b.
pub fn mul(a: u8, b: u8) -> u8 {
    octet(|out, room| unsafe { sys::spoonripple_octet_mul(a, b, out, room) })
}

/// a + b · c.
pub fn fma(a: u8, b: u8, c: u8) -> u8 {
    octet(|out, room| unsafe { sys::spoonripple_octet_fma(a, b, c, out, room) })
}

/// a / by. Refused: 1 where `by` is 0.
pub fn div(a: u8, by: u8) -> Result<u8, Refusal> {
    values(|out, room| unsafe { sys::spoonripple_octet_div(a, by, out, room) }).map(|[x]| x as u8)
}

/// Alpha to the power i, in i steps. Refused: 2 where i is above 255.
pub fn alpha(i: usize) -> Result<u8, Refusal> {
    values(|out, room| unsafe { sys::spoonripple_octet_alpha(i, out, room) }).map(|[x]| x as u8)
}

/// dst + src, octet by octet, in `dst`: `Ok(true)` where `dst` is all zero now. Refused: 8 where the two differ in length.
pub fn run_add(dst: &mut [u8], src: &[u8]) -> Result<bool, Refusal> {
    yes(|out, room| unsafe { sys::spoonripple_run_add(dst.as_mut_ptr(), dst.len(), src.as_ptr(), src.len(), out, room) })
}

/// c · dst, octet by octet, in `dst`: true where `dst` is all zero now. Never refused.
pub fn run_scale(dst: &mut [u8], c: u8) -> bool {
    yes(|out, room| unsafe { sys::spoonripple_run_scale(dst.as_mut_ptr(), dst.len(), c, out, room) }).expect("only a missing room is refused")
}

/// dst + c · src, octet by octet, in `dst`: `Ok(true)` where `dst` is all zero now. Refused: 8 where the two differ in length.
pub fn run_fma(dst: &mut [u8], src: &[u8], c: u8) -> Result<bool, Refusal> {
    yes(|out, room| unsafe { sys::spoonripple_run_fma(dst.as_mut_ptr(), dst.len(), src.as_ptr(), src.len(), c, out, room) })
}
