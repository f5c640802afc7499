//! The linear system of RFC 6330: the walk of a tuple, the HDPC rows, and both builders of the constraint matrix (sections 5.3.3.3 and 5.3.5.3).
use crate::matrix::Shape;
use crate::parameters::{Row, Tables};
use crate::refusal::{Refusal, done};
use crate::sys;
use crate::tuples::{Isi, Tuple};

/// The d + d1 intermediate symbols of a tuple's walk, in walk order. They are written to the front of `list`, of which the rest stays: at most 32 of what
/// [`tuple`](crate::tuples::tuple) gives, at most 33 of a tuple of the caller's own (d 30 and d1 3, with W of 37 or more). Refused: 2 where the tuple is
/// outside its bounds, then 8 where the list is too short.
pub fn enc_indices(row: Row, tuple: Tuple, list: &mut [u32]) -> Result<&[u32], Refusal> {
    let ([k, j, s, h, w, l, p, b, p1], Tuple { d, a, b: tuple_b, d1, a1, b1 }) = (row.numbers(), tuple);
    done(unsafe { sys::spoonripple_enc_indices(k, j, s, h, w, l, p, b, p1, d, a, tuple_b, d1, a1, b1, list.as_mut_ptr(), list.len()) })?;
    Ok(&list[..(d + d1) as usize])
}

/// The H rows of L octets, row after row, at the front of `store`, of which the rest stays. Refused: 8 where the store is too short.
pub fn hdpc_rows(row: Row, tables: Tables, store: &mut [u8]) -> Result<(), Refusal> {
    let ([k, j, s, h, w, l, p, b, p1], tables) = (row.numbers(), tables.numbers());
    done(unsafe { sys::spoonripple_hdpc_rows(k, j, s, h, w, l, p, b, p1, tables.as_ptr(), tables.len(), store.as_mut_ptr(), store.len()) })
}

/// The constraint matrix as bits: S LDPC rows, H rows of 0 in the place of the HDPC rows, and one row for each id. Answers its shape. Refused: 9 below K'
/// ids or above 65,535, then 8 where the words are too short.
pub fn constraint_matrix(row: Row, tables: Tables, isis: &[Isi], words: &mut [u64]) -> Result<Shape, Refusal> {
    let ([k, j, s, h, w, l, p, b, p1], tables, ids) = (row.numbers(), tables.numbers(), isis.as_ptr().cast());
    let (store, len) = (words.as_mut_ptr(), words.len());
    done(unsafe { sys::spoonripple_constraint_matrix(k, j, s, h, w, l, p, b, p1, tables.as_ptr(), tables.len(), ids, isis.len(), store, len) })?;
    Ok(Shape { height: (s + h) as usize + isis.len(), width: l as usize })
}

/// The same without the H rows of 0. Refused: 9 below K' + H ids or above 65,535, then 8 where the words are too short.
pub fn constraint_matrix_no_hdpc(row: Row, tables: Tables, isis: &[Isi], words: &mut [u64]) -> Result<Shape, Refusal> {
    let ([k, j, s, h, w, l, p, b, p1], tables, ids) = (row.numbers(), tables.numbers(), isis.as_ptr().cast());
    let (store, len) = (words.as_mut_ptr(), words.len());
    done(unsafe { sys::spoonripple_constraint_matrix_no_hdpc(k, j, s, h, w, l, p, b, p1, tables.as_ptr(), tables.len(), ids, isis.len(), store, len) })?;
    Ok(Shape { height: s as usize + isis.len(), width: l as usize })
}
