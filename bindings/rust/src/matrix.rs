//! The binary matrix in lent words: height rows of ceil(width / 64) words, column c is bit c mod 64 of word c / 64 of its row.
//!
//! Refused by every call, in this order: 2 where the height is above 131,070 or the width above 65,535, 8 where the words or a list are too short,
//! 6 where a row, a column or a range lies outside. Words past the matrix stay.
use crate::refusal::{Refusal, done, values, yes};
use crate::sys;
use std::ops::Range;

/// How many rows and columns.
#[derive(Clone, Copy, Debug, PartialEq, Eq)]
pub struct Shape {
    /// How many rows.
    pub height: usize,
    /// How many columns.
    pub width: usize,
}

impl Shape {
    /// How many words its matrix takes.
    pub fn words(self) -> usize {
        self.height.saturating_mul(self.width.div_ceil(64))
    }
}

/// Every word of the matrix becomes 0, the bits past the width too.
pub fn new(words: &mut [u64], m: Shape) -> Result<(), Refusal> {
    done(unsafe { sys::spoonripple_matrix_new(words.as_mut_ptr(), words.len(), m.height, m.width) })
}

/// Sets or clears row i, column j.
pub fn set(words: &mut [u64], m: Shape, i: usize, j: usize, one: bool) -> Result<(), Refusal> {
    done(unsafe { sys::spoonripple_matrix_set(words.as_mut_ptr(), words.len(), m.height, m.width, i, j, one.into()) })
}

/// Whether row i has a one in column j.
pub fn get(words: &[u64], m: Shape, i: usize, j: usize) -> Result<bool, Refusal> {
    yes(|out, room| unsafe { sys::spoonripple_matrix_get(words.as_ptr(), words.len(), m.height, m.width, i, j, out, room) })
}

/// How many of these columns of row i are ones. A range whose start is above its end is 6.
pub fn count_ones(words: &[u64], m: Shape, i: usize, columns: Range<usize>) -> Result<usize, Refusal> {
    let Range { start, end } = columns;
    let count = values(|out, room| unsafe { sys::spoonripple_matrix_count_ones(words.as_ptr(), words.len(), m.height, m.width, i, start, end, out, room) });
    count.map(|[n]| n as usize)
}

/// Those of these rows that have a one in column j, rising. They are written to the front of `list`, of which the rest stays, and which needs room
/// for the whole range (8).
pub fn get_ones_in_column<'a>(words: &[u64], m: Shape, j: usize, rows: Range<usize>, list: &'a mut [u32]) -> Result<&'a [u32], Refusal> {
    let (words, words_len) = (words.as_ptr(), words.len());
    let (place, room_of_list) = (list.as_mut_ptr(), list.len());
    let [n] = values(|out, room| unsafe {
        sys::spoonripple_matrix_get_ones_in_column(words, words_len, m.height, m.width, j, rows.start, rows.end, place, room_of_list, out, room)
    })?;
    Ok(&list[..n as usize])
}

/// The columns from `start` on that have a one in row i, rising. They are written to the front of `list`, of which the rest stays, and which needs
/// room for all columns from `start` on (8).
pub fn query_non_zero_columns<'a>(words: &[u64], m: Shape, i: usize, start: usize, list: &'a mut [u32]) -> Result<&'a [u32], Refusal> {
    let (words, words_len) = (words.as_ptr(), words.len());
    let (place, room_of_list) = (list.as_mut_ptr(), list.len());
    let [n] = values(|out, room| unsafe {
        sys::spoonripple_matrix_query_non_zero_columns(words, words_len, m.height, m.width, i, start, place, room_of_list, out, room)
    })?;
    Ok(&list[..n as usize])
}

/// Rows i and j change places, whole words.
pub fn swap_rows(words: &mut [u64], m: Shape, i: usize, j: usize) -> Result<(), Refusal> {
    done(unsafe { sys::spoonripple_matrix_swap_rows(words.as_mut_ptr(), words.len(), m.height, m.width, i, j) })
}

/// Columns i and j change places in the rows from `start` on; from the height on that changes nothing.
pub fn swap_columns(words: &mut [u64], m: Shape, i: usize, j: usize, start: usize) -> Result<(), Refusal> {
    done(unsafe { sys::spoonripple_matrix_swap_columns(words.as_mut_ptr(), words.len(), m.height, m.width, i, j, start) })
}

/// Row dest + row src, in row dest, whole words. Refused last: 7 where they are one row.
pub fn add_assign_rows(words: &mut [u64], m: Shape, dest: usize, src: usize) -> Result<(), Refusal> {
    done(unsafe { sys::spoonripple_matrix_add_assign_rows(words.as_mut_ptr(), words.len(), m.height, m.width, dest, src) })
}

/// Keeps the first rows and columns, packed to the front; words past the new end stay. 2 is refused of the new shape too, 6 where it grows.
pub fn resize(words: &mut [u64], m: Shape, new: Shape) -> Result<(), Refusal> {
    done(unsafe { sys::spoonripple_matrix_resize(words.as_mut_ptr(), words.len(), m.height, m.width, new.height, new.width) })
}
