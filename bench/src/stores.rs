//! The two stores against the crate's own functions, which use the widest vectors that the machine has. Ours answer besides whether the symbol is all zero
//! now; the crate's do not, and its callers would look at the symbol again: that look is not timed here. bench/field has the loops that answer the same.
use crate::{line, ratio};
use differential::archive::{self, Shape, Slab};
use differential::{Random, telling};
use raptorq::matrix::{BinaryMatrix, DenseBinaryMatrix};
use raptorq::octet::Octet;
use raptorq::symbol_slab::SymbolSlab;
use std::hint::black_box;

fn slab(random: &mut Random, size: u16) {
    let slab = Slab { count: 16, size };
    let n = 16 * usize::from(size);
    let mut store = random.bytes(n);
    let mut theirs = SymbolSlab::with_zeros(16, size.into());
    theirs.data = store.clone();
    let times = (4_000_000 / usize::from(size)).max(64);
    let (mut i, mut j) = (0, 0);
    let mut zero = [2];
    let r = ratio(
        times,
        &mut || {
            i = (i + 1) % 15;
            archive::slab_add_assign(black_box(&mut store), slab, &[], i, i + 1, black_box(&mut zero)).unwrap()
        },
        &mut || {
            j = (j + 1) % 15;
            black_box(&mut theirs).add_assign(j, j + 1)
        },
    );
    line(&format!("slab add, T = {size}"), "the crate", r, None);
    let scalars = random.bytes(64);
    let r = ratio(
        times,
        &mut || {
            i = (i + 1) % 15;
            archive::slab_fma(black_box(&mut store), slab, &[], i, i + 1, scalars[4 * i], black_box(&mut zero)).unwrap()
        },
        &mut || {
            j = (j + 1) % 15;
            black_box(&mut theirs).fma(j, j + 1, &Octet::new(scalars[4 * j]))
        },
    );
    line(&format!("slab multiply-add, T = {size}"), "the crate", r, None);
    // The last call was on this symbol.
    let symbol = &store[i * usize::from(size)..][..size.into()];
    assert!(store == theirs.data && zero == [telling::all_zero(symbol).into()], "both leave the same, and ours answers");
}

fn matrix(random: &mut Random, width: usize) {
    let m = Shape { height: 16, width };
    let mut theirs = DenseBinaryMatrix::new(16, width, 0);
    let mut words: Vec<u64> = (0..16 * width.div_ceil(64)).map(|_| random.word()).collect();
    theirs.elements = words.clone();
    let (mut i, mut j) = (0, 0);
    let r = ratio(
        (20_000_000 / width).max(64),
        &mut || {
            i = (i + 1) % 15;
            archive::matrix_add_assign_rows(black_box(&mut words), m, i, i + 1).unwrap()
        },
        &mut || {
            j = (j + 1) % 15;
            black_box(&mut theirs).add_assign_rows(j, j + 1, 0)
        },
    );
    line(&format!("row addition, {width} columns"), "the crate", r, None);
}

pub fn run() {
    let mut random = Random::new(2);
    for size in [16, 256, 1024, 65535] {
        slab(&mut random, size);
    }
    for width in [64, 640, 6400, 65535] {
        matrix(&mut random, width);
    }
}
