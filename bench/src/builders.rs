//! The builder of the constraint matrix against the crate's dense one, for growing blocks: both are linear in the rows.
use crate::{line, ratio};
use differential::archive;
use differential::rows;
use raptorq::constraint_matrix::generate_constraint_matrix;
use raptorq::matrix::DenseBinaryMatrix;
use raptorq_lent::rng::lent::published;
use std::hint::black_box;

pub fn run() {
    let tables = published();
    for k in [101, 1002, 5008] {
        let row = *rows::published().iter().find(|r| r[0] == k).expect("a row of Table 2");
        let record = rows::record(row);
        let l = rows::published_sizes(row)[0] as usize;
        let ids: Vec<u32> = (0..k + 10).collect();
        let mut words = vec![0; (row[2] + row[3] + k + 10) as usize * l.div_ceil(64)];
        let mut ours = || archive::constraint_matrix(record, &tables, black_box(&ids), black_box(&mut words)).unwrap();
        let mut theirs = || drop(black_box(generate_constraint_matrix::<DenseBinaryMatrix>(k, black_box(&ids))));
        let r = ratio((40_000 / k as usize).max(2), &mut ours, &mut theirs);
        line(&format!("builder, K' = {k}"), "the crate, whose call makes HDPC rows too", r, None);
    }
}
