//! Runs of octets: add, multiply-add and scale against loops in plain Rust that write the same bytes and answer the same, whether all of them are 0 now.
//! There the bytes are gathered by `|` as they are written, and products are by a table of all 65,536. Then single octets.
use crate::{line, octets, ratio};
use differential::Random;
use differential::archive::{self, Answer};
use raptorq::octet::Octet;
use std::hint::black_box;

#[inline(never)]
fn add(dst: &mut [u8], src: &[u8]) -> bool {
    let mut seen = 0;
    for (d, s) in dst.iter_mut().zip(src) {
        *d ^= s;
        seen |= *d;
    }
    seen == 0
}

#[inline(never)]
fn fma(dst: &mut [u8], src: &[u8], products: &[u8; 256]) -> bool {
    let mut seen = 0;
    for (d, s) in dst.iter_mut().zip(src) {
        *d ^= products[*s as usize];
        seen |= *d;
    }
    seen == 0
}

#[inline(never)]
fn scale(dst: &mut [u8], products: &[u8; 256]) -> bool {
    let mut seen = 0;
    for d in dst {
        *d = products[*d as usize];
        seen |= *d;
    }
    seen == 0
}

/// Both sides write the same and answer the same, once no and once yes of each call, else no time means anything.
fn agree(src: &[u8], products: &[[u8; 256]]) {
    let (mut ours, mut theirs, mut zero) = (vec![0; src.len()], vec![0; src.len()], [2]);
    let mut same = |answer: u64, call: &dyn Fn(&mut [u8], &mut [u64]) -> Answer<()>, plain: &dyn Fn(&mut [u8]) -> bool| {
        let told = plain(&mut theirs);
        assert!(call(&mut ours, &mut zero).is_ok() && ours == theirs && zero == [answer] && told == (answer == 1), "both give the same");
    };
    for answer in [0, 1] {
        same(answer, &|dst, out| archive::run_add(dst, src, out), &|dst| add(dst, src));
    }
    for answer in [0, 1] {
        same(answer, &|dst, out| archive::run_fma(dst, src, 77, out), &|dst| fma(dst, src, &products[77]));
    }
    same(0, &|dst, out| archive::run_add(dst, src, out), &|dst| add(dst, src));
    for (answer, c) in [(0, 77), (1, 0)] {
        same(answer, &|dst, out| archive::run_scale(dst, c, out), &|dst| scale(dst, &products[c as usize]));
    }
}

/// Ours over theirs, both with each of the scalars in turn.
fn in_turn(times: usize, scalars: &[u8], mut ours: impl FnMut(u8), mut theirs: impl FnMut(u8)) -> f64 {
    let (mut i, mut j) = (0, 0);
    let next = |at: &mut usize| {
        *at = (*at + 1) % scalars.len();
        scalars[*at]
    };
    ratio(times, &mut || ours(next(&mut i)), &mut || theirs(next(&mut j)))
}

pub fn run() {
    let products: Vec<[u8; 256]> = (0..=255u8).map(|c| std::array::from_fn(|x| (Octet::new(c) * Octet::new(x as u8)).byte())).collect();
    let mut random = Random::new(1);
    for n in [16, 256, 1024, 65535] {
        let (mut dst, src) = (random.bytes(n), random.bytes(n));
        agree(&src, &products);
        let mut other = dst.clone();
        let scalars = random.bytes(64);
        let times = (20_000_000 / n).max(64);
        // Ours answers in a place that it is lent, plain Rust by the result.
        let mut zero = [0];
        let mut ours = || archive::run_add(black_box(&mut dst), black_box(&src), black_box(&mut zero)).unwrap();
        let mut theirs = || {
            black_box(add(black_box(&mut other), black_box(&src)));
        };
        let r = ratio(times, &mut ours, &mut theirs);
        line(&format!("add, {n} bytes"), "plain Rust", r, Some(1.2));
        let r = in_turn(
            times / 4,
            &scalars,
            |c| archive::run_fma(black_box(&mut dst), black_box(&src), c, black_box(&mut zero)).unwrap(),
            |c| {
                black_box(fma(black_box(&mut other), black_box(&src), &products[c as usize]));
            },
        );
        line(&format!("multiply-add, {n} bytes"), "plain Rust with tables", r, Some(1.5));
        // Not by 0: all turns after it would have zeros to scale.
        let r = in_turn(
            times / 4,
            &scalars.iter().map(|c| c | 1).collect::<Vec<u8>>(),
            |c| archive::run_scale(black_box(&mut dst), c, black_box(&mut zero)).unwrap(),
            |c| {
                black_box(scale(black_box(&mut other), &products[c as usize]));
            },
        );
        line(&format!("scale, {n} bytes"), "plain Rust with tables", r, None);
    }
    octets::run();
}
