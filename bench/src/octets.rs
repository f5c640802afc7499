//! Single octets: each call over C against plain Rust that does the same by the crate's tables, as a call too, and writes its value to a lent place as ours
//! does. There are no bars: a receiver spends its time on runs.
use crate::{line, ratio};
use differential::Random;
use differential::archive::{self, Answer};
use raptorq::octet::Octet;
use std::hint::black_box;

#[inline(never)]
fn mul(a: u8, b: u8, out: &mut [u64]) {
    out[0] = (Octet::new(a) * Octet::new(b)).byte().into();
}

/// The crate's quotient is not inlined: here is a call within the call.
#[inline(never)]
fn div(a: u8, by: u8, out: &mut [u64]) {
    out[0] = (Octet::new(a) / Octet::new(by)).byte().into();
}

#[inline(never)]
fn alpha(i: usize, out: &mut [u64]) {
    out[0] = Octet::alpha(i).byte().into();
}

#[inline(never)]
fn fma(a: u8, b: u8, c: u8, out: &mut [u64]) {
    let mut sum = Octet::new(a);
    sum.fma(&Octet::new(b), &Octet::new(c));
    out[0] = sum.byte().into();
}

/// What a call reads: a, b and c. The last is a divisor too, and never 0.
type Operands = [u8; 3];

/// One line: both sides take all operands one after the other, a hundred times over. Both write the same first, else no time means anything.
fn compared(work: &str, operands: &[Operands], ours: impl Fn(Operands, &mut [u64]) -> Answer<()>, theirs: impl Fn(Operands, &mut [u64])) {
    for &x in operands {
        let (mut a, mut b) = ([u64::MAX], [u64::MAX - 1]);
        theirs(x, &mut b);
        assert!(ours(x, &mut a).is_ok() && a == b, "both give the same");
    }
    let (mut a, mut b) = ([0], [0]);
    let mut ours = || black_box(operands).iter().for_each(|x| ours(*x, black_box(&mut a)).unwrap());
    let mut theirs = || black_box(operands).iter().for_each(|x| theirs(*x, black_box(&mut b)));
    let r = ratio(100, &mut ours, &mut theirs);
    line(work, "plain Rust with tables", r, None);
}

pub fn run() {
    let mut random = Random::new(5);
    let operands: Vec<Operands> = (0..4096).map(|_| [random.byte(), random.byte(), 1 + random.below(255) as u8]).collect();
    compared("product of two octets", &operands, |[a, b, _], out| archive::octet_mul(a, b, out), |[a, b, _], out| mul(a, b, out));
    compared("quotient of two octets", &operands, |[a, _, by], out| archive::octet_div(a, by, out), |[a, _, by], out| div(a, by, out));
    compared("a + b * c", &operands, |[a, b, c], out| archive::octet_fma(a, b, c, out), |[a, b, c], out| fma(a, b, c, out));
    for (work, exponents) in [("power of alpha, any below 256", &operands), ("power of alpha, 255", &vec![[255; 3]; 4096])] {
        // Both have to look whether an exponent is out of range.
        let any = |i: u8| black_box(usize::from(i));
        compared(work, exponents, |[i, ..], out| archive::octet_alpha(any(i), out), |[i, ..], out| alpha(any(i), out));
    }
}
