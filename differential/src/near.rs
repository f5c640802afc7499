//! Rows and records near the rules: on either side of each, the rules before it kept, and rows that break several at once.
use crate::Random;
use crate::archive::{Record, Row};
use crate::rows::{self, is_prime};

/// Rows whose part was worked out by hand, 0 where no rule breaks, on both sides of each bound: the harness's own rules are held to them, as the check is.
pub const ROWS: [(Row, u32); 31] = [
    ([10, 254, 7, 10, 17], 0),
    ([65536, 254, 7, 10, 17], 1),
    ([65535, 254, 7, 10, 17], 2),
    ([10, 65535, 7, 10, 17], 0),
    ([10, 65536, 7, 10, 17], 1),
    ([10, 254, 65537, 10, 17], 1),
    ([10, 254, 7, 65536, 17], 1),
    ([10, 254, 7, 10, 65537], 1),
    ([0, 254, 7, 10, 17], 2),
    ([56403, 254, 7, 10, 17], 0),
    ([56404, 254, 7, 10, 17], 2),
    ([10, 254, 1, 10, 17], 3),
    ([10, 254, 8, 10, 17], 3),
    ([10, 254, 7, 1, 17], 4),
    ([10, 254, 7, 2, 13], 0),
    ([10, 254, 7, 255, 17], 0),
    ([10, 254, 7, 256, 17], 4),
    ([10, 254, 7, 10, 1], 5),
    ([10, 254, 7, 10, 16], 5),
    ([20, 254, 7, 10, 25], 5),
    ([10, 254, 7, 10, 5], 6),
    ([10, 254, 7, 10, 7], 6),
    ([10, 254, 5, 10, 7], 0),
    ([10, 254, 7, 10, 29], 7),
    ([2, 254, 7, 10, 17], 7),
    ([3, 254, 7, 10, 17], 0),
    ([10, 254, 3, 10, 7], 0),
    ([10, 254, 3, 10, 11], 8),
    ([10, 254, 3, 10, 13], 8),
    ([56403, 254, 9121, 11, 9127], 0),
    ([56403, 254, 9121, 12, 9127], 9),
];

/// For each of K', J, S, H and W numbers on both sides of its bounds, and some that are right together.
const EDGES: [&[u32]; 5] = [
    &[0, 1, 10, 56403, 56404, 65535, 65536],
    &[0, 65535, 65536],
    &[0, 1, 2, 3, 7, 8, 65535, 65536],
    &[0, 1, 2, 10, 255, 256, 65536],
    &[0, 1, 2, 3, 16, 17, 49, 65521, 65535, 65536],
];

/// Every row of these numbers: most break several rules.
pub fn grid() -> Vec<Row> {
    let mut rows: Vec<Row> = vec![[0; 5]];
    for (at, numbers) in EDGES.into_iter().enumerate() {
        let each = |row: &Row| numbers.iter().map(|n| replaced(*row, at, *n)).collect::<Vec<Row>>();
        rows = rows.iter().flat_map(each).collect();
    }
    rows
}

fn replaced<const N: usize>(mut numbers: [u32; N], at: usize, n: u32) -> [u32; N] {
    numbers[at] = n;
    numbers
}

fn one<T: Copy>(random: &mut Random, of: &[T]) -> T {
    of[random.below(of.len() as u64) as usize]
}

/// An accepted row of which some numbers are any of the edges.
pub fn several(random: &mut Random) -> Row {
    let mut row = rows::accepted_or_published(random, 477);
    for (n, edges) in row.iter_mut().zip(EDGES) {
        if random.below(2) == 0 {
            *n = one(random, edges);
        }
    }
    row
}

/// The first prime from n on.
fn prime_from(n: i64) -> i64 {
    (n.max(2)..).find(|n| is_prime(*n as u32)).expect("there is always one more")
}

fn prime_down(n: i64) -> i64 {
    (2..=n).rev().find(|n| is_prime(*n as u32)).unwrap_or(2)
}

/// The row with this S, W and P, and any J and H; none where a number would be negative.
fn with_p(random: &mut Random, [s, w, p]: [i64; 3]) -> Option<Row> {
    let h = 2 + (random.below(254) >> random.below(8)) as i64;
    with(random, [w + p - s - h, s, h, w])
}

fn with(random: &mut Random, [k, s, h, w]: [i64; 4]) -> Option<Row> {
    let j = random.below(65536) as i64;
    let row: Option<Vec<u32>> = [k, j, s, h, w].into_iter().map(|n| n.try_into().ok()).collect();
    row?.try_into().ok()
}

/// An accepted row with one of these numbers in this place.
fn but(random: &mut Random, at: usize, numbers: &[u32]) -> Option<Row> {
    let (row, n) = (rows::accepted_or_published(random, 477), one(random, numbers));
    Some(replaced(row, at, n))
}

/// 1: one number of 65,536 or more, or just not; its lower half may be right.
fn wide(random: &mut Random) -> Option<Row> {
    let (row, at) = (rows::accepted_or_published(random, 477), random.below(5) as usize);
    let right_half = row[at] + 65536 * (1 + random.below(65535) as u32);
    let n = one(random, &[65535, 65536, 65537, right_half, 1 << 31, u32::MAX]);
    Some(replaced(row, at, n))
}

/// 2: K' around 1 and 56,403.
fn near_k(random: &mut Random) -> Option<Row> {
    let above = 56404 + random.below(9132) as u32;
    but(random, 0, &[0, 0, 1, 2, 56402, 56403, 56404, 56405, above, 65535])
}

/// 3: S around 3, or even.
fn near_s(random: &mut Random) -> Option<Row> {
    let even = 2 * random.below(32768) as u32;
    but(random, 2, &[0, 1, 2, 3, 4, 5, 6, even, even, even + 1, 65534])
}

/// 4: H around 2 and 255.
fn near_h(random: &mut Random) -> Option<Row> {
    let above = 256 + random.below(65280) as u32;
    but(random, 3, &[0, 1, 2, 3, 254, 255, 256, 257, above, 65535])
}

/// 5: W a prime, beside one, or a product of two, as in a square; all other rules are kept where there is a row that keeps them.
fn near_w(random: &mut Random) -> Option<Row> {
    let [q, r] = [(); 2].map(|()| prime_down(2 + random.below(254) as i64));
    let prime = prime_from(random.below(65522) as i64);
    let w = one(random, &[0, 1, 2, 3, 4, prime, prime - 1, prime + 1, q * q, q * q, q * r, 63001, 65521, 65535]);
    // With a square of W or more S keeps the LDPC rule; K' is at most 56,403, and S makes up the rest.
    let least = (3..).find(|s| s * s >= w).expect("there is one").max(w - 56403);
    let (more, p) = (2 * random.below(8) as i64, 3 + random.below(40) as i64);
    with_p(random, [(least | 1) + more, w, p])
}

/// 6: B around 1, or far below. An odd prime less an odd S is even, so B is never 1 itself where the rules before are kept.
fn near_b(random: &mut Random) -> Option<Row> {
    let w = prime_from((random.below(65522) >> random.below(16)) as i64);
    let below = -2 * random.below(32768) as i64;
    let b = one(random, &[below, -4, -2, 0, 0, 2, 4]) + i64::from(w == 2);
    let (k, h) = (1 + random.below(9000) as i64, 2 + random.below(254) as i64);
    with(random, [k, w - b, h, w])
}

/// 7: P around 3, or far below.
fn near_p(random: &mut Random) -> Option<Row> {
    let w = prime_from(5 + (random.below(56000) >> random.below(12)) as i64);
    let s = 3 + 2 * random.below(1 + w as u64 / 4) as i64;
    let below = -(random.below(w as u64) as i64);
    let p = one(random, &[below, -1, 0, 1, 2, 2, 3, 4]);
    with_p(random, [s, w, p])
}

/// 8: ceil(B/S) one less than S, S, or one more; W is B + S, so the bound is at the square of S.
fn near_ldpc(random: &mut Random) -> Option<Row> {
    let s = 3 + 2 * random.below(118) as i64;
    let any = s * one(random, &[s - 1, s, s + 1]) + random.below(s as u64) as i64;
    let w = one(random, &[prime_down(s * s), prime_from(s * s), prime_from(s * s), prime_from(any)]);
    let p = 3 + random.below(40) as i64;
    with_p(random, [s, w, p])
}

/// 9: L around 65,535, or far above.
fn near_l(random: &mut Random) -> Option<Row> {
    let above = 65536 + random.below(50000) as i64;
    let l = one(random, &[above, 65533, 65534, 65535, 65536, 65536, 65537, 65538]);
    let (k, h) = (56403 - random.below(3000) as i64, 2 + random.below(254) as i64);
    let s = l - k - h;
    let w = prime_from(s + 1 + random.below(10000) as i64);
    with(random, [k, s, h, w])
}

/// By the part of each rule.
const RULES: [fn(&mut Random) -> Option<Row>; 9] = [wide, near_k, near_s, near_h, near_w, near_b, near_p, near_ldpc, near_l];

/// A row near the rule of this part, 1 to 9, on either side, that keeps all rules before it.
pub fn row(random: &mut Random, part: u32) -> Row {
    loop {
        let tried = RULES[part as usize - 1](random);
        if let Some(row) = tried.filter(|row| rows::part(*row).is_none_or(|first| first >= part)) {
            return row;
        }
    }
}

/// What could stand in the place of P1: P, the next prime, the prime below P.
fn instead_of_p1(random: &mut Random, p: u32, p1: u32) -> u32 {
    let (p, p1) = (i64::from(p), i64::from(p1));
    one(random, &[p, prime_from(p1 + 1), prime_down(p - 1)]) as u32
}

/// The record with another number in this place: one less or more, 0, any, one bit or the upper half changed, or another number of the record.
pub fn wrong(random: &mut Random, right: Record, at: usize) -> Record {
    let n = right[at];
    loop {
        let other = match random.below(8) {
            0 => n.wrapping_sub(1),
            1 => n.wrapping_add(1),
            2 => 0,
            3 => random.word() as u32 >> random.below(32),
            4 => n ^ 1u32 << random.below(32),
            5 => n.wrapping_add(65536 * random.below(65536) as u32),
            _ if at == 8 && random.below(2) == 0 => instead_of_p1(random, right[6], n),
            _ => right[random.below(9) as usize],
        };
        if other != n {
            return replaced(right, at, other);
        }
    }
}

/// A record near the rule of this part, 1 to 10. Those of 10 keep all other rules; of the rest one in four has L, P, B or P1 wrong beside.
pub fn record(random: &mut Random, part: u32) -> Record {
    let near = if part == 10 { rows::accepted_or_published(random, 477) } else { row(random, part) };
    let right = rows::record(near);
    let (at, spoil) = (5 + random.below(4) as usize, random.below(if part == 10 { 2 } else { 4 }) == 0);
    if spoil { wrong(random, right, at) } else { right }
}
