//! The linear system of a call in the harness's own words: octets, the rows of RFC 6330 as sums, and Gauss's elimination column by column.
use crate::Random;
use crate::archive::Row;
use crate::rows::{rand, shifted, sizes, tuple, walk};
use std::sync::LazyLock;

/// RFC 6330, 5.7.2: products of polynomials modulo x^8 + x^4 + x^3 + x^2 + 1.
fn product(a: u8, b: u8) -> u8 {
    let wide = (0..8).filter(|i| b >> i & 1 == 1).fold(0u32, |x, i| x ^ u32::from(a) << i);
    (8..16).rev().fold(wide, |x, i| if x >> i & 1 == 1 { x ^ 0x11D << (i - 8) } else { x }) as u8
}

static PRODUCTS: LazyLock<Vec<[u8; 256]>> = LazyLock::new(|| (0..=255).map(|a| std::array::from_fn(|b| product(a, b as u8))).collect());

/// `by` times row `b` is added to row `a`.
pub fn add(a: &mut [u8], by: u8, b: &[u8]) {
    if by == 1 {
        return a.iter_mut().zip(b).for_each(|(x, y)| *x ^= y);
    }
    let times = &PRODUCTS[by as usize];
    a.iter_mut().zip(b).for_each(|(x, y)| *x ^= times[*y as usize]);
}

pub fn scale(a: &mut [u8], by: u8) {
    a.iter_mut().for_each(|x| *x = PRODUCTS[by as usize][*x as usize]);
}

pub fn inverse(a: u8) -> u8 {
    (1..=255).find(|b| PRODUCTS[a as usize][*b as usize] == 1).expect("an octet that is not 0")
}

/// 5.3.3.3: what each statement of the LDPC part adds to D[i]; the rows are then equal to 0.
fn ldpc([k, _, s, h, w]: [usize; 5]) -> Vec<Vec<u8>> {
    let (l, b, p) = (k + s + h, w - s, k + s + h - w);
    let mut d = vec![vec![0; l]; s];
    for i in 0..b {
        let a = 1 + i / s;
        for turn in 0..3 {
            d[(i + turn * a) % s][i] ^= 1;
        }
    }
    for i in 0..s {
        d[i][b + i] ^= 1;
        d[i][w + i % p] ^= 1;
        d[i][w + (i + 1) % p] ^= 1;
    }
    d
}

/// 5.3.3.3: MT times GAMMA, then the identity.
pub fn hdpc([k, _, s, h, _]: [usize; 5], tables: &[u32]) -> Vec<Vec<u8>> {
    let n = k + s;
    let mut alpha = vec![1u8];
    (1..n.max(h)).for_each(|i| alpha.push(product(alpha[i - 1], 2)));
    let mut rows = vec![vec![0; n + h]; h];
    for j in 0..n {
        let first = rand(tables, j as u32 + 1, 6, h as u32) as usize;
        let second = (first + rand(tables, j as u32 + 1, 7, h as u32 - 1) as usize + 1) % h;
        for (i, row) in rows.iter_mut().enumerate() {
            let mt = if j + 1 == n { alpha[i] } else { u8::from(i == first || i == second) };
            if mt != 0 {
                (0..=j).for_each(|c| row[c] ^= PRODUCTS[mt as usize][alpha[j - c] as usize]);
            }
        }
    }
    rows.iter_mut().enumerate().for_each(|(i, row)| row[n + i] = 1);
    rows
}

/// 5.3.5.3: the intermediate symbols that Enc adds up for an ISI.
fn enc(row: Row, tables: &[u32], isi: u32) -> Vec<u8> {
    let [l, p, _, p1] = sizes(row).expect("an accepted row");
    let mut sum = vec![0; l as usize];
    walk(tuple(row, p1, tables, isi), row[4], p, p1).into_iter().for_each(|j| sum[j as usize] ^= 1);
    sum
}

/// The row of an ESI of a block of `count` source symbols.
pub fn sent(row: Row, tables: &[u32], count: u32, esi: u32) -> Vec<u8> {
    enc(row, tables, shifted(row, count, esi))
}

/// The rows whose symbols are 0: LDPC, HDPC, padding.
pub fn fixed(row: Row, tables: &[u32], count: u32) -> Vec<Vec<u8>> {
    let numbers = row.map(|n| n as usize);
    let padding = (count..row[0]).map(|isi| enc(row, tables, isi));
    ldpc(numbers).into_iter().chain(hdpc(numbers, tables)).chain(padding).collect()
}

/// What a system comes to; a solved one with its symbols, one after the other.
#[derive(Debug, PartialEq)]
pub enum Verdict {
    Solved(Vec<u8>),
    Contradiction,
    Open(u64),
}

/// Brings equations (coefficients, then a symbol) to reduced form column by column; the columns of the pivots, which stand in the first rows.
fn reduce(equations: &mut [Vec<u8>], l: usize) -> Vec<usize> {
    let mut pivots = vec![];
    for c in 0..l {
        let held = pivots.len();
        let Some(at) = (held..equations.len()).find(|i| equations[*i][c] != 0) else { continue };
        equations.swap(held, at);
        let mut row = std::mem::take(&mut equations[held]);
        let by = inverse(row[c]);
        scale(&mut row, by);
        for other in equations.iter_mut().filter(|e| !e.is_empty() && e[c] != 0) {
            let by = other[c];
            add(other, by, &row);
        }
        equations[held] = row;
        pivots.push(c);
    }
    pivots
}

/// Rows of l coefficients in reduced form, without those that become 0: as many as are independent.
pub fn independent(mut rows: Vec<Vec<u8>>, l: usize) -> Vec<Vec<u8>> {
    let rank = reduce(&mut rows, l).len();
    rows.truncate(rank);
    rows
}

/// The verdict on equations in l symbols.
pub fn verdict(mut equations: Vec<Vec<u8>>, l: usize) -> Verdict {
    let rank = reduce(&mut equations, l).len();
    if equations[rank..].iter().any(|e| e[l..].iter().any(|x| *x != 0)) {
        Verdict::Contradiction
    } else if rank < l {
        Verdict::Open((l - rank) as u64)
    } else {
        Verdict::Solved(equations[..l].iter().flat_map(|e| e[l..].to_vec()).collect())
    }
}

/// The symbol that a row of coefficients makes of the intermediate symbols.
pub fn made(row: &[u8], set: &[u8], t: usize) -> Vec<u8> {
    let mut symbol = vec![0; t];
    row.iter().enumerate().filter(|(_, by)| **by != 0).for_each(|(c, by)| add(&mut symbol, *by, &set[c * t..][..t]));
    symbol
}

/// Some intermediate symbols of t octets that meet rows whose symbols are 0: a pivot's symbol follows from those that are free.
pub fn fitting(mut rows: Vec<Vec<u8>>, l: usize, t: usize, random: &mut Random) -> Vec<u8> {
    let pivots = reduce(&mut rows, l);
    let mut set = random.bytes(l * t);
    pivots.iter().for_each(|c| set[c * t..][..t].fill(0));
    for (k, c) in pivots.iter().enumerate() {
        let symbol = made(&rows[k], &set, t);
        set[c * t..][..t].copy_from_slice(&symbol);
    }
    set
}
