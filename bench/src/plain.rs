//! `fill_hdpc` is ported from constraint_matrix.rs of raptorq 2.0.1 (Apache-2.0) and changed; the rest is ours.
//!
//! The solver's elimination in plain Rust: the rows in the order of ours, the same steps, over the same stores. It counts the operations on symbols.
use differential::archive::{Arrived, Row, Stores};
use differential::rows::{rand, shifted, sizes, tuple};

/// The two stores of a system in l symbols of t octets, the equation that is taken, and the operations on symbols so far: sums, sums with products,
/// products.
struct System<'a> {
    rows: &'a mut [u8],
    values: &'a mut [u8],
    pivots: Vec<u16>,
    row: Vec<u8>,
    symbol: Vec<u8>,
    l: usize,
    t: usize,
    sums: u64,
    fused: u64,
    scaled: u64,
}

fn double(x: u8) -> u8 {
    x << 1 ^ if x & 128 != 0 { 29 } else { 0 }
}

/// Each bit of x takes a doubled copy of c: the compiler works the copies out once a run and makes vector code of the rest, which is faster than a
/// table of products.
fn times(c: u8, x: u8) -> u8 {
    let (mut sum, mut copy) = (0, c);
    for bit in 0..8 {
        sum ^= copy & 0u8.wrapping_sub(x >> bit & 1);
        copy = double(copy);
    }
    sum
}

/// `by` times `from` goes onto `to`. Never inlined: as a function of its own it knows that the two do not overlap, and no test stands before its
/// vector code.
#[inline(never)]
fn add(to: &mut [u8], from: &[u8], by: u8) {
    if by == 1 {
        to.iter_mut().zip(from).for_each(|(x, y)| *x ^= y);
    } else {
        to.iter_mut().zip(from).for_each(|(x, y)| *x ^= times(by, *y));
    }
}

/// The same for a row of coefficients: most are of 0 and 1, which needs no product, and a look at all of it takes less than the products.
#[inline(never)]
fn add_row(to: &mut [u8], from: &[u8], by: u8) {
    if by != 1 && from.iter().copied().fold(0, u8::max) < 2 {
        to.iter_mut().zip(from).for_each(|(x, y)| *x ^= if *y == 0 { 0 } else { by });
    } else {
        add(to, from, by);
    }
}

/// Where a sum of rows begins that are 0 before column c: at c, or so much before it that vector code takes what is left whole.
fn begin(l: usize, c: usize) -> usize {
    c.saturating_sub((32 - (l - c) % 32) % 32)
}

/// The first column from `from` on in which a row is not 0, or its length. Zeros are passed over by blocks, which are looked at whole.
fn first_other(row: &[u8], from: usize) -> usize {
    let blank = 64 * row[from..].chunks_exact(64).take_while(|block| block.iter().copied().fold(0, u8::max) == 0).count();
    (from + blank..row.len()).find(|c| row[*c] != 0).unwrap_or(row.len())
}

fn scale(row: &mut [u8], by: u8) {
    row.iter_mut().for_each(|x| *x = times(by, *x));
}

impl System<'_> {
    fn count(&mut self, by: u8) {
        if by == 1 { self.sums += 1 } else { self.fused += 1 }
    }

    /// The held rows go off the equation, straight from the stores, by what it has at their pivots; they are 0 before these.
    fn sift(&mut self) {
        let (l, t) = (self.l, self.t);
        for k in 0..self.pivots.len() {
            let c = usize::from(self.pivots[k]);
            let by = self.row[c];
            if by != 0 {
                let start = begin(l, c);
                add_row(&mut self.row[start..], &self.rows[k * l..][start..l], by);
                add(&mut self.symbol, &self.values[k * t..][..t], by);
                self.count(by);
            }
        }
    }

    fn make_one(&mut self, c: usize) {
        let by = self.row[c];
        if by != 1 {
            let inverse = (1..=255).find(|x| times(by, *x) == 1).expect("not 0");
            scale(&mut self.row, inverse);
            scale(&mut self.symbol, inverse);
            self.scaled += 1;
        }
    }

    /// Takes equation i; false where it cannot be met.
    fn take(&mut self, i: usize) -> bool {
        let (l, t, r) = (self.l, self.t, self.pivots.len());
        self.row.copy_from_slice(&self.rows[i * l..][..l]);
        self.symbol.copy_from_slice(&self.values[i * t..][..t]);
        self.sift();
        let c = first_other(&self.row, 0);
        if c == l {
            // Ours is told by the last sum whether the symbol is 0. Few rows depend on others, and here the symbol is looked at, as ours was once.
            return first_other(&self.symbol, 0) == t;
        }
        self.make_one(c);
        self.rows[r * l..][..l].copy_from_slice(&self.row);
        self.values[r * t..][..t].copy_from_slice(&self.symbol);
        self.pivots.push(c as u16);
        true
    }

    /// From the last of l held rows back, over the symbols alone: a row is 0 before its pivot, and behind it only where a later row has its pivot.
    fn settle(&mut self, out: &mut [u8]) {
        let (l, t) = (self.l, self.t);
        for q in (0..l).rev() {
            let p = usize::from(self.pivots[q]);
            out[p * t..][..t].copy_from_slice(&self.values[q * t..][..t]);
            let mut c = first_other(&self.rows[q * l..][..l], p + 1);
            while c < l {
                let by = self.rows[q * l + c];
                let (front, back) = out.split_at_mut(c * t);
                add(&mut front[p * t..][..t], &back[..t], by);
                self.count(by);
                c = first_other(&self.rows[q * l..][..l], c + 1);
            }
        }
    }
}

fn fill_walk(out: &mut [u8], w: u32, p: u32, p1: u32, [d, a, mut b, d1, a1, mut b1]: [u32; 6]) {
    out.fill(0);
    for _ in 0..d {
        out[b as usize] ^= 1;
        b = (b + a) % w;
    }
    for _ in 0..d1 {
        while b1 >= p {
            b1 = (b1 + a1) % p1;
        }
        out[(w + b1) as usize] ^= 1;
        b1 = (b1 + a1) % p1;
    }
}

/// The arrivals and the padding rows by degree, from the front of both stores on.
fn fill_sent(row: Row, tables: &[u32], came: Arrived, rows: &mut [u8], values: &mut [u8]) {
    let [l, p, _, p1] = sizes(row).expect("an accepted row");
    let (n, t, l) = (came.esis.len(), usize::from(came.t), l as usize);
    let isis = came.esis.iter().map(|e| shifted(row, came.count, *e)).chain(came.count..row[0]);
    let mut all: Vec<(usize, [u32; 6])> = isis.map(|x| tuple(row, p1, tables, x)).enumerate().collect();
    all.sort_by_key(|(_, tuple)| tuple[0]);
    for (at, (i, tuple)) in all.into_iter().enumerate() {
        fill_walk(&mut rows[at * l..][..l], row[4], p, p1, tuple);
        let symbol = &mut values[at * t..][..t];
        if i < n { symbol.copy_from_slice(&came.symbols[i * t..][..t]) } else { symbol.fill(0) }
    }
}

fn fill_ldpc([k, _, s, h, w]: [usize; 5], rows: &mut [u8]) {
    let (l, b, p) = (k + s + h, w - s, k + s + h - w);
    rows[..s * l].fill(0);
    for i in 0..b {
        let a = 1 + i / s;
        for turn in 0..3 {
            rows[(i + turn * a) % s * l + i] = 1;
        }
    }
    for i in 0..s {
        for c in [b + i, w + i % p, w + (i + 1) % p] {
            rows[i * l + c] = 1;
        }
    }
}

/// From the last column of MT times GAMMA to the first: each is twice the next, and the two ones of MT.
fn fill_hdpc([k, _, s, h, _]: [usize; 5], tables: &[u32], rows: &mut [u8]) {
    let (n, l) = (k + s, k + s + h);
    rows[..h * l].fill(0);
    let mut power = 1;
    for i in 0..h {
        rows[i * l + n - 1] = power;
        power = double(power);
        rows[i * l + n + i] = 1;
    }
    for j in (0..n - 1).rev() {
        (0..h).for_each(|i| rows[i * l + j] = double(rows[i * l + j + 1]));
        let first = rand(tables, j as u32 + 1, 6, h as u32) as usize;
        let second = (first + rand(tables, j as u32 + 1, 7, h as u32 - 1) as usize + 1) % h;
        rows[first * l + j] ^= 1;
        rows[second * l + j] ^= 1;
    }
}

/// What the archive's `solve` does, on stores with room: its answer, and the sums, sums with products and products of symbols.
pub fn solve(row: Row, tables: &[u32], came: Arrived, lent: &mut Stores) -> (u32, [u64; 3]) {
    let numbers = row.map(|x| x as usize);
    let [k, _, s, h, _] = numbers;
    let (l, t, sent) = (k + s + h, usize::from(came.t), came.esis.len() + k - came.count as usize);
    let m = s + h + sent;
    let (rows, values) = (&mut lent.rows[..m * l], &mut lent.values[..m * t]);
    fill_sent(row, tables, came, rows, values);
    values[sent * t..].fill(0);
    fill_ldpc(numbers, &mut rows[sent * l..]);
    fill_hdpc(numbers, tables, &mut rows[(sent + s) * l..]);
    let mut system = System { rows, values, pivots: vec![], row: vec![0; l], symbol: vec![0; t], l, t, sums: 0, fused: 0, scaled: 0 };
    let meets = (0..m).all(|i| system.take(i));
    let held = system.pivots.len();
    let code = if !meets {
        100
    } else if held < l {
        lent.shortfall[0] = (l - held) as u64;
        101
    } else {
        system.settle(&mut lent.out);
        0
    };
    let counts = [system.sums, system.fused, system.scaled];
    rows.fill(0);
    values.fill(0);
    (code, counts)
}
