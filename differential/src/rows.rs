//! Parameter rows for the harness: the published ones, made-up ones, and the rules and numbers of document 01 in plain Rust.
use crate::archive::{Record, Row};
use crate::{Random, code};
use raptorq::systematic_constants as constants;
use std::borrow::Cow;

pub fn is_prime(n: u32) -> bool {
    n >= 2 && (2..).take_while(|d: &u64| d * d <= n.into()).all(|d| u64::from(n) % d != 0)
}

/// P and P1 of any row that has them, whether or not it keeps the rules.
pub fn pi_sizes([k, _, s, h, w]: Row) -> Option<[u32; 2]> {
    let p = k.checked_add(s)?.checked_add(h)?.checked_sub(w)?;
    Some([p, (p..=u32::MAX).find(|n| is_prime(*n))?])
}

/// The part of refusal 4 that a row is given: the place, in document 01's order of rules, of the first that it breaks.
pub fn part(row: Row) -> Option<u32> {
    let [k, _, s, h, w] = row.map(i64::from);
    let (l, b) = (k + s + h, w - s);
    let p = l - w;
    let rules: [&dyn Fn() -> bool; 9] = [
        &|| row.iter().all(|n| *n < 65536),
        &|| (1..=56403).contains(&k),
        &|| s % 2 == 1 && s >= 3,
        &|| (2..=255).contains(&h),
        &|| is_prime(row[4]),
        &|| b >= 1,
        &|| p >= 3,
        // Asked only where S and B are above 0.
        &|| (b + s - 1) / s < s,
        &|| l <= 65535,
    ];
    (1..).zip(rules).find(|(_, keeps)| !keeps()).map(|(place, _)| place)
}

/// The part of a record: that of its row, else 10 where L, P, B or P1 is not what the row's numbers give.
pub fn record_part(given: Record) -> Option<u32> {
    let [k, j, s, h, w, ..] = given;
    let row = [k, j, s, h, w];
    part(row).or_else(|| (given != record(row)).then_some(10))
}

/// The reason that a part is to refuse a call, for `refusal`; none is no reason.
pub fn reason(part: Option<u32>) -> (u32, bool) {
    (code(4, part.unwrap_or(0)), part.is_some())
}

/// L, P, B and P1 of a row that keeps the rules.
pub fn sizes(row: Row) -> Option<[u32; 4]> {
    part(row).is_none().then(|| record(row)).map(|[.., l, p, b, p1]| [l, p, b, p1])
}

/// The record of a row, as the check has to make it. A row that breaks a rule has one too, of sums modulo 2^32 and with 0 for a P1 far above all sizes: so
/// it is refused for its rule, and not for L, P, B or P1.
pub fn record([k, j, s, h, w]: Row) -> Record {
    let l = k.wrapping_add(s).wrapping_add(h);
    let (p, b) = (l.wrapping_sub(w), w.wrapping_sub(s));
    let p1 = (p..1 << 20).find(|n| is_prime(*n)).unwrap_or(0);
    [k, j, s, h, w, l, p, b, p1]
}

/// The 477 rows of RFC 6330, Table 2, as the crate has them.
pub fn published() -> Vec<Row> {
    constants::SYSTEMATIC_INDICES_AND_PARAMETERS.iter().map(|&(k, j, s, h, w)| [k, j, s, h, w]).collect()
}

/// K, T and the row of blocks that are refused whatever came: of no source symbols, of more than any row has, of symbols of no octets; and the rule of
/// what the crate does with them.
pub fn refused_blocks() -> [(u32, u16, Row, &'static str); 3] {
    let (first, last) = (published()[0], published()[476]);
    let outside = "D32 (K of 0, or above 56,403)";
    [(0, 1, first, outside), (56404, 1, last, outside), (10, 0, first, "D34 (symbol size 0)")]
}

/// What the crate gives for a published row.
pub fn published_sizes([k, _, s, _, w]: Row) -> [u64; 4] {
    [constants::num_intermediate_symbols(k), constants::num_pi_symbols(k), w - s, constants::calculate_p1(k)].map(u64::from)
}

/// Any row: most are near the edge of one rule.
pub fn made_up(random: &mut Random) -> Row {
    let mut row = match random.below(3) {
        0 => accepted(random),
        1 => published()[random.below(477) as usize],
        _ => [(); 5].map(|()| random.below(70000) as u32),
    };
    for _ in 0..random.below(3) {
        let n = &mut row[random.below(5) as usize];
        *n = match random.below(4) {
            0 => n.wrapping_add(1),
            1 => n.wrapping_sub(1),
            2 => random.below(10) as u32,
            _ => random.word() as u32 >> random.below(32),
        };
    }
    row
}

/// A small row that is accepted.
pub fn accepted(random: &mut Random) -> Row {
    accepted_of(random, [300, 20, 20])
}

/// An accepted row, of so many values of K', S and H.
pub fn accepted_of(random: &mut Random, many: [u64; 3]) -> Row {
    loop {
        let [k, s, h] = many.map(|n| random.below(n) as u32);
        let (k, s, h) = (1 + k, 3 + 2 * s, 2 + h);
        let w = s + 1 + random.below(u64::from(k + h)) as u32;
        let row = [k, random.below(65536) as u32, s, h, w];
        if sizes(row).is_some() {
            return row;
        }
    }
}

/// An accepted row, small, or one of so many published ones from the first on.
pub fn accepted_or_published(random: &mut Random, many: u64) -> Row {
    if random.below(2) == 0 { published()[random.below(many) as usize] } else { accepted_of(random, [45, 6, 12]) }
}

/// A small row of which one number breaks a rule.
pub fn broken(random: &mut Random) -> Row {
    loop {
        let mut row = accepted_of(random, [45, 6, 12]);
        let small = [random.below(4), random.below(100), 250 + random.below(60)][random.below(3) as usize];
        let at = random.below(5) as usize;
        row[at] = if at == 1 { 65536 } else { small as u32 };
        if sizes(row).is_none() {
            return row;
        }
    }
}

/// Random tables of any numbers.
pub fn any_tables(random: &mut Random) -> Vec<u32> {
    (0..1024).map(|_| random.word() as u32).collect()
}

/// Such tables; one time in four every number that `rand` makes of them ends in twenty ones: each degree is the largest that W allows, and a draw of d1 is 3.
pub fn any_or_long_tables(random: &mut Random) -> Vec<u32> {
    let mut tables = any_tables(random);
    if random.below(4) == 0 {
        tables.iter_mut().enumerate().for_each(|(at, number)| *number = *number >> 20 << 20 | if at < 256 { 0xF_FFFF } else { 0 });
    }
    tables
}

/// The tables as they are most times, sometimes of another length.
pub fn lent_tables<'a>(random: &mut Random, tables: &'a [u32]) -> Cow<'a, [u32]> {
    if random.below(16) != 0 {
        return tables.into();
    }
    let mut other = tables.to_vec();
    other.resize([0, 1023, 1025][random.below(3) as usize], 7);
    other.into()
}

/// The ISI of an ESI in a block of `count` source symbols, as the crate's decoder shifts it: from there on the padding symbols come in between.
pub fn shifted(row: Row, count: u32, esi: u32) -> u32 {
    if esi < count { esi } else { esi + row[0] - count }
}

/// L and M of a block of `count` source symbols of which n symbols came.
pub fn measures(row: Row, count: u32, n: usize) -> [usize; 2] {
    let l = (row[0] + row[2] + row[3]) as usize;
    [l, l - count as usize + n]
}

/// RFC 6330, 5.3.5.1, with the sums modulo 256 that the crate's overflow checks do not let it take.
pub fn rand(tables: &[u32], y: u32, i: u8, m: u32) -> u32 {
    let parts = y.to_le_bytes().into_iter().enumerate();
    parts.fold(0, |x, (part, byte)| x ^ tables[256 * part + byte.wrapping_add(i) as usize]) % m
}

/// RFC 6330, 5.3.5.4, over that `rand`.
pub fn tuple([_, j, _, _, w]: Row, p1: u32, tables: &[u32], x: u32) -> [u32; 6] {
    let a = (53591 + 997 * j) | 1;
    let y = (10267 * (j + 1)).wrapping_add(x.wrapping_mul(a));
    let d = raptorq::base::deg(rand(tables, y, 0, 1 << 20), w);
    let d1 = if d < 4 { 2 + rand(tables, x, 3, 2) } else { 2 };
    [d, 1 + rand(tables, y, 1, w - 1), rand(tables, y, 2, w), d1, 1 + rand(tables, x, 4, p1 - 1), rand(tables, x, 5, p1)]
}

/// 5.3.5.3: the intermediate symbols that Enc adds up for a tuple, in its order.
pub fn walk([d, a, b, d1, a1, b1]: [u32; 6], w: u32, p: u32, p1: u32) -> Vec<u32> {
    let [a, mut b, a1, mut b1, w, p, p1] = [a, b, a1, b1, w, p, p1].map(u64::from);
    let mut places = vec![];
    for _ in 0..d {
        places.push(b as u32);
        b = (b + a) % w;
    }
    for _ in 0..d1 {
        while b1 >= p {
            b1 = (b1 + a1) % p1;
        }
        places.push((w + b1) as u32);
        b1 = (b1 + a1) % p1;
    }
    places
}
