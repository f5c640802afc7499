//! What the tests share, those of bindings/rust_oracle too. Each takes a part of it.
#![allow(dead_code)]
use spoonripple::blocks::{Arrivals, Room, Stores, encode, solve};
use spoonripple::tuples::Tuple;
use spoonripple::{Block, Row, Tables, Verdict};
use std::collections::BTreeMap;

/// A small generator (xorshift64*), so that a seed gives the same cases on every machine.
pub struct Random(u64);

impl Random {
    pub fn new(seed: u64) -> Random {
        Random(seed.wrapping_mul(0x9E37_79B9_7F4A_7C15) | 1)
    }

    pub fn below(&mut self, n: usize) -> usize {
        self.0 ^= self.0 >> 12;
        self.0 ^= self.0 << 25;
        self.0 ^= self.0 >> 27;
        ((self.0.wrapping_mul(0x2545_F491_4F6C_DD1D) >> 16) % n as u64) as usize
    }

    pub fn bytes(&mut self, n: usize) -> Vec<u8> {
        (0..n).map(|_| self.below(256) as u8).collect()
    }

    /// The same octets but for one, which is another.
    pub fn damaged(&mut self, symbol: &[u8]) -> Vec<u8> {
        let mut symbol = symbol.to_vec();
        let at = self.below(symbol.len());
        symbol[at] ^= 1 + self.below(255) as u8;
        symbol
    }
}

/// a · b as RFC 6330 has it, without tables: copies of a, doubled, for the bits of b.
pub fn product(a: u8, b: u8) -> u8 {
    let double = |x: u8| (x << 1) ^ if x >= 128 { 29 } else { 0 };
    let copies = std::iter::successors(Some(a), |x| Some(double(*x)));
    copies.zip(0..8).filter(|(_, bit)| b >> bit & 1 == 1).fold(0, |sum, (copy, _)| sum ^ copy)
}

/// The part of the first rule that a row breaks, 0 where it keeps all: document 01's rules in plain Rust. Where L, P, B, P1 are given they have to follow.
#[rustfmt::skip]
pub fn part_due(five: [u32; 5], derived: Option<[u32; 4]>) -> u32 {
    let prime = |x: i64| x > 1 && (2..).take_while(|d| d * d <= x).all(|d| x % d != 0);
    let [k, _, s, h, w] = five.map(i64::from);
    let (l, p, b) = (k + s + h, k + s + h - w, w - s);
    if five.iter().any(|x| *x > 65535) { return 1; }
    if !(1..=56403).contains(&k) { return 2; }
    if s < 3 || s % 2 == 0 { return 3; }
    if !(2..=255).contains(&h) { return 4; }
    if !prime(w) { return 5; }
    if b < 1 { return 6; }
    if p < 3 { return 7; }
    if (b + s - 1) / s >= s { return 8; }
    if l > 65535 { return 9; }
    let p1 = (p..).find(|x| prime(*x)).unwrap();
    if derived.is_some_and(|numbers| numbers.map(i64::from) != [l, p, b, p1]) { 10 } else { 0 }
}

/// The places of a tuple's walk in plain Rust: d steps of a among the W LT symbols, and of the steps of a1 modulo P1 the first d1 that end below P.
pub fn walk(row: Row, tuple: Tuple) -> Vec<u32> {
    let ([_, _, _, _, w, _, p, _, p1], Tuple { d, a, b, d1, a1, b1 }) = (row.numbers(), tuple);
    let lt = (0..d).map(|i| (b + i * a) % w);
    let pi = (0..p1).map(|i| (b1 + i * a1) % p1).filter(|place| *place < p).take(d1 as usize);
    lt.chain(pi.map(|place| w + place)).collect()
}

/// Tables of which every random number ends in twenty ones: each degree is the largest that W allows, and each draw of d1 is a 3. The upper 12 bits are as published.
pub fn long_walks() -> Vec<u32> {
    Tables::published().numbers().iter().enumerate().map(|(at, number)| number >> 20 << 20 | if at < 256 { 0xF_FFFF } else { 0 }).collect()
}

/// An ESI and its symbol.
pub type Packet = (u32, Vec<u8>);

/// What one call of the solver says, with stores of its own.
pub struct Fresh {
    pub verdict: Verdict,
    /// The out store.
    pub set: Vec<u8>,
    /// The source block, if it is solved.
    pub source: Option<Vec<u8>>,
}

pub fn fresh(k: u32, t: u16, packets: &[Packet]) -> Fresh {
    let (row, tables) = (Row::published(k).unwrap(), Tables::published());
    let (esis, symbols): (Vec<u32>, Vec<&[u8]>) = packets.iter().map(|(esi, symbol)| (*esi, &symbol[..])).unzip();
    let arrivals = Arrivals { count: k, t, esis: &esis, symbols: &symbols.concat() };
    let room = Room::of(row, arrivals);
    let [mut rows, mut values, mut set] = [room.rows, room.values, room.out].map(|n| vec![0; n]);
    let verdict = solve(row, tables, arrivals, Stores { rows: &mut rows, values: &mut values, out: &mut set }).unwrap();
    let source = (verdict == Verdict::Solved).then(|| (0..k).flat_map(|esi| encoded(k, t, esi, &set)).collect());
    Fresh { verdict, set, source }
}

/// The symbol of an ESI.
pub fn encoded(k: u32, t: u16, esi: u32, set: &[u8]) -> Vec<u8> {
    let mut symbol = vec![0; t.into()];
    encode(Row::published(k).unwrap(), Tables::published(), k, t, esi, set, &mut symbol).unwrap();
    symbol
}

/// A sender that is no other crate: source symbols of any octets, and the encodings of the set that they make.
pub struct Sender {
    pub k: u32,
    pub t: u16,
    pub data: Vec<u8>,
    set: Vec<u8>,
}

impl Sender {
    pub fn new(random: &mut Random, k: u32, t: u16) -> Sender {
        let data = random.bytes(k as usize * usize::from(t));
        let packets: Vec<Packet> = (0..).zip(data.chunks_exact(t.into()).map(<[u8]>::to_vec)).collect();
        let made = fresh(k, t, &packets);
        assert_eq!(made.source.as_ref(), Some(&data));
        Sender { k, t, data, set: made.set }
    }

    pub fn packet(&self, esi: u32) -> Packet {
        (esi, encoded(self.k, self.t, esi, &self.set))
    }

    pub fn packets(&self, esis: impl IntoIterator<Item = u32>) -> Vec<Packet> {
        esis.into_iter().map(|esi| self.packet(esi)).collect()
    }
}

pub fn receiver(k: u32, t: u16) -> Block<'static> {
    Block::new(Row::published(k).unwrap(), Tables::published(), k, t).unwrap()
}

pub fn take_all(block: &mut Block, packets: &[Packet]) {
    for (esi, symbol) in packets {
        block.take(*esi, symbol).unwrap();
    }
}

/// What a block knew before a packet and after it, and how often.
pub type Seen = BTreeMap<[&'static str; 2], u32>;

fn word(verdict: Option<Verdict>) -> &'static str {
    match verdict {
        None => "not asked",
        Some(Verdict::Solved) => "solved",
        Some(Verdict::Contradiction) => "contradiction",
        Some(Verdict::Open { .. }) => "open",
    }
}

/// A block hears packets of `sender`, in any order, some twice, some damaged, and is asked now and then. Whatever it knows after each packet is what a fresh
/// call over all of them says.
pub fn listen(random: &mut Random, k: u32, t: u16, sender: impl Fn(u32) -> Packet, seen: &mut Seen) {
    let (mut block, mut came) = (receiver(k, t), Vec::<Packet>::new());
    // Nothing is damaged, or one packet in so many; it is asked after one in so many.
    let (damage, asked) = ([usize::MAX, 40, 8][random.below(3)], [1, 3, 9][random.below(3)]);
    for _ in 0..k as usize + 3 + random.below(k as usize + 12) {
        let mut packet = match random.below(6) {
            0 if !came.is_empty() => came[random.below(came.len())].clone(),
            _ => sender(random.below(2 * k as usize + 9) as u32),
        };
        if random.below(damage) == 0 {
            packet.1 = random.damaged(&packet.1);
        }
        let before = block.verdict();
        block.take(packet.0, &packet.1).unwrap();
        came.push(packet);
        let Fresh { verdict, source, .. } = fresh(k, t, &came);
        if random.below(asked) == 0 {
            assert_eq!(block.solve(), verdict, "{k} {t} {came:?}");
        }
        assert!(block.verdict().is_none_or(|known| known == verdict), "{:?} for {verdict:?}: {k} {t} {came:?}", block.verdict());
        assert_eq!(block.source(), block.verdict().and(source.as_deref()), "{k} {t} {came:?}");
        *seen.entry([word(before), word(block.verdict())]).or_default() += 1;
    }
    // Nothing that came is missing from what it keeps, and nothing is there twice.
    let kept: Vec<Packet> = block.arrivals().esis.iter().copied().zip(block.arrivals().symbols.chunks_exact(t.into()).map(<[u8]>::to_vec)).collect();
    let mut first = Vec::new();
    came.into_iter().for_each(|packet| {
        if !first.contains(&packet) {
            first.push(packet)
        }
    });
    assert_eq!(kept, first);
}

/// That every way from one state to another was gone at least so often, and none that there is not.
pub fn all_ways(seen: &Seen, least: u32) {
    let ways = [
        ["solved", "solved"],
        ["solved", "contradiction"],
        ["contradiction", "contradiction"],
        ["open", "solved"],
        ["open", "contradiction"],
        ["open", "open"],
        ["open", "not asked"],
        ["not asked", "solved"],
        ["not asked", "contradiction"],
        ["not asked", "open"],
        ["not asked", "not asked"],
    ];
    assert!(seen.keys().all(|way| ways.contains(way)) && ways.iter().all(|way| seen.get(way).is_some_and(|n| *n >= least)), "{seen:?}");
}
